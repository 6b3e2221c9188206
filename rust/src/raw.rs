//! The static libraries' functions as C sees them. `include/ndakoleem.h`
//! explains each argument; `crate::translate`, `crate::translate_mapped` and
//! `crate::run_packet` call them safely.

/// The four numbers of an answer, laid out as C's `struct ndakoleem_translation`.
#[repr(C)]
#[derive(Clone, Copy, Debug, PartialEq, Eq)]
pub struct Translation {
    pub number: u8,
    pub slot: usize,
    pub length: usize,
    pub jumps: usize,
}

/// The five of an answer with a map, laid out as C's `struct ndakoleem_mapped`.
#[repr(C)]
#[derive(Clone, Copy, Debug, PartialEq, Eq)]
pub struct Mapped {
    pub number: u8,
    pub slot: usize,
    pub length: usize,
    pub jumps: usize,
    pub text: usize,
}

/// The four of a packet's run, laid out as C's `struct ndakoleem_ran`.
#[repr(C)]
#[derive(Clone, Copy, Debug, PartialEq, Eq)]
pub struct Ran {
    pub number: u8,
    pub slot: usize,
    pub ended: u8,
    pub r0: u64,
}

/// Bytes in which every sentence finds room.
pub const SENTENCE_ENOUGH: usize = 200;

#[link(name = "ndakoleem", kind = "static")]
extern "C" {
    /// Every slice is a pointer and its length in elements; none of the memory
    /// may overlap what is lent to be changed.
    pub fn ndakoleem_translate_4(
        program: *const u8,
        program_length: usize,
        use_mbuff: bool,
        update_data_ptr: bool,
        standard: bool,
        compact: bool,
        ids: *const u32,
        ids_length: usize,
        addresses: *const u64,
        addresses_length: usize,
        code: *mut u8,
        code_length: usize,
        locations: *mut u32,
        locations_length: usize,
        fields: *mut u32,
        fields_length: usize,
        targets: *mut u32,
        targets_length: usize,
        kinds: *mut u32,
        kinds_length: usize,
        makers: *mut u32,
        makers_length: usize,
    ) -> Translation;

    /// A refusal in words; the answer is the sentence's length.
    pub fn ndakoleem_sentence(
        program: *const u8,
        program_length: usize,
        number: u8,
        slot: usize,
        out: *mut u8,
        out_length: usize,
    ) -> usize;
}

// A library of its own: a loader that wants no map links nothing of it.
#[link(name = "ndakoleem_map", kind = "static")]
extern "C" {
    /// [`ndakoleem_translate_4`], with the page's map.
    pub fn ndakoleem_translate_mapped_1(
        program: *const u8,
        program_length: usize,
        use_mbuff: bool,
        update_data_ptr: bool,
        standard: bool,
        compact: bool,
        ids: *const u32,
        ids_length: usize,
        addresses: *const u64,
        addresses_length: usize,
        code: *mut u8,
        code_length: usize,
        locations: *mut u32,
        locations_length: usize,
        fields: *mut u32,
        fields_length: usize,
        targets: *mut u32,
        targets_length: usize,
        kinds: *mut u32,
        kinds_length: usize,
        makers: *mut u32,
        makers_length: usize,
        base: u64,
        text: *mut u8,
        text_length: usize,
    ) -> Mapped;
}

// So is this one, for a loader that compares nothing.
#[link(name = "ndakoleem_replay", kind = "static")]
extern "C" {
    /// A packet's run on the model; of what is lent, `copy` and `counts` are
    /// changed.
    pub fn ndakoleem_run_packet_1(
        program: *const u8,
        program_length: usize,
        ids: *const u32,
        ids_length: usize,
        addresses: *const u64,
        addresses_length: usize,
        page: usize,
        packet: *const u8,
        packet_length: usize,
        copy: *mut u8,
        copy_length: usize,
        counts: *mut u64,
        counts_length: usize,
    ) -> Ran;
}
