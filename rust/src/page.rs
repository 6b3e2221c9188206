//! Buffers of sufficient size, owned.

use crate::{
    translate, translate_mapped, Accepted, Flags, Helpers, Refusal, Tables, CODE_ENOUGH, SLOT,
    TABLE_ENOUGH,
};

/// A page with its tables: memory in which every program finds room, and what
/// the last accepted one left there.
///
/// It holds more than 100 KiB of buffers and allocates nothing, so it is as
/// large itself: `static`, boxed, or on a stack that has room for it. The code
/// is to be copied to a mapping of its own, which is then made executable.
pub struct Page {
    code: [u8; CODE_ENOUGH],
    locations: [u32; TABLE_ENOUGH],
    fields: [u32; TABLE_ENOUGH],
    targets: [u32; TABLE_ENOUGH],
    kinds: [u32; TABLE_ENOUGH],
    makers: [u32; TABLE_ENOUGH],
    accepted: Accepted,
    /// Entries of `locations`.
    entries: usize,
}

impl Page {
    /// A page without code.
    pub const fn new() -> Page {
        Page {
            code: [0; CODE_ENOUGH],
            locations: [0; TABLE_ENOUGH],
            fields: [0; TABLE_ENOUGH],
            targets: [0; TABLE_ENOUGH],
            kinds: [0; TABLE_ENOUGH],
            makers: [0; TABLE_ENOUGH],
            accepted: Accepted { length: 0, jumps: 0 },
            entries: 0,
        }
    }

    /// Translates a program and gives its code. Refused, the page is as it
    /// was: it has the code of the last program that was accepted.
    pub fn translate(
        &mut self,
        program: &[u8],
        flags: Flags,
        helpers: Helpers,
    ) -> Result<&[u8], Refusal> {
        let (code, tables) = self.lent();
        let accepted = translate(program, flags, helpers, code, tables)?;
        self.keep(program, accepted);
        Ok(self.code())
    }

    /// Translates a program and gives the map of its page, as
    /// [`translate_mapped`] explains it: the head of `text`, of which
    /// [`MAP_ENOUGH`](crate::MAP_ENOUGH) bytes do for every program. The code
    /// is to be copied to the address `base`. Refused, the page is as it was,
    /// and so is `text`.
    pub fn translate_mapped<'a>(
        &mut self,
        program: &[u8],
        flags: Flags,
        helpers: Helpers,
        base: u64,
        text: &'a mut [u8],
    ) -> Result<&'a [u8], Refusal> {
        let (code, tables) = self.lent();
        let mapped = translate_mapped(program, flags, helpers, code, tables, base, text)?;
        self.keep(program, mapped.accepted);
        Ok(&text[..mapped.text])
    }

    /// All that a translation fills.
    fn lent(&mut self) -> (&mut [u8], Tables<'_>) {
        let tables = Tables {
            locations: &mut self.locations,
            fields: &mut self.fields,
            targets: &mut self.targets,
            kinds: &mut self.kinds,
            makers: &mut self.makers,
        };
        (&mut self.code, tables)
    }

    fn keep(&mut self, program: &[u8], accepted: Accepted) {
        self.accepted = accepted;
        self.entries = program.len() / SLOT + 1;
    }

    /// The code.
    pub fn code(&self) -> &[u8] {
        &self.code[..self.accepted.length]
    }

    /// The position of each slot's code, as [`Tables::locations`] explains.
    pub fn locations(&self) -> &[u32] {
        &self.locations[..self.entries]
    }

    /// The position of each jump's field, the prologue's first.
    pub fn fields(&self) -> &[u32] {
        &self.fields[..self.accepted.jumps]
    }

    /// The slot that each jump goes to, or [`EXIT_TARGET`](crate::EXIT_TARGET).
    pub fn targets(&self) -> &[u32] {
        &self.targets[..self.accepted.jumps]
    }

    /// What each jump is: [`JumpKind::of`](crate::JumpKind::of) reads an entry.
    pub fn kinds(&self) -> &[u32] {
        &self.kinds[..self.accepted.jumps]
    }

    /// The slot whose code holds each jump, as [`Tables::makers`] explains.
    pub fn makers(&self) -> &[u32] {
        &self.makers[..self.accepted.jumps]
    }
}

impl Default for Page {
    fn default() -> Page {
        Page::new()
    }
}
