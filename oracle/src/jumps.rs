//! The kind and the maker of each listed jump, read off what the Rust leaves.
//!
//! The Rust keeps neither. The kind is what stands ahead of the field in the
//! finished page; the maker is the slot in whose code the field lies, by the
//! finished locations. That slot has to be the one that was being translated
//! when the Rust listed the jump: of two ways to see the same, one checks the
//! other.

use crate::observe::{Seen, SeenJump};
use crate::stream::Further;

/// The kinds.
pub const CONDITIONAL: u32 = 1;
pub const PLAIN: u32 = 2;
pub const LOCAL_CALL: u32 = 3;

/// Both tables of a finished page.
pub fn further(code: &[u8], seen: &Seen) -> Result<Further, String> {
    let kind = |jump: &SeenJump| kind_of(code, jump.field);
    let maker = |jump: &SeenJump| maker_of(&seen.locations, jump);
    Ok(Further {
        kinds: seen.jumps.iter().map(kind).collect::<Result<_, _>>()?,
        makers: seen.jumps.iter().map(maker).collect::<Result<_, _>>()?,
    })
}

/// jcc has two bytes ahead of its field, jmp and call have one.
fn kind_of(code: &[u8], field: usize) -> Result<u32, String> {
    match code[..field] {
        [.., 0x0f, 0x80..=0x8f] => Ok(CONDITIONAL),
        [.., 0xe9] => Ok(PLAIN),
        [.., 0xe8] => Ok(LOCAL_CALL),
        _ => Err(format!("there is no jump ahead of the field at byte {field}")),
    }
}

/// The maker's number: n, which is one less than there are locations, where no
/// slot made the jump, as the prologue's.
fn maker_of(locations: &[usize], jump: &SeenJump) -> Result<u32, String> {
    let located = slot_around(locations, jump.field);
    if located != jump.slot {
        let (field, noted) = (jump.field, jump.slot);
        return Err(format!(
            "the jump field at byte {field} lies in the code of {}, and was noted at {}",
            in_words(located),
            in_words(noted)
        ));
    }
    Ok(located.unwrap_or(locations.len() - 1) as u32)
}

/// The slot in whose code a position lies, or none ahead of every slot's. Of
/// slots at the same location the last has the code. Location 0 is no slot's
/// beginning: second halves of wide loads have it, and the entry behind the
/// last slot.
fn slot_around(locations: &[usize], position: usize) -> Option<usize> {
    locations.iter().rposition(|location| (1..=position).contains(location))
}

fn in_words(slot: Option<usize>) -> String {
    slot.map_or("the prologue".to_string(), |slot| format!("slot {slot}"))
}

#[cfg(test)]
mod tests {
    use super::*;

    #[test]
    fn a_field_behind_anything_but_a_jump_is_a_failure() {
        for jcc in 0x80..=0x8f {
            assert_eq!(kind_of(&[0x0f, jcc, 0, 0, 0, 0], 2), Ok(CONDITIONAL));
            assert!(kind_of(&[0x0e, jcc, 0, 0, 0, 0], 2).is_err());
            assert!(kind_of(&[jcc, 0, 0, 0, 0], 1).is_err());
        }
        for (first, kind) in [(0xe9, PLAIN), (0xe8, LOCAL_CALL)] {
            assert_eq!(kind_of(&[first, 0, 0, 0, 0], 1), Ok(kind));
            // Only the byte right ahead of the field counts.
            assert!(kind_of(&[first, 0, 0, 0, 0], 2).is_err());
        }
        for other in (0..=u8::MAX).filter(|byte| ![0xe8, 0xe9].contains(byte)) {
            assert_eq!(kind_of(&[0x0f, other], 2).is_ok(), other >> 4 == 8);
        }
        let sentence = "there is no jump ahead of the field at byte 0";
        assert_eq!(kind_of(&[0xe9], 0), Err(sentence.to_string()));
    }

    #[test]
    fn a_maker_that_the_notes_contradict_is_a_failure() {
        // A slot without code, a wide load of ten bytes, and a jump.
        let locations = [34, 34, 0, 44, 0];
        let maker = |field, slot| maker_of(&locations, &SeenJump { field, target: 0, slot });
        let good =
            [(30, None, 4), (34, Some(1), 1), (43, Some(1), 1), (44, Some(3), 3), (99, Some(3), 3)];
        for (field, slot, number) in good {
            assert_eq!(maker(field, slot), Ok(number));
            for noted in [None, Some(0), Some(1), Some(2), Some(3), Some(4)] {
                assert_eq!(maker(field, noted).is_ok(), noted == slot);
            }
        }
        let sentence =
            "the jump field at byte 30 lies in the code of the prologue, and was noted at slot 2";
        assert_eq!(maker(30, Some(2)), Err(sentence.to_string()));
    }
}
