//! The differences that docs/DIFFERENCES.md lists, for reading. Whether an input belongs to one is decided by its bytes; both answers then have to
//! be what that section says they are.

use crate::answers::{Crates, Ours};
use crate::forms::{Form, answer, is_structure_tag};
use crate::unlike;
use crate::words::{hex, number_of};

const MAGIC: [u8; 4] = [0xff, 0x54, 0x43, 0x47];
const QUOTE: u64 = 0x8018;
const ATTESTATION_TYPES: [u64; 8] = [0x8014, 0x8015, 0x8016, 0x8017, 0x8018, 0x8019, 0x801a, 0x801c];
/// The handle types that the rebuilt `TpmHt` has besides the three of NV areas.
const OTHER_HANDLE_TYPES: [u64; 7] = [0x00, 0x02, 0x03, 0x40, 0x80, 0x81, 0x90];

/// A refusal of the crate: its name or fault, its value, and how many bytes were there where something is cut; else 0.
type Fault = (&'static str, u64, usize);

fn number(input: &[u8], at: usize, width: usize) -> Result<u64, Fault> {
    let bytes = input.get(at..at + width).ok_or(("End", width as u64, input.len().saturating_sub(at)))?;
    Ok(bytes.iter().fold(0, |value, byte| value << 8 | u64::from(*byte)))
}

fn attestation_type(kind: u32, input: &[u8]) -> Option<u64> {
    if kind != 13 || !input.starts_with(&MAGIC) {
        return None;
    }
    number(input, 4, 2).ok()
}

/// Where the arm of an attestation begins; or the first fault between its type and its arm.
fn arm_place(input: &[u8]) -> Result<usize, Fault> {
    let mut at = 6;
    for limit in [66, 66] {
        let length = number(input, at, 2)?;
        if length > limit {
            return Err(("Length", length, 0));
        }
        at += 2 + length as usize;
        if at > input.len() {
            return Err(("End", length, input.len() - (at - length as usize)));
        }
    }
    for width in [8, 4, 4] {
        number(input, at, width)?;
        at += width;
    }
    let safe = number(input, at, 1)?;
    if safe > 1 {
        return Err(("Value", safe, 0));
    }
    number(input, at + 1, 8)?;
    Ok(at + 9)
}

/// A list: how many items it takes in the crate and here, and with which numbers an item, or what follows the list, can be refused.
struct List {
    crates: u64,
    here: u64,
    numbers: &'static [u64],
}

const PCR_SELECTIONS: List = List { crates: 8, here: 16, numbers: &[1, 2, 4] };

/// The list of a capability; none of a code that has none.
fn list_of(capability: u64) -> Option<List> {
    Some(match capability {
        0 | 8 => List { crates: 64, here: 128, numbers: &[1, 2] },
        1 => List { crates: 128, here: 128, numbers: &[1] },
        2..=4 => List { crates: 256, here: 128, numbers: &[1] },
        5 => PCR_SELECTIONS,
        6 => List { crates: 64, here: 128, numbers: &[1] },
        9 => List { crates: 8, here: 16, numbers: &[1, 2, 3] },
        10 => List { crates: 8, here: 16, numbers: &[1] },
        _ => return None,
    })
}

/// What we answer to an input that the crate refuses.
enum Here {
    /// Read, or refused with one of these numbers at that place or behind it.
    From(usize, &'static [u64]),
    Refused { number: u64, place: usize, value: u64 },
}

impl Here {
    fn holds(&self, ours: &Ours) -> bool {
        match (self, ours) {
            (Self::From(..), Ours::Read { .. }) => true,
            (Self::From(first, numbers), Ours::Refused { number, place, .. }) => numbers.contains(number) && place >= first,
            (Self::Refused { number: n, place: p, value: v }, Ours::Refused { number, place, value, .. }) => (n, p, v) == (number, place, value),
            _ => false,
        }
    }
}

/// What each side has to answer.
enum Wanted {
    /// The crate refuses, by its text or by a rebuilt module.
    Refusal { crates: (&'static str, Fault), here: Here },
    /// Each side answers as a reader does that has its layout: the crate, as far as answers are compared; we to the letter.
    Each { crates: Ours, here: Ours },
}

/// A class of difference, and what is wanted for this input of it.
pub struct Listed {
    pub name: &'static str,
    wanted: Wanted,
}

impl Listed {
    fn refusal(name: &'static str, crates: (&'static str, Fault), here: Here) -> Self {
        Self { name, wanted: Wanted::Refusal { crates, here } }
    }
}

/// The list of an input, and where it begins.
fn list_in(kind: u32, input: &[u8]) -> Option<(usize, List)> {
    match kind {
        13 if attestation_type(kind, input) == Some(QUOTE) => Some((arm_place(input).ok()?, PCR_SELECTIONS)),
        14 => Some((0, PCR_SELECTIONS)),
        15 => Some((4, list_of(number(input, 0, 4).ok()?)?)),
        _ => None,
    }
}

/// What a reader answers that takes so many commands: each is a number of 4 bytes.
fn commands(input: &[u8], capability: u64, count: u64) -> Ours {
    let mut fields = format!("|0 4 code {capability}|4 4 number {count}");
    for item in 0..count as usize {
        let place = 8 + 4 * item;
        match number(input, place, 4) {
            Ok(value) => fields.push_str(&format!("|{place} 4 number {value}")),
            Err((name, value, had)) => return Ours::Refused { number: number_of(name), place, value, had: Some(had) },
        }
    }
    let consumed = 8 + 4 * count as usize;
    Ours::Read { consumed, tail: input.len() - consumed, fields, again: hex(&input[..consumed]) }
}

/// 2.1: a list that is too long for one side alone. That side refuses the count; the other goes on behind it.
fn capacity(kind: u32, input: &[u8]) -> Option<Listed> {
    let (place, list) = list_in(kind, input)?;
    let count = number(input, place, 4).ok()?;
    match (count > list.crates, count > list.here) {
        (true, false) => {
            let name = if kind == 15 { "2.1, a capability's list that is too long for the crate" } else { "2.1, a list of 9 to 16 PCR selections" };
            Some(Listed::refusal(name, ("text", ("TooManyItems", count, 0)), Here::From(place + 4, list.numbers)))
        }
        (false, true) => {
            let crates = commands(input, number(input, 0, 4).ok()?, count);
            let here = Ours::Refused { number: number_of("TooManyItems"), place, value: count, had: None };
            Some(Listed { name: "2.1, a list of 129 to 256 commands", wanted: Wanted::Each { crates, here } })
        }
        _ => None,
    }
}

/// 2.5: we refuse the type where it stands; the crate at the first field behind it that has a fault, or in the union.
fn other_type(kind: u32, input: &[u8]) -> Option<Listed> {
    let value = attestation_type(kind, input).filter(|tag| is_structure_tag(*tag) && !ATTESTATION_TYPES.contains(tag))?;
    let crates = match arm_place(input) {
        Ok(_) => ("text", ("VariantNotAvailable", value, 0)),
        Err(fault) => ("rebuilt", fault),
    };
    let here = Here::Refused { number: 2, place: 4, value };
    Some(Listed::refusal("2.5, an attestation type outside the eight", crates, here))
}

/// 2.5: we refuse the type where it stands; the crate, where it comes to the union.
fn other_handle_type(kind: u32, input: &[u8]) -> Option<Listed> {
    let value = u64::from(*input.first().filter(|_| kind == 16)?);
    let crates = ("text", ("VariantNotAvailable", value, 0));
    let here = Here::Refused { number: 2, place: 0, value };
    OTHER_HANDLE_TYPES.contains(&value).then(|| Listed::refusal("2.5, a handle type outside the three", crates, here))
}

/// Alike in what is compared. Two refusals come up in kinds 9, 11 and 17 to 20 alone, whose places are only bounded.
fn is_alike(one: &Ours, other: &Ours) -> bool {
    match (one, other) {
        (Ours::Refused { number, value, had, .. }, Ours::Refused { number: n, value: v, had: h, .. }) => (number, value, had) == (n, v, h),
        _ => one == other,
    }
}

/// 2.10: behind the hash of Xor or Ecdaa each side goes on in its own form. 2.11: so it does at the tag and the hierarchy of a ticket. Where both
/// forms come to one answer, the input is of no class.
fn forms(kind: u32, input: &[u8]) -> Option<Listed> {
    let (name, here) = answer(Form::Ours, kind, input)?;
    let (_, crates) = answer(Form::Crates, kind, input)?;
    (!is_alike(&here, &crates)).then_some(Listed { name, wanted: Wanted::Each { crates, here } })
}

/// The class that an input belongs to.
pub fn class(kind: u32, input: &[u8]) -> Option<Listed> {
    capacity(kind, input).or_else(|| other_type(kind, input)).or_else(|| other_handle_type(kind, input)).or_else(|| forms(kind, input))
}

impl Listed {
    /// Whether both sides answered as they have to.
    pub fn holds(&self, kind: u32, input: &str, ours: &Ours, crates: &Crates) -> bool {
        match &self.wanted {
            Wanted::Refusal { crates: wanted, here } => {
                here.holds(ours) && matches!(crates, Crates::Refused { who, name, value, had, .. } if (*who, (*name, *value, *had)) == *wanted)
            }
            Wanted::Each { crates: wanted, here } => ours == here && unlike(kind, input, wanted, crates).is_none(),
        }
    }
}
