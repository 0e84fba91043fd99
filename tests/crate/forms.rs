//! The cipher Xor and the scheme Ecdaa in the crate's form and in ours (docs/DIFFERENCES.md, 2.10), and tickets, of which the crate judges less
//! (2.11). An input of a kind in which they can stand, that is 2, 5 to 9, 11 and 17 to 20, is walked along docs/FORMAT.md's layout with these in the
//! one form or in the other: so its bytes alone say what each side has to answer.

use crate::answers::Ours;
use crate::words::{hex, number_of};
use std::fmt::Write;

#[derive(Clone, Copy, PartialEq)]
pub enum Form {
    /// Xor has a mode, Ecdaa no count; a ticket has any structure tag, and any permanent handle for a hierarchy.
    Crates,
    /// Xor has no mode, Ecdaa a count; a ticket has its own tag, and one of four hierarchies.
    Ours,
}

/// What has two forms, by the name that the differences have in the tables.
pub const XOR_ARM: &str = "2.10, the cipher Xor: no mode here";
pub const ECDAA_ARM: &str = "2.10, the scheme Ecdaa: a count here";
pub const TAG: &str = "2.11, a structure tag that is not the ticket's";
pub const NO_TAG: &str = "2.11, a tag that is no structure tag";
pub const HIERARCHY: &str = "2.11, a hierarchy outside the four";

const RSA: u64 = 0x01;
const HMAC: u64 = 0x05;
const KEYED_HASH: u64 = 0x08;
const XOR: u64 = 0x0a;
const NULL: u64 = 0x10;
const RSAES: u64 = 0x15;
const ECDAA: u64 = 0x1a;
const ECC: u64 = 0x23;
const SYM_CIPHER: u64 = 0x25;

fn is_algorithm(code: u64) -> bool {
    matches!(code, 0x01 | 0x03..=0x08 | 0x0a..=0x0d | 0x10 | 0x12..=0x1d | 0x20..=0x23 | 0x25..=0x2e | 0x3f..=0x44)
}

fn is_curve(code: u64) -> bool {
    matches!(code, 0x00..=0x05 | 0x10 | 0x11 | 0x20 | 0x30..=0x32 | 0x40 | 0x41)
}

/// The structure tags that the rebuilt `TpmSt` has.
pub fn is_structure_tag(code: u64) -> bool {
    matches!(code, 0xc4 | 0x8000..=0x8002 | 0x8014..=0x801a | 0x801c | 0x8021..=0x8025 | 0x8029)
}

fn is_tag_of(kind: u32, tag: u64) -> bool {
    match kind {
        17 => tag == 0x8021,
        18 => tag == 0x8022,
        19 => tag == 0x8024,
        _ => matches!(tag, 0x8023 | 0x8025),
    }
}

/// The permanent handles that the rebuilt `TpmRh` has.
fn is_permanent(code: u64) -> bool {
    matches!(code, 0x4000_0000..=0x4000_000d)
}

fn is_hierarchy(code: u64) -> bool {
    matches!(code, 0x4000_0001 | 0x4000_0007 | 0x4000_000b | 0x4000_000c)
}

/// What the fields of a record add up to; or the refusal of the first that has a fault.
type Step = Result<(), Ours>;

struct Walk<'a> {
    form: Form,
    input: &'a [u8],
    at: usize,
    /// As our listing has them.
    fields: String,
    /// The first of the two arms whose hash was read; of a ticket the first field that is not as ours has to be.
    met: Option<&'static str>,
}

impl<'a> Walk<'a> {
    fn refusal(name: &str, place: usize, value: u64) -> Ours {
        Ours::Refused { number: number_of(name), place, value, had: None }
    }

    fn field(&mut self, size: usize, word: &str) -> Result<&'a [u8], Ours> {
        let left = &self.input[self.at..];
        let bytes = left.get(..size);
        let bytes = bytes.ok_or(Ours::Refused { number: number_of("End"), place: self.at, value: size as u64, had: Some(left.len()) })?;
        write!(self.fields, "|{} {size} {word} ", self.at).expect("a string takes all");
        self.at += size;
        Ok(bytes)
    }

    fn value(&mut self, size: usize, word: &str) -> Result<u64, Ours> {
        let value = self.field(size, word)?.iter().fold(0, |value, byte| value << 8 | u64::from(*byte));
        write!(self.fields, "{value}").expect("a string takes all");
        Ok(value)
    }

    fn number(&mut self, size: usize) -> Step {
        self.value(size, "number").map(|_| ())
    }

    fn code(&mut self, is_listed: fn(u64) -> bool) -> Result<u64, Ours> {
        let place = self.at;
        let code = self.value(2, "code")?;
        if is_listed(code) { Ok(code) } else { Err(Self::refusal("Code", place, code)) }
    }

    fn algorithm(&mut self) -> Step {
        self.code(is_algorithm).map(|_| ())
    }

    fn selector(&mut self) -> Result<u64, Ours> {
        self.code(is_algorithm)
    }

    fn no_arm(&self, selector: u64) -> Step {
        Err(Self::refusal("VariantNotAvailable", self.at, selector))
    }

    fn buffer(&mut self, limit: u64) -> Step {
        let place = self.at;
        let length = self.value(2, "number")?;
        if length > limit {
            return Err(Self::refusal("Length", place, length));
        }
        let bytes = self.field(length as usize, "bytes")?;
        self.fields.push_str(if bytes.is_empty() { "-".to_string() } else { hex(bytes) }.as_str());
        Ok(())
    }

    fn cipher(&mut self) -> Step {
        match self.selector()? {
            0x06 | 0x13 | 0x26 => {
                self.number(2)?;
                self.algorithm()
            }
            XOR => {
                self.algorithm()?;
                self.met.get_or_insert(XOR_ARM);
                if self.form == Form::Crates { self.algorithm() } else { Ok(()) }
            }
            NULL => Ok(()),
            other => self.no_arm(other),
        }
    }

    fn ecdaa(&mut self) -> Step {
        self.algorithm()?;
        self.met.get_or_insert(ECDAA_ARM);
        if self.form == Form::Ours { self.number(2) } else { Ok(()) }
    }

    fn signing_scheme(&mut self) -> Step {
        match self.selector()? {
            ECDAA => self.ecdaa(),
            HMAC | 0x14 | 0x16 | 0x18 | 0x1b | 0x1c => self.algorithm(),
            NULL => Ok(()),
            other => self.no_arm(other),
        }
    }

    fn asymmetric_scheme(&mut self) -> Step {
        match self.selector()? {
            ECDAA => self.ecdaa(),
            0x14 | 0x16..=0x19 | 0x1b..=0x1d => self.algorithm(),
            RSAES | NULL => Ok(()),
            other => self.no_arm(other),
        }
    }

    fn kdf_scheme(&mut self) -> Step {
        match self.selector()? {
            0x07 | 0x20..=0x22 => self.algorithm(),
            NULL => Ok(()),
            other => self.no_arm(other),
        }
    }

    fn keyed_hash_scheme(&mut self) -> Step {
        match self.selector()? {
            HMAC => self.algorithm(),
            XOR => {
                self.algorithm()?;
                self.algorithm()
            }
            NULL => Ok(()),
            other => self.no_arm(other),
        }
    }

    fn parameters(&mut self, object: u64) -> Step {
        match object {
            KEYED_HASH => self.keyed_hash_scheme(),
            SYM_CIPHER => self.cipher(),
            RSA => {
                self.cipher()?;
                self.asymmetric_scheme()?;
                self.number(2)?;
                self.number(4)
            }
            ECC => {
                self.cipher()?;
                self.asymmetric_scheme()?;
                self.code(is_curve)?;
                self.kdf_scheme()
            }
            NULL => Ok(()),
            other => self.no_arm(other),
        }
    }

    /// Behind the parameters of the same object, so that there is an arm.
    fn unique(&mut self, object: u64) -> Step {
        match object {
            KEYED_HASH => self.buffer(64),
            SYM_CIPHER => self.buffer(32),
            RSA => self.buffer(512),
            ECC => {
                self.buffer(66)?;
                self.buffer(66)
            }
            _ => Ok(()),
        }
    }

    /// A tag is a fixed value here, and a code in the crate.
    fn tag(&mut self, kind: u32) -> Step {
        let place = self.at;
        let tag = self.value(2, "number")?;
        if is_tag_of(kind, tag) {
            return Ok(());
        }
        self.met.get_or_insert(if is_structure_tag(tag) { TAG } else { NO_TAG });
        match self.form {
            Form::Ours => Err(Self::refusal("Value", place, tag)),
            Form::Crates if is_structure_tag(tag) => Ok(()),
            Form::Crates => Err(Self::refusal("Code", place, tag)),
        }
    }

    fn hierarchy(&mut self) -> Step {
        let place = self.at;
        let code = self.value(4, "code")?;
        if is_hierarchy(code) {
            return Ok(());
        }
        self.met.get_or_insert(HIERARCHY);
        let is_taken = self.form == Form::Crates && is_permanent(code);
        if is_taken { Ok(()) } else { Err(Self::refusal("Code", place, code)) }
    }

    fn record(&mut self, kind: u32) -> Step {
        match kind {
            17..=20 => {
                self.tag(kind)?;
                self.hierarchy()?;
                self.buffer(64)
            }
            2 => self.cipher(),
            5 => self.signing_scheme(),
            6..=8 => self.asymmetric_scheme(),
            9 => {
                let object = self.selector()?;
                self.parameters(object)
            }
            _ => {
                let object = self.selector()?;
                self.algorithm()?;
                self.number(4)?;
                self.buffer(64)?;
                self.parameters(object)?;
                self.unique(object)
            }
        }
    }
}

/// Of an input that comes to what has two forms: its name, and what a reader answers that has all of it in this form. None of any other input.
pub fn answer(form: Form, kind: u32, input: &[u8]) -> Option<(&'static str, Ours)> {
    if !matches!(kind, 2 | 5..=9 | 11 | 17..=20) {
        return None;
    }
    let mut walk = Walk { form, input, at: 0, fields: String::new(), met: None };
    let read = walk.record(kind);
    let (consumed, fields) = (walk.at, walk.fields);
    let again = hex(&input[..consumed]);
    let answer = read.map_or_else(|refused| refused, |()| Ours::Read { consumed, tail: input.len() - consumed, fields, again });
    walk.met.map(|name| (name, answer))
}
