//! Reads the cases that the program `calls` reads, in the same frame, and answers each of them by the crate's calls in one line:
//!
//!     no such record: WHY         the crate has no record like this: its kind, its selector, or a source that is not the records
//!     refused first|second WHO NAME OFFSET VALUE HAD      that record of the case is not read; WHO is `text`, `rebuilt`, or `caller` for a tail;
//!                                 HAD is `available` of what ends too early, else 0
//!     another arm                 kinds 21 to 27 find another arm than the one that they are for
//!     mM.. WHO WRITTEN [tail HEX field WHO HEX item HEX]
//!
//! M is 1 or 0 for each union, what `matches_tag` says. WHO is `rebuilt` if a rebuilt structure is in the record, and else `text`; of a byte
//! field, if it is inside of one. WRITTEN is `again HEX`, or `err WHO NAME OFFSET VALUE LEFT` with who refused and what the refused writer
//! left behind. `-` stands for no bytes, `none` for no such field or item. A word behind `!` says that the crate
//! is not at one with itself: `len` (`TpmSized::len` is not what was written) or `behind` (the output was changed behind that).

mod fields;
mod words;

use fields::{Fields, Lines, REBUILT};
use std::io::{BufWriter, Read, Write};
use tpm2_protocol::{TpmError, TpmMarshal, TpmSized, TpmUnmarshal, TpmWriter, data::*};
use words::{Parts, hex, parts, refusal};

const UNTOUCHED: u8 = 0xa5;
const HEAD: usize = 14;
const NO_SELECTOR: &str = "no such record: selector";

struct Case<'a> {
    kind: u8,
    selector: u16,
    /// Of a selector with 4 bytes the upper two: they stand where other cases say where their second record begins.
    upper: u16,
    room: usize,
    index: Option<usize>,
    first: &'a [u8],
    second: &'a [u8],
    has_own_source: bool,
}

fn number(bytes: &[u8], at: usize) -> usize {
    usize::from(u16::from_be_bytes([bytes[at], bytes[at + 1]]))
}

impl<'a> Case<'a> {
    fn new(bytes: &'a [u8]) -> Self {
        let records = &bytes[HEAD..HEAD + number(bytes, 12)];
        let from = |at| records.get(number(bytes, at)..).unwrap_or(&[]);
        let index = number(bytes, 5);
        Self {
            kind: bytes[0],
            selector: number(bytes, 1) as u16,
            upper: number(bytes, 9) as u16,
            room: number(bytes, 3),
            index: (index != 0xffff).then_some(index),
            first: from(7),
            second: from(9),
            has_own_source: bytes[11] != 0,
        }
    }

    fn first<T: TpmUnmarshal>(&self) -> Result<(T, &'a [u8]), String> {
        T::unmarshal(self.first).map_err(|e| format!("refused first {}", refusal(e)))
    }

    /// Nothing may follow it. The crate hands back what follows, and its callers look.
    fn second<T: TpmUnmarshal>(&self) -> Result<T, String> {
        let (record, tail) = T::unmarshal(self.second).map_err(|e| format!("refused second {}", refusal(e)))?;
        let end = self.second.len() - tail.len();
        if tail.is_empty() { Ok(record) } else { Err(format!("refused second caller TrailingData {end} {} 0", tail.len())) }
    }

    fn selector<C: TryFrom<u16>>(&self) -> Result<C, String> {
        C::try_from(self.selector).map_err(|_| NO_SELECTOR.to_string())
    }

    fn selector_of_4<C: TryFrom<u32>>(&self) -> Result<C, String> {
        C::try_from(u32::from(self.upper) << 16 | u32::from(self.selector)).map_err(|_| NO_SELECTOR.to_string())
    }
}

fn said(error: TpmError) -> String {
    let Parts { who, name, offset, value, .. } = parts(error);
    format!("{who} {name} {offset} {value}")
}

fn who(is_rebuilt: bool) -> &'static str {
    if is_rebuilt { "rebuilt" } else { "text" }
}

fn lines_of(record: &impl Fields) -> Lines {
    let mut lines = Lines::default();
    record.list(&mut lines);
    lines
}

fn or_dash(bytes: &[u8]) -> String {
    if bytes.is_empty() { "-".to_string() } else { hex(bytes) }
}

fn written<T: TpmMarshal + TpmSized + Fields>(record: &T, room: usize) -> String {
    let mut space = vec![UNTOUCHED; room];
    let mut writer = TpmWriter::new(&mut space);
    let answer = record.marshal(&mut writer);
    let size = writer.len();
    let mut text = match answer {
        Ok(()) => format!("again {}", hex(writer.as_bytes())),
        Err(e) => format!("err {} {}", said(e), or_dash(writer.as_bytes())),
    };
    if answer.is_ok() && record.len() != size {
        text.push_str(" !len");
    }
    if space[size..].iter().any(|byte| *byte != UNTOUCHED) {
        text.push_str(" !behind");
    }
    text
}

fn by_index(record: &impl Fields, index: usize, tail: &[u8]) -> String {
    let lines = lines_of(record);
    let none = || "none".to_string();
    let field = lines.byte_fields.get(index).map(|(by, bytes)| format!("{} {}", who(*by == REBUILT), or_dash(bytes)));
    let item = lines.items.get(index).map(|bytes| or_dash(bytes));
    format!(" tail {} field {} item {}", or_dash(tail), field.unwrap_or_else(none), item.unwrap_or_else(none))
}

fn told<T: TpmMarshal + TpmSized + Fields>(case: &Case, matches: &[bool], record: &T, tail: &[u8]) -> Result<String, String> {
    if case.has_own_source {
        return Err("no such record: source".to_string());
    }
    let flags: String = matches.iter().map(|yes| if *yes { '1' } else { '0' }).collect();
    let asked = case.index.map_or_else(String::new, |index| by_index(record, index, tail));
    let by = who(lines_of(record).who.contains(REBUILT));
    Ok(format!("m{flags} {by} {}{asked}", written(record, case.room)))
}

macro_rules! relabelled {
    ($case:expr, $ty:ty, $tag:ident, $held:ident) => {{
        let (mut record, tail) = $case.first::<$ty>()?;
        record.$tag = $case.selector()?;
        told($case, &[record.$held.matches_tag(record.$tag)], &record, tail)
    }};
    // With the last union of the second record.
    ($case:expr, $ty:ty, $tag:ident, $held:ident, $other:ident) => {{
        let (mut record, tail) = $case.first::<$ty>()?;
        record.$other = $case.second::<$ty>()?.$other;
        record.$tag = $case.selector()?;
        let matches = [record.$held.matches_tag(record.$tag), record.$other.matches_tag(record.$tag)];
        told($case, &matches, &record, tail)
    }};
}

/// A selector inside an arm of the parameters.
macro_rules! inside {
    ($case:expr, $arm:ident, $part:ident, $tag:ident, [$($held:ident),*]) => {{
        let (mut record, tail) = $case.first::<TpmtPublicParms>()?;
        let TpmuPublicParms::$arm(held) = &mut record.parameters else { return Err("another arm".to_string()) };
        held.$part.$tag = $case.selector()?;
        let matches = [$(held.$part.$held.matches_tag(held.$part.$tag)),*];
        told($case, &matches, &record, tail)
    }};
}

fn hmac_inside(case: &Case) -> Result<String, String> {
    let (mut record, tail) = case.first::<TpmtSignature>()?;
    let TpmuSignature::Hmac(held) = &mut record.signature else { return Err("another arm".to_string()) };
    held.hash_alg = case.selector()?;
    let matches = [held.digest.matches_tag(held.hash_alg)];
    told(case, &matches, &record, tail)
}

fn capability(case: &Case) -> Result<String, String> {
    let (mut record, tail) = case.first::<TpmsCapabilityData>()?;
    record.capability = case.selector_of_4()?;
    told(case, &[record.data.matches_tag(record.capability)], &record, tail)
}

fn nv_public2(case: &Case) -> Result<String, String> {
    let (mut record, tail) = case.first::<TpmtNvPublic2>()?;
    let code = u8::try_from(case.selector).ok().and_then(|code| TpmHt::try_from(code).ok());
    record.handle_type = code.ok_or(NO_SELECTOR.to_string())?;
    told(case, &[record.public_area.matches_tag(record.handle_type)], &record, tail)
}

macro_rules! with_tag {
    ($case:expr, $ty:ty) => {{
        let (mut record, tail) = $case.first::<$ty>()?;
        record.tag = $case.selector::<TpmSt>()?.into();
        told($case, &[], &record, tail)
    }};
}

macro_rules! with_hierarchy {
    ($case:expr, $ty:ty) => {{
        let (mut record, tail) = $case.first::<$ty>()?;
        record.hierarchy = $case.selector_of_4()?;
        told($case, &[], &record, tail)
    }};
}

/// Kinds 28 to 30 and 35 to 39 change what an owned record of the crate cannot have otherwise; it can only be read.
fn read_alone<T: TpmUnmarshal>(case: &Case) -> Result<String, String> {
    case.first::<T>()?;
    Err("no such record: kind".to_string())
}

fn answer(case: &Case) -> Result<String, String> {
    match case.kind {
        1 => relabelled!(case, TpmtHa, hash_alg, digest),
        2 => relabelled!(case, TpmtSymDef, algorithm, key_bits, mode),
        3 => relabelled!(case, TpmtKdfScheme, scheme, details),
        4 => relabelled!(case, TpmtKeyedhashScheme, scheme, details),
        5 => relabelled!(case, TpmtSigScheme, scheme, details),
        6 => relabelled!(case, TpmtRsaScheme, scheme, details),
        7 => relabelled!(case, TpmtEccScheme, scheme, details),
        8 => relabelled!(case, TpmtRsaDecrypt, scheme, details),
        9 => relabelled!(case, TpmtPublicParms, object_type, parameters),
        10 => relabelled!(case, TpmtSignature, sig_alg, signature),
        11 => relabelled!(case, TpmtPublic, object_type, parameters, unique),
        12 => relabelled!(case, TpmtSensitive, sensitive_type, sensitive),
        13 => relabelled!(case, TpmsAttest, attest_type, attested),
        14 => {
            let (record, tail) = case.first::<TpmlPcrSelection>()?;
            told(case, &[], &record, tail)
        }
        15 => capability(case),
        16 => nv_public2(case),
        17 => with_tag!(case, TpmtTkCreation),
        18 => with_tag!(case, TpmtTkVerified),
        19 => with_tag!(case, TpmtTkHashcheck),
        20 => with_tag!(case, TpmtTkAuth),
        21 => hmac_inside(case),
        22 => inside!(case, KeyedHash, scheme, scheme, [details]),
        23 => inside!(case, SymCipher, sym, algorithm, [key_bits, mode]),
        24 => inside!(case, Rsa, symmetric, algorithm, [key_bits, mode]),
        25 => inside!(case, Rsa, scheme, scheme, [details]),
        26 => inside!(case, Ecc, scheme, scheme, [details]),
        27 => inside!(case, Ecc, kdf, scheme, [details]),
        28 => read_alone::<TpmsAttest>(case),
        29 => read_alone::<TpmtSensitive>(case),
        30 => read_alone::<TpmsCapabilityData>(case),
        31 => with_hierarchy!(case, TpmtTkCreation),
        32 => with_hierarchy!(case, TpmtTkVerified),
        33 => with_hierarchy!(case, TpmtTkHashcheck),
        34 => with_hierarchy!(case, TpmtTkAuth),
        35 => read_alone::<TpmtNvPublic2>(case),
        36 => read_alone::<TpmtTkCreation>(case),
        37 => read_alone::<TpmtTkVerified>(case),
        38 => read_alone::<TpmtTkHashcheck>(case),
        39 => read_alone::<TpmtTkAuth>(case),
        _ => Err("no such record: kind".to_string()),
    }
}

fn main() {
    let mut input = Vec::new();
    std::io::stdin().lock().read_to_end(&mut input).expect("input");
    let mut output = BufWriter::new(std::io::stdout().lock());
    let mut at = 0;
    while at < input.len() {
        let end = at + 2 + number(&input, at);
        let case = Case::new(&input[at + 2..end]);
        let (Ok(text) | Err(text)) = answer(&case);
        writeln!(output, "{text}").expect("output");
        at = end;
    }
}
