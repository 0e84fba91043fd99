//! What the crate's readers answer. Reads lines `KIND HEX` (more words behind these are let be), answers each with one line:
//!
//!     ok CONSUMED WRITTEN WHO|PLACE SIZE WORD VALUE|...
//!     err WHO NAME OFFSET VALUE HAD
//!
//! WRITTEN is what `marshal` writes again, in hex. Of a record, WHO has a letter for each field (fields.rs); of a refusal it is `text` or
//! `rebuilt` (words.rs), VALUE is what our refusal carries, and HAD is `available` of what ends too early, else 0.
//!
//! The answer of `unmarshal` is also held to the crate's other calls. A word behind `!`, ahead of the fields, says which disagreed: `len`
//! (`TpmSized::len` is not the bytes consumed), `size` (longer than `TpmSized::SIZE`), `marshal` (refused, or other bytes than were read), `again`
//! (these do not read back as an equal record), `view` (the borrowed view, or one of the list's, accepts otherwise, ends elsewhere, or has another
//! refusal).

mod fields;
mod words;

use fields::{Fields, Lines};
use std::io::{BufRead, BufWriter, Write};
use tpm2_protocol::{
    TpmError, TpmField, TpmMarshal, TpmResult, TpmSized, TpmUnmarshal, TpmWriter,
    basic::{TpmList, Tpml},
    data::*,
};
use words::{Parts, hex, number_of, parts, refusal, unhex};

/// How many bytes the borrowed view takes, for types that have one.
type View = Option<fn(&[u8]) -> TpmResult<usize>>;

/// A refusal by its number, its value and what it had: an offset is moved in some calls and not in others, and in a view the text may refuse what
/// a rebuilt module refuses in `unmarshal`.
fn essence(error: TpmError) -> (u64, u64, usize) {
    let Parts { name, value, had, .. } = parts(error);
    (number_of(&name), value, had)
}

fn view_of<T: for<'a> TpmField<'a>>(bytes: &[u8]) -> TpmResult<usize> {
    T::cast_prefix_field(bytes).map(|(_, tail)| bytes.len() - tail.len())
}

/// The list's capacity is known to its type alone.
fn views_agree<const N: usize>(_: &TpmList<TpmsPcrSelection, N>, bytes: &[u8], field: &TpmResult<usize>) -> bool {
    let prefix = Tpml::<N>::cast_prefix_items::<TpmsPcrSelectionWire>(bytes).map(|(list, _)| list.len());
    let whole = Tpml::<N>::cast_items::<TpmsPcrSelectionWire>(bytes).map(Tpml::len);
    let wanted = match *field {
        Ok(n) if n < bytes.len() => Err(TpmError::TrailingData { offset: n, actual: bytes.len() - n }),
        other => other,
    };
    prefix == *field && whole == wanted
}

/// The list has two typed views of its own besides its field view; if one of them answers otherwise, no length is right.
fn view_of_list(bytes: &[u8]) -> TpmResult<usize> {
    let field = view_of::<TpmlPcrSelection>(bytes);
    if views_agree(&TpmlPcrSelection::new(), bytes, &field) { field } else { Ok(usize::MAX) }
}

/// The record's own view is not in the text, but that of its union is.
fn view_of_capability(bytes: &[u8]) -> TpmResult<usize> {
    let (capability, rest) = TpmCap::cast_prefix_field(bytes)?;
    let (_, tail) = TpmuCapabilities::cast_tagged(capability, rest)?;
    Ok(bytes.len() - tail.len())
}

fn views_note<T>(read: &TpmResult<(T, &[u8])>, bytes: &[u8], view: View) -> &'static str {
    let Some(view) = view else { return "" };
    let same = match (read, view(bytes)) {
        (Ok((_, tail)), Ok(n)) => n == bytes.len() - tail.len(),
        (Err(e), Err(f)) => essence(*e) == essence(f),
        _ => false,
    };
    if same { "" } else { " !view" }
}

fn answer<T: TpmUnmarshal + TpmMarshal + TpmSized + PartialEq + Fields>(bytes: &[u8], view: View) -> String {
    let read = T::unmarshal(bytes);
    let mut notes = views_note(&read, bytes, view).to_string();
    let (record, tail) = match read {
        Ok(pair) => pair,
        Err(e) => return format!("err {}{notes}", refusal(e)),
    };
    let consumed = bytes.len() - tail.len();
    if record.len() != consumed {
        notes.push_str(" !len");
    }
    if consumed > T::SIZE {
        notes.push_str(" !size");
    }
    let mut room = [0xa5; 4096];
    let mut writer = TpmWriter::new(&mut room);
    let done = record.marshal(&mut writer);
    let written = writer.as_bytes();
    if done.is_err() || *written != bytes[..consumed] {
        notes.push_str(" !marshal");
    }
    if !T::unmarshal(written).is_ok_and(|(again, rest)| again == record && rest.is_empty()) {
        notes.push_str(" !again");
    }
    let mut lines = Lines::default();
    record.list(&mut lines);
    format!("ok {consumed} {} {}{notes}{}", hex(written), lines.who, lines.text)
}

fn answer_kind(kind: u32, bytes: &[u8]) -> String {
    match kind {
        1 => answer::<TpmtHa>(bytes, Some(view_of::<TpmtHa>)),
        2 => answer::<TpmtSymDef>(bytes, Some(view_of::<TpmtSymDef>)),
        3 => answer::<TpmtKdfScheme>(bytes, Some(view_of::<TpmtKdfScheme>)),
        4 => answer::<TpmtKeyedhashScheme>(bytes, Some(view_of::<TpmtKeyedhashScheme>)),
        5 => answer::<TpmtSigScheme>(bytes, Some(view_of::<TpmtSigScheme>)),
        6 => answer::<TpmtRsaScheme>(bytes, Some(view_of::<TpmtRsaScheme>)),
        7 => answer::<TpmtEccScheme>(bytes, Some(view_of::<TpmtEccScheme>)),
        8 => answer::<TpmtRsaDecrypt>(bytes, Some(view_of::<TpmtRsaDecrypt>)),
        9 => answer::<TpmtPublicParms>(bytes, Some(view_of::<TpmtPublicParms>)),
        10 => answer::<TpmtSignature>(bytes, Some(view_of::<TpmtSignature>)),
        11 => answer::<TpmtPublic>(bytes, Some(view_of::<TpmtPublic>)),
        12 => answer::<TpmtSensitive>(bytes, None),
        13 => answer::<TpmsAttest>(bytes, None),
        14 => answer::<TpmlPcrSelection>(bytes, Some(view_of_list)),
        15 => answer::<TpmsCapabilityData>(bytes, Some(view_of_capability)),
        16 => answer::<TpmtNvPublic2>(bytes, Some(view_of::<TpmtNvPublic2>)),
        17 => answer::<TpmtTkCreation>(bytes, Some(view_of::<TpmtTkCreation>)),
        18 => answer::<TpmtTkVerified>(bytes, Some(view_of::<TpmtTkVerified>)),
        19 => answer::<TpmtTkHashcheck>(bytes, Some(view_of::<TpmtTkHashcheck>)),
        20 => answer::<TpmtTkAuth>(bytes, Some(view_of::<TpmtTkAuth>)),
        _ => panic!("kind {kind}"),
    }
}

fn main() {
    let mut output = BufWriter::with_capacity(1 << 20, std::io::stdout().lock());
    for line in std::io::stdin().lock().lines() {
        let line = line.expect("a line of text");
        let mut words = line.split(' ');
        let kind = words.next().and_then(|word| word.parse().ok()).expect("a kind");
        let bytes = words.next().and_then(unhex).expect("bytes in hex");
        writeln!(output, "{}", answer_kind(kind, &bytes)).expect("output");
    }
}
