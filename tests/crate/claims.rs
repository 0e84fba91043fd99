//! What docs/DIFFERENCES.md says of the crate, tried on its text. Each claim is printed with its section, and `holds` or `FAILS`. A claim marked
//! (rebuilt) leans on more of a rebuilt module than the codes that there are, their numbers and their widths.
//!
//! Not tried, since there is nothing to try it on: what needs a 16-bit machine (2.1), and what that document calls cut.

mod words;

use std::fmt::Debug;
use tpm2_protocol::{
    TpmCast, TpmError, TpmField, TpmMarshal, TpmResult, TpmSized, TpmUnmarshal, TpmUnmarshalTagged, TpmWriter,
    basic::{TpmBuffer, TpmList, TpmUint16, TpmUint32, Tpml},
    constant::{MAX_DIGEST_SIZE, TPM_MAX_COMMAND_SIZE},
    data::*,
    frame::Fault,
};
use words::{hex, unhex};

#[derive(Default)]
struct Tally {
    text: u32,
    rebuilt: u32,
    failed: u32,
}

impl Tally {
    fn judge<T: PartialEq + Debug>(&mut self, what: &str, mark: &str, found: T, claimed: T) -> bool {
        let holds = found == claimed;
        println!("{}  {what}{mark}", if holds { "holds" } else { "FAILS" });
        if !holds {
            println!("       found   {found:?}\n       claimed {claimed:?}");
            self.failed += 1;
        }
        holds
    }
    /// Decided by the text.
    fn text<T: PartialEq + Debug>(&mut self, what: &str, found: T, claimed: T) {
        self.text += u32::from(self.judge(what, "", found, claimed));
    }
    fn rebuilt<T: PartialEq + Debug>(&mut self, what: &str, found: T, claimed: T) {
        self.rebuilt += u32::from(self.judge(what, " (rebuilt)", found, claimed));
    }
}

fn bytes(text: &str) -> Vec<u8> {
    unhex(&text.replace(' ', "")).expect("hex")
}

/// The bytes consumed and the tail.
fn read<T: TpmUnmarshal>(text: &str) -> TpmResult<(usize, String)> {
    let input = bytes(text);
    T::unmarshal(&input).map(|(_, tail)| (input.len() - tail.len(), hex(tail)))
}

fn view<T: for<'a> TpmField<'a>>(text: &str) -> TpmResult<(usize, String)> {
    let input = bytes(text);
    T::cast_prefix_field(&input).map(|(_, tail)| (input.len() - tail.len(), hex(tail)))
}

type Read = TpmResult<(usize, String)>;

fn consumed(count: usize, tail: &str) -> Read {
    Ok((count, tail.to_string()))
}

fn no_arm(offset: usize, value: u64) -> Read {
    Err(TpmError::VariantNotAvailable { offset, value })
}

fn cut(offset: usize, needed: usize, available: usize) -> Read {
    Err(TpmError::UnexpectedEnd { offset, needed, available })
}

fn too_many(limit: usize, actual: usize) -> Read {
    Err(TpmError::TooManyItems { offset: 0, limit, actual })
}

fn fault(fault: Fault, offset: usize, value: usize) -> Read {
    Err(TpmError::rebuilt(fault, offset, value))
}

/// A leaf that is cut.
fn end(offset: usize, needed: usize, available: usize) -> Read {
    Err(TpmError::end(offset, needed, available))
}

/// The four calls that walk a list's items: `unmarshal`, the field view, and the two typed views.
fn walkers(text: &str) -> [Read; 4] {
    let input = bytes(text);
    let prefix = Tpml::<8>::cast_prefix_items::<TpmsPcrSelectionWire>(&input).map(|(list, tail)| (list.len(), hex(tail)));
    let whole = Tpml::<8>::cast_items::<TpmsPcrSelectionWire>(&input).map(|list| (list.len(), String::new()));
    [read::<TpmlPcrSelection>(text), view::<TpmlPcrSelection>(text), prefix, whole]
}

/// What `items` of a view hands out that is judged by its count alone.
fn items(text: &str) -> Vec<Option<String>> {
    let input = bytes(text);
    let list = Tpml::<8>::cast(&input).expect("a count within the capacity");
    list.items::<TpmsPcrSelectionWire>().map(|item| item.map(|wire| hex(wire.as_bytes())).ok()).collect()
}

fn lists(t: &mut Tally) {
    let item = || Some("000b00".to_string());
    let nine = format!("00000009{}", "000b00".repeat(9));
    t.text("2.1 nine items: TooManyItems, limit 8, actual 9", walkers(&nine), [9; 4].map(|n| too_many(8, n)));
    t.text("2.1 00000009: the same", walkers("00000009"), [9; 4].map(|n| too_many(8, n)));
    t.text("2.1 00000011: both sides refuse for the count", walkers("00000011"), [17; 4].map(|n| too_many(8, n)));
    t.text("2.1 00000001 by Tpml::cast: accepted", Tpml::<8>::cast(&bytes("00000001")).map(Tpml::len), Ok(4));
    let five = bytes("00000000 00");
    t.text("2.1 00000000 00 by Tpml::cast: accepted", Tpml::<8>::cast(&five).map(Tpml::len), Ok(5));
    let prefix = <Tpml<8> as TpmCast>::cast_prefix(&five).map(|(list, tail)| (list.len(), tail.len()));
    t.text("2.1 00000000 00 by TpmCast::cast_prefix: 5 bytes, no tail", prefix, Ok((5, 0)));
    t.rebuilt("2.1 items of 00000002 000B00: the first, then an error", items("00000002 000b00"), vec![item(), None]);
    t.rebuilt("2.1 items of 00000001 000B00 FF: the first, and an end", items("00000001 000b00 ff"), vec![item()]);
    let eight = format!("00000008{}", "000b00".repeat(8));
    t.rebuilt("2.1 eight items: read by all calls that walk them", walkers(&eight), [28; 4].map(|n| consumed(n, "")));
    let short: [Read; 4] = std::array::from_fn(|_| end(0, 2, 0));
    t.rebuilt("2.1, 2.4 00000001: refused by all calls that walk the items, with the item's own error, not moved", walkers("00000001"), short);
    let bad: [Read; 4] = std::array::from_fn(|_| fault(Fault::Code, 0, 2));
    t.rebuilt("1 a walk ends at its first bad item: 00000003 000B00 0002", walkers("00000003 000b00 0002"), bad);
}

fn tails(t: &mut Tally) {
    let null = TpmtHa::unmarshal(&bytes("0010 00")).map(|(record, tail)| (record.digest, hex(tail)));
    t.text("2.2 kind 1, 0010 00: Null, tail 00", null, Ok((TpmuHa::Null, "00".to_string())));
    let by_unmarshal: [fn(&str) -> Read; 10] = [
        read::<TpmtHa>, read::<TpmtSymDef>, read::<TpmtKdfScheme>, read::<TpmtKeyedhashScheme>, read::<TpmtSigScheme>,
        read::<TpmtRsaScheme>, read::<TpmtEccScheme>, read::<TpmtRsaDecrypt>, read::<TpmtPublicParms>, read::<TpmtSignature>,
    ];
    let by_view: [fn(&str) -> Read; 10] = [
        view::<TpmtHa>, view::<TpmtSymDef>, view::<TpmtKdfScheme>, view::<TpmtKeyedhashScheme>, view::<TpmtSigScheme>,
        view::<TpmtRsaScheme>, view::<TpmtEccScheme>, view::<TpmtRsaDecrypt>, view::<TpmtPublicParms>, view::<TpmtSignature>,
    ];
    let handed_back: [Read; 10] = std::array::from_fn(|_| consumed(2, "ffff"));
    t.text("2.2 kinds 1 to 10, Null: unmarshal hands the tail back", by_unmarshal.map(|call| call("0010 ffff")), handed_back.clone());
    t.text("2.2 kinds 1 to 10, Null: the view hands the tail back", by_view.map(|call| call("0010 ffff")), handed_back);
    let area = "0010 000b 00000000 0000 ff";
    let both = [read::<TpmtPublic>(area), view::<TpmtPublic>(area)];
    t.rebuilt("2.2 kind 11: unmarshal and the view hand the tail back", both, [consumed(10, "ff"), consumed(10, "ff")]);
    t.rebuilt("2.2 kind 12: unmarshal hands the tail back", read::<TpmtSensitive>("0001 0000 0000 0000 ff"), consumed(8, "ff"));
    let trailing = |offset| Some(TpmError::TrailingData { offset, actual: 1 });
    let whole = |text| Tpml::<8>::validate_items::<TpmsPcrSelectionWire>(&bytes(text)).err();
    t.text("2.2 Tpml::validate_items refuses a tail, 00000000 00", whole("00000000 00"), trailing(4));
    t.rebuilt("2.2 Tpml::validate_items refuses a tail, 00000001 000B00 FF", whole("00000001 000b00 ff"), trailing(7));
}

/// `available`: the bytes from the field's place to the end of what was handed in. No call moves it with the offset.
fn available(t: &mut Tally) {
    let digest = |count| format!("0004{}", "00".repeat(count));
    t.text("2.3 kind 1, 0004 and 19 bytes as a view: UnexpectedEnd, 0, 20, 19", view::<TpmtHa>(&digest(19)), cut(0, 20, 19));
    t.text("2.3 kind 1, 0004 as a view: available 0", view::<TpmtHa>("0004"), cut(0, 20, 0));
    t.rebuilt("2.3 kind 1, 0004 and 19 bytes by unmarshal: the offset is moved, available is not", read::<TpmtHa>(&digest(19)), cut(2, 20, 19));
    let hmac = format!("0005{}", digest(3));
    t.rebuilt("2.3 kind 10, 0005 0004 and 3 bytes: available 3", read::<TpmtSignature>(&hmac), cut(4, 20, 3));
    let whole = |text| Tpml::<8>::cast(&bytes(text)).map(|list| (list.len(), String::new()));
    t.text("2.3 000000 by Tpml::cast: UnexpectedEnd, 0, 4, 3", whole("000000"), cut(0, 4, 3));
    t.text("2.3 no bytes by Tpml::cast: available 0", whole(""), cut(0, 4, 0));
}

fn places(t: &mut Tally) {
    t.text("2.4 kind 2, 0001: offset 0, value 1", read::<TpmtSymDef>("0001"), no_arm(0, 1));
    t.rebuilt("2.4 kind 11, 0004 000B 00000000 0000: offset 0, value 4", read::<TpmtPublic>("0004 000b 00000000 0000"), no_arm(0, 4));
    t.rebuilt("2.4 kind 12, 0010 0000 0000: offset 0, value 16", read::<TpmtSensitive>("0010 0000 0000"), no_arm(0, 16));
    t.text("2.4 kind 1, 0001 as a view: offset 0, value 1", view::<TpmtHa>("0001"), no_arm(0, 1));
    t.rebuilt("2.4 kind 1, 0001 by unmarshal: offset 2", read::<TpmtHa>("0001"), no_arm(2, 1));
    t.rebuilt("2.4 kind 9, 0025 0001: offset 2, value 1", read::<TpmtPublicParms>("0025 0001"), no_arm(2, 1));
    let moved = [
        read::<TpmtHa>("003f"), read::<TpmtKdfScheme>("003f"), read::<TpmtKeyedhashScheme>("003f"), read::<TpmtSigScheme>("003f"),
        read::<TpmtRsaScheme>("003f"), read::<TpmtEccScheme>("003f"), read::<TpmtRsaDecrypt>("003f"), read::<TpmtPublicParms>("003f"),
        read::<TpmtSignature>("003f"),
    ];
    t.rebuilt("2.4 kinds 1 and 3 to 10: moved by the length of the tag", moved, std::array::from_fn(|_| no_arm(2, 63)));
    let views = [
        view::<TpmtHa>("003f"), view::<TpmtSymDef>("003f"), view::<TpmtKdfScheme>("003f"), view::<TpmtKeyedhashScheme>("003f"),
        view::<TpmtSigScheme>("003f"), view::<TpmtRsaScheme>("003f"), view::<TpmtEccScheme>("003f"), view::<TpmtRsaDecrypt>("003f"),
        view::<TpmtPublicParms>("003f"), view::<TpmtSignature>("003f"),
    ];
    t.text("2.4 kinds 1 to 10: no borrowed view moves an offset", views, std::array::from_fn(|_| no_arm(0, 63)));
    t.rebuilt("2.4 kind 11: nor does its view", view::<TpmtPublic>("003f 000b 00000000 0000"), no_arm(0, 63));
}

fn settled(t: &mut Tally) {
    t.text("1 reading stops after a Null cipher", read::<TpmtSymDef>("0010 0080 0043"), consumed(2, "00800043"));
    t.rebuilt("1 kind 11: the fields ahead of an arm are judged first", read::<TpmtPublic>("0004 0002"), fault(Fault::Code, 0, 2));
    t.rebuilt("1 kind 12: the fields ahead of an arm are judged first", read::<TpmtSensitive>("0010 0000"), end(0, 2, 0));
    let longest = format!("000d{}", "00".repeat(64));
    t.rebuilt("1 kind 1, 000D and 64 bytes: read, 66 bytes", read::<TpmtHa>(&longest), consumed(66, ""));
    let unique = format!("0025 000b 00000000 0000 0006 0080 0043 0021{}", "00".repeat(33));
    t.rebuilt("3 kind 11: the unique part of a SymCipher object is a key", read::<TpmtPublic>(&unique), fault(Fault::Length, 0, 33));
    t.text("4 kind 2, 0003 00C0 0043: TDES has no arm", read::<TpmtSymDef>("0003 00c0 0043"), no_arm(0, 3));
}

fn digest(size: usize) -> TpmuHa {
    TpmuHa::Digest(TpmBuffer::try_from(&[7; 64][..size]).expect("fits"))
}

fn all_codes<T: TryFrom<u16>>() -> Vec<T> {
    (0..=u16::MAX).filter_map(|code| T::try_from(code).ok()).collect()
}

fn arms(t: &mut Tally) {
    let hash = TpmsSchemeHash { hash_alg: TpmAlgId::Sha256 };
    let signing = [TpmAlgId::Rsassa, TpmAlgId::Rsapss, TpmAlgId::Ecdsa, TpmAlgId::Sm2, TpmAlgId::Ecschnorr];
    t.text("2.5 signing scheme: Hash under Hmac, no", TpmuSigScheme::Hash(hash).matches_tag(TpmAlgId::Hmac), false);
    t.text("2.5 signing scheme: Hmac under Rsassa, no", TpmuSigScheme::Hmac(hash).matches_tag(TpmAlgId::Rsassa), false);
    t.text("2.5 signing scheme: Hash under the five, yes", signing.map(|code| TpmuSigScheme::Hash(hash).matches_tag(code)), [true; 5]);
    t.text("2.5 asymmetric scheme: Null under Rsaes, yes", TpmuAsymScheme::Null.matches_tag(TpmAlgId::Rsaes), true);
    let rsassa = TpmuSignature::Rsassa(TpmsSignatureRsa::default());
    t.text("2.5 signature: Rsassa under Rsapss, no", rsassa.matches_tag(TpmAlgId::Rsapss), false);
    let rsa = TpmuSensitiveComposite::Rsa(Tpm2bPrivateKeyRsa::default());
    t.text("2.5 sensitive: Rsa under KeyedHash, no", rsa.matches_tag(TpmAlgId::KeyedHash), false);
    let of_32 = [TpmAlgId::Sha256, TpmAlgId::Sm3_256, TpmAlgId::Sha3_256, TpmAlgId::Shake256_256];
    t.text("2.5 a digest of 32 bytes under the four, yes", of_32.map(|code| digest(32).matches_tag(code)), [true; 4]);
    t.text("2.5 a digest of 0 bytes under Null, no", digest(0).matches_tag(TpmAlgId::Null), false);
    let lengths: Vec<_> = all_codes::<TpmAlgId>()
        .into_iter()
        .flat_map(|code| (0..=64).filter(move |size| digest(*size).matches_tag(code)).map(move |size| (code.value(), size)))
        .collect();
    let listed = vec![
        (0x04, 20), (0x0b, 32), (0x0c, 48), (0x0d, 64), (0x12, 32), (0x27, 32), (0x28, 48), (0x29, 64), (0x2c, 24), (0x2d, 32), (0x2e, 64),
    ];
    t.text("1 of all algorithms and digests of 0 to 64 bytes, the eleven pairs of docs/FORMAT.md match", lengths, listed);
    let armless: Vec<_> = all_codes::<TpmSt>()
        .into_iter()
        .filter_map(|tag| match TpmuAttest::unmarshal_tagged(tag, &[]) {
            Err(TpmError::VariantNotAvailable { offset: 0, value }) if value == u64::from(tag.value()) => Some(value),
            _ => None,
        })
        .collect();
    let others = vec![0xc4, 0x8000, 0x8001, 0x8002, 0x8021, 0x8022, 0x8023, 0x8024, 0x8025, 0x8029];
    t.text("2.5 the attestation union alone: VariantNotAvailable under each tag but the eight, 8021 among them", armless, others);
}

/// What `marshal` answers with that room, and the bytes that it leaves behind.
fn written<T: TpmMarshal>(record: &T, room: usize) -> (TpmResult<()>, String) {
    let mut space = vec![0; room];
    let mut writer = TpmWriter::new(&mut space);
    let answer = record.marshal(&mut writer);
    (answer, hex(writer.as_bytes()))
}

fn not_its_arm(offset: usize, value: u64, left: &str) -> (TpmResult<()>, String) {
    (Err(TpmError::VariantNotAvailable { offset, value }), left.to_string())
}

fn no_room(offset: usize, needed: usize, available: usize, left: &str) -> (TpmResult<()>, String) {
    (Err(TpmError::BufferOverflow { offset, needed, available }), left.to_string())
}

fn hashed(hash_alg: TpmAlgId, digest: TpmuHa) -> TpmtHa {
    TpmtHa { hash_alg, digest }
}

fn cipher(algorithm: TpmAlgId, key_bits: TpmuSymKeyBits, mode: TpmuSymMode) -> TpmtSymDef {
    TpmtSymDef { algorithm, key_bits, mode }
}

fn wrong_arms(t: &mut Tally) {
    let rsa = hashed(TpmAlgId::Rsa, TpmuHa::Null);
    t.text("2.6 kind 1, Rsa with Null: offset 0, value 1", written(&rsa, 9), not_its_arm(0, 1, ""));
    let sha1 = hashed(TpmAlgId::Sha1, TpmuHa::Null);
    t.text("2.6 kind 1, Sha1 with Null: offset 0, value 4", written(&sha1, 9), not_its_arm(0, 4, ""));
    let bits = TpmuSymKeyBits::Aes(128.into());
    let aes = cipher(TpmAlgId::Aes, bits, TpmuSymMode::Null);
    t.text("2.6 kind 2, Aes with Aes(128), Null: offset 0, value 6", written(&aes, 9), not_its_arm(0, 6, ""));
    let details = TpmuSigScheme::Hash(TpmsSchemeHash { hash_alg: TpmAlgId::Sha256 });
    let signing = TpmtSigScheme { scheme: TpmAlgId::Hmac, details };
    t.text("2.6 kind 5, Hmac with Hash: offset 0, value 5", written(&signing, 9), not_its_arm(0, 5, ""));
    let with_bits = cipher(TpmAlgId::Null, bits, TpmuSymMode::Null);
    t.text("2.6 kind 2, Null with Aes(128): writes 0010", written(&with_bits, 9), (Ok(()), "0010".to_string()));
    let with_mode = cipher(TpmAlgId::Null, TpmuSymKeyBits::Null, TpmuSymMode::Aes(TpmAlgId::Null));
    t.text("2.6 kind 2, Null with mode Aes: writes 0010", written(&with_mode, 9), (Ok(()), "0010".to_string()));
    let says = [with_bits.key_bits.matches_tag(TpmAlgId::Null), with_mode.mode.matches_tag(TpmAlgId::Null)];
    t.text("2.6 and matches_tag(Null) says no to both", says, [false; 2]);
    let scheme = TpmtKeyedhashScheme { scheme: TpmAlgId::Hmac, details: TpmuKeyedhashScheme::Null };
    let parameters = TpmuPublicParms::KeyedHash(TpmsKeyedhashParms { scheme });
    let area = TpmtPublic { object_type: TpmAlgId::KeyedHash, parameters, ..TpmtPublic::default() };
    t.text("2.6 kind 11, unique Null: offset 0, value 8, ahead of the scheme", written(&area, 99), not_its_arm(0, 8, ""));
    t.text("2.6 kind 1, Sha1 with Null, and Rsa: len 2", [sha1.len(), rsa.len()], [2; 2]);
    t.rebuilt("2.6 kind 2, Aes with Aes(128), Null: len 4", aes.len(), 4);
    t.text("2.6 kind 2, Null with Aes(128): len 2", with_bits.len(), 2);
    t.rebuilt("2.6 kind 11, unique Null: len 12", area.len(), 12);
}

fn room(t: &mut Tally) {
    let sha1 = hashed(TpmAlgId::Sha1, digest(20));
    t.text("2.6 kind 1, Sha1, room 21: BufferOverflow, 2, 20, 19; 0004 is left", written(&sha1, 21), no_room(2, 20, 19, "0004"));
    let hmac = TpmtSignature { sig_alg: TpmAlgId::Hmac, signature: TpmuSignature::Hmac(hashed(TpmAlgId::Sha256, TpmuHa::Null)) };
    t.text("2.6 kind 10, Hmac(Sha256, Null), room 2: offset 2, value 11; 0005 is left", written(&hmac, 2), not_its_arm(2, 11, "0005"));
    t.rebuilt("2.6 the same, room 0: BufferOverflow, offset 0", written(&hmac, 0), no_room(0, 2, 0, ""));
    let mut space = [0; 8];
    let mut writer = TpmWriter::new(&mut space);
    let null = cipher(TpmAlgId::Null, TpmuSymKeyBits::Null, TpmuSymMode::Null);
    let two = [null.marshal(&mut writer), null.marshal(&mut writer)];
    t.text("2.6 the writer goes on where it stood", (two, hex(writer.as_bytes())), ([Ok(()); 2], "00100010".to_string()));
    let wrong = hashed(TpmAlgId::Sha1, TpmuHa::Null).marshal(&mut writer);
    t.text("2.6 and a refusal's offset is where it stood", wrong, Err(TpmError::VariantNotAvailable { offset: 4, value: 4 }));
}

fn owned(t: &mut Tally) {
    let refused = Err(TpmError::TooManyItems { offset: 0, limit: 8, actual: 9 });
    let mut full = TpmList::<TpmUint16, 8>::new();
    let pushed: TpmResult<()> = (0..8_u16).try_for_each(|value| full.try_push(value.into()));
    t.text("2.7 eight items are taken", pushed, Ok(()));
    t.text("2.7 a ninth is refused when it is put in", full.try_push(TpmUint16::default()), refused);
    let at_once = TpmList::<TpmUint16, 8>::new().try_extend_from_slice(&[TpmUint16::default(); 9]);
    t.text("2.7 and nine at once", at_once, refused);
    let eight = "00000008 0000 0001 0002 0003 0004 0005 0006 0007".replace(' ', "");
    t.rebuilt("2.7 marshal writes the items that are there", written(&full, 99), (Ok(()), eight));
    let null: &[u8] = &TpmuHa::Null;
    t.text("2.7 Deref of TpmuHa::Null: an empty slice", null.len(), 0);
    let place = |text| TpmtSymDef::unmarshal(&bytes(text)[1..]).map(|(record, _)| record);
    let one = place("ff 0006 0080 0043 ff");
    let alike = [one.is_ok(), one == place("00 0006 0080 0043"), one == place("00 0006 0100 0043")];
    t.text("2.7 two records that were read at different places compare as equal, and two others do not", alike, [true, true, false]);
}

fn sizes(t: &mut Tally) {
    t.text("2.8 kind 1: TpmAlgId::SIZE + MAX_DIGEST_SIZE", TpmtHa::SIZE, TpmAlgId::SIZE + MAX_DIGEST_SIZE);
    t.text("2.8 kind 2: twice TpmAlgId::SIZE and a number's", TpmtSymDef::SIZE, 2 * TpmAlgId::SIZE + TpmUint16::SIZE);
    let eight = [
        TpmtKdfScheme::SIZE, TpmtKeyedhashScheme::SIZE, TpmtSigScheme::SIZE, TpmtRsaScheme::SIZE, TpmtEccScheme::SIZE, TpmtRsaDecrypt::SIZE,
        TpmtPublicParms::SIZE, TpmtSignature::SIZE,
    ];
    t.text("2.8 kinds 3 to 10: TpmAlgId::SIZE + TPM_MAX_COMMAND_SIZE", eight, [TpmAlgId::SIZE + TPM_MAX_COMMAND_SIZE; 8]);
    t.text("2.8 kind 11: TPM_MAX_COMMAND_SIZE", TpmtPublic::SIZE, TPM_MAX_COMMAND_SIZE);
    let three = TpmAlgId::SIZE + Tpm2bAuth::SIZE + Tpm2bDigest::SIZE;
    t.text("2.8 kind 12: TPM_MAX_COMMAND_SIZE and three sizes more", TpmtSensitive::SIZE, TPM_MAX_COMMAND_SIZE + three);
    t.text("2.8 kind 14: 4 + 8 times an item's SIZE", TpmlPcrSelection::SIZE, 4 + 8 * TpmsPcrSelection::SIZE);
}

/// The two arms that are another thing here: Xor has a mode in the crate, and Ecdaa no count.
fn two_forms(t: &mut Tally) {
    t.text("2.10 kind 2, 000A 000B 0043: read, 6 bytes", read::<TpmtSymDef>("000a 000b 0043"), consumed(6, ""));
    t.rebuilt("2.10 kind 2, 000A 000B: the mode is cut", read::<TpmtSymDef>("000a 000b"), end(0, 2, 0));
    t.rebuilt("2.10 kind 2, 000A 000B 0002: the mode is not listed", read::<TpmtSymDef>("000a 000b 0002"), fault(Fault::Code, 0, 2));
    t.rebuilt("2.10 kind 9, 0025 000A 000B: the mode is cut", read::<TpmtPublicParms>("0025 000a 000b"), end(2, 2, 0));
    let by_unmarshal: [fn(&str) -> Read; 4] = [read::<TpmtSigScheme>, read::<TpmtRsaScheme>, read::<TpmtEccScheme>, read::<TpmtRsaDecrypt>];
    let four = |tail: &str| std::array::from_fn(|_| consumed(4, tail));
    t.rebuilt("2.10 kinds 5 to 8, 001A 000B: read, 4 bytes", by_unmarshal.map(|call| call("001a 000b")), four(""));
    t.rebuilt("2.10 kinds 5 to 8, 001A 000B 0001: 4 bytes, tail 0001", by_unmarshal.map(|call| call("001a 000b 0001")), four("0001"));
    let key = TpmtPublicParms::unmarshal(&bytes("0023 0010 001a 000b 0000 0010 0010")).map(|(record, tail)| (record.parameters, hex(tail)));
    let hash = TpmsSchemeHash { hash_alg: TpmAlgId::Sha256 };
    let scheme = TpmtEccScheme { scheme: TpmAlgId::Ecdaa, details: TpmuAsymScheme::Hash(hash) };
    let scrambled = TpmsEccParms { scheme, curve_id: TpmEccCurve::None, ..TpmsEccParms::default() };
    t.rebuilt("2.10 kind 9, Ecdaa: the count is the curve, the curve the KDF", key, Ok((TpmuPublicParms::Ecc(scrambled), "0010".to_string())));
    let area = "0023 000b 00000000 0000 0010 001a 000b 0001 0003 0010 0001aa 0001bb";
    t.rebuilt("2.10 kind 11, Ecdaa: offset 2, value 3, the curve for the KDF", read::<TpmtPublic>(area), no_arm(2, 3));
    let mode = TpmuSymMode::Xor(TpmAlgId::Cfb);
    let says = [mode.matches_tag(TpmAlgId::Xor), TpmuSymMode::Null.matches_tag(TpmAlgId::Xor)];
    t.text("2.10 mode under Xor: Xor, yes; Null, no", says, [true, false]);
    let says = [TpmuAsymScheme::Hash(hash).matches_tag(TpmAlgId::Ecdaa), TpmuSigScheme::Hash(hash).matches_tag(TpmAlgId::Ecdaa)];
    t.text("2.10 Hash under Ecdaa, yes in both unions", says, [true; 2]);
    let xor = |mode| written(&cipher(TpmAlgId::Xor, TpmuSymKeyBits::Xor(TpmAlgId::Sha256), mode), 9);
    t.text("2.10 kind 2, Xor with mode Null: offset 0, value 10", xor(TpmuSymMode::Null), not_its_arm(0, 10, ""));
    t.text("2.10 kind 2, Xor with mode Xor: writes 000A 000B 0043", xor(mode), (Ok(()), "000a000b0043".to_string()));
    let signing = TpmtSigScheme { scheme: TpmAlgId::Ecdaa, details: TpmuSigScheme::Hash(hash) };
    let TpmtEccScheme { scheme: tag, details } = scheme;
    let (rsa, decrypt) = (TpmtRsaScheme { scheme: tag, details }, TpmtRsaDecrypt { scheme: tag, details });
    let all = [written(&signing, 9), written(&rsa, 9), written(&scheme, 9), written(&decrypt, 9)];
    t.rebuilt("2.10 kinds 5 to 8, Ecdaa with Hash: writes 001A 000B", all, std::array::from_fn(|_| (Ok(()), "001a000b".to_string())));
}

/// The capabilities that have an arm: an item of the list, and how many the list takes.
const CAPABILITIES: [(TpmCap, &str, usize); 10] = [
    (TpmCap::Algs, "000b00000004", 64),
    (TpmCap::Handles, "40000001", 128),
    (TpmCap::Commands, "0000017a", 256),
    (TpmCap::PpCommands, "0000017a", 256),
    (TpmCap::AuditCommands, "0000017a", 256),
    (TpmCap::Pcrs, "000b00", 8),
    (TpmCap::TpmProperties, "0000010000000000", 64),
    (TpmCap::EccCurves, "0003", 64),
    (TpmCap::AuthPolicies, "4000000b0010", 8),
    (TpmCap::Act, "400001100000000000000000", 8),
];

/// What the union alone answers, by `unmarshal_tagged` and as a view.
fn by_union(capability: TpmCap, text: &str) -> [Read; 2] {
    let input = bytes(text);
    let taken = |tail: &[u8]| (input.len() - tail.len(), hex(tail));
    let read = TpmuCapabilities::unmarshal_tagged(capability, &input).map(|(_, tail)| taken(tail));
    [read, TpmuCapabilities::cast_tagged(capability, &input).map(|(_, tail)| taken(tail))]
}

fn with_no_items(capability: TpmCap) -> TpmuCapabilities {
    TpmuCapabilities::unmarshal_tagged(capability, &[0; 4]).expect("an empty list").0
}

fn counted(item: &str, count: usize) -> String {
    format!("{count:08x}{}", item.repeat(count))
}

fn capability_lists(t: &mut Tally) {
    let one_more = CAPABILITIES.map(|(capability, _, most)| by_union(capability, &format!("{:08x}", most + 1)));
    let refused = CAPABILITIES.map(|(_, _, most)| [too_many(most, most + 1), too_many(most, most + 1)]);
    t.text("2.1 each capability's list: TooManyItems with one item more than it takes", one_more, refused);
    let full = CAPABILITIES.map(|(capability, item, most)| by_union(capability, &counted(item, most)));
    let taken = CAPABILITIES.map(|(_, item, most)| [consumed(4 + most * item.len() / 2, ""), consumed(4 + most * item.len() / 2, "")]);
    t.rebuilt("2.1 each capability's list: read with as many items as it takes", full, taken);
    let commands = ["00000002", "00000003", "00000004"].map(|code| read::<TpmsCapabilityData>(&format!("{code}{}", counted("0000017a", 129))));
    t.rebuilt("2.1 kind 15, 129 commands: read, 524 bytes", commands, std::array::from_fn(|_| consumed(524, "")));
    t.rebuilt("2.1 kind 15, 00000002 00000081: the first item is missing", read::<TpmsCapabilityData>("00000002 00000081"), end(0, 4, 0));
    t.rebuilt("2.1 kind 15, 00000000 00000041: TooManyItems", read::<TpmsCapabilityData>("00000000 00000041"), too_many(64, 65));
    let handed_back = CAPABILITIES.map(|(capability, ..)| by_union(capability, "00000000 ff"));
    t.text("2.2 each capability's list: the union hands the tail back", handed_back, std::array::from_fn(|_| [consumed(4, "ff"), consumed(4, "ff")]));
    t.rebuilt("1 a handle is any number", by_union(TpmCap::Handles, "00000001 ffffffff"), [consumed(8, ""), consumed(8, "")]);
}

fn capabilities(t: &mut Tally) {
    let codes: Vec<TpmCap> = (0..=u32::from(u16::MAX)).filter_map(|code| TpmCap::try_from(code).ok()).collect();
    let matching: Vec<_> = CAPABILITIES
        .iter()
        .flat_map(|(arm, ..)| codes.iter().filter(|code| with_no_items(*arm).matches_tag(**code)).map(|code| (arm.value(), code.value())))
        .collect();
    let own = CAPABILITIES.map(|(arm, ..)| (arm.value(), arm.value())).to_vec();
    t.text("2.5 capabilities: each arm under its own code alone, PpCommands not under AuditCommands", matching, own);
    let armless: Vec<_> = codes.iter().filter(|code| by_union(**code, "00000000") == [no_arm(0, 7), no_arm(0, 7)]).map(|code| code.value()).collect();
    t.text("2.5 capability 7: the union alone has no arm", armless, vec![7]);
    t.rebuilt("2.4 kind 15, 00000007: offset 0, value 7", read::<TpmsCapabilityData>("00000007"), no_arm(0, 7));
    let policy = "00000009 00000001 40000001 0001";
    t.rebuilt("2.4 kind 15, a policy under Rsa: offset 2, value 1, moved by its own tag alone", read::<TpmsCapabilityData>(policy), no_arm(2, 1));
    let wrong = |capability, arm| written(&TpmsCapabilityData { capability, data: with_no_items(arm) }, 99);
    let refused = |value| (Err(TpmError::rebuilt(Fault::Arm, 0, value)), String::new());
    t.rebuilt("2.6 kind 15, EccCurves with Algs: offset 0, value 8", wrong(TpmCap::EccCurves, TpmCap::Algs), refused(8));
    t.rebuilt("2.6 kind 15, AuditCommands with PpCommands: offset 0, value 4", wrong(TpmCap::AuditCommands, TpmCap::PpCommands), refused(4));
    t.text("2.8 the capabilities' union: TPM_MAX_COMMAND_SIZE", TpmuCapabilities::SIZE, TPM_MAX_COMMAND_SIZE);
    let found = [TpmlHandle::SIZE, TpmlCc::SIZE, TpmlEccCurve::SIZE, TpmlTaggedPolicy::SIZE];
    let sizes = [4 + 128 * TpmUint32::SIZE, 4 + 256 * TpmCc::SIZE, 4 + 64 * TpmEccCurve::SIZE, 4 + 8 * TpmsTaggedPolicy::SIZE];
    t.text("2.8 a capability's list: 4 + its capacity times an item's SIZE", found, sizes);
}

const AREA: &str = "01800001 000b 00000004 0000 0008";
const EXPANDED: &str = "01800001 000b 0000000100000004 0000 0008";

/// The three arms of an NV area: the handle type, and what is read behind it.
const AREAS: [(TpmHt, &str); 3] = [(TpmHt::NvIndex, AREA), (TpmHt::ExternalNv, EXPANDED), (TpmHt::PermanentNv, AREA)];

fn area(arm: TpmHt) -> TpmuNvPublic2 {
    let text = AREAS.iter().find(|(own, _)| *own == arm).map_or("", |(_, text)| text);
    TpmuNvPublic2::unmarshal_tagged(arm, &bytes(text)).expect("an NV area").0
}

fn handle_types() -> Vec<TpmHt> {
    (0..=u8::MAX).filter_map(|code| TpmHt::try_from(code).ok()).collect()
}

fn by_type(handle_type: TpmHt, text: &str) -> [Read; 2] {
    let input = bytes(text);
    let taken = |tail: &[u8]| (input.len() - tail.len(), hex(tail));
    let read = TpmuNvPublic2::unmarshal_tagged(handle_type, &input).map(|(_, tail)| taken(tail));
    [read, TpmuNvPublic2::cast_tagged(handle_type, &input).map(|(_, tail)| taken(tail))]
}

fn nv_areas(t: &mut Tally) {
    let own = AREAS.map(|(arm, text)| by_type(arm, &format!("{text} ff")));
    let taken = [14, 18, 14].map(|size| [consumed(size, "ff"), consumed(size, "ff")]);
    t.rebuilt("1, 2.2 NV areas: attributes of 4 bytes, of 8 under ExternalNv; the union hands the tail back", own, taken);
    let both = [read::<TpmtNvPublic2>(&format!("11 {EXPANDED} ff")), view::<TpmtNvPublic2>(&format!("11 {EXPANDED} ff"))];
    t.rebuilt("2.2 kind 16: unmarshal and the view hand the tail back", both, [consumed(19, "ff"), consumed(19, "ff")]);
    let matching: Vec<_> = AREAS
        .iter()
        .flat_map(|(arm, _)| handle_types().into_iter().filter(|code| area(*arm).matches_tag(*code)).map(|code| (arm.value(), code.value())))
        .collect();
    let each = AREAS.map(|(arm, _)| (arm.value(), arm.value())).to_vec();
    t.text("2.5 NV areas: each arm under its own type alone, PermanentNv not under 01", matching, each);
    let armless = |code: &TpmHt| by_type(*code, "") == [no_arm(0, code.value().into()), no_arm(0, code.value().into())];
    let others: Vec<_> = handle_types().into_iter().filter(armless).map(TpmHt::value).collect();
    t.text("2.5 NV areas: the union alone has no arm under each type but the three", others, vec![0x00, 0x02, 0x03, 0x40, 0x80, 0x81, 0x90]);
    t.text("2.5 kind 16, 40 as a view: VariantNotAvailable, value 64", view::<TpmtNvPublic2>("40"), no_arm(0, 64));
    let two = [read::<TpmtNvPublic2>("40"), read::<TpmtNvPublic2>("02")];
    t.rebuilt("2.4, 2.5 kind 16, 40 and 02 by unmarshal: offset 1", two, [no_arm(1, 64), no_arm(1, 2)]);
    t.rebuilt("2.4 kind 16, 01 and an index: the arm's error is moved by 1", read::<TpmtNvPublic2>("01 01800001"), end(1, 2, 0));
    let wrong = |handle_type, arm| written(&TpmtNvPublic2 { handle_type, public_area: area(arm) }, 99);
    let found = [wrong(TpmHt::ExternalNv, TpmHt::NvIndex), wrong(TpmHt::NvIndex, TpmHt::PermanentNv), wrong(TpmHt::Permanent, TpmHt::NvIndex)];
    let refused = [not_its_arm(0, 17, ""), not_its_arm(0, 1, ""), not_its_arm(0, 64, "")];
    t.text("2.6 kind 16, ExternalNv with NvIndex: offset 0, value 17; NvIndex with PermanentNv: value 1; 40: value 64", found, refused);
    t.text("2.8 kind 16: TpmHt::SIZE + TPM_MAX_COMMAND_SIZE", TpmtNvPublic2::SIZE, TpmHt::SIZE + TPM_MAX_COMMAND_SIZE);
}

/// The four tickets, read.
fn tickets_read(text: &str) -> [Read; 4] {
    [read::<TpmtTkCreation>(text), read::<TpmtTkVerified>(text), read::<TpmtTkHashcheck>(text), read::<TpmtTkAuth>(text)]
}

fn tickets_viewed(text: &str) -> [Read; 4] {
    [view::<TpmtTkCreation>(text), view::<TpmtTkVerified>(text), view::<TpmtTkHashcheck>(text), view::<TpmtTkAuth>(text)]
}

/// The four tickets with that tag and hierarchy and no digest, written.
fn tickets_written(tag: TpmSt, hierarchy: TpmRh) -> [(TpmResult<()>, String); 4] {
    let digest = Tpm2bDigest::default();
    [
        written(&TpmtTkCreation { tag, hierarchy, digest }, 99),
        written(&TpmtTkVerified { tag, hierarchy, digest }, 99),
        written(&TpmtTkHashcheck { tag, hierarchy, digest }, 99),
        written(&TpmtTkAuth { tag, hierarchy, digest }, 99),
    ]
}

/// What a ticket of the crate takes: the text says of which type each field is, and the macro that reads them is rebuilt.
fn tickets(t: &mut Tally) {
    let tags = all_codes::<TpmSt>();
    let ticket = |tag: &TpmSt| format!("{:04x} 40000007 0000 ff", tag.value());
    let both: Vec<_> = tags.iter().map(|tag| [tickets_read(&ticket(tag)), tickets_viewed(&ticket(tag))]).collect();
    let eight: [Read; 4] = std::array::from_fn(|_| consumed(8, "ff"));
    let all = vec![[eight.clone(), eight.clone()]; 18];
    t.rebuilt("2.2, 2.11 kinds 17 to 20: read with each structure tag, also as a view; the tail is handed back", both, all);
    let again: Vec<_> = tags.iter().map(|tag| tickets_written(*tag, TpmRh::Null)).collect();
    let bytes_of = |tag: &TpmSt| (Ok(()), format!("{:04x}400000070000", tag.value()));
    t.rebuilt("2.11 kinds 17 to 20: written with each structure tag", again, tags.iter().map(|tag| std::array::from_fn(|_| bytes_of(tag))).collect());
    let none: [Read; 4] = std::array::from_fn(|_| fault(Fault::Code, 0, 0x8020));
    t.rebuilt("2.11 kinds 17 to 20, 8020: refused as a code", tickets_read("8020 40000007 0000"), none);
    t.rebuilt("2.11 kinds 17 to 20, 8021 4000000A 0000: read, if TpmRh has it", tickets_read("8021 4000000a 0000 ff"), eight);
    let lockout: [_; 4] = std::array::from_fn(|_| (Ok(()), "80214000000a0000".to_string()));
    t.rebuilt("2.11 kinds 17 to 20, 8021 and 4000000A: written", tickets_written(TpmSt::Creation, TpmRh::Lockout), lockout);
    let cut: [Read; 4] = std::array::from_fn(|_| end(0, 4, 3));
    t.rebuilt("2.4 kinds 17 to 20: no offset is moved", tickets_read("8021 400000"), cut);
    let sizes = [TpmtTkCreation::SIZE, TpmtTkVerified::SIZE, TpmtTkHashcheck::SIZE, TpmtTkAuth::SIZE];
    t.rebuilt("2.8 kinds 17 to 20: the sizes of the three fields", sizes, [TpmSt::SIZE + TpmRh::SIZE + Tpm2bDigest::SIZE; 4]);
}

fn main() {
    let mut t = Tally::default();
    let parts: [fn(&mut Tally); 15] = [
        lists, tails, available, places, settled, arms, wrong_arms, room, owned, sizes, two_forms, capability_lists, capabilities, nv_areas, tickets,
    ];
    for part in parts {
        part(&mut t);
    }
    println!("{} claims hold by the text, {} more with a rebuilt module, {} fail", t.text, t.rebuilt, t.failed);
    std::process::exit(i32::from(t.failed > 0 || t.text == 0 || t.rebuilt == 0));
}
