//! The fields of an owned record in wire order, as the lines that our listing has: place, size, word, value. An arm is told by the union's
//! variant, not by its selector.
//!
//! For each line it is kept who puts the field there: `t` if every structure, union and list around it is the text's, and else `r`. The cipher of
//! an RSA key is laid out by `TpmtSymDef`, which is the text's; but that a cipher stands there `TpmsRsaParms` says, which is rebuilt. So it is `r`.
//! That a buffer has a length in front is said by the rebuilt buffer: where the text put the buffer, its length is `l` and its body `t`.
//! (A field's own width, list of codes or limit is always a rebuilt module's.)
#![allow(dead_code)] // each program uses a part of it

use crate::words::hex;
use std::fmt::Write;
use tpm2_protocol::{
    TpmMarshal, TpmWriter,
    basic::{TpmBuffer, TpmList, TpmUint8, TpmUint16, TpmUint32, TpmUint64},
    constant::TPM_GENERATED_VALUE,
    data::*,
};

pub const TEXT: char = 't';
/// The length of a buffer that the text put there.
pub const LENGTH: char = 'l';
pub const REBUILT: char = 'r';

#[derive(Default)]
pub struct Lines {
    /// `|PLACE SIZE WORD VALUE` for each field.
    pub text: String,
    /// A letter for each field.
    pub who: String,
    /// Who puts each byte field there, and what stands in it (docs/FORMAT.md, section 10): a list is one, from its count to its last item.
    pub byte_fields: Vec<(char, Vec<u8>)>,
    /// The items of the record's list.
    pub items: Vec<Vec<u8>>,
    place: usize,
    by: Option<char>,
}

impl Lines {
    fn line(&mut self, size: usize, word: &str, value: std::fmt::Arguments) {
        write!(self.text, "|{} {size} {word} {value}", self.place).expect("a string takes all");
        self.who.push(self.by.expect("a field is put there by a structure"));
        self.place += size;
    }
    fn code(&mut self, size: usize, value: u64) {
        self.line(size, "code", format_args!("{value}"));
    }
    fn number(&mut self, size: usize, value: u64) {
        self.line(size, "number", format_args!("{value}"));
    }
    fn bytes(&mut self, bytes: &[u8]) {
        let hex = if bytes.is_empty() { "-".to_string() } else { hex(bytes) };
        self.line(bytes.len(), "bytes", format_args!("{hex}"));
        self.byte_fields.push((self.by.expect("a field is put there by a structure"), bytes.to_vec()));
    }
    /// What `put` puts there, `by` puts there; but all that is inside a rebuilt structure is rebuilt.
    fn under(&mut self, by: char, put: impl FnOnce(&mut Self)) {
        let before = self.by;
        if before != Some(REBUILT) {
            self.by = Some(by);
        }
        put(self);
        self.by = before;
    }
}

pub trait Fields {
    fn list(&self, out: &mut Lines);
}

macro_rules! number { ($($ty:ty: $size:literal),*) => { $(impl Fields for $ty {
    fn list(&self, out: &mut Lines) { out.number($size, u64::from(self.value())); }
})* } }
macro_rules! code { ($($ty:ty: $size:literal),*) => { $(impl Fields for $ty {
    fn list(&self, out: &mut Lines) { out.code($size, u64::from(self.value())); }
})* } }
macro_rules! fields { ($by:ident: $($ty:ty { $($field:ident),* })*) => { $(impl Fields for $ty {
    fn list(&self, out: &mut Lines) { out.under($by, |out| { $(self.$field.list(out);)* }); }
})* } }
macro_rules! arms { ($by:ident: $($ty:ty { $($(#[$only:meta])? $arm:ident),* $(; $null:ident)? })*) => { $(impl Fields for $ty {
    fn list(&self, out: &mut Lines) {
        out.under($by, |out| match self { $($(#[$only])? Self::$arm(held) => held.list(out),)* $(Self::$null => {})? });
    }
})* } }

number!(TpmUint8: 1, TpmUint16: 2, TpmUint32: 4, TpmUint64: 8, TpmaObject: 4, TpmaAlgorithm: 4, TpmaCc: 4, TpmCc: 4, TpmaAct: 4,
    TpmaNv: 4, TpmaNvExp: 8);
code!(TpmAlgId: 2, TpmEccCurve: 2, TpmSt: 2, TpmCap: 4, TpmHt: 1, TpmRh: 4);

impl Fields for TpmiYesNo {
    fn list(&self, out: &mut Lines) {
        out.number(1, u64::from(self.0));
    }
}

impl<const N: usize> Fields for TpmBuffer<N> {
    fn list(&self, out: &mut Lines) {
        let bytes: &[u8] = self;
        out.under(LENGTH, |out| out.number(2, bytes.len() as u64));
        out.bytes(bytes);
    }
}

/// A list or an item, as far as it is written. That `marshal` refuses one that was read is said where the record is written.
fn written(part: &impl TpmMarshal) -> Vec<u8> {
    let mut room = [0; 2048];
    let mut writer = TpmWriter::new(&mut room);
    let _ = part.marshal(&mut writer);
    writer.as_bytes().to_vec()
}

impl<T: Fields + TpmMarshal + Copy, const N: usize> Fields for TpmList<T, N> {
    fn list(&self, out: &mut Lines) {
        let items: &[T] = self;
        let ahead = out.byte_fields.len();
        out.under(TEXT, |out| {
            out.number(4, items.len() as u64);
            items.iter().for_each(|item| item.list(out));
        });
        out.byte_fields.truncate(ahead);
        let is_text = out.by != Some(REBUILT) && items.is_empty();
        out.byte_fields.push((if is_text { TEXT } else { REBUILT }, written(self)));
        out.items = items.iter().map(written).collect();
    }
}

impl Fields for TpmuHa {
    fn list(&self, out: &mut Lines) {
        if let Self::Digest(digest) = self {
            out.under(TEXT, |out| out.bytes(digest));
        }
    }
}

impl Fields for TpmsPcrSelect {
    fn list(&self, out: &mut Lines) {
        out.under(REBUILT, |out| {
            out.number(1, self.bits().len() as u64);
            out.bytes(self.bits());
        });
    }
}

arms! { TEXT:
    TpmuAsymScheme { Hash, #[cfg(adapted)] Ecdaa; Null }
    TpmuKeyedhashScheme { Hmac, Xor; Null }
    TpmuSigScheme { Hash, Hmac, #[cfg(adapted)] Ecdaa; Null }
    TpmuKdfScheme { Mgf1, Kdf1Sp800_56a, Kdf2, Kdf1Sp800_108; Null }
    TpmuSymKeyBits { Aes, Sm4, Camellia, Xor; Null }
    TpmuSymMode { Aes, Sm4, Camellia, Xor; Null }
    TpmuPublicParms { KeyedHash, SymCipher, Rsa, Ecc; Null }
    TpmuPublicId { KeyedHash, SymCipher, Rsa, Ecc; Null }
    TpmuSensitiveComposite { Rsa, Ecc, Bits, Sym }
    TpmuSignature { Rsassa, Rsapss, Ecdsa, Ecdaa, Sm2, Ecschnorr, Hmac; Null }
    TpmuAttest { Certify, Creation, Quote, CommandAudit, SessionAudit, Time, Nv, NvDigest }
    TpmuCapabilities { Algs, Handles, Commands, PpCommands, AuditCommands, Pcrs, TpmProperties, EccCurves, AuthPolicies, Act }
    TpmuNvPublic2 { NvIndex, ExternalNv, PermanentNv }
}

fields! { TEXT:
    TpmtHa { hash_alg, digest }
    TpmtSymDef { algorithm, key_bits, mode }
    TpmtKdfScheme { scheme, details }
    TpmtKeyedhashScheme { scheme, details }
    TpmtSigScheme { scheme, details }
    TpmtRsaScheme { scheme, details }
    TpmtEccScheme { scheme, details }
    TpmtRsaDecrypt { scheme, details }
    TpmtPublicParms { object_type, parameters }
    TpmtSignature { sig_alg, signature }
    TpmtPublic { object_type, name_alg, object_attributes, auth_policy, parameters, unique }
    TpmtSensitive { sensitive_type, auth_value, seed_value, sensitive }
    TpmtNvPublic2 { handle_type, public_area }
}

/// The text has the fields and their order; a tag is a fixed value in our listing, and no code.
macro_rules! ticket { ($($ty:ty),*) => { $(impl Fields for $ty {
    fn list(&self, out: &mut Lines) {
        out.under(TEXT, |out| {
            out.number(2, u64::from(self.tag.value()));
            self.hierarchy.list(out);
            self.digest.list(out);
        });
    }
})* } }

ticket!(TpmtTkCreation, TpmtTkVerified, TpmtTkHashcheck, TpmtTkAuth);

fields! { REBUILT:
    TpmsSchemeHash { hash_alg }
    TpmsSchemeXor { hash_alg, kdf }
    TpmsKeyedhashParms { scheme }
    TpmsSymcipherParms { sym }
    TpmsRsaParms { symmetric, scheme, key_bits, exponent }
    TpmsEccParms { symmetric, scheme, curve_id, kdf }
    TpmsEccPoint { x, y }
    TpmsSignatureRsa { hash, sig }
    TpmsSignatureEcc { hash, signature_r, signature_s }
    TpmsClockInfo { clock, reset_count, restart_count, safe }
    TpmsTimeInfo { time, clock_info }
    TpmsCertifyInfo { name, qualified_name }
    TpmsCreationInfo { object_name, creation_hash }
    TpmsQuoteInfo { pcr_select, pcr_digest }
    TpmsCommandAuditInfo { audit_counter, digest_alg, audit_digest, command_digest }
    TpmsSessionAuditInfo { exclusive_session, session_digest }
    TpmsTimeAttestInfo { time, firmware_version }
    TpmsNvCertifyInfo { index_name, offset, nv_contents }
    TpmsNvDigestCertifyInfo { index_name, nv_digest }
    TpmsPcrSelection { hash, pcr_select }
    TpmsAlgProperty { alg, alg_properties }
    TpmsTaggedProperty { property, value }
    TpmsTaggedPolicy { handle, policy_hash }
    TpmsActData { handle, timeout, attributes }
    TpmsCapabilityData { capability, data }
    TpmsNvPublic { nv_index, name_alg, attributes, auth_policy, data_size }
    TpmsNvPublicExpAttr { nv_index, name_alg, attributes, auth_policy, data_size }
}

#[cfg(adapted)]
fields! { REBUILT:
    TpmsSchemeEcdaa { hash_alg, count }
}

impl Fields for TpmsAttest {
    fn list(&self, out: &mut Lines) {
        out.under(REBUILT, |out| {
            out.number(4, u64::from(TPM_GENERATED_VALUE));
            self.attest_type.list(out);
            self.qualified_signer.list(out);
            self.extra_data.list(out);
            self.clock_info.list(out);
            self.firmware_version.list(out);
            self.attested.list(out);
        });
    }
}
