//! Rebuilt, not the crate's. Forced are the names, and which unions hold which structure. The fields and their order are Part 2's, as
//! docs/FORMAT.md has them (sections 6 and 7); that no structure here moves an offset is a guess.

use super::{
    Tpm2bData, Tpm2bDigest, Tpm2bEccParameter, Tpm2bMaxNvBuffer, Tpm2bName, Tpm2bPublicKeyRsa, TpmAlgId, TpmCap, TpmEccCurve, TpmSt, TpmaAct,
    TpmaAlgorithm, TpmaNv, TpmaNvExp, TpmiYesNo, TpmlPcrSelection, TpmtEccScheme, TpmtHa, TpmtKdfScheme, TpmtKeyedhashScheme, TpmtRsaScheme,
    TpmtSymDefObject, TpmuAttest, TpmuCapabilities,
};
use crate::{
    TpmError, TpmField, TpmMarshal, TpmResult, TpmSized, TpmUnmarshal, TpmUnmarshalTagged, TpmWriter,
    basic::{TpmUint8, TpmUint16, TpmUint32, TpmUint64},
    constant::{PCR_SELECT_MAX, TPM_GENERATED_VALUE},
    error::Fault,
    tpm_struct,
};

tpm_struct! {
    #[derive(Debug, PartialEq, Eq, Clone, Copy, Default)]
    wire: TpmsSchemeHashWire,
    pub struct TpmsSchemeHash {
        pub hash_alg: TpmAlgId,
    }
}

/// Forced to be one type with the hash scheme: tpmu.rs:698 binds both by one name.
pub type TpmsSchemeHmac = TpmsSchemeHash;

// For the adapted text alone: the crate's names no such structure (docs/DIFFERENCES.md, 2.10).
#[cfg(adapted)]
tpm_struct! {
    #[derive(Debug, PartialEq, Eq, Clone, Copy, Default)]
    wire: TpmsSchemeEcdaaWire,
    pub struct TpmsSchemeEcdaa {
        pub hash_alg: TpmAlgId,
        pub count: TpmUint16,
    }
}

tpm_struct! {
    #[derive(Debug, PartialEq, Eq, Clone, Copy, Default)]
    wire: TpmsSchemeXorWire,
    pub struct TpmsSchemeXor {
        pub hash_alg: TpmAlgId,
        pub kdf: TpmAlgId,
    }
}

tpm_struct! {
    #[derive(Debug, PartialEq, Eq, Clone, Copy, Default)]
    wire: TpmsKeyedhashParmsWire,
    pub struct TpmsKeyedhashParms {
        pub scheme: TpmtKeyedhashScheme,
    }
}

tpm_struct! {
    #[derive(Debug, PartialEq, Eq, Clone, Copy, Default)]
    wire: TpmsSymcipherParmsWire,
    pub struct TpmsSymcipherParms {
        pub sym: TpmtSymDefObject,
    }
}

tpm_struct! {
    #[derive(Debug, PartialEq, Eq, Clone, Copy, Default)]
    wire: TpmsRsaParmsWire,
    pub struct TpmsRsaParms {
        pub symmetric: TpmtSymDefObject,
        pub scheme: TpmtRsaScheme,
        pub key_bits: TpmUint16,
        pub exponent: TpmUint32,
    }
}

tpm_struct! {
    #[derive(Debug, PartialEq, Eq, Clone, Copy, Default)]
    wire: TpmsEccParmsWire,
    pub struct TpmsEccParms {
        pub symmetric: TpmtSymDefObject,
        pub scheme: TpmtEccScheme,
        pub curve_id: TpmEccCurve,
        pub kdf: TpmtKdfScheme,
    }
}

tpm_struct! {
    #[derive(Debug, PartialEq, Eq, Clone, Copy, Default)]
    wire: TpmsEccPointWire,
    pub struct TpmsEccPoint {
        pub x: Tpm2bEccParameter,
        pub y: Tpm2bEccParameter,
    }
}

tpm_struct! {
    #[derive(Debug, PartialEq, Eq, Clone, Copy, Default)]
    wire: TpmsSignatureRsaWire,
    pub struct TpmsSignatureRsa {
        pub hash: TpmAlgId,
        pub sig: Tpm2bPublicKeyRsa,
    }
}

tpm_struct! {
    #[derive(Debug, PartialEq, Eq, Clone, Copy, Default)]
    wire: TpmsSignatureEccWire,
    pub struct TpmsSignatureEcc {
        pub hash: TpmAlgId,
        pub signature_r: Tpm2bEccParameter,
        pub signature_s: Tpm2bEccParameter,
    }
}

tpm_struct! {
    #[derive(Debug, PartialEq, Eq, Clone, Copy, Default)]
    wire: TpmsClockInfoWire,
    pub struct TpmsClockInfo {
        pub clock: TpmUint64,
        pub reset_count: TpmUint32,
        pub restart_count: TpmUint32,
        pub safe: TpmiYesNo,
    }
}

tpm_struct! {
    #[derive(Debug, PartialEq, Eq, Clone, Copy, Default)]
    wire: TpmsTimeInfoWire,
    pub struct TpmsTimeInfo {
        pub time: TpmUint64,
        pub clock_info: TpmsClockInfo,
    }
}

tpm_struct! {
    #[derive(Debug, PartialEq, Eq, Clone, Copy, Default)]
    wire: TpmsCertifyInfoWire,
    pub struct TpmsCertifyInfo {
        pub name: Tpm2bName,
        pub qualified_name: Tpm2bName,
    }
}

tpm_struct! {
    #[derive(Debug, PartialEq, Eq, Clone, Copy, Default)]
    wire: TpmsCreationInfoWire,
    pub struct TpmsCreationInfo {
        pub object_name: Tpm2bName,
        pub creation_hash: Tpm2bDigest,
    }
}

tpm_struct! {
    #[derive(Debug, PartialEq, Eq, Clone, Copy, Default)]
    wire: TpmsQuoteInfoWire,
    pub struct TpmsQuoteInfo {
        pub pcr_select: TpmlPcrSelection,
        pub pcr_digest: Tpm2bDigest,
    }
}

tpm_struct! {
    #[derive(Debug, PartialEq, Eq, Clone, Copy, Default)]
    wire: TpmsCommandAuditInfoWire,
    pub struct TpmsCommandAuditInfo {
        pub audit_counter: TpmUint64,
        pub digest_alg: TpmAlgId,
        pub audit_digest: Tpm2bDigest,
        pub command_digest: Tpm2bDigest,
    }
}

tpm_struct! {
    #[derive(Debug, PartialEq, Eq, Clone, Copy, Default)]
    wire: TpmsSessionAuditInfoWire,
    pub struct TpmsSessionAuditInfo {
        pub exclusive_session: TpmiYesNo,
        pub session_digest: Tpm2bDigest,
    }
}

tpm_struct! {
    #[derive(Debug, PartialEq, Eq, Clone, Copy, Default)]
    wire: TpmsTimeAttestInfoWire,
    pub struct TpmsTimeAttestInfo {
        pub time: TpmsTimeInfo,
        pub firmware_version: TpmUint64,
    }
}

tpm_struct! {
    #[derive(Debug, PartialEq, Eq, Clone, Copy, Default)]
    wire: TpmsNvCertifyInfoWire,
    pub struct TpmsNvCertifyInfo {
        pub index_name: Tpm2bName,
        pub offset: TpmUint16,
        pub nv_contents: Tpm2bMaxNvBuffer,
    }
}

tpm_struct! {
    #[derive(Debug, PartialEq, Eq, Clone, Copy, Default)]
    wire: TpmsNvDigestCertifyInfoWire,
    pub struct TpmsNvDigestCertifyInfo {
        pub index_name: Tpm2bName,
        pub nv_digest: Tpm2bDigest,
    }
}

/// The magic is judged when it is read, and is not kept.
#[derive(Debug, PartialEq, Eq, Clone)]
pub struct TpmsAttest {
    pub attest_type: TpmSt,
    pub qualified_signer: Tpm2bName,
    pub extra_data: Tpm2bData,
    pub clock_info: TpmsClockInfo,
    pub firmware_version: TpmUint64,
    pub attested: TpmuAttest,
}

impl TpmSized for TpmsAttest {
    const SIZE: usize = TpmUint32::SIZE
        + TpmSt::SIZE
        + Tpm2bName::SIZE
        + Tpm2bData::SIZE
        + TpmsClockInfo::SIZE
        + TpmUint64::SIZE
        + TpmuAttest::SIZE;
    fn len(&self) -> usize {
        TpmUint32::SIZE
            + self.attest_type.len()
            + self.qualified_signer.len()
            + self.extra_data.len()
            + self.clock_info.len()
            + self.firmware_version.len()
            + self.attested.len()
    }
}

impl TpmMarshal for TpmsAttest {
    /// In the form of the text's tagged structures: the arm is tested ahead of the first byte (tpmt.rs:38).
    fn marshal(&self, writer: &mut TpmWriter) -> TpmResult<()> {
        if !self.attested.matches_tag(self.attest_type) {
            return Err(TpmError::rebuilt(Fault::Arm, writer.len(), usize::from(self.attest_type.value())));
        }

        TpmUint32::from(TPM_GENERATED_VALUE).marshal(writer)?;
        self.attest_type.marshal(writer)?;
        self.qualified_signer.marshal(writer)?;
        self.extra_data.marshal(writer)?;
        self.clock_info.marshal(writer)?;
        self.firmware_version.marshal(writer)?;
        self.attested.marshal(writer)
    }
}

/// Beside the adapted text a type without an arm is refused where it stands, as docs/FORMAT.md has it. Which types have one, the union says.
#[cfg(adapted)]
fn judge_type(attest_type: TpmSt) -> TpmResult<()> {
    match TpmuAttest::unmarshal_tagged(attest_type, &[]) {
        Err(TpmError::VariantNotAvailable { value, .. }) => Err(TpmError::Rebuilt { fault: Fault::Code, offset: 0, value, available: 0 }),
        _ => Ok(()),
    }
}

/// Any structure tag is taken. What the crate does is not known; its union refuses all but the eight (tpmu.rs:640).
#[cfg(not(adapted))]
fn judge_type(_: TpmSt) -> TpmResult<()> {
    Ok(())
}

impl TpmUnmarshal for TpmsAttest {
    fn unmarshal(buffer: &[u8]) -> TpmResult<(Self, &[u8])> {
        let (magic, buffer) = TpmUint32::unmarshal(buffer)?;
        if magic.value() != TPM_GENERATED_VALUE {
            return Err(TpmError::Rebuilt { fault: Fault::Value, offset: 0, value: u64::from(magic.value()), available: 0 });
        }
        let (attest_type, buffer) = TpmSt::unmarshal(buffer)?;
        judge_type(attest_type)?;
        let (qualified_signer, buffer) = Tpm2bName::unmarshal(buffer)?;
        let (extra_data, buffer) = Tpm2bData::unmarshal(buffer)?;
        let (clock_info, buffer) = TpmsClockInfo::unmarshal(buffer)?;
        let (firmware_version, buffer) = TpmUint64::unmarshal(buffer)?;
        let (attested, buffer) = TpmuAttest::unmarshal_tagged(attest_type, buffer)?;

        Ok((Self { attest_type, qualified_signer, extra_data, clock_info, firmware_version, attested }, buffer))
    }
}

/// The bits of a bank: a 1-byte size, at most `PCR_SELECT_MAX`, then that many bytes.
#[derive(Debug, PartialEq, Eq, Clone, Copy, Default)]
pub struct TpmsPcrSelect {
    size: u8,
    bits: [u8; PCR_SELECT_MAX],
}

impl TpmsPcrSelect {
    #[must_use]
    pub fn bits(&self) -> &[u8] {
        &self.bits[..usize::from(self.size)]
    }
}

impl TpmSized for TpmsPcrSelect {
    const SIZE: usize = 1 + PCR_SELECT_MAX;
    fn len(&self) -> usize {
        1 + usize::from(self.size)
    }
}

impl TpmMarshal for TpmsPcrSelect {
    fn marshal(&self, writer: &mut TpmWriter) -> TpmResult<()> {
        writer.write_bytes(&[self.size])?;
        writer.write_bytes(self.bits())
    }
}

impl TpmUnmarshal for TpmsPcrSelect {
    fn unmarshal(buffer: &[u8]) -> TpmResult<(Self, &[u8])> {
        let (size, rest) = TpmUint8::unmarshal(buffer)?;
        let size = size.value();
        let wanted = usize::from(size);
        if wanted > PCR_SELECT_MAX {
            return Err(TpmError::rebuilt(Fault::Length, 0, wanted));
        }
        let (head, tail) = rest.split_at_checked(wanted).ok_or(TpmError::end(1, wanted, rest.len()))?;
        let mut bits = [0; PCR_SELECT_MAX];
        bits[..wanted].copy_from_slice(head);
        Ok((Self { size, bits }, tail))
    }
}

impl<'a> TpmField<'a> for TpmsPcrSelect {
    type View = Self;

    fn cast_prefix_field(buf: &'a [u8]) -> TpmResult<(Self::View, &'a [u8])> {
        Self::unmarshal(buf)
    }
}

tpm_struct! {
    #[derive(Debug, PartialEq, Eq, Clone, Copy, Default)]
    wire: TpmsPcrSelectionWire,
    pub struct TpmsPcrSelection {
        pub hash: TpmAlgId,
        pub pcr_select: TpmsPcrSelect,
    }
}

tpm_struct! {
    #[derive(Debug, PartialEq, Eq, Clone, Copy, Default)]
    wire: TpmsAlgPropertyWire,
    pub struct TpmsAlgProperty {
        pub alg: TpmAlgId,
        pub alg_properties: TpmaAlgorithm,
    }
}

tpm_struct! {
    #[derive(Debug, PartialEq, Eq, Clone, Copy, Default)]
    wire: TpmsTaggedPropertyWire,
    pub struct TpmsTaggedProperty {
        pub property: TpmUint32,
        pub value: TpmUint32,
    }
}

tpm_struct! {
    #[derive(Debug, PartialEq, Eq, Clone, Copy, Default)]
    wire: TpmsTaggedPolicyWire,
    pub struct TpmsTaggedPolicy {
        pub handle: TpmUint32,
        pub policy_hash: TpmtHa,
    }
}

tpm_struct! {
    #[derive(Debug, PartialEq, Eq, Clone, Copy, Default)]
    wire: TpmsActDataWire,
    pub struct TpmsActData {
        pub handle: TpmUint32,
        pub timeout: TpmUint32,
        pub attributes: TpmaAct,
    }
}

#[derive(Debug, PartialEq, Eq, Clone)]
pub struct TpmsCapabilityData {
    pub capability: TpmCap,
    pub data: TpmuCapabilities,
}

impl TpmSized for TpmsCapabilityData {
    const SIZE: usize = TpmCap::SIZE + TpmuCapabilities::SIZE;
    fn len(&self) -> usize {
        self.capability.len() + self.data.len()
    }
}

impl TpmMarshal for TpmsCapabilityData {
    /// In the form of the text's tagged structures: the arm is tested ahead of the first byte (tpmt.rs:38).
    fn marshal(&self, writer: &mut TpmWriter) -> TpmResult<()> {
        if !self.data.matches_tag(self.capability) {
            let value = u64::from(self.capability.value());
            return Err(TpmError::Rebuilt { fault: Fault::Arm, offset: writer.len(), value, available: 0 });
        }

        self.capability.marshal(writer)?;
        self.data.marshal(writer)
    }
}

impl TpmUnmarshal for TpmsCapabilityData {
    fn unmarshal(buffer: &[u8]) -> TpmResult<(Self, &[u8])> {
        let (capability, buffer) = TpmCap::unmarshal(buffer)?;
        let (data, buffer) = TpmuCapabilities::unmarshal_tagged(capability, buffer)?;

        Ok((Self { capability, data }, buffer))
    }
}

tpm_struct! {
    #[derive(Debug, PartialEq, Eq, Clone, Copy, Default)]
    wire: TpmsNvPublicWire,
    pub struct TpmsNvPublic {
        pub nv_index: TpmUint32,
        pub name_alg: TpmAlgId,
        pub attributes: TpmaNv,
        pub auth_policy: Tpm2bDigest,
        pub data_size: TpmUint16,
    }
}

tpm_struct! {
    #[derive(Debug, PartialEq, Eq, Clone, Copy, Default)]
    wire: TpmsNvPublicExpAttrWire,
    pub struct TpmsNvPublicExpAttr {
        pub nv_index: TpmUint32,
        pub name_alg: TpmAlgId,
        pub attributes: TpmaNvExp,
        pub auth_policy: Tpm2bDigest,
        pub data_size: TpmUint16,
    }
}

// For the adapted text alone: the tag of a ticket, one of two values that may be the same. Another is refused where it stands, as docs/FORMAT.md has
// it; one that is put there by hand is not judged.
#[cfg(adapted)]
#[derive(Debug, PartialEq, Eq, Clone, Copy, Default)]
pub struct TpmTicketTag<const ONE: u16, const OTHER: u16>(pub TpmSt);

#[cfg(adapted)]
impl<const ONE: u16, const OTHER: u16> TpmTicketTag<ONE, OTHER> {
    #[must_use]
    pub const fn value(self) -> u16 {
        self.0.value()
    }
}

#[cfg(adapted)]
impl<const ONE: u16, const OTHER: u16> From<TpmSt> for TpmTicketTag<ONE, OTHER> {
    fn from(tag: TpmSt) -> Self {
        Self(tag)
    }
}

#[cfg(adapted)]
impl<const ONE: u16, const OTHER: u16> TpmSized for TpmTicketTag<ONE, OTHER> {
    const SIZE: usize = TpmSt::SIZE;
    fn len(&self) -> usize {
        Self::SIZE
    }
}

#[cfg(adapted)]
impl<const ONE: u16, const OTHER: u16> TpmMarshal for TpmTicketTag<ONE, OTHER> {
    fn marshal(&self, writer: &mut TpmWriter) -> TpmResult<()> {
        self.0.marshal(writer)
    }
}

#[cfg(adapted)]
impl<const ONE: u16, const OTHER: u16> TpmUnmarshal for TpmTicketTag<ONE, OTHER> {
    fn unmarshal(buffer: &[u8]) -> TpmResult<(Self, &[u8])> {
        let (raw, buffer) = TpmUint16::unmarshal(buffer)?;
        match raw.value() {
            tag if tag == ONE || tag == OTHER => Ok((Self(TpmSt::try_from(tag)?), buffer)),
            other => Err(TpmError::rebuilt(Fault::Value, 0, usize::from(other))),
        }
    }
}

#[cfg(adapted)]
impl<'a, const ONE: u16, const OTHER: u16> TpmField<'a> for TpmTicketTag<ONE, OTHER> {
    type View = Self;

    fn cast_prefix_field(buf: &'a [u8]) -> TpmResult<(Self::View, &'a [u8])> {
        Self::unmarshal(buf)
    }
}

// Named by data/mod.rs alone: nothing there reads or writes them.

#[derive(Debug, PartialEq, Eq, Clone, Copy, Default)]
pub struct TpmsAcOutput;

#[derive(Debug, PartialEq, Eq, Clone, Copy, Default)]
pub struct TpmsSensitiveCreate;

#[derive(Debug, PartialEq, Eq, Clone, Copy, Default)]
pub struct TpmsCreationData;
