//! Rebuilt, not the crate's. Forced are the names that the text has in its patterns, that a code is such a pattern and has `value()`, and that its
//! view is itself (tpmt.rs:52). No number is in the text. The codes that our format takes are docs/FORMAT.md's (section 3), the other structure
//! tags, handle types and permanent handles Part 2's. Which code is the default is a guess that no reader or writer uses.

use crate::tpm_enum;

tpm_enum! {
    pub enum TpmAlgId(u16, TpmUint16) {
        Rsa = 0x0001,
        Tdes = 0x0003,
        Sha1 = 0x0004,
        Hmac = 0x0005,
        Aes = 0x0006,
        Mgf1 = 0x0007,
        KeyedHash = 0x0008,
        Xor = 0x000a,
        Sha256 = 0x000b,
        Sha384 = 0x000c,
        Sha512 = 0x000d,
        #[default]
        Null = 0x0010,
        Sm3_256 = 0x0012,
        Sm4 = 0x0013,
        Rsassa = 0x0014,
        Rsaes = 0x0015,
        Rsapss = 0x0016,
        Oaep = 0x0017,
        Ecdsa = 0x0018,
        Ecdh = 0x0019,
        Ecdaa = 0x001a,
        Sm2 = 0x001b,
        Ecschnorr = 0x001c,
        Ecmqv = 0x001d,
        Kdf1Sp800_56A = 0x0020,
        Kdf2 = 0x0021,
        Kdf1Sp800_108 = 0x0022,
        Ecc = 0x0023,
        SymCipher = 0x0025,
        Camellia = 0x0026,
        Sha3_256 = 0x0027,
        Sha3_384 = 0x0028,
        Sha3_512 = 0x0029,
        Shake128 = 0x002a,
        Shake256 = 0x002b,
        Shake256_192 = 0x002c,
        Shake256_256 = 0x002d,
        Shake256_512 = 0x002e,
        Cmac = 0x003f,
        Ctr = 0x0040,
        Ofb = 0x0041,
        Cbc = 0x0042,
        Cfb = 0x0043,
        Ecb = 0x0044,
    }
}

tpm_enum! {
    pub enum TpmEccCurve(u16, TpmUint16) {
        #[default]
        None = 0x0000,
        NistP192 = 0x0001,
        NistP224 = 0x0002,
        NistP256 = 0x0003,
        NistP384 = 0x0004,
        NistP521 = 0x0005,
        BnP256 = 0x0010,
        BnP638 = 0x0011,
        Sm2P256 = 0x0020,
        BpP256R1 = 0x0030,
        BpP384R1 = 0x0031,
        BpP512R1 = 0x0032,
        Curve25519 = 0x0040,
        Curve448 = 0x0041,
    }
}

tpm_enum! {
    pub enum TpmSt(u16, TpmUint16) {
        RspCommand = 0x00c4,
        #[default]
        Null = 0x8000,
        NoSessions = 0x8001,
        Sessions = 0x8002,
        AttestNv = 0x8014,
        AttestCommandAudit = 0x8015,
        AttestSessionAudit = 0x8016,
        AttestCertify = 0x8017,
        AttestQuote = 0x8018,
        AttestTime = 0x8019,
        AttestCreation = 0x801a,
        AttestNvDigest = 0x801c,
        Creation = 0x8021,
        Verified = 0x8022,
        AuthSecret = 0x8023,
        Hashcheck = 0x8024,
        AuthSigned = 0x8025,
        FuManifest = 0x8029,
    }
}

// The text does not name PcrProperties: its union has no arm for it.
tpm_enum! {
    pub enum TpmCap(u32, TpmUint32) {
        #[default]
        Algs = 0x0000_0000,
        Handles = 0x0000_0001,
        Commands = 0x0000_0002,
        PpCommands = 0x0000_0003,
        AuditCommands = 0x0000_0004,
        Pcrs = 0x0000_0005,
        TpmProperties = 0x0000_0006,
        PcrProperties = 0x0000_0007,
        EccCurves = 0x0000_0008,
        AuthPolicies = 0x0000_0009,
        Act = 0x0000_000a,
    }
}

// The text names the three of NV areas; their union has no arm for the others.
#[cfg(not(adapted))]
tpm_enum! {
    pub enum TpmHt(u8, TpmUint8) {
        #[default]
        Pcr = 0x00,
        NvIndex = 0x01,
        HmacSession = 0x02,
        PolicySession = 0x03,
        ExternalNv = 0x11,
        PermanentNv = 0x12,
        Permanent = 0x40,
        Transient = 0x80,
        Persistent = 0x81,
        Ac = 0x90,
    }
}

// The text names none of these: which permanent handles the crate has is not known. The first fourteen of Part 2.
#[cfg(not(adapted))]
tpm_enum! {
    pub enum TpmRh(u32, TpmUint32) {
        Srk = 0x4000_0000,
        Owner = 0x4000_0001,
        Revoke = 0x4000_0002,
        Transport = 0x4000_0003,
        Operator = 0x4000_0004,
        Admin = 0x4000_0005,
        Ek = 0x4000_0006,
        #[default]
        Null = 0x4000_0007,
        Unassigned = 0x4000_0008,
        Password = 0x4000_0009,
        Lockout = 0x4000_000a,
        Endorsement = 0x4000_000b,
        Platform = 0x4000_000c,
        PlatformNv = 0x4000_000d,
    }
}

// Beside the adapted text both have what docs/FORMAT.md lists, so that another is refused where it stands.

#[cfg(adapted)]
tpm_enum! {
    pub enum TpmHt(u8, TpmUint8) {
        #[default]
        NvIndex = 0x01,
        ExternalNv = 0x11,
        PermanentNv = 0x12,
    }
}

#[cfg(adapted)]
tpm_enum! {
    pub enum TpmRh(u32, TpmUint32) {
        Owner = 0x4000_0001,
        #[default]
        Null = 0x4000_0007,
        Endorsement = 0x4000_000b,
        Platform = 0x4000_000c,
    }
}
