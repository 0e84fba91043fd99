//! Rebuilt, not the crate's. The names are those that data/mod.rs, tpmu.rs and tpmt.rs use; the values are docs/FORMAT.md's where it has one.

pub const MAX_DIGEST_SIZE: usize = 64;
pub const MAX_ECC_KEY_BYTES: usize = 66;
pub const MAX_RSA_KEY_BYTES: usize = 512;
/// Forced to be `MAX_RSA_KEY_BYTES / 2`: tpmu.rs:448 binds buffers of both limits by one name.
pub const MAX_SENSITIVE_DATA: usize = 256;
pub const MAX_SYM_KEY_BYTES: usize = 32;
pub const MAX_DATA_SIZE: usize = 66;
pub const MAX_NV_BUFFER_SIZE: usize = 2048;

// Not named by the text. docs/FORMAT.md, sections 7 and 1.
pub const PCR_SELECT_MAX: usize = 4;
pub const TPM_GENERATED_VALUE: u32 = 0xff54_4347;

// Named by the text, with values from nowhere. No reader or writer of a kind looks at the first three; the last is in `SIZE` alone.
pub const MAX_BUFFER_SIZE: usize = 1024;
pub const MAX_EVENT_SIZE: usize = 1024;
pub const MAX_PRIVATE_SIZE: usize = 1408;
pub const TPM_MAX_COMMAND_SIZE: usize = 4096;
