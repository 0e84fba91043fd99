//! Rebuilt, not the crate's. Attributes: any number of the width, which is docs/FORMAT.md's too (section 7).

use crate::tpm_attributes;

tpm_attributes!(TpmaObject, u32, TpmUint32);
tpm_attributes!(TpmaNv, u32, TpmUint32);
tpm_attributes!(TpmaNvExp, u64, TpmUint64);
tpm_attributes!(TpmaAlgorithm, u32, TpmUint32);
tpm_attributes!(TpmaCc, u32, TpmUint32);
tpm_attributes!(TpmaAct, u32, TpmUint32);
// A command code: the text names the type and none of its values. That it is any number is docs/FORMAT.md's.
tpm_attributes!(TpmCc, u32, TpmUint32);
