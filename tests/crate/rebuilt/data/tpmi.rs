//! Rebuilt, not the crate's, and nothing of it is forced: a byte that is 0 or 1 (docs/FORMAT.md, section 1).

use crate::{TpmError, TpmField, TpmMarshal, TpmResult, TpmSized, TpmUnmarshal, TpmWriter, basic::TpmUint8, error::Fault};

#[derive(Debug, PartialEq, Eq, Clone, Copy, Default)]
pub struct TpmiYesNo(pub bool);

impl TpmSized for TpmiYesNo {
    const SIZE: usize = 1;
    fn len(&self) -> usize {
        Self::SIZE
    }
}

impl TpmMarshal for TpmiYesNo {
    fn marshal(&self, writer: &mut TpmWriter) -> TpmResult<()> {
        writer.write_bytes(&[u8::from(self.0)])
    }
}

impl TpmUnmarshal for TpmiYesNo {
    fn unmarshal(buffer: &[u8]) -> TpmResult<(Self, &[u8])> {
        let (raw, buffer) = TpmUint8::unmarshal(buffer)?;
        match raw.value() {
            0 => Ok((Self(false), buffer)),
            1 => Ok((Self(true), buffer)),
            other => Err(TpmError::rebuilt(Fault::Value, 0, usize::from(other))),
        }
    }
}

impl<'a> TpmField<'a> for TpmiYesNo {
    type View = Self;

    fn cast_prefix_field(buf: &'a [u8]) -> TpmResult<(Self::View, &'a [u8])> {
        Self::unmarshal(buf)
    }
}
