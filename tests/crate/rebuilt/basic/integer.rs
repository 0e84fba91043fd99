//! Rebuilt, not the crate's. Numbers, read by value, and big-endian, as the text says (lib.rs:25). Forced is that a number is as wide in memory
//! as on the wire (list.rs:17, tpmu.rs:481). Which widths there are and how a missing byte is refused: docs/FORMAT.md, sections 1 and 2.

use crate::{TpmError, TpmField, TpmMarshal, TpmResult, TpmSized, TpmUnmarshal, TpmWriter, error::Fault};

macro_rules! tpm_uint {
    ($name:ident, $raw:ty) => {
        #[derive(Debug, PartialEq, Eq, Clone, Copy, Default)]
        #[repr(transparent)]
        pub struct $name($raw);

        impl $name {
            #[must_use]
            pub const fn value(self) -> $raw {
                self.0
            }
        }

        impl From<$raw> for $name {
            fn from(value: $raw) -> Self {
                Self(value)
            }
        }

        // Forced by list.rs:473.
        impl TryFrom<usize> for $name {
            type Error = TpmError;

            fn try_from(value: usize) -> Result<Self, Self::Error> {
                <$raw>::try_from(value).map(Self).map_err(|_| TpmError::rebuilt(Fault::Value, 0, value))
            }
        }

        impl TpmSized for $name {
            const SIZE: usize = core::mem::size_of::<$raw>();
            fn len(&self) -> usize {
                Self::SIZE
            }
        }

        impl TpmMarshal for $name {
            fn marshal(&self, writer: &mut TpmWriter) -> TpmResult<()> {
                writer.write_bytes(&self.0.to_be_bytes())
            }
        }

        impl TpmUnmarshal for $name {
            fn unmarshal(buffer: &[u8]) -> TpmResult<(Self, &[u8])> {
                let Some((head, tail)) = buffer.split_first_chunk() else {
                    return Err(TpmError::end(0, Self::SIZE, buffer.len()));
                };
                Ok((Self(<$raw>::from_be_bytes(*head)), tail))
            }
        }

        impl<'a> TpmField<'a> for $name {
            type View = Self;

            fn cast_prefix_field(buf: &'a [u8]) -> TpmResult<(Self::View, &'a [u8])> {
                <Self as TpmUnmarshal>::unmarshal(buf)
            }
        }
    };
}

tpm_uint!(TpmUint8, u8);
tpm_uint!(TpmUint16, u16);
tpm_uint!(TpmUint32, u32);
tpm_uint!(TpmUint64, u64);
