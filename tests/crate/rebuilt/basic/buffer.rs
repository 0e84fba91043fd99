//! Rebuilt, not the crate's. A sized buffer: a 2-byte length, judged against the limit ahead of the body (docs/FORMAT.md, sections 2 and 4), then
//! the bytes. Forced are the names, `Deref` to bytes, `Default` and `TryFrom` (tpmu.rs:241, 323).

use crate::{TpmCast, TpmError, TpmField, TpmMarshal, TpmResult, TpmSized, TpmUnmarshal, TpmWriter, basic::TpmUint16, error::Fault};
use core::{
    fmt::{Debug, Formatter},
    ops::Deref,
};

/// Owned bytes, at most `CAPACITY`.
#[derive(Clone, Copy)]
pub struct TpmBuffer<const CAPACITY: usize> {
    bytes: [u8; CAPACITY],
    len: usize,
}

fn within(actual: usize, limit: usize) -> TpmResult<()> {
    if actual > limit {
        return Err(TpmError::rebuilt(Fault::Length, 0, actual));
    }
    Ok(())
}

/// The bytes of a sized buffer, and what follows.
fn sized_bytes(buffer: &[u8], limit: usize) -> TpmResult<(&[u8], &[u8])> {
    let (size, rest) = TpmUint16::unmarshal(buffer)?;
    let size = usize::from(size.value());
    within(size, limit)?;
    rest.split_at_checked(size).ok_or(TpmError::end(TpmUint16::SIZE, size, rest.len()))
}

impl<const CAPACITY: usize> Deref for TpmBuffer<CAPACITY> {
    type Target = [u8];

    fn deref(&self) -> &Self::Target {
        &self.bytes[..self.len]
    }
}

impl<const CAPACITY: usize> Default for TpmBuffer<CAPACITY> {
    fn default() -> Self {
        Self { bytes: [0; CAPACITY], len: 0 }
    }
}

impl<const CAPACITY: usize> TryFrom<&[u8]> for TpmBuffer<CAPACITY> {
    type Error = TpmError;

    fn try_from(source: &[u8]) -> Result<Self, Self::Error> {
        within(source.len(), CAPACITY)?;
        let mut buffer = Self::default();
        buffer.bytes[..source.len()].copy_from_slice(source);
        buffer.len = source.len();
        Ok(buffer)
    }
}

impl<const CAPACITY: usize> Debug for TpmBuffer<CAPACITY> {
    fn fmt(&self, f: &mut Formatter<'_>) -> core::fmt::Result {
        Debug::fmt(&**self, f)
    }
}

impl<const CAPACITY: usize> PartialEq for TpmBuffer<CAPACITY> {
    fn eq(&self, other: &Self) -> bool {
        **self == **other
    }
}

impl<const CAPACITY: usize> Eq for TpmBuffer<CAPACITY> {}

impl<const CAPACITY: usize> TpmSized for TpmBuffer<CAPACITY> {
    const SIZE: usize = TpmUint16::SIZE + CAPACITY;
    fn len(&self) -> usize {
        TpmUint16::SIZE + self.len
    }
}

impl<const CAPACITY: usize> TpmMarshal for TpmBuffer<CAPACITY> {
    fn marshal(&self, writer: &mut TpmWriter) -> TpmResult<()> {
        TpmUint16::try_from(self.len)?.marshal(writer)?;
        writer.write_bytes(self)
    }
}

impl<const CAPACITY: usize> TpmUnmarshal for TpmBuffer<CAPACITY> {
    fn unmarshal(buffer: &[u8]) -> TpmResult<(Self, &[u8])> {
        let (bytes, buffer) = sized_bytes(buffer, CAPACITY)?;
        Ok((Self::try_from(bytes)?, buffer))
    }
}

/// A borrowed sized buffer, its length in front.
#[repr(transparent)]
pub struct Tpm2b<const CAPACITY: usize>([u8]);

crate::tpm_byte_view!(Tpm2b<const CAPACITY: usize>);

impl<const CAPACITY: usize> TpmCast for Tpm2b<CAPACITY> {
    fn cast(buf: &[u8]) -> TpmResult<&Self> {
        crate::tpm_whole_view!(buf)
    }

    fn cast_prefix(buf: &[u8]) -> TpmResult<(&Self, &[u8])> {
        let (_, tail) = sized_bytes(buf, CAPACITY)?;
        let (head, tail) = buf.split_at(buf.len() - tail.len());
        // SAFETY: `head` is a length within the limit and that many bytes.
        Ok((unsafe { Self::cast_unchecked(head) }, tail))
    }

    unsafe fn cast_unchecked(buf: &[u8]) -> &Self {
        // SAFETY: the caller's.
        unsafe { Self::cast_unchecked(buf) }
    }
}

impl<'a, const CAPACITY: usize> TpmField<'a> for TpmBuffer<CAPACITY> {
    type View = &'a Tpm2b<CAPACITY>;

    fn cast_prefix_field(buf: &'a [u8]) -> TpmResult<(Self::View, &'a [u8])> {
        <Tpm2b<CAPACITY> as TpmCast>::cast_prefix(buf)
    }
}
