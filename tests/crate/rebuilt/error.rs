//! Rebuilt, not the crate's. The first six variants are forced, with their fields, by the text, which makes them and never looks into one.
//! The rebuilt modules make the seventh alone: so a refusal tells whether the text or a rebuilt module made it.

pub type TpmResult<T> = Result<T, TpmError>;

/// What a rebuilt module refuses.
#[derive(Debug, PartialEq, Eq, Clone, Copy)]
pub enum Fault {
    /// Fewer bytes than the value says are left for a number, a code or a buffer's body.
    End,
    /// A code that is not listed.
    Code,
    /// The length of a buffer or of a PCR selection is above its limit.
    Length,
    /// A yes/no byte that is neither, another magic, a number too great for its width; beside the adapted text another tag of a ticket.
    Value,
    /// Writing: the arm held is not the selector's.
    Arm,
    /// Bytes behind a view. The trait asks for a call that can say so; no program here makes it.
    Tail,
}

#[derive(Debug, PartialEq, Eq, Clone, Copy)]
pub enum TpmError {
    BufferOverflow { offset: usize, needed: usize, available: usize },
    IntegerTooLarge { offset: usize, value: u64 },
    TooManyItems { offset: usize, limit: usize, actual: usize },
    TrailingData { offset: usize, actual: usize },
    UnexpectedEnd { offset: usize, needed: usize, available: usize },
    VariantNotAvailable { offset: usize, value: u64 },
    /// `available` is for `End` alone, and 0 elsewhere.
    Rebuilt { fault: Fault, offset: usize, value: u64, available: usize },
}

impl TpmError {
    /// A refusal of a rebuilt module. The value is the one that docs/FORMAT.md gives to such a refusal.
    #[must_use]
    pub fn rebuilt(fault: Fault, offset: usize, value: usize) -> Self {
        Self::Rebuilt { fault, offset, value: tpm_value(value), available: 0 }
    }

    /// A leaf that is cut. As in the text's own UnexpectedEnd, `available` is the length of the slice in which the missing bytes should stand.
    #[must_use]
    pub fn end(offset: usize, needed: usize, available: usize) -> Self {
        Self::Rebuilt { fault: Fault::End, offset, value: tpm_value(needed), available }
    }

    /// Moves the offset by what stands ahead. The name is forced (tpmt.rs:85); that it adds, and moves nothing else, is a guess.
    #[must_use]
    pub fn rebase(self, base: usize) -> Self {
        let mut moved = self;
        match &mut moved {
            Self::BufferOverflow { offset, .. }
            | Self::IntegerTooLarge { offset, .. }
            | Self::TooManyItems { offset, .. }
            | Self::TrailingData { offset, .. }
            | Self::UnexpectedEnd { offset, .. }
            | Self::VariantNotAvailable { offset, .. }
            | Self::Rebuilt { offset, .. } => *offset = offset.saturating_add(base),
        }
        moved
    }
}

/// A size as an error's value (list.rs:227).
#[must_use]
pub fn tpm_value(value: usize) -> u64 {
    u64::try_from(value).unwrap_or(u64::MAX)
}

/// lib.rs names it and nothing calls it; what it does is a guess.
#[must_use]
pub fn tpm_offset(whole: &[u8], rest: &[u8]) -> usize {
    whole.len().saturating_sub(rest.len())
}
