//! Rebuilt, not the crate's. The macros that the text calls, in the forms in which it calls them, and three for the rebuilt modules.

/// Forced: the unchecked casts of a transparent byte view (lib.rs:111, 247, list.rs:358).
#[macro_export]
macro_rules! tpm_byte_view {
    (array $name:ident<const $n:ident: usize>) => {
        impl<const $n: usize> $name<$n> {
            /// # Safety
            ///
            /// `buf` has exactly the view's length.
            #[must_use]
            pub unsafe fn cast_unchecked(buf: &[u8]) -> &Self {
                // SAFETY: transparent over a byte array; the caller answers for the length.
                unsafe { &*buf.as_ptr().cast::<Self>() }
            }

            /// # Safety
            ///
            /// `buf` has exactly the view's length.
            #[must_use]
            pub unsafe fn cast_mut_unchecked(buf: &mut [u8]) -> &mut Self {
                // SAFETY: transparent over a byte array; the caller answers for the length.
                unsafe { &mut *buf.as_mut_ptr().cast::<Self>() }
            }
        }
    };
    ($name:ident<const $n:ident: usize>) => {
        impl<const $n: usize> $name<$n> {
            $crate::tpm_byte_view!(@casts);
        }
    };
    ($name:ident) => {
        impl $name {
            $crate::tpm_byte_view!(@casts);
        }
    };
    (@casts) => {
        /// # Safety
        ///
        /// `buf` satisfies the view's invariants.
        #[must_use]
        pub unsafe fn cast_unchecked(buf: &[u8]) -> &Self {
            // SAFETY: transparent over a byte slice.
            unsafe { &*(core::ptr::from_ref(buf) as *const Self) }
        }

        /// # Safety
        ///
        /// `buf` satisfies the view's invariants.
        #[must_use]
        pub unsafe fn cast_mut_unchecked(buf: &mut [u8]) -> &mut Self {
            // SAFETY: transparent over a byte slice.
            unsafe { &mut *(core::ptr::from_mut(buf) as *mut Self) }
        }
    };
}

/// A sized buffer is a name for `TpmBuffer` of that limit. Forced: two of one limit are one type (tpmu.rs:448).
#[macro_export]
macro_rules! tpm2b {
    ($name:ident, $capacity:tt) => {
        pub type $name = $crate::basic::TpmBuffer<$capacity>;
    };
}

/// A list is a name for `TpmList` of that capacity.
#[macro_export]
macro_rules! tpml {
    ($name:ident, $item:ty, $capacity:tt) => {
        pub type $name = $crate::basic::TpmList<$item, $capacity>;
    };
}

/// The view of all of `buf`: `TpmCast` asks for such a call besides the one for a prefix.
#[macro_export]
macro_rules! tpm_whole_view {
    ($buf:ident) => {{
        let (value, tail) = <Self as $crate::TpmCast>::cast_prefix($buf)?;
        if tail.is_empty() {
            return Ok(value);
        }
        Err($crate::TpmError::rebuilt($crate::error::Fault::Tail, $buf.len() - tail.len(), tail.len()))
    }};
}

/// A byte view that is valid when the fields of those types follow one another in it.
#[macro_export]
macro_rules! tpm_wire {
    ($wire:ident, $name:ident { $($ty:ty,)* }) => {
        #[repr(transparent)]
        pub struct $wire([u8]);

        $crate::tpm_byte_view!($wire);

        impl $wire {
            #[must_use]
            pub const fn as_bytes(&self) -> &[u8] {
                &self.0
            }
        }

        impl $crate::TpmCast for $wire {
            fn cast(buf: &[u8]) -> $crate::TpmResult<&Self> {
                $crate::tpm_whole_view!(buf)
            }

            fn cast_prefix(buf: &[u8]) -> $crate::TpmResult<(&Self, &[u8])> {
                let rest = buf;
                $(let (_, rest) = <$ty as $crate::TpmField>::cast_prefix_field(rest)?;)*
                let (head, tail) = buf.split_at(buf.len() - rest.len());
                // SAFETY: the fields above were found one behind another.
                Ok((unsafe { Self::cast_unchecked(head) }, tail))
            }

            unsafe fn cast_unchecked(buf: &[u8]) -> &Self {
                // SAFETY: the caller's.
                unsafe { Self::cast_unchecked(buf) }
            }
        }

        impl<'a> $crate::TpmField<'a> for $name {
            type View = &'a $wire;

            fn cast_prefix_field(buf: &'a [u8]) -> $crate::TpmResult<(Self::View, &'a [u8])> {
                <$wire as $crate::TpmCast>::cast_prefix(buf)
            }
        }
    };
}

/// A structure whose fields follow one another. The form of the call is forced (tpmt.rs:412); that no offset is moved is a guess.
#[macro_export]
macro_rules! tpm_struct {
    (
        $(#[$outer:meta])*
        wire: $wire:ident,
        $vis:vis struct $name:ident {
            $(pub $field:ident: $ty:ty,)*
        }
    ) => {
        $(#[$outer])*
        $vis struct $name {
            $(pub $field: $ty,)*
        }

        impl $crate::TpmSized for $name {
            const SIZE: usize = 0 $(+ <$ty as $crate::TpmSized>::SIZE)*;
            fn len(&self) -> usize {
                0 $(+ $crate::TpmSized::len(&self.$field))*
            }
        }

        impl $crate::TpmMarshal for $name {
            fn marshal(&self, writer: &mut $crate::TpmWriter) -> $crate::TpmResult<()> {
                $($crate::TpmMarshal::marshal(&self.$field, writer)?;)*
                Ok(())
            }
        }

        impl $crate::TpmUnmarshal for $name {
            fn unmarshal(buffer: &[u8]) -> $crate::TpmResult<(Self, &[u8])> {
                $(let ($field, buffer) = <$ty as $crate::TpmUnmarshal>::unmarshal(buffer)?;)*
                Ok((Self { $($field,)* }, buffer))
            }
        }

        $crate::tpm_wire!($wire, $name { $($ty,)* });
    };
}

/// A structure inside a sized buffer: the name alone, which data/mod.rs asks for. No kind has one, so it is neither read nor written.
#[macro_export]
macro_rules! tpm2b_struct {
    (
        $(#[$outer:meta])*
        wire: $wire:ident,
        $name:ident,
        $inner:ty
    ) => {
        $(#[$outer])*
        pub struct $name {
            pub inner: $inner,
        }
    };
}

/// Codes: an enumeration over a number, read by value. An unlisted one is refused where it stands.
#[macro_export]
macro_rules! tpm_enum {
    (
        pub enum $name:ident($raw:ty, $uint:ident) {
            $($(#[$inner:meta])* $variant:ident = $value:literal,)*
        }
    ) => {
        #[derive(Debug, PartialEq, Eq, Clone, Copy, Default)]
        pub enum $name {
            $($(#[$inner])* $variant = $value,)*
        }

        impl $name {
            #[must_use]
            pub const fn value(self) -> $raw {
                self as $raw
            }
        }

        impl TryFrom<$raw> for $name {
            type Error = $crate::TpmError;

            fn try_from(value: $raw) -> Result<Self, Self::Error> {
                match value {
                    $($value => Ok(Self::$variant),)*
                    _ => Err($crate::TpmError::Rebuilt { fault: $crate::error::Fault::Code, offset: 0, value: u64::from(value), available: 0 }),
                }
            }
        }

        $crate::tpm_number_like!($name, $raw, $uint, |raw| Self::try_from(raw));
    };
}

/// Attributes: any number of that width.
#[macro_export]
macro_rules! tpm_attributes {
    ($name:ident, $raw:ty, $uint:ident) => {
        #[derive(Debug, PartialEq, Eq, Clone, Copy, Default)]
        #[repr(transparent)]
        pub struct $name(pub $raw);

        impl $name {
            #[must_use]
            pub const fn value(self) -> $raw {
                self.0
            }
        }

        $crate::tpm_number_like!($name, $raw, $uint, |raw| Ok(Self(raw)));
    };
}

/// What codes and attributes have in common: they are written and read as a number, and judged behind it.
#[macro_export]
macro_rules! tpm_number_like {
    ($name:ident, $raw:ty, $uint:ident, |$read:ident| $judged:expr) => {
        impl $crate::TpmSized for $name {
            const SIZE: usize = core::mem::size_of::<$raw>();
            fn len(&self) -> usize {
                Self::SIZE
            }
        }

        impl $crate::TpmMarshal for $name {
            fn marshal(&self, writer: &mut $crate::TpmWriter) -> $crate::TpmResult<()> {
                writer.write_bytes(&self.value().to_be_bytes())
            }
        }

        impl $crate::TpmUnmarshal for $name {
            fn unmarshal(buffer: &[u8]) -> $crate::TpmResult<(Self, &[u8])> {
                let (number, buffer) = <$crate::basic::$uint as $crate::TpmUnmarshal>::unmarshal(buffer)?;
                let $read = number.value();
                let judged: $crate::TpmResult<Self> = $judged;
                Ok((judged?, buffer))
            }
        }

        impl<'a> $crate::TpmField<'a> for $name {
            type View = Self;

            fn cast_prefix_field(buf: &'a [u8]) -> $crate::TpmResult<(Self::View, &'a [u8])> {
                <Self as $crate::TpmUnmarshal>::unmarshal(buf)
            }
        }
    };
}
