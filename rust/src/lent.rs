//! Memory of the caller's own: what is wrong with memory that can't be used as it is.

use crate::memory::Room;
use core::error::Error;
use core::fmt::{self, Display, Formatter};

/// Why memory that is lent can't be used. Nothing of it was written.
#[derive(Clone, Copy, Debug, PartialEq, Eq)]
pub enum LentError {
    /// Another number of bytes than is wanted.
    Size {
        /// So many bytes are needed: exactly for tables, at least for a resolver.
        wanted: usize,
        /// So many were lent.
        given: usize,
    },
    /// The memory begins at an address that numbers can't stand at.
    Alignment {
        /// The address has to be a multiple of this.
        wanted: usize,
        /// The greatest power of two that it is a multiple of.
        given: usize,
    },
    /// Less room than the resolver needs.
    Room {
        /// So much is in use, or would be.
        wanted: Room,
        /// So much is lent.
        given: Room,
    },
    /// The memory is not that of a resolver: refusal 20.
    NoResolver,
    /// The memory is that of a resolver, and a binding of it has a prefix or a namespace that is no text.
    /// They are counted from 0, the two built-in ones first.
    NoText(usize),
}

impl LentError {
    #[cold]
    pub(crate) const fn size(wanted: usize, given: usize) -> Self {
        LentError::Size { wanted, given }
    }

    /// Whether what has this alignment can stand at an address.
    pub(crate) const fn of_address(address: usize, alignment: usize) -> Result<(), Self> {
        if address.is_multiple_of(alignment) {
            return Ok(());
        }
        Err(LentError::Alignment {
            wanted: alignment,
            given: 1 << address.trailing_zeros(),
        })
    }
}

impl Display for LentError {
    fn fmt(&self, f: &mut Formatter) -> fmt::Result {
        match self {
            Self::Size { wanted, given } => {
                write!(
                    f,
                    "{wanted} bytes of memory are needed, and {given} are lent"
                )
            }
            Self::Alignment { wanted, given } => write!(
                f,
                "the memory has to begin at a multiple of {wanted} bytes, and begins at one of {given}"
            ),
            Self::Room { wanted, given } => {
                write!(f, "room for {wanted} is needed, and for {given} is lent")
            }
            Self::NoResolver => write!(f, "the memory is not that of a resolver"),
            Self::NoText(binding) => write!(
                f,
                "the memory is that of a resolver, and its binding {binding} is not UTF-8"
            ),
        }
    }
}

impl Error for LentError {}
