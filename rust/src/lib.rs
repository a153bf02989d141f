//! The attribute iterator and the namespace scopes of quick-xml 0.42.0, on a library whose every answer
//! is proved.
//!
//! Modules, types and methods have the names that they have in quick-xml, so that a program which reads
//! tags and resolves names changes one line:
//!
//! ```
//! use mezzulidda as quick_xml; // was: an external crate of that name
//! use quick_xml::events::attributes::Attributes;
//!
//! let keys: Vec<_> = Attributes::new("chunk id='c-17' offset='4096'", 5)
//!     .map(|attribute| attribute.map(|a| a.key.into_inner()))
//!     .collect();
//! assert_eq!(keys, [Ok("id"), Ok("offset")]);
//! ```
//!
//! What is proved is the static library below: which attributes a tag has, where it is damaged, what a
//! value says, which namespace a name is in, whether an element is nil. This crate hands the library memory and
//! turns its numbers into Rust's types, an unknown prefix into an error where that is asked for. By itself it
//! compares a prefix with `xml` and `xmlns`, as constant functions have to, and escapes a value that an
//! attribute is made of. All that is tested and not proved. A tag of up to 32 attributes is read without
//! allocating, and a resolver has 1 KB and grows with what it holds. Eight refusals that quick-xml does not have
//! say when a table is full, memory is too small or none of the library's, or bytes are no text
//! ([`AttrError`](events::attributes::AttrError), [`NamespaceError`](name::NamespaceError)).
//!
//! A tag that comes in pieces, cut wherever a buffer ends, is read as they come
//! ([`Pieces`](events::attributes::Pieces)): the same attributes, each as soon as its last byte is there.
//!
//! Values are not normalised: they are those that stand in the tag, and references in them are not replaced.
//! Of Rust's libraries `core` and `alloc` are needed, and not `std`.
//!
//! # Memory
//!
//! It can be the caller's own: a resolver's, of any size, is lent by
//! [`NamespaceResolver::new_in`](name::NamespaceResolver::new_in), a reader's by
//! [`Attributes::with_tables`](events::attributes::Attributes::with_tables) and
//! [`Pieces::with_tables`](events::attributes::Pieces::with_tables). What stands on the stack, where a program does not put it
//! elsewhere:
//!
//! | Type | Bytes, at most | The way around |
//! |---|---|---|
//! | [`Attributes`](events::attributes::Attributes), [`ByteAttributes`](events::attributes::ByteAttributes) | 1,100: places for 32 keys with their hashes, and for 8 answers | `with_tables`: 40, beside tables that are made once |
//! | [`Pieces`](events::attributes::Pieces) | 1,240: the same, and numbers; the bytes of the tag on the heap | `with_tables`: 150, beside tables and bytes |
//! | [`Tables`](events::attributes::Tables) | 30,800: places for all keys, and for 256 answers | a box or a static, or [`Tables::from_bytes`](events::attributes::Tables::from_bytes) |
//! | [`Memory`](name::Memory) of full size | 98,400 | [`Memory::boxed`](name::Memory::boxed), a static, or [smaller numbers](name::Memory) |
//! | [`ResolvedNames`](name::ResolvedNames) | 512 | one name at a time |
//! | [`NamespaceResolver`](name::NamespaceResolver) | 80; 40 where its memory is lent | |
//!
//! # Panics
//!
//! Before the library is lent memory it is asked for its layout. If that is not the one that this crate was
//! written for, the first call that reads a tag or makes a resolver panics, and says what differs: every call
//! would write where it must not. Beside that it is as in quick-xml: a position that is inside a character, or a
//! length of a name that is past the tag's end, panics where text would be cut there
//! ([`BytesStart::name`](events::BytesStart::name) and the iterator
//! [`Attributes`](events::attributes::Attributes)). Nothing that stands in a tag, a name or lent memory does.

#![no_std]
#![deny(unsafe_code)]

extern crate alloc;

pub mod events;
// The boundary: the one place where memory is handed to code that Rust doesn't check, and the declarations.
#[allow(unsafe_code)]
mod ffi;
mod lent;
#[allow(unsafe_code)]
mod library;
mod memory;
pub mod name;

pub use lent::LentError;

// What is said above of the stack.
const _: () = {
    use events::attributes::{Attributes, ByteAttributes, Pieces, Tables};
    use name::{Lent, Memory, NamespaceResolver, ResolvedNames};
    assert!(size_of::<Attributes>() <= 1_100 && size_of::<ByteAttributes>() <= 1_100);
    assert!(size_of::<Attributes<&mut Tables>>() <= 40);
    assert!(size_of::<Pieces>() <= 1_240 && size_of::<Pieces<&mut Tables, &mut [u8]>>() <= 150);
    assert!(size_of::<Tables>() <= 30_800 && size_of::<Memory>() <= 98_400);
    assert!(size_of::<ResolvedNames>() <= 512);
    assert!(size_of::<NamespaceResolver>() <= 80 && size_of::<NamespaceResolver<Lent>>() <= 40);
};
