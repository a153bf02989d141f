//! The oracle: quick-xml 0.42.0's own attribute iterator and namespace scopes, compiled from the
//! crate's source as it was published, with what is private made visible.
//!
//! This file stands in place of the crate's `src/lib.rs`, which names modules that are not given.
//! `encoding`, `errors`, `events`, `events/attributes`, `name` and `utils` are the crate's files; at
//! the end of two of them `build` appends one `mod` line, so that `steps` and `scopes`, which are
//! ours, stand inside the modules whose private parts they show. What they lean on and is not given
//! (`escape`, `memchr`) has the crate's signature and a body that is never reached. Two more stand for
//! what is not given, so that a program for both crates can be run: a reader, and the part of
//! normalisation that is named entities and whitespace.

#![forbid(unsafe_code)]
// The crate's files come with parts that nothing here calls.
#![allow(dead_code, deprecated, unused_imports)]

// `utils.rs` names the crate `memchr` by its path: this crate answers to that name as well.
extern crate self as memchr;

mod encoding;
mod errors;
mod escape;
pub mod events;
pub mod name;
pub mod reader;
pub mod text;
mod utils;

pub use errors::{Error, Result};
pub use events::BytesStart;
pub use events::attributes::steps;
pub use name::scopes;
pub use name::{
    Namespace, NamespaceError, NamespaceResolver, Prefix, PrefixDeclaration, QName, ResolveResult,
};
pub use reader::Reader;
pub use utils::is_whitespace;

use std::borrow::Cow;

/// The crate's enum of XML versions, which its methods on text and values name.
#[derive(Debug, Clone, Copy, PartialEq, Eq, Hash)]
pub enum XmlVersion {
    Implicit1_0,
    Explicit1_0,
    Explicit1_1,
}

impl XmlVersion {
    /// Whitespace is blanks, and each named entity is what it stands for; character references and entities
    /// in entities are left out.
    pub(crate) fn normalize_attribute_value<'input, 'entity, F>(
        &self,
        value: &'input str,
        _depth: usize,
        mut resolve_entity: F,
    ) -> std::result::Result<Cow<'input, str>, escape::EscapeError>
    where
        F: FnMut(&str) -> Option<&'entity str>,
    {
        if !value.contains(['&', '\t', '\r', '\n']) {
            return Ok(Cow::Borrowed(value));
        }
        let mut normal = String::new();
        let mut rest = value;
        while let Some(at) = rest.find('&') {
            let unknown = || escape::EscapeError::UnrecognizedEntity(rest[at..].to_string());
            let (name, after) = rest[at + 1..].split_once(';').ok_or_else(unknown)?;
            normal.push_str(&rest[..at].replace(['\t', '\r', '\n'], " "));
            normal.push_str(resolve_entity(name).ok_or_else(unknown)?);
            rest = after;
        }
        normal.push_str(&rest.replace(['\t', '\r', '\n'], " "));
        Ok(Cow::Owned(normal))
    }
}

/// `memchr::memchr_iter`, which `utils.rs` uses to cut CDATA sections.
#[doc(hidden)]
pub fn memchr_iter(_needle: u8, _haystack: &[u8]) -> std::iter::Empty<usize> {
    unreachable!("CDATA is not part of the oracle")
}
