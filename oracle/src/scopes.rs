//! The crate's names and its namespace resolver, with the private records and text in sight.
//!
//! `build` makes this a child of the crate's `name`. The resolver's own methods are public in the
//! crate and are called as they are, on `NamespaceResolver`; here stands what they leave out.

use super::{LocalName, Namespace, ResolveResult};
use super::{
    NamespaceBinding, NamespaceError, NamespaceResolver, Prefix, PrefixDeclaration, QName,
};
use crate::events::BytesStart;
use crate::events::attributes::steps::on_boundary;

/// Where the name's first colon is, by the crate's private `QName::index`.
pub fn colon(name: &str) -> Option<usize> {
    QName(name).index()
}

/// `QName::decompose`: the prefix, if there is one, and the local name.
pub fn split(name: &str) -> (Option<&str>, &str) {
    let (local, prefix) = QName(name).decompose();
    (prefix.map(Prefix::into_inner), local.into_inner())
}

/// `QName::prefix`.
pub fn prefix(name: &str) -> Option<&str> {
    QName(name).prefix().map(Prefix::into_inner)
}

/// `QName::local_name`.
pub fn local_name(name: &str) -> &str {
    QName(name).local_name().into_inner()
}

/// `LocalName::from`, the crate's other way to the local name.
pub fn local_from(name: &str) -> &str {
    LocalName::from(QName(name)).into_inner()
}

/// `QName::as_namespace_binding`: what the name declares as an attribute.
pub fn declares(name: &str) -> Option<PrefixDeclaration<'_>> {
    QName(name).as_namespace_binding()
}

/// `Prefix::is_xml`.
pub const fn is_xml(prefix: &str) -> bool {
    Prefix(prefix).is_xml()
}

/// `Prefix::is_xmlns`.
pub const fn is_xmlns(prefix: &str) -> bool {
    Prefix(prefix).is_xmlns()
}

/// Document 01's number of a refusal; its value stands in the crate's error.
pub const fn number(refusal: &NamespaceError) -> usize {
    match refusal {
        NamespaceError::UnknownPrefix(_) => 11,
        NamespaceError::InvalidXmlPrefixBind(_) => 12,
        NamespaceError::InvalidXmlnsPrefixBind(_) => 13,
        NamespaceError::InvalidPrefixForXml(_) => 14,
        NamespaceError::InvalidPrefixForXmlns(_) => 15,
        NamespaceError::TooManyBindings(_) => 16,
        NamespaceError::TooDeeplyNested(_) => 17,
    }
}

/// One record of the resolver: the crate's private `NamespaceBinding`.
#[derive(Clone, Copy, Debug, PartialEq, Eq)]
pub struct Record {
    pub start: usize,
    pub prefix_len: usize,
    pub value_len: usize,
    pub level: u16,
}

/// Every record, the two built in first.
pub fn records(resolver: &NamespaceResolver) -> Vec<Record> {
    let shown = |b: &NamespaceBinding| Record {
        start: b.start,
        prefix_len: b.prefix_len,
        value_len: b.value_len,
        level: b.level,
    };
    resolver.bindings.iter().map(shown).collect()
}

/// The text that the records point into.
pub fn text(resolver: &NamespaceResolver) -> &str {
    &resolver.buffer
}

/// A resolver made of given parts. `None` where the crate would panic on it: a record whose prefix
/// or value is no part of the text.
pub fn from_parts(
    text: &str,
    records: &[Record],
    level: u16,
    limit: usize,
) -> Option<NamespaceResolver> {
    let inside = |r: &Record| {
        let prefix_end = r.start.checked_add(r.prefix_len)?;
        let value_end = prefix_end.checked_add(r.value_len)?;
        text.get(r.start..prefix_end)
            .and(text.get(prefix_end..value_end))
    };
    if records.iter().any(|r| inside(r).is_none()) {
        return None;
    }
    let binding = |r: &Record| NamespaceBinding {
        start: r.start,
        prefix_len: r.prefix_len,
        value_len: r.value_len,
        level: r.level,
    };
    Some(NamespaceResolver {
        buffer: text.to_string(),
        bindings: records.iter().map(binding).collect(),
        nesting_level: level,
        max_namespace_bindings: limit,
    })
}

/// `NamespaceResolver::push` of the start tag with this content, its attributes beginning at
/// `position`. `None` where `position` is inside the tag and off a character boundary.
pub fn push(
    resolver: &mut NamespaceResolver,
    content: &str,
    position: usize,
) -> Option<Result<(), NamespaceError>> {
    on_boundary(content, position)
        .then(|| resolver.push(&BytesStart::from_content(content, position)))
}

/// `NamespaceResolver::resolve_prefix`, from the prefix's text.
pub fn resolve_prefix<'r>(
    resolver: &'r NamespaceResolver,
    prefix: Option<&str>,
    use_default: bool,
) -> ResolveResult<'r> {
    resolver.resolve_prefix(prefix.map(Prefix), use_default)
}

/// `NamespaceResolver::resolve`, with an unknown prefix turned into the crate's error: the URI, if
/// the name is bound, and the local name.
pub fn namespace_of<'r, 'n>(
    resolver: &'r NamespaceResolver,
    name: &'n str,
    use_default: bool,
) -> Result<(Option<&'r str>, &'n str), NamespaceError> {
    let (resolved, local) = resolver.resolve(QName(name), use_default);
    let namespace: Option<Namespace> = resolved.try_into()?;
    Ok((namespace.map(Namespace::into_inner), local.into_inner()))
}
