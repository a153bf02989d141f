//! Beside quick-xml: its `Reader` reads the document, this crate the attributes of each tag and the scopes,
//! and each value goes back to quick-xml, which normalises it. Errors are quick-xml's.
//!
//! Usage: `side_by_side DOCUMENT`. Prints each tag with its attributes, names with their namespaces; an
//! attribute that is damaged is shown by its error, and the rest of its tag is read.
//!
//! This is no example of cargo's, for it wants quick-xml 0.42: copy it as `src/main.rs` beside a `Cargo.toml`
//! whose dependencies are `quick-xml = "0.42"` and `mezzulidda`, by its path.
//!
//! Status: 0; 2 a wrong use; 1 a document that can't be read to its end.

use mezzulidda::events::attributes::AttrError;
use mezzulidda::name::{LocalName, NamespaceError, NamespaceResolver, ResolveResult};
use quick_xml::events::attributes::Attribute;
use quick_xml::events::{BytesStart, Event};
use quick_xml::name::QName;
use quick_xml::{Error, Reader, XmlVersion};
use std::fmt::{Display, Write as _};
use std::io::Write as _;
use std::process::ExitCode;

/// An attribute that was read here, as quick-xml's own.
fn given_back(read: mezzulidda::events::attributes::Attribute) -> Attribute {
    Attribute {
        key: QName(read.key.into_inner()),
        value: read.value,
    }
}

/// What quick-xml says of the same tag. It has no end to its tables, so that a full one is none of its errors.
fn attribute_error(error: AttrError) -> Error {
    use quick_xml::events::attributes::AttrError as Theirs;
    Error::InvalidAttr(match error {
        AttrError::ExpectedEq(at) => Theirs::ExpectedEq(at),
        AttrError::ExpectedValue(at) => Theirs::ExpectedValue(at),
        AttrError::UnquotedValue(at) => Theirs::UnquotedValue(at),
        AttrError::ExpectedQuote(at, quote) => Theirs::ExpectedQuote(at, quote),
        AttrError::Duplicated(at, earlier) => Theirs::Duplicated(at, earlier),
        AttrError::KeyTableFull(_) | AttrError::BadState | AttrError::NoText(_) => {
            return limit(error);
        }
    })
}

/// The same of a declaration.
fn scope_error(error: NamespaceError) -> Error {
    use quick_xml::name::NamespaceError as Theirs;
    Error::Namespace(match error {
        NamespaceError::UnknownPrefix(prefix) => Theirs::UnknownPrefix(prefix),
        NamespaceError::InvalidXmlPrefixBind(uri) => Theirs::InvalidXmlPrefixBind(uri),
        NamespaceError::InvalidXmlnsPrefixBind(uri) => Theirs::InvalidXmlnsPrefixBind(uri),
        NamespaceError::InvalidPrefixForXml(prefix) => Theirs::InvalidPrefixForXml(prefix),
        NamespaceError::InvalidPrefixForXmlns(prefix) => Theirs::InvalidPrefixForXmlns(prefix),
        NamespaceError::TooManyBindings(limit) => Theirs::TooManyBindings(limit),
        NamespaceError::TooDeeplyNested(level) => Theirs::TooDeeplyNested(level),
        NamespaceError::BindingTableFull
        | NamespaceError::TextFull
        | NamespaceError::LentMemoryFull { .. }
        | NamespaceError::NoText
        | NamespaceError::BadResolver => return limit(error),
    })
}

/// A limit of this crate's, as the error of a source that can't be read further.
fn limit(error: impl std::error::Error + Send + Sync + 'static) -> Error {
    Error::from(std::io::Error::other(error))
}

/// A name with its namespace, as `{urn:example}name`.
fn shown((namespace, local): (ResolveResult, LocalName)) -> String {
    match namespace {
        ResolveResult::Bound(uri) => format!("{{{}}}{}", uri.into_inner(), local.into_inner()),
        ResolveResult::Unbound => local.into_inner().to_string(),
        ResolveResult::Unknown(prefix) => format!("{{? {prefix}}}{}", local.into_inner()),
    }
}

/// One tag: its scope is opened, its attributes are read here, and their values normalised by quick-xml.
fn open(
    start: &BytesStart,
    version: XmlVersion,
    scopes: &mut NamespaceResolver,
    out: &mut String,
) -> Result<(), Error> {
    let name_len = start.name().as_ref().len();
    let tag = mezzulidda::events::BytesStart::from_content(&**start, name_len);
    scopes.push(&tag).map_err(scope_error)?;
    line(out, 0, shown(scopes.resolve_element(tag.name())));
    for attribute in tag.attributes() {
        match attribute {
            Ok(attribute) => {
                let name = shown(scopes.resolve_attribute(attribute.key));
                let value = given_back(attribute).normalized_value(version)?;
                line(out, 2, format!("{name} = {value:?}"));
            }
            // the next turn reads the rest of the tag
            Err(error) => line(out, 2, attribute_error(error)),
        }
    }
    Ok(())
}

fn line(out: &mut String, indent: usize, what: impl Display) {
    writeln!(out, "{:indent$}{what}", "").expect("a string takes every line");
}

/// A document to its end, or to what can't be read.
fn read(document: &str, out: &mut String) -> Result<(), Error> {
    let mut reader = Reader::from_str(document);
    let mut scopes = NamespaceResolver::default();
    let mut version = XmlVersion::Implicit1_0;
    loop {
        match reader.read_event()? {
            Event::Decl(declaration) => version = declaration.xml_version()?,
            Event::Start(start) => open(&start, version, &mut scopes, out)?,
            Event::Empty(start) => {
                open(&start, version, &mut scopes, out)?;
                scopes.pop();
            }
            Event::End(_) => scopes.pop(),
            Event::Eof => return Ok(()),
            _ => (),
        }
    }
}

fn main() -> ExitCode {
    let words: Vec<_> = std::env::args_os().skip(1).collect();
    let [path] = &words[..] else {
        eprintln!("usage: side_by_side DOCUMENT");
        return ExitCode::from(2);
    };
    let mut out = String::new();
    let ended = std::fs::read_to_string(path)
        .map_err(Error::from)
        .and_then(|document| read(&document, &mut out));
    let written = std::io::stdout().write_all(out.as_bytes());
    match ended.and(written.map_err(Error::from)) {
        Ok(()) => ExitCode::SUCCESS,
        Err(error) => {
            eprintln!("side_by_side: {}: {error}", path.display());
            ExitCode::FAILURE
        }
    }
}

/// What is read here and given back is what quick-xml reads itself, errors included.
#[cfg(test)]
mod tests {
    use super::*;
    use quick_xml::name as theirs;

    fn ours(content: &str, name_len: usize) -> Vec<String> {
        mezzulidda::events::BytesStart::from_content(content, name_len)
            .attributes()
            .map(|read| format!("{:?}", read.map(given_back).map_err(attribute_error)))
            .collect()
    }

    fn quick_xmls(content: &str, name_len: usize) -> Vec<String> {
        BytesStart::from_content(content, name_len)
            .attributes()
            .map(|read| format!("{:?}", read.map_err(Error::from)))
            .collect()
    }

    const KINDS: [&str; 5] = [
        "ExpectedEq",
        "ExpectedValue",
        "UnquotedValue",
        "ExpectedQuote",
        "Duplicated",
    ];

    #[test]
    fn attributes_and_their_errors() {
        let mut tags = vec![String::new()];
        let mut refused = [0; 5];
        for _ in 0..6 {
            let longer =
                |tag: &String| ["a", "b", "=", "\"", "'", " "].map(|byte| format!("{tag}{byte}"));
            tags = tags.iter().flat_map(longer).collect();
            for tag in &tags {
                for content in [format!("é {tag}"), format!("é {tag} é=\"<&amp;\"")] {
                    let read = ours(&content, 2);
                    assert_eq!(read, quick_xmls(&content, 2), "{content}");
                    for (count, kind) in refused.iter_mut().zip(KINDS) {
                        *count += read.iter().filter(|read| read.contains(kind)).count();
                    }
                }
            }
        }
        assert!(refused.iter().all(|count| *count > 0), "{refused:?}");
    }

    #[test]
    fn declarations_and_their_errors() {
        let many: String = (0..129).map(|k| format!(" xmlns:p{k}='u'")).collect();
        let xml = "http://www.w3.org/XML/1998/namespace";
        let xmlns = "http://www.w3.org/2000/xmlns/";
        for (attributes, kind) in [
            (String::from(" xmlns:p='u' xmlns='v'"), "Ok"),
            (String::from(" xmlns:xml='u'"), "InvalidXmlPrefixBind"),
            (String::from(" xmlns:xmlns='u'"), "InvalidXmlnsPrefixBind"),
            (format!(" xmlns:p='{xml}'"), "InvalidPrefixForXml("),
            (format!(" xmlns:p='{xmlns}'"), "InvalidPrefixForXmlns"),
            (many, "TooManyBindings(128)"),
        ] {
            let content = format!("t{attributes}");
            let start = BytesStart::from_content(&*content, 1);
            let tag = mezzulidda::events::BytesStart::from_content(&*content, 1);
            let read = NamespaceResolver::default().push(&tag).map_err(scope_error);
            let same = theirs::NamespaceResolver::default()
                .push(&start)
                .map_err(Error::from);
            assert_eq!(format!("{read:?}"), format!("{same:?}"));
            assert!(format!("{read:?}").contains(kind), "{read:?}");
        }
    }

    #[test]
    fn levels_and_unknown_prefixes() {
        let (mut scopes, mut same) = (
            NamespaceResolver::default(),
            theirs::NamespaceResolver::default(),
        );
        let tag = mezzulidda::events::BytesStart::new("t");
        let start = BytesStart::new("t");
        let last = (0..=65_535).map(|_| {
            let read = scopes.push(&tag).map_err(scope_error);
            (read, same.push(&start).map_err(Error::from))
        });
        let (read, wanted) = last.last().expect("there are so many");
        assert_eq!(format!("{read:?}"), format!("{wanted:?}"));
        assert!(format!("{read:?}").contains("TooDeeplyNested"), "{read:?}");

        let read = Option::try_from(scopes.resolve_element(mezzulidda::name::QName("p:a")).0);
        let read = read
            .map(|uri: Option<mezzulidda::name::Namespace>| uri.is_some())
            .map_err(scope_error);
        let wanted = Option::try_from(same.resolve_element(QName("p:a")).0);
        let wanted = wanted
            .map(|uri: Option<theirs::Namespace>| uri.is_some())
            .map_err(Error::from);
        assert_eq!(format!("{read:?}"), format!("{wanted:?}"));
        assert!(format!("{read:?}").contains("UnknownPrefix"), "{read:?}");
    }

    /// What quick-xml does not have is an error of reading, with this crate's words.
    #[test]
    fn limits() {
        let most = mezzulidda::events::attributes::Tables::KEYS;
        let keys: String = (0..=most).map(|k| format!(" k{k}=''")).collect();
        let content = format!("t{keys}");
        let read = ours(&content, 1).pop().expect("there is one more");
        assert!(
            read.starts_with("Err(Io(") && read.contains("KeyTableFull"),
            "{read}"
        );
        assert_eq!(quick_xmls(&content, 1).len(), most + 1);

        let mut scopes = NamespaceResolver::default();
        scopes.set_max_namespace_bindings(usize::MAX);
        let declared: String = (0..1_025).map(|k| format!(" xmlns:p{k}='u'")).collect();
        let content = format!("t{declared}");
        let tag = mezzulidda::events::BytesStart::from_content(&*content, 1);
        let read = format!("{:?}", scopes.push(&tag).map_err(scope_error));
        assert!(
            read.starts_with("Err(Io(") && read.contains("BindingTableFull"),
            "{read}"
        );
        let long = format!("t xmlns:p='{}'", "u".repeat(65_537));
        let tag = mezzulidda::events::BytesStart::from_content(&*long, 1);
        let read = format!(
            "{:?}",
            NamespaceResolver::default().push(&tag).map_err(scope_error)
        );
        assert!(
            read.starts_with("Err(Io(") && read.contains("TextFull"),
            "{read}"
        );
    }
}
