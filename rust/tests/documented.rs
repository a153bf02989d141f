//! What quick-xml 0.42.0 documents about attributes and scopes, on inputs of our own.
//!
//! One file for two crates: it is compiled against this one and against quick-xml itself, which then
//! goes by the name `mezzulidda` (`tests/rust`, in the repository's root). So what passes here is what
//! a program sees that swaps one for the other.

use mezzulidda as xml;
use std::borrow::Cow;
use std::hash::{BuildHasher, BuildHasherDefault, DefaultHasher};
use xml::events::BytesStart;
use xml::events::attributes::{Attr, AttrError, Attribute, Attributes};
use xml::name::{
    DEFAULT_MAX_NAMESPACE_BINDINGS, LocalName, Namespace, NamespaceBindingsIter,
    NamespaceBindingsOfLevelIter, NamespaceError, NamespaceResolver, Prefix, PrefixDeclaration,
    QName, ResolveResult,
};

const XML: &str = "http://www.w3.org/XML/1998/namespace";
const XMLNS: &str = "http://www.w3.org/2000/xmlns/";

fn attribute<'a>(key: &'a str, value: &'a str) -> Attribute<'a> {
    Attribute {
        key: QName(key),
        value: Cow::Borrowed(value),
    }
}

fn ok<'a>(key: &'a str, value: &'a str) -> Option<Result<Attribute<'a>, AttrError>> {
    Some(Ok(attribute(key, value)))
}

const fn err<'a>(error: AttrError) -> Option<Result<Attribute<'a>, AttrError>> {
    Some(Err(error))
}

fn bound(namespace: &str) -> ResolveResult<'_> {
    ResolveResult::Bound(Namespace(namespace))
}

fn unknown(prefix: &str) -> ResolveResult<'_> {
    ResolveResult::Unknown(prefix.to_string())
}

const DEFAULT: PrefixDeclaration = PrefixDeclaration::Default;

const fn named(prefix: &str) -> PrefixDeclaration<'_> {
    PrefixDeclaration::Named(prefix)
}

/// A tag by what stands between its angle brackets; its name ends at the first blank.
fn tag(content: &str) -> BytesStart<'_> {
    BytesStart::from_content(content, content.find(' ').unwrap_or(content.len()))
}

mod attributes {
    use super::*;

    #[test]
    fn xml_attributes_have_quotes() {
        let mut iter = Attributes::new("chunk id = \"c-17\"  volume='north' ", 5);
        assert_eq!(iter.next(), ok("id", "c-17"));
        assert_eq!(iter.next(), ok("volume", "north"));
        assert_eq!(iter.next(), None);
        assert_eq!(iter.next(), None);
    }

    #[test]
    fn html_attributes_need_none() {
        let mut iter = Attributes::html("chunk sealed offset = 4096 id='c-17' last", 5);
        assert_eq!(iter.next(), ok("sealed", ""));
        assert_eq!(iter.next(), ok("offset", "4096"));
        assert_eq!(iter.next(), ok("id", "c-17"));
        assert_eq!(iter.next(), ok("last", ""));
        assert_eq!(iter.next(), None);
    }

    #[test]
    fn past_the_end_there_is_nothing() {
        assert_eq!(Attributes::new("a='1'", 6).next(), None);
        assert_eq!(Attributes::html("a='1'", 60).next(), None);
        assert_eq!(Attributes::new("a='1'", 5).next(), None);
        assert_eq!(Attributes::new("", 0).next(), None);
    }

    #[test]
    fn values_stand_as_written() {
        let mut iter = Attributes::new("a='x &amp; <y>'\tb=\"\n\"", 0);
        assert_eq!(iter.next(), ok("a", "x &amp; <y>"));
        assert_eq!(iter.next(), ok("b", "\n"));
        assert_eq!(iter.next(), None);
    }

    #[test]
    fn text_beyond_ascii_is_handed_back_whole() {
        let mut iter = Attributes::new("größe höhe='μ' 数='「1」'", 8);
        assert_eq!(iter.next(), ok("höhe", "μ"));
        assert_eq!(iter.next(), ok("数", "「1」"));
        assert_eq!(iter.next(), None);
    }

    #[test]
    fn a_key_needs_an_equals_sign() {
        let mut iter = Attributes::new("chunk sealed id='c-17'", 5);
        assert_eq!(iter.next(), err(AttrError::ExpectedEq(13)));
        assert_eq!(iter.next(), ok("id", "c-17"));
        assert_eq!(iter.next(), None);
    }

    #[test]
    fn an_equals_sign_needs_a_value() {
        for html in [false, true] {
            let content = "chunk id = ";
            let mut iter = if html {
                Attributes::html(content, 5)
            } else {
                Attributes::new(content, 5)
            };
            assert_eq!(iter.next(), err(AttrError::ExpectedValue(11)));
            assert_eq!(iter.next(), None);
        }
    }

    #[test]
    fn what_follows_the_equals_sign_is_the_value() {
        let mut iter = Attributes::new("chunk id = volume = 'north'", 5);
        assert_eq!(iter.next(), err(AttrError::UnquotedValue(11)));
        // reading goes on at the blank after `volume`, and `=` begins a key
        assert_eq!(iter.next(), err(AttrError::ExpectedEq(20)));
        assert_eq!(iter.next(), err(AttrError::ExpectedEq(27)));
        assert_eq!(iter.next(), None);
        let mut iter = Attributes::html("chunk id = volume = 'north'", 5);
        assert_eq!(iter.next(), ok("id", "volume"));
        assert_eq!(iter.next(), ok("=", ""));
    }

    #[test]
    fn a_value_needs_quotes() {
        let mut iter = Attributes::new("chunk offset=4096 id='c-17'", 5);
        assert_eq!(iter.next(), err(AttrError::UnquotedValue(13)));
        assert_eq!(iter.next(), ok("id", "c-17"));
        assert_eq!(iter.next(), None);
    }

    #[test]
    fn a_quote_has_to_come_again() {
        for (content, quote) in [("chunk id=\"c-17' ", b'"'), ("chunk id='c-17\" ", b'\'')] {
            let mut iter = Attributes::new(content, 5);
            assert_eq!(iter.next(), err(AttrError::ExpectedQuote(16, quote)));
            assert_eq!(iter.next(), None);
        }
    }

    #[test]
    fn a_key_comes_once() {
        let content = "chunk id='c-17'  id=\"c-18\" offset='0'";
        let mut iter = Attributes::new(content, 5);
        assert_eq!(iter.next(), ok("id", "c-17"));
        assert_eq!(iter.next(), err(AttrError::Duplicated(17, 6)));
        assert_eq!(iter.next(), ok("offset", "0"));
        assert_eq!(iter.next(), None);
        let mut iter = Attributes::new(content, 5);
        iter.with_checks(false);
        assert_eq!(iter.next(), ok("id", "c-17"));
        assert_eq!(iter.next(), ok("id", "c-18"));
        assert_eq!(iter.next(), ok("offset", "0"));
        assert_eq!(iter.next(), None);
    }

    #[test]
    fn quotes_are_not_honoured_after_a_second_key() {
        let mut iter = Attributes::new("a='1' a=\"2 3\" b='4'", 0);
        assert_eq!(iter.next(), ok("a", "1"));
        assert_eq!(iter.next(), err(AttrError::Duplicated(6, 0)));
        assert_eq!(iter.next(), err(AttrError::ExpectedEq(14)));
        assert_eq!(iter.next(), ok("b", "4"));
        assert_eq!(iter.next(), None);
    }

    #[test]
    fn a_key_is_recorded_before_its_value_is_looked_at() {
        let mut iter = Attributes::new("a=1 a='2'", 0);
        assert_eq!(iter.next(), err(AttrError::UnquotedValue(2)));
        assert_eq!(iter.next(), err(AttrError::Duplicated(4, 0)));
        assert_eq!(iter.next(), None);
        assert_eq!(iter.next(), None);
    }

    #[test]
    fn checks_can_change_on_the_way() {
        // on, off from the second attribute on, and on again from the fourth: keys that were met while
        // they were off are not known
        let content = "a='1' a='2' b='3' b='4' b='5' a='6' c='7'";
        let mut iter = Attributes::new(content, 0);
        assert_eq!(iter.next(), ok("a", "1"));
        iter.with_checks(false);
        assert_eq!(iter.next(), ok("a", "2"));
        assert_eq!(iter.next(), ok("b", "3"));
        iter.with_checks(true).with_checks(true);
        assert_eq!(iter.next(), ok("b", "4"));
        assert_eq!(iter.next(), err(AttrError::Duplicated(24, 18)));
        assert_eq!(iter.next(), err(AttrError::Duplicated(30, 0)));
        iter.with_checks(false);
        assert_eq!(iter.next(), ok("c", "7"));
        iter.with_checks(true);
        assert_eq!(iter.next(), None);
    }

    #[test]
    fn a_copy_goes_on_by_itself() {
        let mut iter = Attributes::new("a='1' b='2' a='3'", 0);
        assert_eq!(iter.next(), ok("a", "1"));
        let mut copy = iter.clone();
        assert_eq!(copy.next(), ok("b", "2"));
        assert_eq!(iter.next(), ok("b", "2"));
        assert_eq!(copy.next(), err(AttrError::Duplicated(12, 0)));
        assert_eq!(iter.next(), err(AttrError::Duplicated(12, 0)));
        assert_eq!((copy.next(), iter.next()), (None, None));
    }

    #[test]
    fn long_tags_are_read_to_their_end() {
        for count in [15, 16, 17, 31, 32, 33, 48, 200] {
            let content: String = (0..count).map(|n| format!(" k{n}='{n}'")).collect();
            let again = format!("{content} k{}='' z=''", count - 1);
            let mut iter = Attributes::new(&again, 0);
            for n in 0..count {
                assert_eq!(iter.next(), ok(&format!("k{n}"), &n.to_string()));
            }
            let last = content.rfind('k').unwrap();
            assert_eq!(
                iter.next(),
                err(AttrError::Duplicated(content.len() + 1, last))
            );
            assert_eq!(iter.next(), ok("z", ""));
            assert_eq!(iter.next(), None);
        }
    }

    #[test]
    fn yes_and_no() {
        for (value, answer) in [
            ("1", Some(true)),
            ("true", Some(true)),
            ("0", Some(false)),
            ("false", Some(false)),
            ("", None),
            ("True", None),
            (" 1", None),
            ("yes", None),
        ] {
            assert_eq!(attribute("a", value).as_bool(), answer, "{value}");
        }
    }

    #[test]
    fn the_ways_to_write_an_attribute() {
        let ways = [
            (Attr::DoubleQ("k", "v"), Some("v")),
            (Attr::SingleQ("k", "v"), Some("v")),
            (Attr::Unquoted("k", "v"), Some("v")),
            (Attr::Empty("k"), None),
        ];
        for (attr, value) in ways {
            assert_eq!(attr.key(), QName("k"));
            assert_eq!(attr.value(), value.unwrap_or_default());
            assert_eq!(Attribute::from(attr.clone()), attribute("k", attr.value()));
            assert_eq!(<(&str, Option<&str>)>::from(attr.clone()), ("k", value));
            assert_eq!(
                <(usize, Option<usize>)>::from(attr.map(str::len)),
                (1, value.map(str::len))
            );
        }
        assert_eq!(
            format!("{:?} {:?}", Attr::DoubleQ("k", "v"), Attr::SingleQ(1, 2)),
            "Attr::DoubleQ(\"k\", \"v\") Attr::SingleQ(1, 2)"
        );
        assert_eq!(
            format!("{:?} {:#?}", Attr::Unquoted('k', 'v'), Attr::Empty("k")),
            "Attr::Unquoted('k', 'v') Attr::Empty(\n    \"k\",\n)"
        );
    }

    #[test]
    fn refusals_say_where() {
        for (error, text) in [
            (
                AttrError::ExpectedEq(3),
                "position 3: attribute key must be directly followed by `=` or space",
            ),
            (
                AttrError::ExpectedValue(4),
                "position 4: `=` must be followed by an attribute value",
            ),
            (
                AttrError::UnquotedValue(5),
                "position 5: attribute value must be enclosed in `\"` or `'`",
            ),
            (
                AttrError::ExpectedQuote(6, b'\''),
                "position 6: missing closing quote `'` in attribute value",
            ),
            (
                AttrError::Duplicated(7, 1),
                "position 7: duplicated attribute, previous declaration at position 1",
            ),
        ] {
            let error: Box<dyn std::error::Error> = Box::new(error);
            assert_eq!(error.to_string(), text);
        }
    }

    #[test]
    fn nil_by_its_namespace() {
        let mut resolver = NamespaceResolver::default();
        let root = tag("root xmlns:i='http://www.w3.org/2001/XMLSchema-instance'");
        resolver.push(&root).unwrap();
        assert!(!root.attributes().has_nil(&resolver));
        for (content, answer) in [
            ("a i:nil='true'", true),
            ("a i:nil=\"1\"", true),
            ("a i:nil='false'", false),
            ("a i:nil='0'", false),
            ("a i:nil='maybe'", false),
            ("a", false),
            ("a i:nill='true'", false),
            ("a j:nil='true'", false),
            ("a nil='true'", false),
            // another namespace for the prefix, a default one, and another prefix for the namespace
            ("a i:nil='true' xmlns:i='urn:other'", false),
            (
                "a nil='true' xmlns='http://www.w3.org/2001/XMLSchema-instance'",
                false,
            ),
            (
                "a f:nil='true' xmlns:f='http://www.w3.org/2001/XMLSchema-instance'",
                true,
            ),
            // what is wrong counts as a no, and reading goes on
            ("a x y=1 i:nil='true'", true),
            ("a i:nil=true", false),
            ("a i:nil='0' i:nil='1'", false),
        ] {
            let element = tag(content);
            resolver.push(&element).unwrap();
            assert_eq!(element.attributes().has_nil(&resolver), answer, "{content}");
            resolver.pop();
        }
        let mut iter = Attributes::new("i:nil='1' b='2'", 0);
        assert!(iter.has_nil(&resolver));
        assert_eq!(iter.next(), ok("b", "2"));
        assert!(!iter.has_nil(&resolver));
    }

    #[test]
    fn a_tag_has_a_name_and_attributes() {
        let start = BytesStart::from_content("v:chunk id='c-17' offset=0 id='c-18'", 7);
        assert_eq!(start.name(), QName("v:chunk"));
        assert_eq!(start.local_name().into_inner(), "chunk");
        assert_eq!(start.attributes_raw(), " id='c-17' offset=0 id='c-18'");
        assert_eq!(&*start, "v:chunk id='c-17' offset=0 id='c-18'");
        assert_eq!(start.attributes().next(), ok("id", "c-17"));
        assert_eq!(start.html_attributes().nth(1), ok("offset", "0"));
        assert_eq!(
            start.try_get_attribute("id"),
            Ok(Some(attribute("id", "c-17")))
        );
        assert_eq!(
            start.try_get_attribute("offset"),
            Err(AttrError::UnquotedValue(25))
        );
        let bare = BytesStart::new("chunk");
        assert_eq!(bare.try_get_attribute("id"), Ok(None));
        assert_eq!(bare.borrow(), bare);
        assert_eq!(bare.clone().into_owned(), bare);
    }

    #[test]
    fn one_attribute_is_looked_for_without_checks() {
        let start = tag("chunk id='c-17' id='c-18' offset='0' last");
        let found = |name| start.try_get_attribute(name);
        assert_eq!(found("id"), Ok(Some(attribute("id", "c-17"))));
        assert_eq!(found("offset"), Ok(Some(attribute("offset", "0"))));
        assert_eq!(found("size"), Err(AttrError::ExpectedEq(41)));
    }

    #[test]
    fn one_attribute_is_looked_for_by_its_whole_name() {
        let start = tag("chunk p:id='1' idx='2' id='3'");
        for (name, value) in [("id", "3"), ("p:id", "1"), ("idx", "2")] {
            let found = start.try_get_attribute(name);
            assert_eq!(found, Ok(Some(attribute(name, value))));
        }
        for name in ["d", "i", "x", "p", ":id", "ID", ""] {
            assert_eq!(start.try_get_attribute(name), Ok(None), "{name}");
        }
    }

    #[test]
    fn a_tag_is_a_text() {
        fn kept() -> BytesStart<'static> {
            let content = String::from("chunk id='c-17'");
            BytesStart::from_content(&*content, 5).to_owned()
        }
        let start = kept();
        let text: &str = start.as_ref();
        assert_eq!(text, "chunk id='c-17'");
        assert_eq!(start, tag(text));
        assert_eq!(
            format!("{start:?} {:#?}", start.borrow()),
            "BytesStart { buf: Owned(\"chunk id='c-17'\"), name_len: 5 } \
             BytesStart { buf: Borrowed(\"chunk id='c-17'\"), name_len: 5 }"
        );
    }
}

mod names {
    use super::*;

    #[test]
    fn a_name_splits_at_its_first_colon() {
        for (name, prefix, local) in [
            ("chunk", None, "chunk"),
            ("v:chunk", Some("v"), "chunk"),
            ("a:b:c", Some("a"), "b:c"),
            (":a", Some(""), "a"),
            ("a:", Some("a"), ""),
            (":", Some(""), ""),
            ("", None, ""),
            ("größe:数", Some("größe"), "数"),
        ] {
            let name = QName(name);
            assert_eq!(name.prefix().map(|p| p.into_inner()), prefix);
            assert_eq!(name.local_name().into_inner(), local);
            assert_eq!(name.decompose(), (name.local_name(), name.prefix()));
            assert_eq!(LocalName::from(name), name.local_name());
            assert_eq!(name.as_ref(), name.into_inner());
        }
    }

    #[test]
    fn names_that_declare() {
        for (name, declares) in [
            ("xmlns", Some(DEFAULT)),
            ("xmlns:v", Some(named("v"))),
            ("xmlns:", Some(named(""))),
            ("xmlns:a:b", Some(named("a:b"))),
            ("xmlns:xmlns", Some(named("xmlns"))),
            ("chunk", None),
            ("v:xmlns", None),
            ("xmlnsv", None),
            ("xmlns-v", None),
            ("XMLNS", None),
            ("xmln", None),
            ("", None),
        ] {
            assert_eq!(QName(name).as_namespace_binding(), declares, "{name}");
        }
    }

    #[test]
    fn reserved_prefixes() {
        for (name, is_xml, is_xmlns) in [
            ("xml:lang", true, false),
            ("xmlns:v", false, true),
            ("xm:a", false, false),
            ("xmlnss:a", false, false),
            (":a", false, false),
        ] {
            let prefix = QName(name).prefix().unwrap();
            assert_eq!(reserved(prefix), (is_xml, is_xmlns));
        }
    }

    /// In a constant function of a program's own.
    const fn reserved(prefix: Prefix) -> (bool, bool) {
        (prefix.is_xml(), prefix.is_xmlns())
    }

    #[test]
    fn prefixes_are_ordered_as_texts() {
        let mut names = ["b:", "a-:", "a:", "ab:", ":"].map(|name| QName(name).prefix().unwrap());
        names.sort_unstable();
        assert_eq!(
            names.map(|prefix| prefix.into_inner()),
            ["", "a", "a-", "ab", "b"]
        );
        assert_eq!(QName("a:x").prefix(), QName("a:y").prefix());
        assert_ne!(QName("a:x").prefix(), QName("b:x").prefix());
        let hash = |name| BuildHasherDefault::<DefaultHasher>::new().hash_one(QName(name).prefix());
        assert_eq!(hash("a:x"), hash("a:y"));
        assert_ne!(hash("a:x"), hash("b:x"));
    }

    #[test]
    fn how_names_are_shown() {
        let name = QName("v:id");
        assert_eq!(format!("{name:?}"), "QName(v:id)");
        assert_eq!(format!("{:?}", name.prefix()), "Some(Prefix(v))");
        assert_eq!(format!("{:?}", name.local_name()), "LocalName(id)");
        assert_eq!(format!("{:?}", bound("urn:a")), "Bound(Namespace(urn:a))");
        assert_eq!(format!("{:?}", unknown("p")), "Unknown(p)");
        assert_eq!(
            format!("{:?}", (DEFAULT, named("v"))),
            "(PrefixDeclaration::Default, PrefixDeclaration::Named(v))"
        );
    }
}

mod scopes {
    use super::*;

    fn element<'r>(resolver: &'r NamespaceResolver, name: &str) -> ResolveResult<'r> {
        resolver.resolve_element(QName(name)).0
    }

    fn attribute_of<'r>(resolver: &'r NamespaceResolver, name: &str) -> ResolveResult<'r> {
        resolver.resolve_attribute(QName(name)).0
    }

    #[test]
    fn bindings_are_added_and_taken_back_by_empty_ones() {
        let mut resolver = NamespaceResolver::default();
        assert_eq!(element(&resolver, "chunk"), ResolveResult::Unbound);
        assert_eq!(element(&resolver, "v:chunk"), unknown("v"));

        resolver.add(DEFAULT, Namespace("urn:a")).unwrap();
        resolver.add(named("v"), Namespace("urn:b")).unwrap();
        assert_eq!(element(&resolver, "chunk"), bound("urn:a"));
        assert_eq!(element(&resolver, "v:chunk"), bound("urn:b"));

        resolver.add(DEFAULT, Namespace("urn:c")).unwrap();
        assert_eq!(element(&resolver, "chunk"), bound("urn:c"));

        resolver.add(DEFAULT, Namespace("")).unwrap();
        resolver.add(named("v"), Namespace("")).unwrap();
        assert_eq!(element(&resolver, "chunk"), ResolveResult::Unbound);
        assert_eq!(element(&resolver, "v:chunk"), unknown("v"));
    }

    #[test]
    fn the_default_namespace_is_for_elements() {
        let mut resolver = NamespaceResolver::default();
        // each line of the table: with the default wanted or not, and set or not
        for set in [false, true] {
            if set {
                resolver.add(DEFAULT, Namespace("urn:a")).unwrap();
                resolver.add(named("v"), Namespace("urn:b")).unwrap();
            }
            let default = || {
                if set {
                    bound("urn:a")
                } else {
                    ResolveResult::Unbound
                }
            };
            let prefixed = || if set { bound("urn:b") } else { unknown("v") };
            for wanted in [false, true] {
                let (namespace, local) = resolver.resolve(QName("id"), wanted);
                assert_eq!(local.into_inner(), "id");
                assert_eq!(
                    namespace,
                    if wanted {
                        default()
                    } else {
                        ResolveResult::Unbound
                    }
                );
                let (namespace, local) = resolver.resolve(QName("v:id"), wanted);
                assert_eq!((namespace, local.into_inner()), (prefixed(), "id"));
                let prefix = QName("v:id").prefix();
                assert_eq!(resolver.resolve_prefix(prefix, wanted), prefixed());
            }
            assert_eq!(resolver.resolve_prefix(None, true), default());
            assert_eq!(resolver.resolve_prefix(None, false), ResolveResult::Unbound);
            assert_eq!(attribute_of(&resolver, "id"), ResolveResult::Unbound);
        }
        assert_eq!(element(&resolver, ":id"), unknown(""));
        assert_eq!(element(&resolver, "v:a:b"), bound("urn:b"));
    }

    #[test]
    fn an_unknown_prefix_is_a_refusal_where_one_is_wanted() {
        let mut resolver = NamespaceResolver::default();
        resolver.add(named("v"), Namespace("urn:b")).unwrap();
        let namespace = |name| Option::<Namespace>::try_from(attribute_of(&resolver, name));
        assert_eq!(namespace("id"), Ok(None));
        assert_eq!(namespace("v:id"), Ok(Some(Namespace("urn:b"))));
        assert_eq!(
            namespace("w:id"),
            Err(NamespaceError::UnknownPrefix("w".to_string()))
        );
    }

    #[test]
    fn namespaces_are_the_values_as_written() {
        let mut resolver = NamespaceResolver::default();
        for value in [
            "urn:caf\u{e9}",
            "urn:caf&#xe9;",
            "urn:caf&#233;",
            " urn:x\n",
        ] {
            let content = format!("v:chunk xmlns:v='{value}'");
            resolver.push(&tag(&content)).unwrap();
            assert_eq!(element(&resolver, "v:chunk"), bound(value));
            assert_eq!(Namespace(value).into_inner(), value);
            resolver.pop();
        }
    }

    /// Declarations of what is reserved: prefix, namespace and answer.
    fn reserved() -> [(&'static str, &'static str, Result<(), NamespaceError>); 8] {
        use NamespaceError::*;
        let refused = |why: fn(String) -> NamespaceError, text: &str| Err(why(text.to_string()));
        [
            ("xml", XML, Ok(())),
            ("xml", "urn:a", refused(InvalidXmlPrefixBind, "urn:a")),
            ("xml", XMLNS, refused(InvalidXmlPrefixBind, XMLNS)),
            ("xmlns", "urn:a", refused(InvalidXmlnsPrefixBind, "urn:a")),
            ("xmlns", XMLNS, refused(InvalidXmlnsPrefixBind, XMLNS)),
            ("v", XML, refused(InvalidPrefixForXml, "v")),
            ("v", XMLNS, refused(InvalidPrefixForXmlns, "v")),
            ("", XML, refused(InvalidPrefixForXml, "")),
        ]
    }

    #[test]
    fn reserved_prefixes_and_namespaces() {
        let mut resolver = NamespaceResolver::default();
        assert_eq!(attribute_of(&resolver, "xml:lang"), bound(XML));
        assert_eq!(attribute_of(&resolver, "xmlns:v"), bound(XMLNS));
        for (prefix, namespace, answer) in reserved() {
            assert_eq!(resolver.add(named(prefix), Namespace(namespace)), answer);
            let content = format!("a xmlns:{prefix}='{namespace}'");
            assert_eq!(resolver.push(&tag(&content)), answer);
            resolver.pop();
            assert_eq!(resolver.bindings().count(), 0);
        }
        // for the default nothing is reserved
        resolver.add(DEFAULT, Namespace(XMLNS)).unwrap();
        assert_eq!(element(&resolver, "a"), bound(XMLNS));
    }

    #[test]
    fn a_refused_declaration_keeps_those_before_it() {
        let mut resolver = NamespaceResolver::default();
        assert_eq!(
            resolver.push(&tag("a xmlns:p='v' xmlns:xmlns='w' xmlns:q='z'")),
            Err(NamespaceError::InvalidXmlnsPrefixBind("w".to_string()))
        );
        assert_eq!(resolver.level(), 1);
        assert_eq!(element(&resolver, "p:a"), bound("v"));
        assert_eq!(element(&resolver, "q:a"), unknown("q"));
        resolver.pop();
        assert_eq!(element(&resolver, "p:a"), unknown("p"));
    }

    #[test]
    fn declarations_end_at_the_first_fault_of_a_tag() {
        let mut resolver = NamespaceResolver::default();
        resolver.push(&tag("a xmlns:p='v' x xmlns:q='w'")).unwrap();
        assert_eq!(element(&resolver, "p:a"), bound("v"));
        assert_eq!(element(&resolver, "q:a"), unknown("q"));
        // keys are not checked: the second of two declarations holds
        resolver.push(&tag("a xmlns:p='1' xmlns:p='2'")).unwrap();
        assert_eq!(element(&resolver, "p:a"), bound("2"));
    }

    #[test]
    fn levels() {
        let mut resolver = NamespaceResolver::default();
        assert_eq!(resolver.level(), 0);
        resolver.push(&BytesStart::new("volume")).unwrap();
        assert_eq!(resolver.level(), 1);
        resolver.set_level(7);
        assert_eq!(resolver.level(), 7);
        resolver.pop();
        assert_eq!(resolver.level(), 6);
        resolver.set_level(0);
        assert_eq!(resolver.level(), 0);
        resolver.pop();
        assert_eq!(resolver.level(), 0);
    }

    #[test]
    fn a_lower_level_drops_what_stands_above_it() {
        let mut resolver = NamespaceResolver::default();
        for (content, value) in [("a xmlns='1'", "1"), ("b xmlns='2'", "2"), ("c", "2")] {
            resolver.push(&tag(content)).unwrap();
            assert_eq!(element(&resolver, "x"), bound(value));
        }
        resolver.set_level(9);
        resolver.add(DEFAULT, Namespace("9")).unwrap();
        assert_eq!(element(&resolver, "x"), bound("9"));
        resolver.pop();
        assert_eq!(element(&resolver, "x"), bound("2"));
        resolver.set_level(1);
        assert_eq!(element(&resolver, "x"), bound("1"));
        resolver.set_level(0);
        assert_eq!(element(&resolver, "x"), ResolveResult::Unbound);
        assert_eq!(attribute_of(&resolver, "xml:x"), bound(XML));
    }

    #[test]
    fn nesting_has_a_deepest_level() {
        let mut resolver = NamespaceResolver::default();
        resolver.set_level(u16::MAX - 1);
        resolver.push(&tag("a xmlns='u'")).unwrap();
        assert_eq!(
            resolver.push(&tag("b xmlns='v'")),
            Err(NamespaceError::TooDeeplyNested(65_535))
        );
        assert_eq!(resolver.level(), u16::MAX);
        assert_eq!(element(&resolver, "x"), bound("u"));
    }

    #[test]
    fn the_limit() {
        let mut resolver = NamespaceResolver::default();
        assert_eq!(
            resolver.max_namespace_bindings(),
            DEFAULT_MAX_NAMESPACE_BINDINGS
        );
        assert_eq!(DEFAULT_MAX_NAMESPACE_BINDINGS, 128);
        let declarations: String = (0..128).map(|n| format!(" xmlns:p{n}='u{n}'")).collect();
        let content = format!("a{declarations}");
        resolver.push(&tag(&content)).unwrap();
        assert_eq!(resolver.bindings().count(), 128);
        let full = Err(NamespaceError::TooManyBindings(128));
        assert_eq!(resolver.add(DEFAULT, Namespace("u")), full);
        assert_eq!(resolver.add(named("p0"), Namespace("u")), full);
        assert_eq!(resolver.push(&tag("b xmlns='u'")), full);
        // what adds nothing isn't counted, and what is wrong by itself comes first
        assert_eq!(resolver.add(named("xml"), Namespace(XML)), Ok(()));
        assert_eq!(
            resolver.add(named("v"), Namespace(XML)),
            Err(NamespaceError::InvalidPrefixForXml("v".to_string()))
        );
        assert_eq!(
            resolver
                .set_max_namespace_bindings(129)
                .max_namespace_bindings(),
            129
        );
        resolver.add(DEFAULT, Namespace("u")).unwrap();
        // a lower limit drops nothing
        resolver.set_max_namespace_bindings(1);
        assert_eq!(element(&resolver, "p127:a"), bound("u127"));
        assert_eq!(
            resolver.add(DEFAULT, Namespace("u")),
            Err(NamespaceError::TooManyBindings(1))
        );
        resolver.set_level(0);
        resolver.add(DEFAULT, Namespace("u")).unwrap();
    }

    /// A document, tag by tag, with the bindings that hold inside each.
    #[test]
    fn the_bindings_that_hold() {
        let mut resolver = NamespaceResolver::default();
        let holds = |resolver: &NamespaceResolver, wanted: &[(&str, &str)]| {
            let wanted: Vec<_> = wanted
                .iter()
                .map(|&(prefix, namespace)| match prefix {
                    "" => (DEFAULT, Namespace(namespace)),
                    _ => (named(prefix), Namespace(namespace)),
                })
                .collect();
            assert_eq!(resolver.bindings().collect::<Vec<_>>(), wanted);
        };
        holds(&resolver, &[]);
        resolver.push(&tag("catalogue")).unwrap();
        holds(&resolver, &[]);
        resolver
            .push(&tag("volume xmlns='urn:v' xmlns:c='urn:c'"))
            .unwrap();
        holds(&resolver, &[("", "urn:v"), ("c", "urn:c")]);
        resolver
            .push(&tag("chunk xmlns='urn:w' xmlns:d='urn:d'"))
            .unwrap();
        let inside = [("c", "urn:c"), ("", "urn:w"), ("d", "urn:d")];
        holds(&resolver, &inside);
        resolver.push(&tag("part")).unwrap();
        holds(&resolver, &inside);
        resolver.pop();
        holds(&resolver, &inside);
        // an empty one hides, and isn't shown
        resolver.push(&tag("part xmlns='' xmlns:c=''")).unwrap();
        holds(&resolver, &[("d", "urn:d")]);
        resolver.pop();
        resolver.pop();
        holds(&resolver, &[("", "urn:v"), ("c", "urn:c")]);
        resolver.pop();
        holds(&resolver, &[]);
    }

    #[test]
    fn the_bindings_of_a_level() {
        let mut resolver = NamespaceResolver::default();
        for content in [
            "catalogue",
            "volume xmlns='urn:v' xmlns:c='urn:c'",
            "chunk xmlns='urn:w' xmlns:d='urn:d' xmlns:c=''",
            "part",
        ] {
            resolver.push(&tag(content)).unwrap();
        }
        let levels: [&[_]; 6] = [
            &[
                (named("xml"), Namespace(XML)),
                (named("xmlns"), Namespace(XMLNS)),
            ],
            &[],
            // also where a later one hides it
            &[
                (DEFAULT, Namespace("urn:v")),
                (named("c"), Namespace("urn:c")),
            ],
            // and an empty one isn't shown
            &[
                (DEFAULT, Namespace("urn:w")),
                (named("d"), Namespace("urn:d")),
            ],
            &[],
            &[],
        ];
        for (level, wanted) in (0..).zip(levels) {
            let mut bindings = resolver.bindings_of(level);
            assert_eq!(bindings.by_ref().collect::<Vec<_>>(), wanted);
            assert_eq!(bindings.next(), None);
        }
    }

    /// As many as each bound says are listed from each place on, at least and at most.
    fn within_bounds<'a>(
        mut bindings: impl Iterator<Item = (PrefixDeclaration<'a>, Namespace<'a>)> + Clone,
    ) {
        loop {
            let (least, most) = bindings.size_hint();
            let listed = bindings.clone().count();
            assert!(least <= listed && most.is_none_or(|most| listed <= most));
            if bindings.next().is_none() {
                break;
            }
        }
    }

    #[test]
    fn listings_say_how_many_they_may_list() {
        let mut resolver = NamespaceResolver::default();
        within_bounds(resolver.bindings());
        within_bounds(resolver.bindings_of(0));
        for content in ["a xmlns='1' xmlns:p='2'", "b xmlns='' xmlns:q='3'"] {
            resolver.push(&tag(content)).unwrap();
            within_bounds(resolver.bindings());
            (0..4).for_each(|level| within_bounds(resolver.bindings_of(level)));
        }
        // the records behind the place: those of the built-in bindings are a level's alone
        assert_eq!(resolver.bindings().size_hint(), (0, Some(4)));
        assert_eq!(resolver.bindings_of(1).size_hint(), (0, Some(6)));
    }

    #[test]
    fn a_copy_has_its_own_bindings() {
        let mut resolver = NamespaceResolver::default();
        resolver.push(&tag("a xmlns='1'")).unwrap();
        let mut copy = resolver.clone();
        copy.push(&tag("b xmlns='2'")).unwrap();
        resolver.pop();
        assert_eq!(element(&copy, "x"), bound("2"));
        assert_eq!(element(&resolver, "x"), ResolveResult::Unbound);
        copy.pop();
        assert_eq!(element(&copy, "x"), bound("1"));
    }

    /// A reader of the program's own, with the resolver's type as it is written without any parameter.
    #[derive(Clone, Debug, Default)]
    struct Reader {
        resolver: NamespaceResolver,
    }

    impl Reader {
        const fn depth(&self) -> (u16, usize) {
            let resolver = &self.resolver;
            (resolver.level(), resolver.max_namespace_bindings())
        }

        const fn listed(&self) -> (NamespaceBindingsIter<'_>, NamespaceBindingsOfLevelIter<'_>) {
            (self.resolver.bindings(), self.resolver.bindings_of(1))
        }
    }

    #[test]
    fn a_resolver_in_the_programs_own_types() {
        let mut reader = Reader::default();
        reader
            .resolver
            .push(&tag("a xmlns='1' xmlns:p='2'"))
            .unwrap();
        assert_eq!(reader.depth(), (1, DEFAULT_MAX_NAMESPACE_BINDINGS));
        let (bindings, of_level) = reader.listed();
        assert_eq!((bindings.count(), of_level.count()), (2, 2));
        // taken by value, by type and as a function
        let taken = std::mem::take(&mut reader.resolver);
        assert_eq!(element(&taken, "x"), bound("1"));
        let mut others: Vec<Option<Box<NamespaceResolver>>> = vec![None, Some(Box::new(taken))];
        let resolve: fn(&NamespaceResolver, &str) -> bool =
            |resolver, name| resolver.resolve_element(QName(name)).0 == bound("2");
        assert!(others.pop().flatten().is_some_and(|it| resolve(&it, "p:x")));
        let has_nil = Attributes::has_nil;
        assert!(!has_nil(&mut Attributes::new("", 0), &reader.resolver));
        assert!(!Attributes::new("a", 0).has_nil(&NamespaceResolver::default()));
    }

    #[test]
    fn refusals_say_what() {
        let text = || "t".to_string();
        for (error, shown) in [
            (
                NamespaceError::UnknownPrefix(text()),
                "unknown namespace prefix 't'",
            ),
            (
                NamespaceError::InvalidXmlPrefixBind(text()),
                "the namespace prefix 'xml' cannot be bound to 't'",
            ),
            (
                NamespaceError::InvalidXmlnsPrefixBind(text()),
                "the namespace prefix 'xmlns' cannot be bound to 't'",
            ),
            (
                NamespaceError::InvalidPrefixForXml(text()),
                "the namespace prefix 't' cannot be bound to 'http://www.w3.org/XML/1998/namespace'",
            ),
            (
                NamespaceError::InvalidPrefixForXmlns(text()),
                "the namespace prefix 't' cannot be bound to 'http://www.w3.org/2000/xmlns/'",
            ),
            (
                NamespaceError::TooManyBindings(3),
                "more than 3 namespace bindings in scope; raise the limit with NamespaceResolver::set_max_namespace_bindings",
            ),
            (
                NamespaceError::TooDeeplyNested(4),
                "document nests elements deeper than the supported limit of 4",
            ),
        ] {
            let error: Box<dyn std::error::Error> = Box::new(error);
            assert_eq!(error.to_string(), shown);
        }
    }
}
