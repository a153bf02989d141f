//! Tags and names that need not be text: on text they answer as the calls on text do, and any other bytes go by the same rules.

use mezzulidda::events::BytesStart;
use mezzulidda::events::attributes::{
    Attr, AttrError, Attribute, Attributes, ByteAttributes, Kept, Tables,
};
use mezzulidda::name::{
    Lent, Namespace, NamespaceError, NamespaceResolver, PrefixDeclaration, QName, ResolveResult,
};

/// Tags with everything that can be wrong, opened at 1.
const TAGS: [&str; 9] = [
    "t a='1' b=\"é\" c='' ",
    "t a='1' a='2 b=3' b='4' c='5'",
    "t a b=1 c='2' d",
    "t a=1 a=2 a='3' = b='4",
    "t k0='' k1='' k2='' k3='' k4='' k5='' k6='' k7='' k8='' k9='' k1='' k2 k3='x' k3=' y='1'",
    "t k0='' k1='' k2='' k3='' k4='' k5='' k6='' k0='' k7='' k0='' k8=",
    "t ö='1' ö='2' ä=ü",
    "t a=\"1'2\" b='3\"4'",
    "t",
];

type Answer<'a> = Result<Attribute<'a>, AttrError>;

/// The answer that text would have.
fn as_text(answer: Result<Attr<&[u8]>, AttrError>) -> Answer<'_> {
    answer.map(|attr| attr.map(|part| str::from_utf8(part).unwrap()).into())
}

/// Whether keys are checked before the first answer, and what is set before which later one.
type Checks = (bool, usize, bool);

fn read<T: Kept>(mut attributes: ByteAttributes<T>, (first, turn, then): Checks) -> Vec<Answer> {
    attributes.with_checks(first);
    let mut answers: Vec<_> = attributes.by_ref().take(turn).map(as_text).collect();
    attributes.with_checks(then);
    answers.extend(attributes.map(as_text));
    answers
}

fn read_text(mut attributes: Attributes, (first, turn, then): Checks) -> Vec<Answer> {
    attributes.with_checks(first);
    let mut answers: Vec<_> = attributes.by_ref().take(turn).collect();
    attributes.with_checks(then);
    answers.extend(attributes);
    answers
}

#[test]
fn as_on_text() {
    let mut tables = Tables::new();
    for tag in TAGS {
        let bytes = tag.as_bytes();
        for turn in 0..12 {
            for checks in [(true, turn, false), (false, turn, true), (true, turn, true)] {
                let wanted = read_text(Attributes::new(tag, 1), checks);
                let own = read(ByteAttributes::new(bytes, 1), checks);
                let lent = ByteAttributes::with_tables(bytes, 1, &mut tables);
                assert_eq!((own, read(lent, checks)), (wanted.clone(), wanted));
                let wanted = read_text(Attributes::html(tag, 1), checks);
                let own = read(ByteAttributes::html(bytes, 1), checks);
                let lent = ByteAttributes::html_with_tables(bytes, 1, &mut tables);
                assert_eq!((own, read(lent, checks)), (wanted.clone(), wanted));
            }
        }
    }
}

#[test]
fn no_text() {
    let tag = b"\xfe id='\xff' \xfe=\"\" id='\xfe'";
    let id = Attr::SingleQ(&b"id"[..], &b"\xff"[..]);
    let odd = Attr::DoubleQ(&b"\xfe"[..], &b""[..]);
    let again = Attr::SingleQ(&b"id"[..], &b"\xfe"[..]);
    let read = [
        Ok(id.clone()),
        Ok(odd.clone()),
        Err(AttrError::Duplicated(14, 2)),
    ];
    let mut tables = Tables::new();
    assert_eq!(ByteAttributes::new(tag, 1).collect::<Vec<_>>(), read);
    let lent = ByteAttributes::with_tables(tag, 1, &mut tables);
    assert_eq!(lent.collect::<Vec<_>>(), read);
    let mut unchecked = ByteAttributes::new(tag, 1);
    let all: Vec<_> = unchecked.with_checks(false).collect();
    assert_eq!(all, [Ok(id), Ok(odd), Ok(again)]);
    assert_eq!(
        ByteAttributes::html(b"\xff \xfe=\xfd", 0).collect::<Vec<_>>(),
        [
            Ok(Attr::Empty(&b"\xff"[..])),
            Ok(Attr::Unquoted(&b"\xfe"[..], &b"\xfd"[..]))
        ]
    );
}

/// Whether there is a `nil`, and what is read behind it.
fn nil_and_rest<'a, T: Kept>(
    mut attributes: ByteAttributes<'a, T>,
    resolver: &NamespaceResolver,
) -> (bool, Vec<Answer<'a>>) {
    let nil = attributes.has_nil(resolver);
    (nil, attributes.map(as_text).collect())
}

#[test]
fn nil() {
    let mut resolver = NamespaceResolver::default();
    let root = "t xmlns:i='http://www.w3.org/2001/XMLSchema-instance' xmlns:j='urn:j'";
    resolver.push(&BytesStart::from_content(root, 1)).unwrap();
    let mut tables = Tables::new();
    for tag in [
        "t i:nil='1' a='2' b=3",
        "t i:nil='true' i:nil='1' a='2'",
        "t a='2' i:nil='0' a='1' i:nil='1' b",
        "t j:nil='1' nil='1' i:nil=1 i:nil a='2'",
        "t",
    ] {
        let bytes = tag.as_bytes();
        for html in [false, true] {
            let mut text = match html {
                false => Attributes::new(tag, 1),
                true => Attributes::html(tag, 1),
            };
            let wanted = (text.has_nil(&resolver), text.collect::<Vec<_>>());
            let (own, lent) = match html {
                false => (
                    nil_and_rest(ByteAttributes::new(bytes, 1), &resolver),
                    nil_and_rest(
                        ByteAttributes::with_tables(bytes, 1, &mut tables),
                        &resolver,
                    ),
                ),
                true => (
                    nil_and_rest(ByteAttributes::html(bytes, 1), &resolver),
                    nil_and_rest(
                        ByteAttributes::html_with_tables(bytes, 1, &mut tables),
                        &resolver,
                    ),
                ),
            };
            assert_eq!((&own, &lent), (&wanted, &wanted), "{tag} {html}");
        }
    }
    // behind an answer that was handed out, and among bytes that are no text
    let mut attributes = ByteAttributes::new(b"i:nil='1' \xff='\xff' i:nill='1' i:nil=\"1\"", 0);
    attributes.next();
    assert!(!attributes.has_nil(&resolver));
    let mut unchecked = ByteAttributes::new(b"i:nil='1' \xff='\xff' i:nil=\"true\" a='1'", 0);
    unchecked.with_checks(false).next();
    assert!(unchecked.has_nil(&resolver));
    assert_eq!(
        unchecked.next(),
        Some(Ok(Attr::SingleQ(&b"a"[..], &b"1"[..])))
    );
}

const SCOPES: [&str; 8] = [
    "t xmlns='urn:a' xmlns:p='urn:p' xmlns:é='urn:é'",
    "p:t p:k='1' xmlns:q=\"\" xmlns:p='v' x xmlns:r='r'",
    "t xmlns:p='urn:p' xmlns:xml='urn:é' xmlns:r='r'",
    "t xmlns:p='u' xmlns:xmlns='w' xmlns:q='z'",
    "t xmlns:é='http://www.w3.org/XML/1998/namespace'",
    "t xmlns:é='http://www.w3.org/2000/xmlns/'",
    "t xmlns='1' xmlns:a='2' xmlns:b='3' xmlns:c='4' xmlns:d='5'",
    "t",
];
const NAMES: [&str; 9] = ["k", "p:k", "é:é", "q:k", "r:k", "xml:k", ":k", "p:", ""];

#[test]
fn scopes_as_on_text() {
    let mut text = NamespaceResolver::default();
    text.set_max_namespace_bindings(12);
    let mut bytes = text.clone();
    let mut refused = 0;
    for turn in 0..4 * SCOPES.len() {
        let content = SCOPES[turn % SCOPES.len()];
        let at = content.find(' ').unwrap_or(content.len());
        let told = text.push(&BytesStart::from_content(content, at));
        assert_eq!(bytes.push_bytes(content.as_bytes(), at), told, "{content}");
        refused += usize::from(told.is_err());
        assert_eq!(format!("{bytes:?}"), format!("{text:?}"));
        for name in NAMES {
            for use_default in [false, true] {
                let (namespace, local) = text.resolve(QName(name), use_default);
                let wanted = match &namespace {
                    ResolveResult::Unbound => Ok(None),
                    ResolveResult::Bound(namespace) => Ok(Some(*namespace)),
                    ResolveResult::Unknown(prefix) => Err(prefix.as_bytes()),
                };
                assert_eq!(
                    bytes.resolve_bytes(name.as_bytes(), use_default),
                    (wanted, local.into_inner().as_bytes()),
                    "{name} after {content}"
                );
            }
        }
        if turn % 3 == 2 {
            text.pop();
            bytes.pop();
        }
    }
    assert!(refused > 12);
    for resolver in [&mut text, &mut bytes] {
        resolver.set_level(u16::MAX);
    }
    let told = Err(NamespaceError::TooDeeplyNested(65_535));
    assert_eq!(bytes.push_bytes(b"t xmlns='\xff'", 1), told);
    assert_eq!(bytes.level(), u16::MAX);
}

#[test]
fn scopes_of_no_text() {
    let mut resolver = NamespaceResolver::default();
    resolver
        .push_bytes(b"\xff:t \xfe='\xff' xmlns:p='urn:p' x xmlns:q='\xff'", 3)
        .unwrap();
    let bound = Ok(Some(Namespace("urn:p")));
    assert_eq!(
        resolver.resolve_bytes(b"p:\xff", false),
        (bound, &b"\xff"[..])
    );
    assert_eq!(
        resolver.resolve_bytes(b"\xff:p:k", true),
        (Err(&b"\xff"[..]), &b"p:k"[..])
    );
    // where reading begins is any number
    for pos in [usize::MAX, usize::MAX - 1, usize::MAX / 2 + 1, 36, 35] {
        let level = resolver.level();
        resolver
            .push_bytes(b"t xmlns:p='urn:q' xmlns:q='urn:q' x", pos)
            .unwrap();
        assert_eq!(resolver.level(), level + 1);
        assert_eq!(resolver.bindings().count(), 1);
    }
}

/// Memory that is lent as bytes.
#[repr(align(8))]
struct Page([u8; 2048]);

#[test]
fn declarations_of_no_text_change_nothing() {
    let mut page = Page([0; 2048]);
    let mut resolver = NamespaceResolver::new_in(Lent::from_bytes(&mut page.0).unwrap());
    resolver
        .push_bytes(b"t xmlns='urn:a' xmlns:p='urn:p'", 1)
        .unwrap();
    resolver
        .add(PrefixDeclaration::Named("a"), Namespace("urn:b"))
        .unwrap();
    let before = page.0;
    for tag in [
        &b"t xmlns='\xff'"[..],
        b"t xmlns:\xff='urn:q'",
        b"t xmlns:q='urn:q' xmlns:r='urn:\xff' xmlns:s='urn:s'",
        // the two halves of a character are none
        b"t xmlns:\xc3='\xa9'",
        // no text in a refusal, and before one that is text
        b"t xmlns:q='urn:q' xmlns:xml='\xff'",
        b"t xmlns:q='urn:q' xmlns:xmlns='\xff'",
        b"t xmlns:\xff='http://www.w3.org/XML/1998/namespace'",
        b"t xmlns:\xff='http://www.w3.org/2000/xmlns/'",
        b"t xmlns:q='\xff' xmlns:xml='urn:q'",
    ] {
        let mut resolver = NamespaceResolver::resume_in(Lent::from_bytes(&mut page.0).unwrap());
        let refused = resolver.as_mut().unwrap().push_bytes(tag, 1);
        assert_eq!(refused, Err(NamespaceError::NoText));
        assert!(page.0 == before, "{}", tag.escape_ascii());
    }
    assert_eq!(
        NamespaceError::NoText.to_string(),
        "a namespace declaration is not UTF-8"
    );
}
