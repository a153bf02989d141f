//! What quick-xml does not have: capacities and their refusals, and memory that grows or is lent.

use mezzulidda::events::BytesStart;
use mezzulidda::events::attributes::{AttrError, Attribute, Attributes, Tables};
use mezzulidda::name::{
    Memory, Namespace, NamespaceError, NamespaceResolver, PrefixDeclaration, QName, ResolveResult,
    Room,
};
use std::borrow::Cow;
use std::thread;

const KEYS: usize = Tables::KEYS;

fn keys(count: usize) -> String {
    (0..count).map(|n| format!(" k{n}=''")).collect()
}

fn refusals<'a>(
    answers: impl Iterator<Item = Result<Attribute<'a>, AttrError>>,
) -> (usize, Vec<AttrError>) {
    let answers: Vec<_> = answers.collect();
    let read = answers.iter().filter(|answer| answer.is_ok()).count();
    (read, answers.into_iter().filter_map(Result::err).collect())
}

#[test]
fn a_key_too_many_ends_reading() {
    assert_eq!(refusals(Attributes::new(&keys(KEYS), 0)), (KEYS, vec![]));
    let content = format!("{} k0='' new='' k1=''", keys(KEYS));
    let at = keys(KEYS).len() + 1;
    let wanted = vec![
        AttrError::Duplicated(at, 1),
        AttrError::KeyTableFull(at + 6),
    ];
    assert_eq!(refusals(Attributes::new(&content, 0)), (KEYS, wanted));
    // a bare key too, and nothing is read after it
    let content = format!("{} k0 bare last", keys(KEYS));
    let wanted = vec![
        AttrError::Duplicated(at, 1),
        AttrError::KeyTableFull(at + 3),
    ];
    assert_eq!(refusals(Attributes::html(&content, 0)), (KEYS, wanted));
    let content = format!("{} k0='' new='' k1=''", keys(KEYS));
    let mut unchecked = Attributes::new(&content, 0);
    assert_eq!(refusals(unchecked.with_checks(false)), (KEYS + 3, vec![]));
    assert_eq!(
        AttrError::KeyTableFull(7).to_string(),
        format!("position 7: more than {KEYS} different attribute keys")
    );
}

/// ` k0='1' k1='1' ..`, so many of them.
fn numbered(count: usize) -> String {
    (0..count).map(|n| format!(" k{n}='1'")).collect()
}

#[test]
fn tags_of_700_and_1024_attributes() {
    let mut tables = Tables::new();
    for count in [700, 1_024] {
        let content = numbered(count);
        let wanted: Vec<_> = (0..count).map(|n| format!("k{n}")).collect();
        let own = Attributes::new(&content, 0);
        let lent = Attributes::with_tables(&content, 0, &mut tables);
        for read in [own.collect::<Vec<_>>(), lent.collect()] {
            let read: Vec<_> = read.into_iter().map(Result::unwrap).collect();
            assert!(read.iter().all(|attribute| attribute.value == "1"));
            let keys: Vec<_> = read.iter().map(|a| a.key.into_inner()).collect();
            assert_eq!(keys, wanted);
        }
    }
    // one more: a new name, and one that came before
    for (last, wanted) in [
        (" k1024='1'", AttrError::KeyTableFull(9_131)),
        (" k7='1'", AttrError::Duplicated(9_131, 50)),
    ] {
        let content = numbered(1_024) + last;
        let own = refusals(Attributes::new(&content, 0));
        let lent = refusals(Attributes::with_tables(&content, 0, &mut tables));
        assert_eq!(own, (1_024, vec![wanted]));
        assert_eq!(own, lent);
    }
}

/// FNV-1a with 32 bits: what the library tells most different names apart by.
fn hash(name: &str) -> u32 {
    name.bytes().fold(2_166_136_261, |hash, byte| {
        (hash ^ u32::from(byte)).wrapping_mul(16_777_619)
    })
}

#[test]
fn names_of_one_hash_are_different_keys() {
    for [one, other] in [
        ["yaczf", "glbpp"],
        ["yzfzf", "geepp"],
        ["yomzf", "gvlpp"],
        ["gtbxf", "yicrp"],
    ] {
        assert_eq!(hash(one), hash(other));
        let content = format!("{one}='' {other}='' {one}='' {other}=''");
        let wanted = vec![AttrError::Duplicated(18, 0), AttrError::Duplicated(27, 9)];
        assert_eq!(refusals(Attributes::new(&content, 0)), (2, wanted));
        // behind so many others that they are on the heap
        let content = format!("{}{content}", numbered(500) + " ");
        let at = content.len() - 35;
        let wanted = vec![
            AttrError::Duplicated(at + 18, at),
            AttrError::Duplicated(at + 27, at + 9),
        ];
        assert_eq!(refusals(Attributes::new(&content, 0)), (502, wanted));
    }
}

/// How many answers are read ahead, and how many keys are recorded, as an iterator shows it.
fn shown_of(attributes: &impl std::fmt::Debug) -> [usize; 2] {
    let shown = format!("{attributes:?}");
    ["ahead: ", "recorded: "].map(|what| {
        let (_, number) = shown.rsplit_once(what).unwrap();
        let end = number.find(|c: char| !c.is_ascii_digit()).unwrap();
        number[..end].parse().unwrap()
    })
}

/// The lengths of the batches in which a tag is read.
fn batches<'a>(
    mut attributes: impl Iterator<Item = Result<Attribute<'a>, AttrError>> + std::fmt::Debug,
) -> Vec<usize> {
    let mut lengths = Vec::new();
    while attributes.next().is_some() {
        let [ahead, _] = shown_of(&attributes);
        lengths.push(ahead);
        (1..ahead).for_each(|_| drop(attributes.next()));
    }
    lengths
}

/// Each call hashes all bytes of the recorded keys: where these are long, as here one, batches grow with them.
#[test]
fn batches_grow_with_long_keys() {
    let content = "k".repeat(100_000) + "='' " + &"a ".repeat(2_000);
    let lengths = batches(Attributes::new(&content, 0));
    assert_eq!(lengths, [8, 16, 32, 64, 128, 256, 390, 390, 390, 327]);
    let mut tables = Tables::new();
    let lengths = batches(Attributes::with_tables(&content, 0, &mut tables));
    assert_eq!(lengths[..6], [8, 16, 32, 64, 128, 256]);
    assert_eq!(lengths[6..], [256, 256, 256, 256, 256, 217]);
    // where they come to no more than 2 KB nothing is on the heap, and batches are short
    let content = "k".repeat(2_303) + "='' " + &"a ".repeat(40);
    assert_eq!(batches(Attributes::new(&content, 0)), [8, 8, 8, 8, 8, 1]);
    let content = "k".repeat(2_304) + "='' " + &"a ".repeat(40);
    assert_eq!(batches(Attributes::new(&content, 0)), [8, 9, 9, 9, 6]);
}

#[test]
fn batches_grow_with_the_recorded_keys() {
    let mut tables = Tables::new();
    let content = numbered(1_024);
    // with memory of its own eight at a time, as long as that is inside
    assert_eq!(
        batches(Attributes::new(&content, 0)),
        [8, 8, 8, 8, 16, 32, 64, 128, 256, 256, 240]
    );
    assert_eq!(
        batches(Attributes::with_tables(&content, 0, &mut tables)),
        [8, 8, 16, 32, 64, 128, 256, 256, 256]
    );
    // behind a turn of the checks they are short, and grow again
    let mut turned = Attributes::with_tables(&content, 0, &mut tables);
    turned.by_ref().take(517).for_each(drop);
    turned.with_checks(false).with_checks(true);
    assert_eq!(batches(turned), [10, 20, 40, 80, 160, 197]);
    // where none is recorded, few
    let mut unchecked = Attributes::new(&content, 0);
    unchecked.with_checks(false);
    assert_eq!(batches(unchecked), [8; 128]);
    // and where few are, of which the others come again
    let content: String = (0..100).map(|n| format!(" k{}=''", n % 20)).collect();
    let mut lengths = batches(Attributes::with_tables(&content, 0, &mut tables));
    assert_eq!(lengths.pop(), Some(8));
    assert_eq!(lengths, [8, 8, 16, 20, 20, 20]);
}

/// The answers of a tag of attributes ` k{N}=''`, by the numbers N and the checks at each step; and how many keys
/// are recorded.
fn modelled(numbers: &[usize], checks: impl Fn(usize) -> bool) -> (Vec<String>, usize) {
    let mut recorded = std::collections::HashMap::new();
    let mut at = 1;
    let mut answers = Vec::new();
    for (step, number) in numbers.iter().enumerate() {
        let key = format!("k{number}");
        let next = at + key.len() + 4;
        let earlier = recorded.get(number).copied().filter(|_| checks(step));
        if checks(step) && earlier.is_none() && recorded.len() == KEYS {
            answers.push(format!("{:?}", AttrError::KeyTableFull(at)));
            break;
        }
        answers.push(match earlier {
            Some(earlier) => format!("{:?}", AttrError::Duplicated(at, earlier)),
            None => key,
        });
        if checks(step) && earlier.is_none() {
            recorded.insert(number, at);
        }
        at = next;
    }
    (answers, recorded.len())
}

/// The answers of an iterator, with checks as they are wanted at each step; and how many keys it says are recorded.
macro_rules! answers {
    ($attributes:expr, $checks:expr) => {{
        let mut attributes = $attributes;
        let mut answers = Vec::new();
        loop {
            attributes.with_checks($checks(answers.len()));
            match attributes.next() {
                Some(Ok(attribute)) => answers.push(attribute.key.into_inner().to_string()),
                Some(Err(refusal)) => answers.push(format!("{refusal:?}")),
                None => break,
            }
        }
        let [_, recorded] = shown_of(&attributes);
        (answers, recorded)
    }};
}

#[test]
fn batches_of_every_length_are_read_as_one() {
    // each seventh key came before, so that no batch ends where places do
    let numbers: Vec<_> = (0..1_150)
        .map(|n| if n % 7 == 6 { n / 2 } else { n })
        .collect();
    let mut tables = Tables::new();
    let near = |power: u32| (0..5).map(move |n| (1_usize << power) + n - 2);
    let mut lengths: Vec<_> = (0..80).chain((3..11).flat_map(near)).collect();
    lengths.extend([700, 900, 1_149]);
    for length in lengths {
        let numbers = &numbers[..length];
        let content: String = numbers.iter().map(|n| format!(" k{n}=''")).collect();
        // checks on, and off for one step, for a few or for many around the middle
        for off in [0, 1, 9, 70, 300] {
            let middle = length / 2;
            let checks = |step: usize| !(middle..middle + off).contains(&step);
            let wanted = modelled(numbers, checks);
            let own = answers!(Attributes::new(&content, 0), checks);
            // what differs is too long to be shown
            assert!(own == wanted, "{length} with {off}");
            let lent = Attributes::with_tables(&content, 0, &mut tables);
            let lent = answers!(lent, checks);
            assert!(lent == wanted, "{length} with {off}, lent");
            // a copy that is taken in the middle goes on by itself
            let mut attributes = Attributes::new(&content, 0);
            attributes.by_ref().take(middle).for_each(drop);
            let copy = attributes.clone();
            let (read, _) = modelled(numbers, |_| true);
            let [rest, again] = [attributes.count(), copy.count()];
            assert_eq!([rest, again], [read.len() - middle; 2]);
        }
    }
}

#[test]
fn nil_behind_many_attributes() {
    let mut resolver = NamespaceResolver::default();
    let instance = "http://www.w3.org/2001/XMLSchema-instance";
    let scope = format!("t xmlns:i='{instance}'");
    resolver.push(&BytesStart::from_content(scope, 1)).unwrap();
    let mut tables = Tables::new();
    for count in [5, 40, 300, 1_000] {
        let content = format!("{} i:nil='1' last=''", numbered(count));
        // from the start, from behind answers that were read ahead, and from behind the `nil` itself
        for taken in [0, 3, count / 2, count, count + 1] {
            let mut own = Attributes::new(&content, 0);
            let mut lent = Attributes::with_tables(&content, 0, &mut tables);
            own.by_ref().take(taken).for_each(drop);
            lent.by_ref().take(taken).for_each(drop);
            let wanted = (taken <= count, usize::from(taken <= count));
            let found = (own.has_nil(&resolver), own.count());
            assert_eq!(found, wanted, "{count} behind {taken}");
            let found = (lent.has_nil(&resolver), lent.count());
            assert_eq!(found, wanted, "{count} behind {taken}, lent");
        }
    }
}

#[test]
fn lent_tables_remember_nothing() {
    let mut tables = Tables::new();
    let long = keys(KEYS);
    for content in [&*long, "a='1' a='2'", " k0='' k1=''", "", "a=1", "b='"] {
        let own: Vec<_> = Attributes::new(content, 0).collect();
        let lent: Vec<_> = Attributes::with_tables(content, 0, &mut tables).collect();
        assert_eq!(own, lent);
        let own: Vec<_> = Attributes::html(content, 0).collect();
        let lent: Vec<_> = Attributes::html_with_tables(content, 0, &mut tables).collect();
        assert_eq!(own, lent);
        // one that is left half read
        Attributes::with_tables(content, 0, &mut tables).next();
    }
}

#[test]
fn a_run_that_is_turned_off_and_on_at_any_place() {
    // the same answers as a run in which only the settings at each step count
    let content: String = (0..40)
        .map(|n| format!(" k{}={}", n % 23, if n % 5 == 0 { "x" } else { "'1 2'" }))
        .collect();
    for first in 0..45 {
        for second in first..45 {
            let mut ahead = Attributes::new(&content, 0);
            let mut tables = Tables::new();
            let mut alone = Attributes::with_tables(&content, 0, &mut tables);
            for step in 0..60 {
                let checks = step < first || step >= second;
                ahead.with_checks(checks);
                // twice back and forth: what was read ahead is read again, and is the same
                alone.with_checks(!checks).with_checks(checks);
                assert_eq!(ahead.next(), alone.next(), "{first} {second} {step}");
            }
        }
    }
}

#[test]
fn an_attribute_of_a_key_and_a_value() {
    let each = Attribute::from(("k&", "<>&'\"<a b='é'>&amp;\t\n"));
    assert_eq!(
        (each.key, &*each.value),
        (
            QName("k&"),
            "&lt;&gt;&amp;&apos;&quot;&lt;a b=&apos;é&apos;&gt;&amp;amp;\t\n"
        )
    );
    // what needs no escape is not copied
    let plain = "c-17 größe\r;#";
    let kept = Attribute::from(("k", plain));
    assert!(matches!(kept.value, Cow::Borrowed(value) if std::ptr::eq(value, plain)));
    let kept = Attribute::from(("k", Cow::Owned::<str>(plain.to_string())));
    assert!(matches!(kept.value, Cow::Owned(value) if value == plain));
    let written = Attribute::from(("k", Cow::Owned::<str>("a&b".to_string())));
    assert_eq!(written.value, "a&amp;b");
    // in quotes of either kind it is read as it was written
    for quote in ['"', '\''] {
        let tag = format!("chunk k={quote}{}{quote}", each.value);
        assert_eq!(
            Attributes::new(&tag, 5).next().unwrap().unwrap().value,
            each.value
        );
    }
}

const XML: &str = "http://www.w3.org/XML/1998/namespace";
const XMLNS: &str = "http://www.w3.org/2000/xmlns/";

#[test]
fn verdicts() {
    for (name, value, verdict) in [
        ("xmlns:v", "urn:v", Some(true)),
        ("xmlns", "urn:v", Some(true)),
        ("xmlns", "", Some(true)),
        ("xmlns", XML, Some(false)),
        ("xmlns", XMLNS, Some(false)),
        ("xmlns", &format!("{XML}/"), Some(true)),
        ("xmlns", &format!("{XMLNS}/"), Some(true)),
        ("xmlns", &XML[..XML.len() - 1], Some(true)),
        ("xmlns", &XMLNS[..XMLNS.len() - 1], Some(true)),
        ("xmlns:xml", XML, Some(true)),
        ("xmlns:xml", XMLNS, Some(false)),
        ("xmlns:xml", "urn:v", Some(false)),
        ("xmlns:v", XML, Some(false)),
        ("xmlns:v", XMLNS, Some(false)),
        ("xmlns:xmlns", "urn:v", Some(false)),
        ("xmlns:v", "", Some(false)),
        ("xmlns:", "urn:v", Some(false)),
        ("xmlns:a:b", "urn:v", Some(false)),
        ("id", "c-17", None),
    ] {
        assert_eq!(QName(name).verdict(value), verdict, "{name}={value}");
    }
}

// The verdict says no, and the resolver goes by quick-xml.
#[test]
fn a_reserved_default_is_bound_all_the_same() {
    for uri in [XML, XMLNS] {
        let mut resolver = NamespaceResolver::default();
        let tag = format!("t xmlns=\"{uri}\"");
        resolver.push(&BytesStart::from_content(&*tag, 1)).unwrap();
        let (bound, local) = resolver.resolve_element(QName("a"));
        assert_eq!(bound, ResolveResult::Bound(Namespace(uri)));
        assert_eq!(local.as_ref(), "a");
        resolver.pop();
        resolver
            .add(PrefixDeclaration::Default, Namespace(uri))
            .unwrap();
        let (bound, _) = resolver.resolve_element(QName("a"));
        assert_eq!(bound, ResolveResult::Bound(Namespace(uri)));
        assert_eq!(QName("xmlns").verdict(uri), Some(false));
    }
}

#[test]
fn a_resolver_holds_1024_bindings() {
    let mut resolver = NamespaceResolver::default();
    resolver.set_max_namespace_bindings(usize::MAX);
    for _ in 0..1024 {
        resolver
            .add(PrefixDeclaration::Named("p"), Namespace("u"))
            .unwrap();
    }
    let full = Err(NamespaceError::BindingTableFull);
    assert_eq!(
        resolver.add(PrefixDeclaration::Default, Namespace("u")),
        full
    );
    let tag = BytesStart::from_content("a xmlns='u'", 1);
    assert_eq!(resolver.push(&tag), full);
    resolver.set_max_namespace_bindings(1024);
    assert_eq!(
        resolver.push(&tag),
        Err(NamespaceError::TooManyBindings(1024))
    );
    assert_eq!(
        NamespaceError::BindingTableFull.to_string(),
        "all 1,024 namespace bindings are in use"
    );
}

#[test]
fn a_resolver_holds_65536_bytes_of_text() {
    let mut resolver = NamespaceResolver::default();
    let most = "u".repeat(65_536 - 73 - 1);
    let more = "u".repeat(65_536 - 73);
    let named = PrefixDeclaration::Named("p");
    assert_eq!(
        resolver.add(named, Namespace(&more)),
        Err(NamespaceError::TextFull)
    );
    resolver.add(named, Namespace(&most)).unwrap();
    assert_eq!(
        resolver.resolve_element(QName("p:a")).0,
        ResolveResult::Bound(Namespace(&most))
    );
    assert_eq!(
        resolver.add(PrefixDeclaration::Default, Namespace("u")),
        Err(NamespaceError::TextFull)
    );
    // what needs no room has room
    resolver
        .add(PrefixDeclaration::Default, Namespace(""))
        .unwrap();
    assert_eq!(
        NamespaceError::TextFull.to_string(),
        "the namespace bindings in scope have more than 65,536 bytes of text"
    );
}

#[test]
fn room_that_a_pop_frees_is_used_again() {
    let mut resolver = NamespaceResolver::default();
    let content = format!("a xmlns='{}'", "u".repeat(60_000));
    let tag = BytesStart::from_content(content, 1);
    for _ in 0..3 {
        resolver.push(&tag).unwrap();
        assert_eq!(resolver.push(&tag), Err(NamespaceError::TextFull));
        resolver.set_level(0);
    }
}

#[test]
fn memory_that_is_given() {
    let mut memory = Memory::<100, 8>::zeros();
    for value in ["urn:a", "urn:b"] {
        let mut resolver = NamespaceResolver::new_in(&mut memory);
        assert_eq!((resolver.level(), resolver.bindings().count()), (0, 0));
        resolver.set_max_namespace_bindings(3);
        let content = format!("a xmlns='{value}'");
        resolver
            .push(&BytesStart::from_content(content, 1))
            .unwrap();
        assert_eq!(
            resolver.resolve_element(QName("x")).0,
            ResolveResult::Bound(Namespace(value))
        );
        let resolver = NamespaceResolver::new_in(resolver.into_memory());
        assert_eq!(resolver.max_namespace_bindings(), 128);
        assert_eq!(resolver.bindings().count(), 0);
    }
}

#[test]
fn memory_grows_with_what_it_holds() {
    let mut resolver = NamespaceResolver::default();
    let first = resolver.room();
    assert!(first.text + 32 * first.bindings <= 4_096 - 32);
    resolver.set_max_namespace_bindings(usize::MAX);
    let mut wanted = Vec::new();
    for n in 0..1_024 {
        let (prefix, value) = (format!("p{n}"), format!("urn:{n}"));
        let named = PrefixDeclaration::Named(&prefix);
        resolver.add(named, Namespace(&value)).unwrap();
        wanted.push((prefix, value));
    }
    assert_eq!(resolver.room(), Room::MOST);
    let held = resolver
        .bindings()
        .zip(&wanted)
        .all(|((prefix, value), (p, v))| {
            prefix == PrefixDeclaration::Named(p) && value == Namespace(v)
        });
    assert!(held && resolver.bindings().count() == 1_024);
    // a copy has what it needs, and what a pop frees stays with the resolver
    let fresh = NamespaceResolver::default().copied();
    assert_eq!(fresh.room(), first);
    assert_eq!(format!("{:?}", resolver.copied()), format!("{resolver:?}"));
    // one declaration as long as all the text there is
    let mut resolver = NamespaceResolver::default();
    let content = format!("a xmlns='{}'", "u".repeat(65_536 - 73));
    let tag = BytesStart::from_content(content, 1);
    resolver.push(&tag).unwrap();
    assert_eq!(resolver.room(), Room::MOST);
    assert_eq!(resolver.push(&tag), Err(NamespaceError::TextFull));
    resolver.set_level(0);
    assert_eq!(resolver.room(), Room::MOST);
    assert_eq!(resolver.copied().room(), first);
}

#[test]
fn more_attributes_than_there_is_room_for_inside() {
    let mut tables = Tables::new();
    for count in [
        31,
        32,
        33,
        34,
        64,
        65,
        256,
        700,
        KEYS - 1,
        KEYS,
        KEYS + 1,
        KEYS + 300,
    ] {
        let content = format!("{} k0='' k{count}=''{}", keys(count), keys(3));
        for html in [false, true] {
            let (own, lent): (Vec<_>, Vec<_>) = match html {
                true => (
                    Attributes::html(&content, 0).collect(),
                    Attributes::html_with_tables(&content, 0, &mut tables).collect(),
                ),
                false => (
                    Attributes::new(&content, 0).collect(),
                    Attributes::with_tables(&content, 0, &mut tables).collect(),
                ),
            };
            assert_eq!(own, lent);
            // up to four keys are there twice; a different one too many is refused, and ends it
            let answers = match count {
                0..KEYS => count + 5,
                KEYS => KEYS + 2,
                _ => KEYS + 1,
            };
            assert_eq!(own.len(), answers, "{count} keys");
        }
        // a copy of one that is on the heap, and one that is searched for `nil` up to its end
        let mut attributes = Attributes::new(&content, 0);
        attributes.by_ref().take(40).for_each(drop);
        let copy: Vec<_> = attributes.clone().collect();
        assert_eq!(attributes.collect::<Vec<_>>(), copy);
        let resolver = NamespaceResolver::default();
        assert!(!Attributes::new(&content, 0).has_nil(&resolver));
    }
}

/// Reads a tag in each of so many levels, of which all have an iterator that isn't at its end.
fn read_within(levels: usize, content: &str) -> usize {
    let mut attributes = Attributes::new(content, 0);
    let mut read = 0;
    for attribute in &mut attributes {
        read += attribute.unwrap().value.len();
        if read == 1 && levels > 1 {
            read += read_within(levels - 1, content);
        }
    }
    read
}

/// The same where the loop has the iterator; a build without optimisation then takes more stack for each level.
fn read_by_value(levels: usize, tag: &BytesStart) -> usize {
    let mut read = 0;
    for attribute in tag.attributes() {
        read += attribute.unwrap().value.len();
        if read == 1 && levels > 1 {
            read += read_by_value(levels - 1, tag);
        }
    }
    read
}

/// What is read in a thread with 2 MB of stack.
fn in_2_mb(read: impl FnOnce() -> usize + Send + 'static) -> usize {
    let reader = thread::Builder::new().stack_size(2 << 20).spawn(read);
    reader.unwrap().join().unwrap()
}

#[test]
fn an_iterator_for_each_of_1500_levels() {
    // without optimisation a level takes more, and still more where the loop has the iterator
    let (within, by_value) = match cfg!(debug_assertions) {
        false => (1_500, 1_500),
        true => (1_200, 500),
    };
    let read = in_2_mb(move || read_within(within, " a='1' b='22'"));
    assert_eq!(read, 3 * within);
    let tag = BytesStart::from_content("t a='1' b='22'", 1);
    let read = in_2_mb(move || read_by_value(by_value, &tag));
    assert_eq!(read, 3 * by_value);
}

#[test]
fn reading_and_scopes_can_go_to_other_threads() {
    fn both<T: Send + Sync>() {}
    both::<Attributes>();
    both::<NamespaceResolver>();
}
