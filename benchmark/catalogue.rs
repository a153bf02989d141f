//! Reads a catalogue of 100,000 tags through the Rust crate and through quick-xml's own, checks on: one
//! process, the same tags, the same loop, both built for release. First the attributes alone, then those of tags that
//! have 700, then with their namespaces: each tag is pushed, its name and those of its attributes are resolved, and it
//! is popped.
//!
//! The catalogue is read in parts, and on each of them the ways take turns (turns.rs).
//!
//! Usage: `catalogue [--check]`. Status 1 where the ways differ in what they read or, with `--check`,
//! where a ratio is below the one that is wanted.

#[path = "../oracle/src/lcg.rs"]
mod lcg;
mod turns;

use lcg::Lcg;
use std::hint::black_box;
use std::process::ExitCode;
use turns::{fastest_of, none_missed};

const TAGS: usize = 100_000;
const PART: usize = 500;
/// Tags of so many attributes, and so many of them.
const WIDE: usize = 700;
const WIDE_TAGS: usize = 40;
/// Rounds on each part.
const PART_ROUNDS: usize = 40;

/// A catalogue: which chunk lies where in which volume.
fn catalogue() -> Vec<String> {
    // digits of a fixed sequence stand for a digest
    let mut numbers = Lcg::new(0x9e37_79b9_7f4a_7c15);
    let mut digits = || numbers.state() >> 24;
    (0..TAGS)
        .map(|n| {
            format!(
                "chunk id=\"c-{n:07}\" offset=\"{}\" length=\"{}\" volume=\"archive/north-{}\" sha=\"{:010x}{:010x}{:010x}{:010x}\"",
                n * 65_536,
                65_536 - digits() % 4_096,
                n / 1_000,
                digits(),
                digits(),
                digits(),
                digits()
            )
        })
        .collect()
}

/// Tags of many attributes, whose keys an iterator has no room for inside.
fn wide() -> Vec<String> {
    let attributes = |tag: usize| (0..WIDE).map(move |n| format!(" a{n}=\"{}\"", tag + n));
    (0..WIDE_TAGS)
        .map(|tag| format!("chunk{}", attributes(tag).collect::<String>()))
        .collect()
}

/// The same, where the tags and some of their attributes have a prefix.
fn with_prefixes(tags: &[String]) -> Vec<String> {
    let prefixed = |tag: &String| {
        format!("v:{tag}")
            .replace(" offset", " v:offset")
            .replace(" sha", " w:sha")
    };
    tags.iter().map(prefixed).collect()
}

/// The tag that declares the prefixes, and the length of its name.
const ROOT: &str = "v:catalogue xmlns:v=\"urn:example:volume\" xmlns:w=\"urn:example:digest\"";
const ROOT_NAME: usize = 11;
const NAME: usize = 7;

/// What is read of a catalogue: attributes, and the bytes of their keys and values; or names that are in a
/// namespace, and the bytes of what these are called.
type Figures = (usize, usize);

// The same loop for each crate, since their types have the same names and are not the same.
macro_rules! read {
    ($tags:expr, |$tag:ident| $attributes:expr) => {{
        let mut figures: Figures = (0, 0);
        for $tag in $tags {
            for attribute in $attributes {
                let attribute = attribute.expect("a catalogue without faults");
                figures.0 += 1;
                figures.1 += attribute.key.into_inner().len() + attribute.value.len();
            }
        }
        figures
    }};
}

#[inline(never)]
fn by_quick_xml(tags: &[String]) -> Figures {
    read!(tags, |tag| oracle::events::attributes::Attributes::new(
        tag, 5
    ))
}

#[inline(never)]
fn by_new(tags: &[String]) -> Figures {
    read!(tags, |tag| mezzulidda::events::attributes::Attributes::new(
        tag, 5
    ))
}

#[inline(never)]
fn by_lent_tables(tags: &[String]) -> Figures {
    use mezzulidda::events::attributes::{Attributes, Tables};
    let mut tables = Tables::new();
    read!(tags, |tag| Attributes::with_tables(tag, 5, &mut tables))
}

// The same for names.
macro_rules! resolve {
    ($crate_name:ident, $tags:expr, |$resolver:ident, $start:ident, $count:ident| $names:block) => {{
        use $crate_name::events::BytesStart;
        use $crate_name::name::{NamespaceResolver, ResolveResult};
        let mut figures: Figures = (0, 0);
        let mut $resolver = NamespaceResolver::default();
        let root = BytesStart::from_content(ROOT, ROOT_NAME);
        $resolver.push(&root).expect("two declarations");
        for tag in $tags {
            let $start = BytesStart::from_content(tag.as_str(), NAME);
            $resolver.push(&$start).expect("a tag without declarations");
            #[allow(unused_mut)]
            let mut $count = |resolved: ResolveResult| {
                if let ResolveResult::Bound(namespace) = resolved {
                    figures.0 += 1;
                    figures.1 += namespace.into_inner().len();
                }
            };
            $names
            $resolver.pop();
        }
        figures
    }};
}

// By a call for each name, with both crates.
macro_rules! resolve_each {
    ($crate_name:ident, $tags:expr) => {
        resolve!($crate_name, $tags, |resolver, start, count| {
            count(resolver.resolve_element(start.name()).0);
            for attribute in start.attributes() {
                let attribute = attribute.expect("a catalogue without faults");
                count(resolver.resolve_attribute(attribute.key).0);
            }
        })
    };
}

#[inline(never)]
fn names_by_quick_xml(tags: &[String]) -> Figures {
    resolve_each!(oracle, tags)
}

#[inline(never)]
fn names_by_single_calls(tags: &[String]) -> Figures {
    resolve_each!(mezzulidda, tags)
}

#[inline(never)]
fn names_by_resolve_all(tags: &[String]) -> Figures {
    resolve!(mezzulidda, tags, |resolver, start, count| {
        let mut keys = [mezzulidda::name::QName(""); 8];
        let mut read = 0;
        for (key, attribute) in keys.iter_mut().zip(start.attributes()) {
            *key = attribute.expect("a catalogue without faults").key;
            read += 1;
        }
        for (resolved, _) in resolver.resolve_all(&start, &keys[..read]) {
            count(resolved);
        }
    })
}

/// A way to read: its name, the function, and how many times quick-xml's speed is wanted.
type Way = (&'static str, fn(&[String]) -> Figures, f64);

/// Quick-xml's own comes first.
const READING: [Way; 3] = [
    ("quick-xml's Attributes", by_quick_xml, 1.0),
    ("Attributes::new", by_new, 1.4),
    ("Attributes::with_tables", by_lent_tables, 1.4),
];

/// The same of tags of many attributes, which shall not take longer than by quick-xml: batches that do not grow would take
/// several times as long.
const READING_WIDE: [Way; 3] = [
    ("quick-xml's, wide", by_quick_xml, 1.0),
    ("new, wide", by_new, 1.0),
    ("with_tables, wide", by_lent_tables, 1.0),
];

const RESOLVING: [Way; 3] = [
    ("quick-xml's names", names_by_quick_xml, 1.0),
    ("resolve_all", names_by_resolve_all, 1.0 / 1.5),
    ("resolve, name by name", names_by_single_calls, 1.0 / 3.0),
];

/// What all of the ways read, or which of them reads something else than quick-xml.
fn agreed(tags: &[String], ways: &[Way]) -> Result<Figures, String> {
    let figures = ways[0].1(tags);
    for (name, way, _) in ways {
        let read = way(tags);
        if read != figures {
            return Err(format!("{name}: {read:?}, quick-xml {figures:?}"));
        }
    }
    Ok(figures)
}

/// Nanoseconds a tag, for each way.
fn measured(tags: &[String], ways: [Way; 3]) -> [f64; 3] {
    let mut total = [0.0; 3];
    for part in tags.chunks(PART) {
        let mut ways = ways.map(|(_, way, _)| move || way(black_box(part)).0);
        let [first, second, third] = &mut ways;
        let least = fastest_of(PART_ROUNDS, [first, second, third]);
        for (total, least) in total.iter_mut().zip(least) {
            *total += least;
        }
    }
    total.map(|nanoseconds| nanoseconds / tags.len() as f64)
}

/// Measures and prints; the wanted ratios that are missed, of those of the ways that are ours.
fn compared(tags: &[String], ways: [Way; 3]) -> Vec<String> {
    let times = measured(tags, ways);
    let mut missed = Vec::new();
    for ((name, _, wanted), time) in ways.iter().zip(times) {
        let ratio = times[0] / time;
        println!("{name:<24} {time:>7.1} ns a tag   ratio {ratio:.2}");
        if ratio < *wanted {
            missed.push(format!("missed: {name}: {ratio:.2}, wanted {wanted:.2}"));
        }
    }
    missed
}

/// How large an iterator and a fresh resolver are.
fn print_memory() {
    use mezzulidda::events::attributes::Attributes;
    use mezzulidda::name::{NamespaceResolver, Room};
    let Room { text, bindings } = NamespaceResolver::default().room();
    println!(
        "memory: an iterator {} bytes, quick-xml's {}; a fresh resolver {} bytes and {} on the heap, quick-xml's {}",
        size_of::<Attributes>(),
        size_of::<oracle::events::attributes::Attributes>(),
        size_of::<NamespaceResolver>(),
        text + bindings * 4 * size_of::<usize>(),
        size_of::<oracle::NamespaceResolver>()
    );
}

fn main() -> ExitCode {
    let words: Vec<_> = std::env::args().skip(1).collect();
    let check = match words.iter().map(String::as_str).collect::<Vec<_>>()[..] {
        [] => false,
        ["--check"] => true,
        _ => {
            eprintln!("usage: catalogue [--check]");
            return ExitCode::from(2);
        }
    };
    let tags = catalogue();
    let (wide, prefixed) = (wide(), with_prefixes(&tags));
    let figures = agreed(&tags, &READING).and_then(|read| {
        agreed(&wide, &READING_WIDE)?;
        Ok((read, agreed(&prefixed, &RESOLVING)?))
    });
    let (read, resolved) = match figures {
        Ok(((read, _), (resolved, _))) => (read, resolved),
        Err(difference) => {
            eprintln!("catalogue: {difference}");
            return ExitCode::FAILURE;
        }
    };
    print_memory();
    let bytes = tags.iter().map(String::len).sum::<usize>();
    println!("{TAGS} tags, {read} attributes, {bytes} bytes, checks on");
    let mut missed = compared(&tags, READING);
    println!("tags of {WIDE} attributes");
    missed.extend(compared(&wide, READING_WIDE));
    println!("the catalogue with namespaces, {resolved} names in one");
    missed.extend(compared(&prefixed, RESOLVING));
    // in each, quick-xml's own is no way of ours
    let wanted = READING.len() + READING_WIDE.len() + RESOLVING.len() - 3;
    if check && !none_missed(wanted, &missed) {
        return ExitCode::FAILURE;
    }
    ExitCode::SUCCESS
}
