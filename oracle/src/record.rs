//! Writes the oracle's answers about fixed lists of names, tags, calls on a resolver and questions, as text
//! for people and as bytes for a program that knows no strings. The two forms hold the same cases in the
//! same order.
//!
//! Usage: `record names|tags|scopes|asked text|bytes`.

mod asked;
mod calls;
mod cases;
mod declarations;
mod due;

use cases::{Lcg, Shape};
use oracle::PrefixDeclaration;
use oracle::scopes;
use oracle::steps::{self, Answer};
use oracle::text;
use std::collections::HashSet;
use std::io::Write;
use std::process::ExitCode;

const NAMES_SEED: u64 = 42_001;
const TAGS_SEED: u64 = 42_002;

fn main() -> ExitCode {
    let arguments: Vec<String> = std::env::args().skip(1).collect();
    let words: Vec<&str> = arguments.iter().map(String::as_str).collect();
    let written = match words[..] {
        ["names", "text"] => Ok(names_text().into_bytes()),
        ["names", "bytes"] => Ok(names().iter().flat_map(|name| name_bytes(name)).collect()),
        ["tags", "text"] => Ok(tags_text().into_bytes()),
        ["tags", "bytes"] => Ok(tags().iter().flat_map(tag_bytes).collect()),
        ["scopes", "text"] => calls::text().map(String::into_bytes),
        ["scopes", "bytes"] => calls::bytes(two),
        ["asked", "text"] => asked::text().map(String::into_bytes),
        ["asked", "bytes"] => asked::bytes(two),
        _ => {
            eprintln!("usage: record names|tags|scopes|asked text|bytes");
            return ExitCode::from(2);
        }
    };
    let done = written.and_then(|bytes| {
        let mut out = std::io::stdout();
        out.write_all(&bytes)
            .map_err(|why| format!("can't write: {why}"))
    });
    match done {
        Ok(()) => ExitCode::SUCCESS,
        Err(why) => {
            eprintln!("record: {why}");
            ExitCode::FAILURE
        }
    }
}

// Two bytes, the lower first. No number in the lists is above 65,535.
fn two(number: usize) -> [u8; 2] {
    u16::try_from(number)
        .expect("a recorded number fits two bytes")
        .to_le_bytes()
}

// ---- names

// Names around the reserved ones. Every beginning of each is in the list; the first five also with
// one byte off.
const SPELT: [&str; 9] = [
    "xmlns",
    "xmlns:",
    "xmlns:p",
    "xml",
    "xml:lang",
    "xmlns:xml",
    "xmlns:xmlns",
    "xml:xmlns",
    "p:xmlns:q",
];

// Characters of two to four bytes beside and inside what would be a declaration.
const MANY_BYTES: [&str; 14] = [
    "\u{e9}",
    "\u{e9}:a",
    "a:\u{e9}",
    "xmlns:\u{e9}",
    "\u{e9}xmlns",
    "xmlns\u{e9}",
    "xmln\u{15b}",
    "xml\u{e9}:",
    "\u{65e5}\u{672c}:\u{8a9e}",
    "\u{1d11e}:x",
    "xmlns:\u{1d11e}:",
    ":\u{e9}:",
    "xmlns\u{ff1a}p",
    "\u{feff}xmlns",
];

// The names, each once, in the order in which they are thought of.
fn names() -> Vec<String> {
    let mut names: Vec<String> = ["", ":", "::", ":::", "::::", "a b:c", "\t:", "\0:\0"]
        .map(String::from)
        .to_vec();
    for name in SPELT {
        names.extend((0..=name.len()).map(|end| name[..end].to_string()));
    }
    for name in &SPELT[..5] {
        names.extend(one_byte_off(name));
    }
    names.extend(MANY_BYTES.map(String::from));
    let mut lcg = Lcg::new(NAMES_SEED);
    for len in 2..=5 {
        let drawn = (0..20).map(|_| cases::drawn(&mut lcg, b"xmlns:a", len));
        names.extend(drawn.map(|name| name.into_iter().map(char::from).collect::<String>()));
    }
    let mut seen = HashSet::new();
    names.retain(|name| seen.insert(name.clone()));
    names
}

// The name with one byte taken out, changed, or put in.
fn one_byte_off(name: &str) -> Vec<String> {
    let mut off = Vec::new();
    for at in 0..=name.len() {
        let (before, after) = name.split_at(at);
        for byte in "xmlns:aX".chars() {
            off.push(format!("{before}{byte}{after}"));
            off.extend(after.get(1..).map(|rest| format!("{before}{byte}{rest}")));
        }
        off.extend(after.get(1..).map(|rest| format!("{before}{rest}")));
    }
    off
}

// What the oracle says about a name.
struct About {
    colon: Option<usize>,
    kind: u8,
    prefix_start: usize,
    is_xml: bool,
    is_xmlns: bool,
}

fn about(name: &str) -> About {
    let (prefix, _) = scopes::split(name);
    let (kind, prefix_start) = match scopes::declares(name) {
        None => (0, 0),
        Some(PrefixDeclaration::Default) => (1, 0),
        Some(PrefixDeclaration::Named(declared)) => (2, name.len() - declared.len()),
    };
    About {
        colon: prefix.map(str::len),
        kind,
        prefix_start,
        is_xml: prefix.is_some_and(scopes::is_xml),
        is_xmlns: prefix.is_some_and(scopes::is_xmlns),
    }
}

fn names_text() -> String {
    let names = names();
    let mut text = format!(
        "# What quick-xml 0.42.0 answers about {} names. Written by oracle/record, which runs the crate's own source.\n\
         # The list is in oracle/src/record.rs; its drawn names come from the generator in oracle/src/cases.rs, seed {NAMES_SEED}.\n\
         # A line: the first colon's index or -; what the name declares (no, default, prefix); where the declared prefix\n\
         # begins or 0; whether the part before the colon is xml, and whether it is xmlns (0 or 1); the name between bars.\n\
         # names.bin has the same cases in the same order, see recorded/README.md.\n",
        names.len()
    );
    for name in &names {
        let a = about(name);
        let colon = a.colon.map_or("-".to_string(), |at| at.to_string());
        let kind = ["no", "default", "prefix"][usize::from(a.kind)];
        let (xml, xmlns) = (u8::from(a.is_xml), u8::from(a.is_xmlns));
        let name = text::shown(name.as_bytes());
        text.push_str(&format!(
            "{colon} {kind} {} {xml} {xmlns} |{name}|\n",
            a.prefix_start
        ));
    }
    text
}

fn name_bytes(name: &str) -> Vec<u8> {
    const NO_COLON: usize = 65_535;
    let a = about(name);
    let mut bytes = two(name.len()).to_vec();
    bytes.extend_from_slice(name.as_bytes());
    bytes.extend_from_slice(&two(a.colon.unwrap_or(NO_COLON)));
    bytes.push(a.kind);
    bytes.extend_from_slice(&two(a.prefix_start));
    bytes.push(u8::from(a.is_xml));
    bytes.push(u8::from(a.is_xmlns));
    bytes
}

// ---- tags

struct Case {
    tag: Vec<u8>,
    html: bool,
    checks: bool,
    position: usize,
}

// Document 01's examples, and those that it names for the damage of values.
const TOLD: [&str; 22] = [
    "",
    "a=\"1\"b='2'",
    "a b=\"1\"",
    "a=1 b='2'",
    "a=\"1",
    "a='1' a=\"2 3\" b='4'",
    "=\"1\"",
    "a=1 a='2'",
    "a=='1'",
    " xmlns=\"u\" xmlns:p=\"v\"",
    " xmlns:p=\"\"",
    " xmlns:=\"u\"",
    " xmlns:p=\"v\" xmlns:xmlns=\"w\" xmlns:q=\"z\"",
    " xmlns:p=\"v\" x xmlns:q=\"w\"",
    "a=\"\"b=''",
    "a='x' b=\"y z\"",
    "a=\"x\" b='y'",
    "a= x b='y'",
    "a='1' a='2' a='3' b",
    "a a a=\"1\" a",
    "\u{e9}='\u{1d11e}' \u{e9}=\"1\"",
    "a\r=\n'1'\tb\r\n=\"2\" ",
];

fn tags() -> Vec<Case> {
    let mut lcg = Lcg::new(TAGS_SEED);
    let mut tags = Vec::new();
    for told in TOLD {
        for html in [false, true] {
            for (checks, position) in [(true, 0), (true, 1), (false, 0)] {
                tags.push(Case {
                    tag: told.as_bytes().to_vec(),
                    html,
                    checks,
                    position,
                });
            }
        }
    }
    // Opened inside a character's bytes, these would be outside what the crate's public forms take.
    tags.retain(|c| {
        std::str::from_utf8(&c.tag).is_ok_and(|tag| steps::on_boundary(tag, c.position))
    });
    for len in 1..=2 {
        tags.extend(cases::every(&cases::TELLING, len).map(|tag| Case {
            tag,
            html: false,
            checks: true,
            position: 0,
        }));
    }
    for _ in 0..1_500 {
        let len = 3 + lcg.below(8);
        let tag = cases::drawn(&mut lcg, &cases::TELLING, len);
        tags.push(opened(&mut lcg, tag));
    }
    for _ in 0..100 {
        let tag = cases::drawn(&mut lcg, b" a=\"'\xff\xc3\r\n", 9);
        tags.push(opened(&mut lcg, tag));
    }
    tags.extend((0..450).map(|index| long(&mut lcg, index)));
    tags
}

// In either mode, checks on or off, at 0 for the most part, else anywhere up to one past the end.
fn opened(lcg: &mut Lcg, tag: Vec<u8>) -> Case {
    let html = lcg.chance(50);
    let checks = lcg.chance(75);
    let position = if lcg.chance(60) {
        0
    } else {
        lcg.below(tag.len() + 2)
    };
    Case {
        tag,
        html,
        checks,
        position,
    }
}

// Every sixth is long enough for the crate's search by hash, from the 33rd key on.
fn long(lcg: &mut Lcg, index: usize) -> Case {
    let attributes = if index.is_multiple_of(6) {
        33 + lcg.below(8)
    } else {
        1 + lcg.below(10)
    };
    let repeated = [0, 5, 20][lcg.below(3)];
    let damaged = [0, 5, 30][lcg.below(3)];
    let tag = cases::long_tag(
        lcg,
        &Shape {
            attributes,
            repeated,
            shared: 0,
            damaged,
            wild: false,
        },
    );
    Case {
        tag,
        html: lcg.chance(50),
        checks: lcg.chance(80),
        position: 0,
    }
}

fn answers(case: &Case) -> Vec<Answer> {
    let run = steps::run(&case.tag, case.position, case.html, case.checks);
    run.into_iter().filter_map(|step| step.answer).collect()
}

fn tags_text() -> String {
    let tags = tags();
    let mut text = format!(
        "# What quick-xml 0.42.0 answers on {} tags. Written by oracle/record, which runs the crate's own source.\n\
         # The list is in oracle/src/record.rs; its drawn tags come from the generator in oracle/src/cases.rs, seed {TAGS_SEED}.\n\
         # A line: mode, checks, opening position, the tag between bars, the answers up to the end, `;` after each: D, S or U\n\
         # with the bounds of key and value, E with those of the key, or a refusal's number with its values in document 01's order.\n\
         # tags.bin has the same cases in the same order, see recorded/README.md.\n",
        tags.len()
    );
    for case in &tags {
        let mode = if case.html { "html" } else { "xml" };
        let checks = if case.checks { "on" } else { "off" };
        text.push_str(&format!(
            "{mode} {checks} {} |{}|",
            case.position,
            text::shown(&case.tag)
        ));
        for answer in answers(case) {
            text.push_str(&format!(" {answer};"));
        }
        text.push('\n');
    }
    text
}

fn tag_bytes(case: &Case) -> Vec<u8> {
    let answers = answers(case);
    let mut bytes = two(case.tag.len()).to_vec();
    bytes.extend_from_slice(&case.tag);
    bytes.push(u8::from(case.html));
    bytes.push(u8::from(case.checks));
    bytes.extend_from_slice(&two(case.position));
    bytes.extend_from_slice(&two(answers.len()));
    for number in answers.iter().flat_map(Answer::numbers) {
        bytes.extend_from_slice(&two(number));
    }
    bytes
}
