//! Holds the library's answers about names against the crate's own.
//!
//! Every name of up to 6 bytes over the letters of `xmlns` and the colon, then drawn longer ones
//! with other letters, characters of two bytes and bytes that are no UTF-8. The crate takes text
//! alone: about a name that is none it is asked with `z` in place of each byte past ASCII, which
//! keeps every position and is neither a colon nor a letter of `xmlns`.
//!
//! Values too, as `as_bool` reads them: every one of up to 5 bytes over the letters of `true`, `false`, `1`
//! and `0`, then drawn ones that are nearly one of these.
//!
//! The verdict on a declaration has no counterpart in the crate. It is held against `verdict` below,
//! a transcription of document 01's sentence and of document 02's on the default namespace.
//!
//! Usage: `names [--short]`. Status 0 and counts where all agrees, status 1 and the first difference where it doesn't.

#[allow(dead_code)]
#[path = "../oracle/src/cases.rs"]
mod cases;
#[path = "../rust/src/library.rs"]
mod library;

use cases::Lcg;
use library::{mz_as_bool, mz_declares, mz_is_xml, mz_is_xmlns, mz_split, mz_verdict};
use oracle::PrefixDeclaration;
use oracle::scopes;
use oracle::steps::as_bool;
use oracle::text::shown;
use std::process::ExitCode;

const LETTERS: &[u8] = b"xmlns:";
const VALUE_LETTERS: &[u8] = b"truefals01";
const SEED: u64 = 42_003;

/// How much is run: every name up to so many bytes, every value up to so many, and so many drawn ones of
/// each. The short part is for a tool that looks at each access to memory.
type Extent = (u32, u32, usize);

const SHORT: Extent = (3, 2, 1_000);
const WHOLE: Extent = (6, 5, 200_000);

const XML_URI: &[u8] = b"http://www.w3.org/XML/1998/namespace";
const XMLNS_URI: &[u8] = b"http://www.w3.org/2000/xmlns/";

fn our_split(name: &[u8]) -> usize {
    // SAFETY: the pointer and the length are those of one slice, which the call only reads.
    unsafe { mz_split(name.as_ptr(), name.len()) }
}

fn our_declares(name: &[u8]) -> usize {
    // SAFETY: as for `mz_split`.
    unsafe { mz_declares(name.as_ptr(), name.len()) }
}

fn our_is_xml(prefix: &[u8]) -> u8 {
    // SAFETY: as for `mz_split`.
    unsafe { mz_is_xml(prefix.as_ptr(), prefix.len()) }
}

fn our_is_xmlns(prefix: &[u8]) -> u8 {
    // SAFETY: as for `mz_split`.
    unsafe { mz_is_xmlns(prefix.as_ptr(), prefix.len()) }
}

fn our_verdict(name: &[u8], value: &[u8]) -> usize {
    // SAFETY: as for `mz_split`, for two slices.
    unsafe { mz_verdict(name.as_ptr(), name.len(), value.as_ptr(), value.len()) }
}

fn our_as_bool(value: &[u8]) -> usize {
    // SAFETY: as for `mz_split`.
    unsafe { mz_as_bool(value.as_ptr(), value.len()) }
}

// Document 01, "Verdict on a declaration": no for the prefix `xmlns`; for `xml` to another URI; for
// another prefix to the xml or xmlns URI; for a named prefix with an empty value; for an empty prefix
// or one with a colon. Document 02, request 4: no for a default declaration, which is `None`, with the
// xml or xmlns URI. Else yes.
fn verdict(prefix: Option<&[u8]>, value: &[u8]) -> bool {
    let reserved = value == XML_URI || value == XMLNS_URI;
    let Some(prefix) = prefix else {
        return !reserved;
    };
    let no = prefix == b"xmlns"
        || (prefix == b"xml" && value != XML_URI)
        || (prefix != b"xml" && reserved)
        || value.is_empty()
        || prefix.is_empty()
        || prefix.contains(&b':');
    !no
}

#[derive(Default)]
struct Tally {
    names: usize,
    values: usize,
    truths: usize,
    declarations: usize,
    answers: usize,
}

impl Tally {
    fn hold<T: PartialEq + std::fmt::Debug>(
        &mut self,
        about: &str,
        name: &[u8],
        ours: T,
        wanted: T,
    ) -> Result<(), String> {
        self.answers += 1;
        if ours == wanted {
            return Ok(());
        }
        Err(format!(
            "{about} of |{}| {name:?}: the library says {ours:?}, wanted is {wanted:?}",
            shown(name)
        ))
    }
}

// The bytes as text, for the crate.
fn asked(bytes: &[u8]) -> String {
    let plain = |&b: &u8| if b.is_ascii() { char::from(b) } else { 'z' };
    match std::str::from_utf8(bytes) {
        Ok(text) => text.to_string(),
        Err(_) => bytes.iter().map(plain).collect(),
    }
}

fn compare_value(value: &[u8], tally: &mut Tally) -> Result<(), String> {
    let wanted = as_bool(&asked(value)).map_or(2, usize::from);
    tally.values += 1;
    tally.truths += usize::from(wanted < 2);
    tally.hold("as_bool", value, our_as_bool(value), wanted)
}

fn compare(name: &[u8], tally: &mut Tally) -> Result<(), String> {
    let asked = asked(name);
    tally.names += 1;
    let (prefix, _) = scopes::split(&asked);
    let colon = prefix.map_or(name.len(), str::len);
    tally.hold("split", name, our_split(name), colon)?;

    for part in [&name[..colon], name] {
        let text = &asked[..part.len()];
        let (xml, xmlns) = (scopes::is_xml(text), scopes::is_xmlns(text));
        tally.hold("is_xml", part, our_is_xml(part), u8::from(xml))?;
        tally.hold("is_xmlns", part, our_is_xmlns(part), u8::from(xmlns))?;
    }

    let (kind, declared) = match scopes::declares(&asked) {
        None => {
            tally.hold("declares", name, our_declares(name), 0)?;
            return tally.hold("verdict", name, our_verdict(name, b"u"), 2);
        }
        Some(PrefixDeclaration::Default) => (1, None),
        Some(PrefixDeclaration::Named(named)) => (2, Some(&name[name.len() - named.len()..])),
    };
    tally.declarations += 1;
    tally.hold("declares", name, our_declares(name), kind)?;
    compare_verdicts(name, declared, tally)
}

// The verdict on a declaration of each telling value: the reserved URIs, and what is nearly one.
fn compare_verdicts(name: &[u8], declared: Option<&[u8]>, tally: &mut Tally) -> Result<(), String> {
    let values: [&[u8]; 13] = [
        b"",
        b"u",
        b"xml",
        b"xmlns",
        XML_URI,
        XMLNS_URI,
        &XML_URI[1..],
        &XML_URI[..35],
        &XMLNS_URI[..28],
        b"http://www.w3.org/XML/1998/namespacf",
        b"http://www.w3.org/XML/1998/namespace/",
        b"http://www.w3.org/2000/xmlnt/",
        b"http://www.w3.org/2000/xmlns//",
    ];
    for value in values {
        let wanted = usize::from(verdict(declared, value));
        let about = format!("verdict on the value |{}|", shown(value));
        tally.hold(&about, name, our_verdict(name, value), wanted)?;
    }
    Ok(())
}

// Up to 40 bytes, many of them with a head that makes or nearly makes a declaration.
fn drawn(lcg: &mut Lcg) -> Vec<u8> {
    let heads: [&[u8]; 8] = [
        b"",
        b"",
        b"xmlns",
        b"xmlns:",
        b"xmlns:xml",
        b"xmlns:xmlns",
        b"xml:",
        b"xmln",
    ];
    let parts: [&[u8]; 9] = [
        b"x",
        b"m",
        b"l",
        b"n",
        b"s",
        b":",
        b"a",
        "\u{e9}".as_bytes(),
        b"\xff",
    ];
    let mut name = lcg.pick(&heads).to_vec();
    let len = lcg.below(41);
    while name.len() < len {
        name.extend_from_slice(lcg.pick(&parts));
    }
    name.truncate(40);
    name
}

// A value that says yes or no, with a byte changed, put in or taken out up to twice.
fn drawn_value(lcg: &mut Lcg) -> Vec<u8> {
    let mut value = lcg.pick::<[u8]>(&[b"true", b"false", b"1", b"0"]).to_vec();
    for _ in 0..lcg.below(3) {
        let byte = lcg.pick::<[u8]>(&[b" ", b"T", b"e", b"1", b"\0", b"\xff", b"\n"])[0];
        let at = lcg.below(value.len() + 1);
        match lcg.below(3) {
            0 => value.insert(at, byte),
            1 if at < value.len() => value[at] = byte,
            _ if at < value.len() => drop(value.remove(at)),
            _ => value.push(byte),
        }
    }
    value
}

fn all((every_up_to, values_up_to, drawn_ones): Extent, tally: &mut Tally) -> Result<(), String> {
    for len in 0..=values_up_to {
        for value in cases::every(VALUE_LETTERS, len) {
            compare_value(&value, tally)?;
        }
    }
    eprintln!(
        "names: every value up to {values_up_to} bytes agrees, {} of them",
        tally.values
    );
    for len in 0..=every_up_to {
        for name in cases::every(LETTERS, len) {
            compare(&name, tally)?;
        }
    }
    eprintln!(
        "names: every one up to {every_up_to} bytes agrees, {} of them",
        tally.names
    );
    let mut lcg = Lcg::new(SEED);
    eprintln!("names: {drawn_ones} drawn ones follow");
    for _ in 0..drawn_ones {
        compare(&drawn(&mut lcg), tally)?;
        compare_value(&drawn_value(&mut lcg), tally)?;
    }
    Ok(())
}

fn main() -> ExitCode {
    let arguments: Vec<String> = std::env::args().skip(1).collect();
    let extent = match &arguments[..] {
        [] => WHOLE,
        [short] if short == "--short" => SHORT,
        _ => {
            eprintln!("usage: names [--short]");
            return ExitCode::from(2);
        }
    };
    let mut tally = Tally::default();
    match all(extent, &mut tally) {
        Ok(()) => {
            println!(
                "names: {} names, {} of them declarations, and {} values, {} of them yes or no, {} answers \
                 compared, no difference",
                tally.names, tally.declarations, tally.values, tally.truths, tally.answers
            );
            ExitCode::SUCCESS
        }
        Err(difference) => {
            println!(
                "names: difference after {} names: {difference}",
                tally.names
            );
            ExitCode::FAILURE
        }
    }
}
