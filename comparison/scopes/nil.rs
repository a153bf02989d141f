//! Searches for `nil`: the iterator that is lent for them, and the tags and scopes that they are made in.

use crate::cases::Lcg;
use crate::hash::hash;
use crate::lent::{self, Scope, UNTOUCHED, cut};
use crate::library::{KEYS, mz_read_batch};
use oracle::steps::{Place, Reader};
use std::ops::Range;

/// What stands in a place for a hash that a call has to leave alone.
const UNTOUCHED_HASH: u32 = 0x5a5a_5a5a;
/// The namespace of `nil`.
pub const INSTANCE: &str = "http://www.w3.org/2001/XMLSchema-instance";

/// A tag with the mode and the checks that it is read by.
#[derive(Clone, Copy)]
pub struct Tag<'t> {
    pub text: &'t str,
    pub html: bool,
    pub checks: bool,
}

impl<'t> Tag<'t> {
    /// The tag in both modes, with checks on and off.
    pub fn readings(text: &'t str) -> [Self; 4] {
        [(false, true), (false, false), (true, true), (true, false)].map(|(html, checks)| Tag {
            text,
            html,
            checks,
        })
    }

    pub fn shown(&self) -> String {
        let mode = if self.html { "html" } else { "xml" };
        let checks = if self.checks { "on" } else { "off" };
        format!("{mode} {checks} |{}|", cut(self.text))
    }
}

/// The caller's own iterator that is lent to the library: the key tables, of any length, and the place's kind,
/// its position, the count of keys, and a number that a search leaves alone.
#[derive(Clone, PartialEq)]
pub struct Cursor {
    pub starts: Vec<usize>,
    pub ends: Vec<usize>,
    pub hashes: Vec<u32>,
    pub numbers: Vec<usize>,
}

/// How many places each key table has.
pub type Places = [usize; 3];

impl Cursor {
    pub fn opened(position: usize) -> Self {
        Cursor::at("", [1, position], &[])
    }

    pub fn at(tag: &str, [kind, position]: [usize; 2], keys: &[Range<usize>]) -> Self {
        let mut cursor = Cursor {
            starts: vec![UNTOUCHED; KEYS],
            ends: vec![UNTOUCHED; KEYS],
            hashes: vec![UNTOUCHED_HASH; KEYS],
            numbers: vec![kind, position, keys.len(), UNTOUCHED],
        };
        for (index, key) in keys.iter().enumerate().take(KEYS) {
            cursor.put(index, tag, key);
        }
        cursor
    }

    /// A key stands at an index, with its hash; one that is not in the tag has any.
    fn put(&mut self, index: usize, tag: &str, key: &Range<usize>) {
        self.starts[index] = key.start;
        self.ends[index] = key.end;
        self.hashes[index] = hash(tag.as_bytes().get(key.clone()).unwrap_or_default());
    }

    /// What 7 leaves.
    pub fn zeroed(&self) -> Self {
        Cursor {
            starts: vec![0; self.starts.len()],
            ends: vec![0; self.ends.len()],
            hashes: vec![0; self.hashes.len()],
            numbers: vec![0, 0, 0, self.numbers[3]],
        }
    }

    /// The same with key tables of these lengths, and what stands in unused places behind.
    pub fn with_places(&self, [starts, ends, hashes]: Places) -> Self {
        let mut cursor = self.clone();
        cursor.starts.resize(starts, UNTOUCHED);
        cursor.ends.resize(ends, UNTOUCHED);
        cursor.hashes.resize(hashes, UNTOUCHED_HASH);
        // so that an access beyond them is one beyond what was allocated
        cursor.starts.shrink_to_fit();
        cursor.ends.shrink_to_fit();
        cursor.hashes.shrink_to_fit();
        cursor
    }

    /// This one as it has to stand where the crate's reader has gone on to: keys are added behind those
    /// that are recorded, and all other places are as they were.
    pub fn gone_on(&self, tag: &str, reader: &Reader) -> Self {
        let mut cursor = self.clone();
        for (index, key) in reader.keys().iter().enumerate() {
            cursor.put(index, tag, key);
        }
        let [kind, position] = reader.place().numbers();
        cursor.numbers[..3].copy_from_slice(&[kind, position, reader.keys().len()]);
        cursor
    }

    /// The library's search.
    pub fn search(&mut self, scope: &mut Scope, tag: Tag) -> usize {
        let Tag { text, html, checks } = tag;
        let arrays = [&mut self.starts, &mut self.ends, &mut self.numbers];
        lent::has_nil(scope, text, arrays, &mut self.hashes, html, checks)
    }

    /// One answer of the library's batch is taken.
    pub fn step(&mut self, tag: Tag) {
        let mut out = [0; 5];
        // SAFETY: each pointer is that of a live array or slice of the length after it, or of the four numbers
        // of a state; the tag is only read, and the five that are written are borrowed mutably and apart from
        // each other.
        unsafe {
            mz_read_batch(
                tag.text.as_ptr(),
                tag.text.len(),
                self.starts.as_mut_ptr(),
                self.starts.len(),
                self.ends.as_mut_ptr(),
                self.ends.len(),
                self.hashes.as_mut_ptr(),
                self.hashes.len(),
                self.numbers.as_mut_ptr(),
                tag.html,
                tag.checks,
                out.as_mut_ptr(),
                out.len(),
            );
        }
    }

    pub fn shown(&self) -> String {
        let count = self.numbers.get(2).copied().unwrap_or_default();
        let keys: Vec<_> = (0..count.min(6))
            .filter_map(|index| {
                let bounds = (self.starts.get(index)?, self.ends.get(index)?);
                Some((bounds, self.hashes.get(index)?))
            })
            .collect();
        format!("{:?}, the first keys {keys:?}", self.numbers)
    }
}

/// Document 01's 7: a recorded key that is empty or not inside the tag, more keys than can be recorded, a skip place
/// not inside the tag, or a skip-from-`=` place whose byte is not `=`.
pub fn is_bad(tag: &str, place: Place, keys: &[Range<usize>]) -> bool {
    let bad_place = match place {
        Place::Done | Place::Next(_) => false,
        Place::SkipValue(at) => at >= tag.len(),
        Place::SkipEqValue(at) => tag.as_bytes().get(at) != Some(&b'='),
    };
    let bad = |key: &Range<usize>| key.start >= key.end || key.end > tag.len();
    bad_place || keys.len() > KEYS || keys.iter().any(bad)
}

const PREFIXES: [&str; 7] = ["xsi", "xsi", "xsi", "i", "i", "p", "\u{e9}"];

/// A tag of declarations: the namespace of `nil` for the most part, or one like it, or none.
pub fn drawn_scope(lcg: &mut Lcg) -> String {
    let uris = [
        INSTANCE,
        INSTANCE,
        INSTANCE,
        INSTANCE,
        INSTANCE,
        "",
        "u",
        "http://www.w3.org/2001/XMLSchema-instanc",
        "http://www.w3.org/2001/XMLSchema-instances",
        "http://www.w3.org/2001/xmlschema-instance",
    ];
    let mut tag = String::new();
    for _ in 0..1 + lcg.below(3) {
        let uri = lcg.pick::<str>(&uris);
        match lcg.below(12) {
            0 => tag.push_str(&format!(" xmlns='{uri}'")),
            1 => tag.push_str(" x='1'"),
            2 => tag.push_str(&format!(" xmlns:xml='{uri}'")),
            3..8 => tag.push_str(&format!(" xmlns:xsi='{INSTANCE}'")),
            _ => tag.push_str(&format!(" xmlns:{}=\"{uri}\"", lcg.pick::<str>(&PREFIXES))),
        }
    }
    tag
}

/// A key whose local name is `nil` for the most part, with a prefix, an unknown one, an empty one or none.
fn drawn_key(lcg: &mut Lcg) -> String {
    let locals = [
        "nil", "nil", "nil", "nil", "nil", "nil", "Nil", "ni", "nill", "a", "x:nil",
    ];
    let local = lcg.pick::<str>(&locals);
    match lcg.below(10) {
        0 => local.to_string(),
        1 => format!(":{local}"),
        2 => format!("zz:{local}"),
        3 => format!("xml:{local}"),
        _ => format!("{}:{local}", lcg.pick::<str>(&PREFIXES)),
    }
}

/// A tag in which `nil` is likely, twice, damaged, or with any value; and where its attributes begin.
pub fn drawn_tag(lcg: &mut Lcg, ascii: bool) -> (String, usize) {
    let values = [
        "true", "1", "1", "true", "true", "1", "false", "0", "True", "", "yes", " true", "1 ",
        "11", "t",
    ];
    let damages = [
        "", " ", "=", "=1", "=true", "='1", "=\"true ", "=='1'", "=1'true'",
    ];
    let mut tag = "t".to_string();
    let mut keys: Vec<String> = Vec::new();
    for _ in 0..lcg.below(10) {
        let repeats = !keys.is_empty() && lcg.chance(15);
        let key = match repeats {
            true => keys[lcg.below(keys.len())].clone(),
            false => drawn_key(lcg),
        };
        tag.push_str(lcg.pick::<str>(&[" ", " ", " ", "\n", ""]));
        tag.push_str(&key);
        keys.push(key);
        if lcg.chance(15) {
            tag.push_str(lcg.pick::<str>(&damages));
            continue;
        }
        let equals = lcg.pick::<str>(&["=", "=", "=", " = "]);
        let quote = lcg.pick::<str>(&["\"", "'"]);
        let value = lcg.pick::<str>(&values);
        tag.push_str(&format!("{equals}{quote}{value}{quote}"));
    }
    if ascii {
        tag = tag.replace('\u{e9}', "e");
    }
    let mut at = match lcg.below(10) {
        0 => lcg.below(tag.len() + 3),
        _ => 1,
    };
    while at < tag.len() && !tag.is_char_boundary(at) {
        at += 1;
    }
    (tag, at)
}

/// Any state of an iterator over a tag: for the most part one that reading could leave.
pub fn drawn_state(lcg: &mut Lcg, tag: &str) -> (Place, Vec<Range<usize>>) {
    let len = tag.len();
    let at = match lcg.below(3) {
        0 => tag.find('=').unwrap_or(len),
        _ => lcg.below(len + 2),
    };
    let place = match lcg.below(4) {
        0 => Place::Done,
        1 => Place::Next(at),
        2 => Place::SkipValue(at),
        _ => Place::SkipEqValue(at),
    };
    let keys = (0..lcg.below(4)).map(|_| {
        let start = lcg.below(len + 1);
        start..start + lcg.below(4)
    });
    (place, keys.collect())
}
