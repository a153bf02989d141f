//! Holds the library's iterator against the crate's own: answer, place and recorded keys after every
//! step.
//!
//! The library is called through its batch. With room for one answer it is one step, and every step
//! is compared; then the same run is read again with room for several, which has to give the same
//! answers and leave the same state. What the crate decides is taken from the crate. Document 01's
//! added refusals are decided here by its sentences: 7 from the state that is given, 6 where the
//! crate records a key more than there are places. A run is compared up to the first of them. So is the hash that
//! document 02 keeps beside each key; tags have names that share one.
//!
//! Compared too: why reading stopped; key places that are not in use keep their content (7 leaves zeros);
//! numbers of the output behind the last answer are not written, and nothing at all is where it has no room for
//! one; a position beside `done`, which says nothing, stays; a kind of place above 3 is a bad state.
//!
//! Key tables may be shorter than the capacity, each by itself: with each number of places, from none to all, the
//! answers are those with all of them up to the first key that has no place, where reading stops before it, says so,
//! and goes on with longer tables as if they had been there from the start.
//!
//! Usage: `tags [--short | --whole]`. Status 0 and counts where all agrees, status 1 and the first difference
//! where it doesn't.

#[path = "../oracle/src/cases.rs"]
mod cases;
mod hash;
#[path = "../rust/src/library.rs"]
mod library;
mod parts;

use cases::{Lcg, SHARED, Shape};
use hash::{TOO_LONG, hash};
use library::{KEYS, mz_read_batch};
use oracle::steps::{Place, Reader, opened_by_start_tag};
use oracle::text::shown;
use parts::{Counts, Part};
use std::ops::Range;
use std::process::ExitCode;

const SEED: u64 = 42_004;
/// What stands in memory that a call has to leave alone.
const UNTOUCHED: usize = 0x5a5a_5a5a;
const UNTOUCHED_HASH: u32 = 0x5a5a_5a5a;

/// How much is run. The bounded part takes less than a minute; the short one is for a tool that looks at
/// each access to memory.
struct Extent {
    every_up_to: u32,
    drawn_short: usize,
    states_up_to: u32,
    drawn_states: usize,
    drawn_long: usize,
    few_places: usize,
    /// How far apart are the numbers of places with which a tag of all keys is read.
    places_apart: usize,
    kept_hashes: usize,
}

const SHORT: Extent = Extent {
    every_up_to: 2,
    drawn_short: 1_000,
    states_up_to: 0,
    drawn_states: 4,
    drawn_long: 8,
    few_places: 20,
    places_apart: 64,
    kept_hashes: 4,
};
const BOUNDED: Extent = Extent {
    every_up_to: 4,
    drawn_short: 200_000,
    states_up_to: 2,
    drawn_states: 500,
    drawn_long: 4_000,
    few_places: 3_000,
    places_apart: 1,
    kept_hashes: 400,
};
const WHOLE: Extent = Extent {
    every_up_to: 6,
    drawn_short: 2_000_000,
    states_up_to: 3,
    drawn_states: 4_000,
    drawn_long: 40_000,
    few_places: 40_000,
    places_apart: 1,
    kept_hashes: 8_000,
};

/// A tag with the mode and the checks it is read by.
#[derive(Clone, Copy)]
struct Tag<'t> {
    bytes: &'t [u8],
    html: bool,
    checks: bool,
}

impl<'t> Tag<'t> {
    /// The tag in both modes, with checks on and off.
    fn readings(bytes: &'t [u8]) -> [Tag<'t>; 4] {
        [(false, true), (false, false), (true, true), (true, false)].map(|(html, checks)| Tag {
            bytes,
            html,
            checks,
        })
    }

    /// The crate's reader of it, opened at a position.
    const fn opened(&self, position: usize) -> Reader<'t> {
        Reader::open(self.bytes, position, self.html, self.checks)
    }

    fn shown(&self) -> String {
        let mode = if self.html { "html" } else { "xml" };
        let checks = if self.checks { "on" } else { "off" };
        format!("{mode} {checks} |{}|", shown(self.bytes))
    }
}

/// Why a call stopped, a state's last number: the output is full, the tag has ended, or a key has no place.
const OUT_FULL: usize = 0;
const ENDED: usize = 1;
const MORE_KEYS: usize = 2;
/// The library's answer where a key table is longer than all keys that can be recorded.
const NONE: usize = usize::MAX;

/// The caller's own state that is lent to the library: the key tables, and the place's kind, its
/// position, the count of keys, and why the last call stopped.
#[derive(Clone, PartialEq)]
struct State {
    starts: Vec<usize>,
    ends: Vec<usize>,
    hashes: Vec<u32>,
    numbers: [usize; 4],
}

/// How many places each key table has.
type Places = [usize; 3];

/// Places for all keys that there can be.
const ALL: Places = [KEYS; 3];

/// Places for all keys that a tag can have: one that is short has no more keys than bytes.
fn enough(tag: &[u8]) -> Places {
    [KEYS.min(tag.len() + 1); 3]
}

impl State {
    fn at(tag: &[u8], place: Place, keys: &[Range<usize>], places: Places) -> Self {
        let [kind, at] = place.numbers();
        let mut state = State {
            starts: vec![UNTOUCHED; places[0]],
            ends: vec![UNTOUCHED; places[1]],
            hashes: vec![UNTOUCHED_HASH; places[2]],
            numbers: [kind, at, keys.len(), UNTOUCHED],
        };
        for (index, key) in keys.iter().enumerate().take(KEYS) {
            state.put(index, tag, key);
        }
        state
    }

    /// A key stands at an index, with its hash; one that is not in the tag has any.
    fn put(&mut self, index: usize, tag: &[u8], key: &Range<usize>) {
        self.starts[index] = key.start;
        self.ends[index] = key.end;
        self.hashes[index] = hash(tag.get(key.clone()).unwrap_or_default());
    }

    /// Document 01's table for 7: done, no keys, every key place zero; by document 02 every hash, too.
    fn zeroed(&self) -> Self {
        State {
            starts: vec![0; self.starts.len()],
            ends: vec![0; self.ends.len()],
            hashes: vec![0; self.hashes.len()],
            numbers: [0, 0, 0, self.numbers[3]],
        }
    }

    /// The same with tables of these lengths, and what stands in unused places behind.
    fn with_places(&self, [starts, ends, hashes]: Places) -> Self {
        let mut state = self.clone();
        state.starts.resize(starts, UNTOUCHED);
        state.ends.resize(ends, UNTOUCHED);
        state.hashes.resize(hashes, UNTOUCHED_HASH);
        // so that an access beyond them is one beyond what was allocated
        state.starts.shrink_to_fit();
        state.ends.shrink_to_fit();
        state.hashes.shrink_to_fit();
        state
    }

    /// The library's batch on this state: the number of answers that it wrote.
    fn read(&mut self, tag: Tag, out: &mut [usize]) -> usize {
        // SAFETY: each pointer is that of a live array or slice of the stated length, or of the four numbers
        // of a state; the tag is only read, and the five that are written are borrowed mutably and apart
        // from each other.
        unsafe {
            mz_read_batch(
                tag.bytes.as_ptr(),
                tag.bytes.len(),
                self.starts.as_mut_ptr(),
                self.starts.len(),
                self.ends.as_mut_ptr(),
                self.ends.len(),
                self.hashes.as_mut_ptr(),
                self.hashes.len(),
                self.numbers.as_mut_ptr(),
                tag.html,
                tag.checks,
                out.as_mut_ptr(),
                out.len(),
            )
        }
    }

    fn shown(&self) -> String {
        let [kind, at, count, why] = self.numbers;
        let kind = ["done", "next", "value", "eq"]
            .get(kind)
            .map_or(format!("kind {kind}"), |k| k.to_string());
        let lengths = [self.starts.len(), self.ends.len(), self.hashes.len()];
        let used = lengths.into_iter().fold(count, usize::min);
        let keys = |indices: Range<usize>| -> String {
            let key = |index: usize| {
                let (start, end) = (self.starts[index], self.ends[index]);
                format!(" {start}..{end} {:08x}", self.hashes[index])
            };
            indices.map(key).collect()
        };
        let listed = match used {
            0..=8 => keys(0..used),
            _ => format!("{} ..{}", keys(0..2), keys(used - 4..used)),
        };
        let why = ["out full", "ended", "more keys"].get(why).unwrap_or(&"?");
        format!("{kind}:{at}, {count} keys{listed}, stopped: {why}")
    }
}

/// The crate's reader, of either oracle.
trait Crate {
    fn step(&mut self) -> Option<[usize; 5]>;
    fn place(&self) -> [usize; 2];
    fn keys(&self) -> &[Range<usize>];
}

macro_rules! crate_reader {
    ($($oracle:ident)*) => { $(
        impl Crate for $oracle::steps::Reader<'_> {
            fn step(&mut self) -> Option<[usize; 5]> {
                self.step().map(|answer| answer.numbers())
            }
            fn place(&self) -> [usize; 2] {
                self.place().numbers()
            }
            fn keys(&self) -> &[Range<usize>] {
                self.keys()
            }
        }
    )* };
}
crate_reader!(oracle oracle_two_bit);

/// The answer that is due, and what it does to the lent state. Where the crate records a key beyond
/// the table, document 01 has refusal 6 with that key's start, which leaves done and records nothing.
fn due(tag: Tag, reader: &mut impl Crate, state: &mut State) -> Option<[usize; 5]> {
    let recorded = reader.keys().len();
    let answer = reader.step();
    let keys = reader.keys();
    if let Some(key) = keys.get(recorded) {
        if recorded == KEYS {
            state.numbers = [0, 0, KEYS, OUT_FULL];
            return Some([6, key.start, 0, 0, 0]);
        }
        state.put(recorded, tag.bytes, key);
    }
    let [kind, at] = reader.place();
    state.numbers = [kind, at, keys.len(), stopped(answer)];
    answer
}

/// Why a call with room for one answer stops.
const fn stopped(answer: Option<[usize; 5]>) -> usize {
    match answer {
        Some(_) => OUT_FULL,
        None => ENDED,
    }
}

/// Document 01's state 7: a recorded key that is empty or not inside the tag, more keys than can be recorded, a
/// skip place not inside the tag, or a skip-from-`=` place whose byte is not `=`. (A hash that is not its key's, which
/// document 02 adds, is put in by hand: [`kept_hashes`].)
fn is_bad(tag: &[u8], place: Place, keys: &[Range<usize>]) -> bool {
    let bad_place = match place {
        Place::Done | Place::Next(_) => false,
        Place::SkipValue(at) => at >= tag.len(),
        Place::SkipEqValue(at) => tag.get(at) != Some(&b'='),
    };
    bad_place
        || keys.len() > KEYS
        || keys
            .iter()
            .any(|key| key.start >= key.end || key.end > tag.len())
}

#[derive(Default)]
struct Tally {
    tags: usize,
    runs: usize,
    steps: usize,
    full: usize,
    bad: usize,
    few_places: usize,
}

impl Counts for Tally {
    fn line(&self, what: &str) -> String {
        format!(
            "{what}: {} tags, {} runs, {} steps compared ({} key tables full, {} bad states), {} stops before a \
             key without a place",
            self.tags, self.runs, self.steps, self.full, self.bad, self.few_places
        )
    }

    fn add(&mut self, other: &Tally) {
        self.tags += other.tags;
        self.runs += other.runs;
        self.steps += other.steps;
        self.full += other.full;
        self.bad += other.bad;
        self.few_places += other.few_places;
    }

    fn reached(&self) -> String {
        format!("{} steps", self.steps)
    }
}

impl Tally {
    fn progress(&self, what: &str) {
        if self.tags.is_multiple_of(20_000) {
            eprintln!(
                "tags: {what}: {} tags, {} steps so far",
                self.tags, self.steps
            );
        }
    }
}

fn answer_shown(answer: Option<[usize; 5]>) -> String {
    answer.map_or("end".to_string(), |numbers| format!("{numbers:?}"))
}

/// One step of the library, held against what is due.
fn hold_step(
    tag: Tag,
    ours: &mut State,
    wanted: &State,
    answer: Option<[usize; 5]>,
) -> Result<(), String> {
    let before = ours.clone();
    let mut out = [UNTOUCHED; 5];
    let count = ours.read(tag, &mut out);
    let wanted_out = answer.unwrap_or([UNTOUCHED; 5]);
    if count == usize::from(answer.is_some()) && out == wanted_out && ours == wanted {
        return Ok(());
    }
    let got = match count {
        0 => "end".to_string(),
        1 => format!("{out:?}"),
        _ => format!("{count} answers, the first {out:?}"),
    };
    let beside = if count == 0 && out != wanted_out {
        " (the end wrote to the output)"
    } else if ours.numbers == wanted.numbers && ours != wanted {
        " (a key place differs)"
    } else {
        ""
    };
    Err(format!(
        "{}\n  from   {}\n  ours   {got} leaving {}{beside}\n  wanted {} leaving {}",
        tag.shown(),
        before.shown(),
        ours.shown(),
        answer_shown(answer),
        wanted.shown()
    ))
}

/// A whole run: step by step against the reader, then again in batches against those steps.
fn hold_run(
    tag: Tag,
    position: usize,
    mut reader: impl Crate,
    tally: &mut Tally,
) -> Result<(), String> {
    // some with all places, the others with as many as the tag needs, which is fast
    let places = if tally.runs.is_multiple_of(16) {
        ALL
    } else {
        enough(tag.bytes)
    };
    let opened = State::at(tag.bytes, Place::Next(position), &[], places);
    let (mut ours, mut wanted) = (opened.clone(), opened.clone());
    let mut answers = Vec::new();
    loop {
        let answer = due(tag, &mut reader, &mut wanted);
        hold_step(tag, &mut ours, &wanted, answer)?;
        tally.steps += 1;
        answers.extend(answer.iter().flatten().copied());
        let full = matches!(answer, Some([6, ..]));
        tally.full += usize::from(full);
        if full || answer.is_none() {
            break;
        }
    }
    tally.runs += 1;
    hold_batches(tag, opened, &wanted, &answers, tally.runs)
}

/// The run again, with room for 1 to 9 answers at a time and up to four numbers that make none.
fn hold_batches(
    tag: Tag,
    opened: State,
    left: &State,
    answers: &[usize],
    varied: usize,
) -> Result<(), String> {
    let room = 1 + varied % 9;
    let mut ours = opened;
    let mut read = Vec::new();
    let mut out = vec![UNTOUCHED; 5 * room + varied % 5];
    loop {
        out.fill(UNTOUCHED);
        let count = ours.read(tag, &mut out);
        let written = out.get(..5 * count).unwrap_or_default();
        let behind = out.get(5 * count..).unwrap_or_default();
        if count > room || behind.iter().any(|&number| number != UNTOUCHED) {
            return Err(format!(
                "{} in batches of {room}: wrote behind its {count} answers",
                tag.shown()
            ));
        }
        let why = if count < room { ENDED } else { OUT_FULL };
        if ours.numbers[3] != why {
            let shown = ours.shown();
            return Err(format!("{} in batches of {room}: {shown}", tag.shown()));
        }
        read.extend_from_slice(written);
        // More answers than are due: no need to wait for an end.
        if count < room || read.len() > answers.len() {
            break;
        }
    }
    // a refusal 6 leaves no end, which the last batch may or may not have met
    ours.numbers[3] = left.numbers[3];
    if read == answers && ours == *left {
        return Ok(());
    }
    Err(format!(
        "{} in batches of {room}\n  ours   {read:?} leaving {}\n  wanted {answers:?} leaving {}",
        tag.shown(),
        ours.shown(),
        left.shown()
    ))
}

/// A tag from every opening position up to one past its end.
fn hold_everywhere(bytes: &[u8], tally: &mut Tally) -> Result<(), String> {
    tally.tags += 1;
    for position in 0..=bytes.len() + 1 {
        for tag in Tag::readings(bytes) {
            hold_run(tag, position, tag.opened(position), tally)?;
        }
    }
    Ok(())
}

/// What document 01 takes of the crate: whitespace is four bytes, and a start tag's attributes are
/// read from its name's end in XML mode. Then every byte in each place where a rule looks at it, so
/// that no other byte counts as whitespace, `=` or a quote.
fn every_byte(_: &Extent, tally: &mut Tally) -> Result<(), String> {
    for byte in 0..=u8::MAX {
        if oracle::is_whitespace(byte) != matches!(byte, 0x20 | 0x09 | 0x0d | 0x0a) {
            return Err(format!(
                "the crate and document 01 differ on whitespace: byte {byte}"
            ));
        }
    }
    for name_len in 0..9 {
        let opened = opened_by_start_tag("tag a='1'", name_len);
        if opened.place() != Place::Next(name_len) || opened.html() || !opened.checks() {
            return Err(format!(
                "a start tag of name length {name_len} is not read from there in XML mode"
            ));
        }
    }
    let around: [[&[u8]; 2]; 9] = [
        [b"", b""],
        [b"", b"a"],
        [b"a", b""],
        [b"a", b"=\"1\""],
        [b"a=", b"'1'"],
        [b"a='1'", b"b"],
        [b"a=\"", b"\""],
        [b"a=1", b"b='2'"],
        [b"a='1' a='2'", b"b"],
    ];
    for byte in 0..=u8::MAX {
        for [before, after] in around {
            hold_everywhere(&[before, &[byte], after].concat(), tally)?;
        }
    }
    Ok(())
}

fn every_short(extent: &Extent, tally: &mut Tally) -> Result<(), String> {
    for len in 0..=extent.every_up_to {
        for bytes in cases::every(&cases::TELLING, len) {
            hold_everywhere(&bytes, tally)?;
            tally.progress("every short tag");
        }
    }
    Ok(())
}

/// Longer than those, some with all four whitespace bytes, some with bytes that are no UTF-8.
fn drawn_short(extent: &Extent, tally: &mut Tally) -> Result<(), String> {
    let mut lcg = Lcg::new(SEED);
    let alphabets: [&[u8]; 3] = [
        &cases::TELLING,
        b"  aab==\"\"''\r\n\t",
        b" a=\"'\xff\xc3\xa9",
    ];
    for _ in 0..extent.drawn_short {
        let len = 5 + lcg.below(14);
        let alphabet = lcg.pick(&alphabets);
        let bytes = cases::drawn(&mut lcg, alphabet, len);
        let position = if lcg.chance(50) {
            0
        } else {
            lcg.below(len + 2)
        };
        tally.tags += 1;
        for tag in Tag::readings(&bytes) {
            hold_run(tag, position, tag.opened(position), tally)?;
        }
        tally.progress("drawn short tags");
    }
    Ok(())
}

/// One step from a given state.
fn hold_state(
    tag: Tag,
    place: Place,
    keys: &[Range<usize>],
    tally: &mut Tally,
) -> Result<(), String> {
    let places = match keys.len() {
        0..4 if !tally.runs.is_multiple_of(16) => enough(tag.bytes).map(|places| places + 4),
        _ => ALL,
    };
    let mut ours = State::at(tag.bytes, place, keys, places);
    let mut wanted = ours.clone();
    let answer = if is_bad(tag.bytes, place, keys) {
        tally.bad += 1;
        wanted = wanted.zeroed();
        wanted.numbers[3] = OUT_FULL;
        Some([7, 0, 0, 0, 0])
    } else {
        let mut reader = Reader::from_state(tag.bytes, place, tag.html, tag.checks, keys)
            .ok_or_else(|| format!("{}: the crate can't step from a good state", tag.shown()))?;
        due(tag, &mut reader, &mut wanted)
    };
    tally.full += usize::from(matches!(answer, Some([6, ..])));
    tally.runs += 1;
    tally.steps += 1;
    hold_without_room(tag, &ours, tally.runs)?;
    hold_step(tag, &mut ours, &wanted, answer)
}

/// Where there is room for no answer nothing is written, whatever the state is.
fn hold_without_room(tag: Tag, state: &State, varied: usize) -> Result<(), String> {
    let mut ours = state.clone();
    let mut out = [UNTOUCHED; 4];
    let count = ours.read(tag, &mut out[..varied % 5]);
    if count == 0 && ours == *state && out == [UNTOUCHED; 4] {
        return Ok(());
    }
    Err(format!(
        "{} without room for an answer: {count} answers, from {} to {}",
        tag.shown(),
        state.shown(),
        ours.shown()
    ))
}

/// A state that is 7, which leaves nothing recorded.
fn hold_bad(tag: Tag, mut ours: State, tally: &mut Tally) -> Result<(), String> {
    let mut wanted = ours.zeroed();
    wanted.numbers[3] = OUT_FULL;
    tally.bad += 1;
    tally.steps += 1;
    hold_step(tag, &mut ours, &wanted, Some([7, 0, 0, 0, 0]))
}

/// States by hand that are not bad by a place or by a key: more keys than any table holds, by the count alone,
/// and a kind of place that there isn't. And a position beside done, which changes nothing.
fn hold_by_hand(tag: Tag, place: Place, tally: &mut Tally) -> Result<(), String> {
    let [kind, at] = place.numbers();
    let bad = [
        [kind, at, KEYS + 1],
        [kind, at, usize::MAX],
        [kind + 4, at, 0],
        [usize::MAX - kind, at, 0],
    ];
    for [kind, at, count] in bad {
        let mut ours = State::at(tag.bytes, place, &[], ALL);
        ours.numbers = [kind, at, count, UNTOUCHED];
        hold_bad(tag, ours, tally)?;
    }
    let mut ours = State::at(tag.bytes, Place::Done, &[], ALL);
    ours.numbers[1] = at;
    let mut wanted = ours.clone();
    wanted.numbers[3] = ENDED;
    tally.runs += 1;
    tally.steps += 1;
    hold_step(tag, &mut ours, &wanted, None)
}

fn places(len: usize) -> Vec<Place> {
    let mut places = vec![Place::Done];
    for at in (0..=len + 2).chain([usize::MAX]) {
        places.extend([
            Place::Next(at),
            Place::SkipValue(at),
            Place::SkipEqValue(at),
        ]);
    }
    places
}

/// Every list of up to two keys, good or not, and each key as often as nearly fills the table, fills
/// it, and is too often.
fn key_lists(len: usize) -> Vec<Vec<Range<usize>>> {
    let bounds = 0..=len + 1;
    let keys: Vec<_> = bounds
        .clone()
        .flat_map(|start| bounds.clone().map(move |end| start..end))
        .collect();
    let mut lists = vec![Vec::new()];
    for first in &keys {
        lists.push(vec![first.clone()]);
        lists.extend(
            keys.iter()
                .map(|second| vec![first.clone(), second.clone()]),
        );
        lists.extend([KEYS - 1, KEYS, KEYS + 1].map(|count| vec![first.clone(); count]));
    }
    lists
}

fn hold_states(bytes: &[u8], lists: &[Vec<Range<usize>>], tally: &mut Tally) -> Result<(), String> {
    tally.tags += 1;
    for place in places(bytes.len()) {
        for tag in Tag::readings(bytes) {
            hold_by_hand(tag, place, tally)?;
            for keys in lists {
                hold_state(tag, place, keys, tally)?;
            }
        }
    }
    Ok(())
}

/// A skip from `=` goes to the first whitespace, also within quotes. At any other place, such as the quote or whitespace before
/// it, it is 7: so no quote is ever honoured.
fn skips_from_eq(_: &Extent, tally: &mut Tally) -> Result<(), String> {
    const EQ: usize = 1;
    for value in ["\"b c d\"", "'b c d'", " \"b c d\"", " 'b c d'"] {
        let text = format!("a={value} e");
        tally.tags += 1;
        for tag in Tag::readings(text.as_bytes()) {
            hold_state(tag, Place::SkipEqValue(EQ), &[0..1], tally)?;
            for at in (0..=text.len()).filter(|&at| at != EQ) {
                let state = State::at(tag.bytes, Place::SkipEqValue(at), &[0..1], ALL);
                hold_bad(tag, state, tally)?;
            }
        }
    }
    Ok(())
}

/// Every state on short tags, then drawn states on longer ones.
fn states(extent: &Extent, tally: &mut Tally) -> Result<(), String> {
    for len in 0..=extent.states_up_to {
        let lists = key_lists(len as usize);
        for bytes in cases::every(&cases::TELLING, len) {
            hold_states(&bytes, &lists, tally)?;
        }
        eprintln!(
            "tags: states on every tag of {len} bytes: {} steps so far",
            tally.steps
        );
    }
    let mut lcg = Lcg::new(SEED + 1);
    for _ in 0..extent.drawn_states {
        let len = 4 + lcg.below(6);
        let bytes = cases::drawn(&mut lcg, &cases::TELLING, len);
        let places = places(len);
        tally.tags += 1;
        for _ in 0..500 {
            let tag = Tag::readings(&bytes)[lcg.below(4)];
            let place = places[lcg.below(places.len())];
            let count = lcg.below(3);
            let keys: Vec<_> = (0..count).map(|_| drawn_key(&mut lcg, len)).collect();
            hold_state(tag, place, &keys, tally)?;
        }
    }
    Ok(())
}

// Good for the most part.
fn drawn_key(lcg: &mut Lcg, len: usize) -> Range<usize> {
    if lcg.chance(10) {
        return lcg.below(len + 2)..lcg.below(len + 2);
    }
    let start = lcg.below(len);
    start..start + 1 + lcg.below(len - start)
}

/// Up to more attributes than keys can be recorded, whole, repeated and damaged, some with names of one hash, against
/// both oracles.
fn drawn_long(extent: &Extent, tally: &mut Tally) -> Result<(), String> {
    let mut lcg = Lcg::new(SEED + 2);
    for round in 0..extent.drawn_long {
        let shape = Shape {
            attributes: match round % 40 {
                0 => KEYS + 1 + lcg.below(64),
                1 => 1 + lcg.below(KEYS),
                _ => 1 + lcg.below(200),
            },
            repeated: [0, 0, 3, 20][round % 4],
            shared: [0, 0, 30, 90][lcg.below(4)],
            damaged: [0, 0, 2, 10, 40][round % 5],
            wild: lcg.chance(30),
        };
        let bytes = cases::long_tag(&mut lcg, &shape);
        let position = if lcg.chance(80) {
            0
        } else {
            lcg.below(bytes.len() + 2)
        };
        tally.tags += 1;
        for tag in Tag::readings(&bytes) {
            hold_run(tag, position, tag.opened(position), tally)?;
            let two_bit =
                oracle_two_bit::steps::Reader::open(&bytes, position, tag.html, tag.checks);
            hold_run(tag, position, two_bit, tally)?;
        }
        if tally.tags.is_multiple_of(1_000) {
            eprintln!(
                "tags: drawn long tags: {} tags, {} steps so far",
                tally.tags, tally.steps
            );
        }
    }
    Ok(())
}

/// A run with all places: the numbers of the state before each step, of the one that is left and, in between, of none;
/// the answers; and the state that is left. Keys are recorded one behind the other, so that it has those of all steps.
struct Whole {
    numbers: Vec<[usize; 4]>,
    answers: Vec<[usize; 5]>,
    last: State,
}

impl Whole {
    fn read(tag: Tag) -> Self {
        let mut last = State::at(tag.bytes, Place::Next(0), &[], ALL);
        let (mut numbers, mut answers) = (vec![last.numbers], Vec::new());
        let mut out = [0; 5];
        while last.read(tag, &mut out) == 1 {
            numbers.push(last.numbers);
            answers.push(out);
        }
        numbers.push(last.numbers);
        Whole {
            numbers,
            answers,
            last,
        }
    }

    /// What is due from a step on with so many places and so much room: how many answers, and why it stops.
    fn due(&self, from: usize, places: usize, room: usize) -> (usize, usize) {
        for step in from.. {
            if step - from == room {
                return (room, OUT_FULL);
            }
            if step == self.answers.len() {
                return (step - from, ENDED);
            }
            let recorded = self.numbers[step + 1][2];
            if recorded > self.numbers[step][2] && recorded > places {
                return (step - from, MORE_KEYS);
            }
        }
        unreachable!("a step is the last")
    }

    /// The state before a step, with so many places, of which those behind the recorded keys hold what they held.
    fn before(&self, step: usize, places: Places) -> State {
        let [kind, at, recorded, _] = self.numbers[step];
        let kept = places.map(|places| recorded.min(places));
        let mut state = State {
            starts: self.last.starts[..kept[0]].to_vec(),
            ends: self.last.ends[..kept[1]].to_vec(),
            hashes: self.last.hashes[..kept[2]].to_vec(),
            numbers: [kind, at, recorded, UNTOUCHED],
        };
        state = state.with_places(places);
        state
    }

    /// The state that is left where reading stops before a step.
    fn left(&self, step: usize, why: usize, places: Places) -> State {
        let step = if why == ENDED { step + 1 } else { step };
        let mut state = self.before(step, places);
        state.numbers[3] = why;
        state
    }
}

/// So many places for each table, which are the same for the most part.
fn drawn_places(lcg: &mut Lcg, least: usize, few: usize) -> Places {
    let most = KEYS + 1 - least;
    let mut places = [least + lcg.below(most); 3];
    if lcg.chance(50) {
        places = [least + lcg.below(few.min(most)); 3];
    }
    if lcg.chance(30) {
        // the shortest one counts
        let longer = lcg.below(3);
        places[longer] = places[longer].max(least + lcg.below(most));
    }
    if lcg.chance(30) {
        places[lcg.below(3)] = KEYS;
    }
    places
}

fn shortest(places: Places) -> usize {
    places.into_iter().fold(usize::MAX, usize::min)
}

/// A run from a step on with few places, then more of them each time that a key has none.
fn hold_with_places(
    tag: Tag,
    whole: &Whole,
    from: usize,
    lcg: &mut Lcg,
    tally: &mut Tally,
) -> Result<(), String> {
    let mut places = drawn_places(lcg, whole.numbers[from][2], 4);
    let mut ours = whole.before(from, places);
    let mut step = from;
    loop {
        // a call tests all recorded keys: where there are many, it is given more room
        let room = 1 + lcg.below(9 + whole.numbers[step][2]);
        let (count, why) = whole.due(step, shortest(places), room);
        let mut out = vec![UNTOUCHED; 5 * room + lcg.below(5)];
        let got = ours.read(tag, &mut out);
        let wanted = whole.left(step + count, why, places);
        let answers = whole.answers[step..step + count].as_flattened();
        let told = out.get(..5 * count) == Some(answers);
        let behind = out[5 * count..].iter().all(|&number| number == UNTOUCHED);
        tally.steps += 1;
        if got != count || !told || !behind || ours != wanted {
            return Err(format!(
                "{} with {places:?} places and room for {room}, step {step}: ours {got} leaving {}\n  wanted {count} leaving {}",
                tag.shown(),
                ours.shown(),
                wanted.shown()
            ));
        }
        step += count;
        match why {
            ENDED => return Ok(()),
            MORE_KEYS => {
                tally.few_places += 1;
                let least = KEYS.min(shortest(places) + 1);
                let longer = drawn_places(lcg, least, 3 * least);
                places = [0, 1, 2].map(|table| places[table].max(longer[table]));
                ours = ours.with_places(places);
            }
            _ => {}
        }
    }
}

/// Fewer places than keys are recorded is a bad state; more than there can be is no table.
fn hold_other_places(tag: Tag, whole: &Whole, from: usize, lcg: &mut Lcg) -> Result<(), String> {
    let recorded = whole.numbers[from][2];
    let mut cases = TOO_LONG.to_vec();
    if recorded > 0 {
        let fewer = lcg.below(recorded);
        cases.push([fewer; 3]);
        cases.extend([0, 1, 2].map(|table| {
            let mut places = ALL;
            places[table] = fewer;
            places
        }));
    }
    for places in cases {
        let mut ours = whole.before(from, places);
        let mut out = [UNTOUCHED; 11];
        let (count, wanted, written) = match places.iter().any(|&places| places > KEYS) {
            true => (NONE, ours.clone(), [UNTOUCHED; 5]),
            false => {
                let mut wanted = ours.zeroed();
                wanted.numbers[3] = ENDED;
                (1, wanted, [7, 0, 0, 0, 0])
            }
        };
        let got = ours.read(tag, &mut out);
        if got != count || out[..5] != written || out[5..] != [UNTOUCHED; 6] || ours != wanted {
            return Err(format!(
                "{} with {places:?} places: ours {got} {out:?} leaving {}, wanted {count} leaving {}",
                tag.shown(),
                ours.shown(),
                wanted.shown()
            ));
        }
    }
    Ok(())
}

/// Key tables of every length against full ones, from the start of a tag and from inside it.
fn few_places(extent: &Extent, tally: &mut Tally) -> Result<(), String> {
    let mut lcg = Lcg::new(SEED + 3);
    for round in 0..extent.few_places {
        let shape = Shape {
            attributes: match round % 40 {
                0 => KEYS - 6 + lcg.below(12),
                1..5 => 100 + lcg.below(200),
                _ => lcg.below(40),
            },
            repeated: [0, 3, 20][lcg.below(3)],
            shared: [0, 50][lcg.below(2)],
            damaged: [0, 0, 10][lcg.below(3)],
            wild: lcg.chance(30),
        };
        let bytes = cases::long_tag(&mut lcg, &shape);
        tally.tags += 1;
        for tag in Tag::readings(&bytes) {
            let whole = Whole::read(tag);
            tally.runs += 1;
            let last = whole.answers.len();
            for from in [0, 0, lcg.below(last + 1), last] {
                hold_with_places(tag, &whole, from, &mut lcg, tally)?;
                hold_other_places(tag, &whole, from, &mut lcg)?;
            }
        }
    }
    every_number_of_places(extent, tally)
}

/// A tag of one key more than can be recorded, and each number of places: for all tables, and for one of them.
fn every_number_of_places(extent: &Extent, tally: &mut Tally) -> Result<(), String> {
    let bytes: String = (0..=KEYS).map(|n| format!(" k{n}=''")).collect();
    tally.tags += 1;
    for tag in Tag::readings(bytes.as_bytes()) {
        let whole = Whole::read(tag);
        for fewest in (0..=KEYS).step_by(extent.places_apart) {
            let mut places = ALL;
            places[fewest % 3] = fewest;
            for places in [[fewest; 3], places] {
                let room = KEYS + 2;
                let mut ours = whole.before(0, places);
                let mut out = vec![UNTOUCHED; 5 * room];
                let (count, why) = whole.due(0, fewest, room);
                let got = ours.read(tag, &mut out);
                tally.steps += 1;
                tally.few_places += usize::from(why == MORE_KEYS);
                let told = out[..5 * count] == *whole.answers[..count].as_flattened();
                if got != count || !told || ours != whole.left(count, why, places) {
                    return Err(format!(
                        "{} with {places:?} places: ours {got} leaving {}, wanted {count}",
                        tag.shown(),
                        ours.shown()
                    ));
                }
            }
        }
    }
    Ok(())
}

/// A kept hash that is not its key's is 7, in each mode, with checks on and off; what stands in places that are not in
/// use is of no effect.
fn hold_kept(
    tag: Tag,
    whole: &Whole,
    step: usize,
    lcg: &mut Lcg,
    tally: &mut Tally,
) -> Result<(), String> {
    let recorded = whole.numbers[step][2];
    let places = [recorded + lcg.below(KEYS + 1 - recorded); 3];
    let state = whole.before(step, places);
    if recorded > 0 {
        for index in [0, recorded - 1, lcg.below(recorded)] {
            let other = state.hashes[lcg.below(recorded)];
            let wrong = match lcg.below(4) {
                0 => 0,
                1 => !state.hashes[index],
                2 if other != state.hashes[index] => other,
                _ => state.hashes[index] ^ (1 << lcg.below(32)),
            };
            let checks = [!tag.checks, tag.checks];
            for checks in checks.into_iter().filter(|_| wrong != state.hashes[index]) {
                let mut ours = state.clone();
                ours.hashes[index] = wrong;
                hold_bad(Tag { checks, ..tag }, ours, tally)?;
            }
        }
    }
    // the next step, beside hashes of keys that are recorded, or of the one that is to be
    let mut ours = state;
    let mut wanted = whole.before((step + 1).min(whole.numbers.len() - 1), places);
    let answer = whole.answers.get(step).copied();
    let left = wanted.numbers[2];
    if left > places[0] {
        return Ok(());
    }
    for index in recorded..places[2] {
        ours.hashes[index] = match lcg.below(5) {
            0 => [0, 1, u32::MAX][lcg.below(3)],
            _ => whole.last.hashes[lcg.below(left.max(1))],
        };
        if index >= left {
            wanted.hashes[index] = ours.hashes[index];
        }
    }
    wanted.numbers[3] = stopped(answer);
    tally.steps += 1;
    hold_step(tag, &mut ours, &wanted, answer)
}

/// States from inside of runs, with hashes that are put in by hand.
fn kept_hashes(extent: &Extent, tally: &mut Tally) -> Result<(), String> {
    for [one, other] in SHARED {
        if hash(one.as_bytes()) != hash(other.as_bytes()) {
            return Err(format!("{one} and {other} do not have one hash"));
        }
    }
    let mut lcg = Lcg::new(SEED + 4);
    for round in 0..extent.kept_hashes {
        let shape = Shape {
            attributes: match round % 20 {
                0 => KEYS - 6 + lcg.below(12),
                1 => lcg.below(KEYS),
                _ => 1 + lcg.below(40),
            },
            repeated: [0, 3, 20][lcg.below(3)],
            shared: [0, 50, 100][lcg.below(3)],
            damaged: [0, 0, 10][lcg.below(3)],
            wild: lcg.chance(30),
        };
        let bytes = cases::long_tag(&mut lcg, &shape);
        tally.tags += 1;
        for tag in Tag::readings(&bytes) {
            let whole = Whole::read(tag);
            tally.runs += 1;
            for _ in 0..20 {
                let step = lcg.below(whole.answers.len() + 1);
                hold_kept(tag, &whole, step, &mut lcg, tally)?;
            }
        }
    }
    Ok(())
}

const PARTS: [(&str, Part<Extent, Tally>); 8] = [
    ("every byte", every_byte),
    ("every short tag", every_short),
    ("drawn short tags", drawn_short),
    ("skips from `=`", skips_from_eq),
    ("states", states),
    ("drawn long tags", drawn_long),
    ("few places", few_places),
    ("kept hashes", kept_hashes),
];

fn main() -> ExitCode {
    parts::run("tags", [BOUNDED, SHORT, WHOLE], &PARTS, |_, _| false)
}
