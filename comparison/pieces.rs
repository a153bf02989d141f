//! Holds the library's reader of tags that arrive in pieces against the crate's iterator on the whole tag: the same
//! answers in the same order, however the tag is cut and whatever takes stand between the pieces.
//!
//! The crate has nothing that reads in pieces. So the moment of each answer is held against a transcription of the
//! table that says which byte is the last its rule looks at ([`last_byte`]), and what a reader of any content
//! does against the rules as they are written down here ([`Memory::piece_due`], [`Memory::finish_due`],
//! [`Memory::take_due`]). Those take the step itself from the crate, on the bytes that are held, and document 01's
//! refusals 6 and 7 from its sentences.
//!
//! Compared too, bit by bit: *more*, 31, 32, 98, 99 and `MZ_NONE` change nothing, but for the reason of a take; 7 leaves
//! what its row says, and none held; nothing is written behind the answers, and nothing at all without room for one.
//!
//! Usage: `pieces [--short | --whole]`. Status 0 and counts where all agrees, status 1 and the first difference
//! where it doesn't.

#[path = "../oracle/src/cases.rs"]
mod cases;
mod hash;
#[path = "../rust/src/library.rs"]
mod library;
mod parts;

use cases::{Lcg, Shape};
use hash::{TOO_LONG, hash};
use library::{HOLD, KEYS, mz_finish, mz_piece, mz_take};
use oracle::steps::{Place, Reader};
use oracle::text::shown;
use parts::{Counts, Part};
use std::ops::Range;
use std::process::ExitCode;

const SEED: u64 = 42_101;
/// What stands in memory that a call has to leave alone.
const UNTOUCHED: usize = 0x5a5a_5a5a;
const UNTOUCHED_HASH: u32 = 0x5a5a_5a5a;

/// The bytes that steer a reader, and two names: ` ab="'`.
const TELLING: &[u8] = cases::TELLING.split_at(6).0;

/// How much is run. The bounded part takes some 20 seconds.
struct Extent {
    /// Every cutting, with and without a take at each cut, of every tag up to so many bytes.
    every_up_to: u32,
    /// From every position, up to so many bytes.
    positions_up_to: u32,
    /// Every cutting with a take at each cut.
    taken_up_to: u32,
    drawn_long: usize,
    by_hand: usize,
    full: usize,
}

const SHORT: Extent = Extent {
    every_up_to: 2,
    positions_up_to: 2,
    taken_up_to: 3,
    drawn_long: 10,
    by_hand: 3_000,
    full: 20,
};
const BOUNDED: Extent = Extent {
    every_up_to: 5,
    positions_up_to: 3,
    taken_up_to: 6,
    drawn_long: 800,
    by_hand: 1_000_000,
    full: 1_000,
};
const WHOLE: Extent = Extent {
    every_up_to: 6,
    positions_up_to: 4,
    taken_up_to: 7,
    drawn_long: 8_000,
    by_hand: 10_000_000,
    full: 10_000,
};

/// Why a take stopped: `out` is full, none is there, or a key has no place.
const OUT_FULL: usize = 0;
const NONE_THERE: usize = 1;
const MORE_KEYS: usize = 2;
/// The library's answer to a wrong length.
const NONE: usize = usize::MAX;

/// The numbers of a reader by their index.
const KIND: usize = 0;
const POSITION: usize = 1;
const COUNT: usize = 2;
const WHY: usize = 3;
const HELD: usize = 4;
const FINISHED: usize = 5;
const PHASE: usize = 6;
const KEY_START: usize = 7;
const KEY_END: usize = 8;

/// How a tag is read.
#[derive(Clone, Copy, PartialEq)]
struct Mode {
    html: bool,
    checks: bool,
}

const MODES: [Mode; 4] = [
    mode(false, true),
    mode(false, false),
    mode(true, true),
    mode(true, false),
];

const fn mode(html: bool, checks: bool) -> Mode {
    Mode { html, checks }
}

impl Mode {
    fn shown(self) -> String {
        let Mode { html, checks } = self;
        let (html, checks) = (
            ["xml", "html"][html as usize],
            ["off", "on"][checks as usize],
        );
        format!("{html} {checks}")
    }
}

type Answer = [usize; 5];

const fn is_space(byte: u8) -> bool {
    matches!(byte, b' ' | b'\t' | b'\r' | b'\n')
}

/// The first byte at or after `from` that is no whitespace, if there is one.
fn first_other(tag: &[u8], from: usize) -> Option<usize> {
    (from..tag.len()).find(|&at| !is_space(tag[at]))
}

/// The last byte that the rule of an answer looks at, in the tag that it was given on; none where that is the finish.
fn last_byte(tag: &[u8], answer: Answer) -> Option<usize> {
    let [what, a, key_end, _, value_end] = answer;
    let inside = |at: usize| (at < tag.len()).then_some(at);
    match what {
        // the closing quote
        101 | 102 => Some(value_end),
        // the whitespace that ends it
        103 => inside(value_end),
        // the first byte after the key that is no whitespace
        104 => first_other(tag, key_end),
        // the byte at the position
        1 | 3 => inside(a),
        // of a key with `=`, the `=`; of a bare one as for 104: the same byte, by the key's start
        5 | 6 => {
            let ends = |&at: &usize| is_space(tag[at]) || tag[at] == b'=';
            let end = (a + 1..tag.len()).find(ends)?;
            first_other(tag, end)
        }
        2 | 4 => None,
        // 7 looks at no byte
        _ => unreachable!("{answer:?} has no last byte"),
    }
}

/// All memory of a reader.
#[derive(Clone, PartialEq)]
struct Memory {
    text: Vec<u8>,
    starts: Vec<usize>,
    ends: Vec<usize>,
    hashes: Vec<u32>,
    reader: [usize; 9],
}

/// One call, to be told of.
#[derive(Clone, Copy)]
enum Call<'c> {
    Piece(&'c [u8]),
    Finish,
    /// With room for so many numbers.
    Take(Mode, usize),
}

impl Call<'_> {
    fn shown(self) -> String {
        match self {
            Call::Piece(piece) => format!("piece |{}|", shown(piece)),
            Call::Finish => "finish".to_string(),
            Call::Take(mode, room) => format!("take {} with room for {room}", mode.shown()),
        }
    }
}

impl Memory {
    fn opened(text: usize, places: [usize; 3], position: usize) -> Self {
        Memory {
            text: vec![0x5a; text],
            starts: vec![UNTOUCHED; places[0]],
            ends: vec![UNTOUCHED; places[1]],
            hashes: vec![UNTOUCHED_HASH; places[2]],
            reader: [1, position, 0, UNTOUCHED, 0, 0, 0, 0, 0],
        }
    }

    /// As it was opened, in the same memory.
    fn open(&mut self, position: usize) {
        self.text.fill(0x5a);
        self.starts.fill(UNTOUCHED);
        self.ends.fill(UNTOUCHED);
        self.hashes.fill(UNTOUCHED_HASH);
        self.reader = [1, position, 0, UNTOUCHED, 0, 0, 0, 0, 0];
    }

    /// The same with tables and a text of other lengths.
    fn with_lengths(&self, text: usize, [starts, ends, hashes]: [usize; 3]) -> Self {
        let mut other = self.clone();
        other.text.resize(text, 0x5a);
        other.starts.resize(starts, UNTOUCHED);
        other.ends.resize(ends, UNTOUCHED);
        other.hashes.resize(hashes, UNTOUCHED_HASH);
        // so that an access beyond them is one beyond what was allocated
        other.text.shrink_to_fit();
        other.starts.shrink_to_fit();
        other.ends.shrink_to_fit();
        other.hashes.shrink_to_fit();
        other
    }

    fn places(&self) -> [usize; 3] {
        [self.starts.len(), self.ends.len(), self.hashes.len()]
    }

    fn shortest(&self) -> usize {
        self.places().into_iter().fold(usize::MAX, usize::min)
    }

    fn piece(&mut self, piece: &[u8]) -> usize {
        // SAFETY: each pointer is that of a live slice of the stated length, or of the nine numbers; what is written is
        // borrowed mutably and apart from the piece, which is only read.
        unsafe {
            mz_piece(
                self.text.as_mut_ptr(),
                self.text.len(),
                self.reader.as_mut_ptr(),
                piece.as_ptr(),
                piece.len(),
            )
        }
    }

    fn finish(&mut self) -> usize {
        // SAFETY: the pointer is that of the nine numbers, borrowed mutably.
        unsafe { mz_finish(self.reader.as_mut_ptr()) }
    }

    fn take(&mut self, mode: Mode, out: &mut [usize]) -> usize {
        // SAFETY: each pointer is that of a live slice of the stated length, or of the nine numbers; the text is only
        // read, and the five that are written are borrowed mutably and apart from each other.
        unsafe {
            mz_take(
                self.text.as_ptr(),
                self.text.len(),
                self.starts.as_mut_ptr(),
                self.starts.len(),
                self.ends.as_mut_ptr(),
                self.ends.len(),
                self.hashes.as_mut_ptr(),
                self.hashes.len(),
                self.reader.as_mut_ptr(),
                mode.html,
                mode.checks,
                out.as_mut_ptr(),
                out.len(),
            )
        }
    }

    fn shown(&self) -> String {
        let used = self.reader[COUNT].min(self.shortest()).min(4);
        let keys: String = (0..used)
            .map(|k| {
                let (start, end) = (self.starts[k], self.ends[k]);
                format!(" {start}..{end} {:08x}", self.hashes[k])
            })
            .collect();
        let (text, places) = (shown(&self.text[..self.text.len().min(200)]), self.places());
        format!(
            "{:?}, text |{text}|, places {places:?}, keys{keys}",
            self.reader
        )
    }
}

// The rules, on memory of any content.
impl Memory {
    /// A piece: 99, 32, 31, 98, else it is held and the phase is carried over it.
    fn piece_due(&mut self, piece: &[u8]) -> usize {
        let held = self.reader[HELD];
        if self.text.len() > HOLD {
            return 99;
        }
        if self.reader[FINISHED] != 0 {
            return 32;
        }
        let Some(after) = held.checked_add(piece.len()).filter(|&n| n <= HOLD) else {
            return 31;
        };
        if self.text.len() < after {
            return 98;
        }
        // before the piece: another kind of place is one at the end of what was held
        let place = self.place();
        self.text[held..after].copy_from_slice(piece);
        self.reader[WHY] = 0;
        self.reader[HELD] = after;
        let [.., phase, start, end] = self.reader;
        let carried = match phase {
            1..=9 => carried([phase, start, end], &self.text[..after], held),
            _ => begun(place, &self.text[..after]),
        };
        self.reader[PHASE..].copy_from_slice(&carried);
        0
    }

    fn finish_due(&mut self) -> usize {
        if self.reader[FINISHED] != 0 {
            return 32;
        }
        self.reader[WHY] = 0;
        self.reader[FINISHED] = 1;
        0
    }

    /// A place from its kind; another kind is a skip from where no byte is.
    fn place(&self) -> Place {
        match self.reader {
            [0, ..] => Place::Done,
            [1, at, ..] => Place::Next(at),
            [2, at, ..] => Place::SkipValue(at),
            [3, at, ..] => Place::SkipEqValue(at),
            _ => Place::SkipValue(self.reader[HELD]),
        }
    }

    /// The recorded keys, where the tables hold so many.
    fn keys(&self) -> Option<Vec<Range<usize>>> {
        let count = self.reader[COUNT];
        let keys = || (0..count).map(|k| self.starts[k]..self.ends[k]);
        (count <= self.shortest()).then(|| keys().collect())
    }

    /// Refusal 7: more held than is lent, more keys than places, a key that is empty, not inside what is held or not of
    /// its hash, a skip from outside of it or from `=` where there is none.
    fn is_bad(&self) -> bool {
        let Some(held) = self.text.get(..self.reader[HELD]) else {
            return true;
        };
        let Some(keys) = self.keys() else {
            return true;
        };
        let bad_key = |(key, kept): (&Range<usize>, &u32)| match held.get(key.clone()) {
            Some(bytes) => bytes.is_empty() || hash(bytes) != *kept,
            None => true,
        };
        let bad_place = match self.place() {
            Place::Done | Place::Next(_) => false,
            Place::SkipValue(at) => at >= held.len(),
            Place::SkipEqValue(at) => held.get(at) != Some(&b'='),
        };
        bad_place || keys.iter().zip(&self.hashes).any(bad_key)
    }

    /// Whether the phase alone says that nothing is there. A key that is refused for its name does not wait for its value.
    fn waits(&self, mode: Mode) -> bool {
        let [.., phase, start, end] = self.reader;
        let held = &self.text[..self.reader[HELD]];
        match phase {
            2..=5 => true,
            9 if !mode.html => false,
            6..=9 => {
                let Some(key) = held.get(start..end).filter(|key| !key.is_empty()) else {
                    return true;
                };
                let keys = self.keys().unwrap_or_default();
                let same = keys.iter().any(|other| &held[other.clone()] == key);
                !(mode.checks && (same || keys.len() == KEYS))
            }
            _ => false,
        }
    }

    /// The next answer, and the memory after it; or why there is none.
    fn step_due(&mut self, mode: Mode, first: bool) -> Result<Answer, usize> {
        let finished = self.reader[FINISHED] != 0;
        if !finished && first && self.waits(mode) {
            return Err(NONE_THERE);
        }
        let held = &self.text[..self.reader[HELD]];
        let (place, keys) = (self.place(), self.keys().unwrap_or_default());
        let recorded = keys.len();
        let mut reader = Reader::from_state(held, place, mode.html, mode.checks, &keys)
            .expect("the crate can step from a good state");
        let mut answer = reader.step().map(|answer| answer.numbers());
        let key = reader.keys().get(recorded).cloned();
        let mut left = reader.place();
        if let Some(key) = key.as_ref().filter(|_| recorded == KEYS) {
            answer = Some([6, key.start, 0, 0, 0]);
            left = Place::Done;
        }
        if !finished && answer.is_none_or(|answer| last_byte(held, answer).is_none()) {
            return Err(NONE_THERE);
        }
        if let Some(key) = key.filter(|_| recorded < KEYS) {
            if recorded == self.shortest() {
                return Err(MORE_KEYS);
            }
            self.starts[recorded] = key.start;
            self.ends[recorded] = key.end;
            self.hashes[recorded] = hash(&held[key]);
            self.reader[COUNT] += 1;
        }
        if left != place {
            self.reader[..COUNT].copy_from_slice(&left.numbers());
        }
        answer.ok_or(NONE_THERE)
    }

    /// The answers that are there, up to the room.
    fn take_due(&mut self, mode: Mode, room: usize) -> (usize, Vec<Answer>) {
        let too_long = self.places().iter().any(|&places| places > KEYS);
        if self.text.len() > HOLD || too_long {
            return (NONE, Vec::new());
        }
        if room < 5 {
            return (0, Vec::new());
        }
        if self.is_bad() {
            self.starts.fill(0);
            self.ends.fill(0);
            self.hashes.fill(0);
            let [kind, position, _, _, _, finished, ..] = self.reader;
            let beside = if kind == 0 { position } else { 0 };
            let why = if room < 10 { OUT_FULL } else { NONE_THERE };
            self.reader = [0, beside, 0, why, 0, finished, 0, 0, 0];
            return (1, vec![[7, 0, 0, 0, 0]]);
        }
        let mut answers = Vec::new();
        self.reader[WHY] = OUT_FULL;
        while answers.len() < room / 5 {
            match self.step_due(mode, answers.is_empty()) {
                Ok(answer) => {
                    answers.push(answer);
                    self.reader[PHASE..].fill(0);
                }
                Err(why) => {
                    self.reader[WHY] = why;
                    break;
                }
            }
        }
        (answers.len(), answers)
    }

    /// The same call on both; whether they agree in the answer and in all memory.
    fn hold(&mut self, call: Call, out: &mut Vec<usize>) -> Result<(usize, Vec<Answer>), String> {
        let mut wanted = self.clone();
        let before = self.clone();
        let mut answers = Vec::new();
        let (got, due) = match call {
            Call::Piece(piece) => (self.piece(piece), wanted.piece_due(piece)),
            Call::Finish => (self.finish(), wanted.finish_due()),
            Call::Take(mode, room) => {
                out.clear();
                out.resize(room, UNTOUCHED);
                let got = self.take(mode, out);
                let (due, listed) = wanted.take_due(mode, room);
                answers = listed;
                (got, due)
            }
        };
        let told = answers.as_flattened();
        let written = match call {
            Call::Take(..) => {
                out.starts_with(told) && out[told.len()..].iter().all(|&n| n == UNTOUCHED)
            }
            _ => true,
        };
        if got == due && written && *self == wanted {
            return Ok((got, answers));
        }
        Err(format!(
            "{}\n  from   {}\n  ours   {got} {out:?} leaving {}\n  wanted {due} {answers:?} leaving {}",
            call.shown(),
            before.shown(),
            self.shown(),
            wanted.shown()
        ))
    }
}

/// A phase after the bytes from an index on, one after another.
fn carried([mut phase, mut start, mut end]: [usize; 3], held: &[u8], from: usize) -> [usize; 3] {
    for (at, &byte) in held.iter().enumerate().skip(from) {
        let next = match (phase, byte) {
            (2, byte) if is_space(byte) => 3,
            (3, byte) if !is_space(byte) => 4,
            (4, b'=') => 6,
            (4, byte) if is_space(byte) => 5,
            (5, b'=') => 6,
            (5, byte) if !is_space(byte) => 1,
            (6, b'"') => 7,
            (6, b'\'') => 8,
            (6, byte) if !is_space(byte) => 9,
            (7, b'"') | (8, b'\'') => 1,
            (9, byte) if is_space(byte) => 1,
            (phase, _) => phase,
        };
        if (phase, next) == (3, 4) {
            start = at;
        }
        if phase == 4 && next != 4 {
            end = at;
        }
        phase = next;
    }
    match phase {
        0..=3 => [phase, 0, 0],
        4 => [4, start, 0],
        _ => [phase, start, end],
    }
}

/// The phase of all that is held, from a place on.
fn begun(place: Place, held: &[u8]) -> [usize; 3] {
    match place {
        Place::Done => [0; 3],
        Place::Next(at) if at > held.len() => [0; 3],
        Place::Next(at) => carried([3, 0, 0], held, at),
        Place::SkipValue(at) | Place::SkipEqValue(at) => carried([2, 0, 0], held, at),
    }
}

#[derive(Default)]
struct Tally {
    tags: usize,
    cuttings: usize,
    calls: usize,
    answers: usize,
    more: usize,
    bad: usize,
    refused: usize,
}

impl Counts for Tally {
    fn line(&self, what: &str) -> String {
        format!(
            "{what}: {} tags, {} cuttings, {} calls ({} answers, {} times none, {} bad readers, {} refused)",
            self.tags, self.cuttings, self.calls, self.answers, self.more, self.bad, self.refused
        )
    }

    fn add(&mut self, other: &Tally) {
        self.tags += other.tags;
        self.cuttings += other.cuttings;
        self.calls += other.calls;
        self.answers += other.answers;
        self.more += other.more;
        self.bad += other.bad;
        self.refused += other.refused;
    }

    fn reached(&self) -> String {
        format!("{} cuttings, {} calls", self.cuttings, self.calls)
    }
}

/// A tag as the crate reads it: its answers, with the byte that each is there with, and what stands in a reader's
/// memory after so many of them.
struct Whole<'t> {
    tag: &'t [u8],
    mode: Mode,
    position: usize,
    answers: Vec<Answer>,
    /// The last byte of each, or the tag's length for the finish.
    moments: Vec<usize>,
    /// The place after so many answers, and after the end; and how many keys are recorded.
    places: Vec<[usize; 3]>,
    keys: Vec<Range<usize>>,
}

impl<'t> Whole<'t> {
    fn read(tag: &'t [u8], mode: Mode, position: usize) -> Self {
        let mut reader = Reader::open(tag, position, mode.html, mode.checks);
        let mut whole = Whole {
            tag,
            mode,
            position,
            answers: Vec::new(),
            moments: Vec::new(),
            places: vec![[1, position, 0]],
            keys: Vec::new(),
        };
        loop {
            let step = reader.step().map(|answer| answer.numbers());
            let [kind, at] = reader.place().numbers();
            if let Some(key) = reader.keys().get(KEYS) {
                // 6, which ends reading, and the end behind it
                whole.push([6, key.start, 0, 0, 0]);
                whole.places.extend([[0, 0, KEYS]; 2]);
                whole.keys = reader.keys()[..KEYS].to_vec();
                return whole;
            }
            whole.places.push([kind, at, reader.keys().len()]);
            match step {
                Some(answer) => whole.push(answer),
                None => {
                    whole.keys = reader.keys().to_vec();
                    return whole;
                }
            }
        }
    }

    fn push(&mut self, answer: Answer) {
        self.answers.push(answer);
        let moment = last_byte(self.tag, answer);
        self.moments.push(moment.unwrap_or(self.tag.len()));
    }

    /// How many answers are there with so many bytes, or with the finish.
    fn there(&self, held: usize, finished: bool) -> usize {
        match finished {
            true => self.answers.len(),
            false => self.moments.iter().take_while(|&&at| at < held).count(),
        }
    }

    /// Whether memory is what so many answers leave.
    fn left(&self, memory: &Memory, taken: usize, ended: bool) -> bool {
        let [kind, position, count] = self.places[taken + usize::from(ended)];
        let keys = self.keys.iter().take(count).enumerate();
        let kept = |(k, key): (usize, &Range<usize>)| {
            memory.starts[k] == key.start
                && memory.ends[k] == key.end
                && memory.hashes[k] == hash(&self.tag[key.clone()])
        };
        memory.reader[..WHY] == [kind, position, count]
            && keys.into_iter().all(kept)
            && memory.starts[count..].iter().all(|&n| n == UNTOUCHED)
            && memory.ends[count..].iter().all(|&n| n == UNTOUCHED)
            && memory.hashes[count..].iter().all(|&n| n == UNTOUCHED_HASH)
    }

    fn shown(&self) -> String {
        let Whole {
            tag,
            mode,
            position,
            ..
        } = self;
        format!("{} from {position} |{}|", mode.shown(), shown(tag))
    }
}

/// A reader of a tag on the way: its memory, and how many answers were taken.
struct Run<'r> {
    whole: &'r Whole<'r>,
    memory: &'r mut Memory,
    before: &'r mut Memory,
    held: usize,
    taken: usize,
}

impl Run<'_> {
    fn wrong(&self, what: &str) -> String {
        format!(
            "{what}: {} with {} bytes, {} answers taken: {}",
            self.whole.shown(),
            self.held,
            self.taken,
            self.memory.shown()
        )
    }

    /// One piece more, up to a byte of the tag.
    fn piece(&mut self, to: usize, tally: &mut Tally) -> Result<(), String> {
        let piece = &self.whole.tag[self.held..to];
        let answer = self.memory.piece(piece);
        self.held = to;
        tally.calls += 1;
        let reader = self.memory.reader;
        let phase = begun(self.memory.place(), &self.whole.tag[..to]);
        let stands = self.memory.text[..to] == self.whole.tag[..to];
        if answer != 0 || reader[HELD] != to || reader[WHY] != 0 || !stands {
            return Err(self.wrong("a piece"));
        }
        if reader[PHASE..] != phase {
            return Err(self.wrong(&format!("the phase after a piece, wanted {phase:?}")));
        }
        Ok(())
    }

    /// All that is there, with room for so many at a time; then *more* or the end, which changes nothing more.
    fn takes(&mut self, room: usize, tally: &mut Tally) -> Result<(), String> {
        let finished = self.memory.reader[FINISHED] != 0;
        let due = self.whole.there(self.held, finished);
        let mut out = [UNTOUCHED; 5 * 8 + 4];
        let out = &mut out[..5 * room + room % 5];
        loop {
            out.fill(UNTOUCHED);
            self.before.clone_from(self.memory);
            let count = self.memory.take(self.whole.mode, out);
            tally.calls += 1;
            let wanted = room.min(due - self.taken);
            let told = self.whole.answers[self.taken..][..wanted].as_flattened();
            let behind = out.get(5 * wanted..).unwrap_or_default();
            if count != wanted || !out.starts_with(told) || behind.iter().any(|&n| n != UNTOUCHED) {
                return Err(format!(
                    "{}, which gives {count} {out:?}, and wanted are {wanted}",
                    self.wrong("a take")
                ));
            }
            self.taken += count;
            tally.answers += count;
            let why = if wanted < room { NONE_THERE } else { OUT_FULL };
            let ended = finished && why == NONE_THERE;
            let phase = match count {
                0 => self.before.reader[PHASE..] == self.memory.reader[PHASE..],
                _ => self.memory.reader[PHASE..] == [0; 3],
            };
            if self.memory.reader[WHY] != why
                || !phase
                || !self.whole.left(self.memory, self.taken, ended)
            {
                return Err(self.wrong("what a take leaves"));
            }
            if count == 0 && !finished {
                tally.more += 1;
                self.before.reader[WHY] = NONE_THERE;
                if self.before != self.memory {
                    return Err(self.wrong("*more* changes something"));
                }
            }
            if why == NONE_THERE && (count == 0 || ended) {
                return Ok(());
            }
        }
    }

    fn finish(&mut self, room: usize, tally: &mut Tally) -> Result<(), String> {
        if self.memory.finish() != 0 || self.memory.reader[WHY..PHASE] != [0, self.held, 1] {
            return Err(self.wrong("the finish"));
        }
        self.takes(room, tally)?;
        // what comes after it is refused, and the end stays
        self.before.clone_from(self.memory);
        let refused = [
            self.memory.piece(b""),
            self.memory.piece(b"a"),
            self.memory.finish(),
        ];
        tally.calls += 4;
        tally.refused += 3;
        if refused != [32; 3] || self.before != self.memory {
            return Err(self.wrong("after the finish"));
        }
        self.takes(room, tally)
    }
}

/// One cutting of a tag: whether it is cut before each byte but the first, and whether there is a take.
fn hold_cutting(
    whole: &Whole,
    [memory, before]: &mut [Memory; 2],
    cut: impl Fn(usize) -> (bool, bool),
    tally: &mut Tally,
) -> Result<(), String> {
    memory.open(whole.position);
    tally.cuttings += 1;
    let room = 1 + tally.cuttings % 3;
    let mut run = Run {
        whole,
        memory,
        before,
        held: 0,
        taken: 0,
    };
    for at in 1..whole.tag.len() {
        let (cuts, takes) = cut(at - 1);
        if cuts {
            run.piece(at, tally)?;
        }
        if takes {
            run.takes(room, tally)?;
        }
    }
    run.piece(whole.tag.len(), tally)?;
    if tally.cuttings.is_multiple_of(2) {
        run.takes(room, tally)?;
    }
    run.finish(room, tally)
}

fn memory_for(tag: &[u8]) -> [Memory; 2] {
    let memory = Memory::opened(tag.len(), [4, 5, 6], 0);
    [memory.clone(), memory]
}

/// Every cutting of a tag, with a take at each cut.
fn hold_taken(whole: &Whole, tally: &mut Tally) -> Result<(), String> {
    let mut memory = memory_for(whole.tag);
    for mask in 0..1_usize << whole.tag.len().saturating_sub(1) {
        let cut = |at: usize| ((mask >> at) & 1 != 0, (mask >> at) & 1 != 0);
        hold_cutting(whole, &mut memory, cut, tally)?;
    }
    Ok(())
}

/// Every cutting of a tag, with a take or without one at each cut.
fn hold_every(whole: &Whole, tally: &mut Tally) -> Result<(), String> {
    let mut memory = memory_for(whole.tag);
    let cuts = whole.tag.len().saturating_sub(1) as u32;
    for rank in 0..3_usize.pow(cuts) {
        let cut = |at: usize| {
            let what = rank / 3_usize.pow(at as u32) % 3;
            (what > 0, what > 1)
        };
        hold_cutting(whole, &mut memory, cut, tally)?;
    }
    Ok(())
}

fn every_cutting(extent: &Extent, tally: &mut Tally) -> Result<(), String> {
    for len in 0..=extent.every_up_to.max(extent.taken_up_to) {
        for bytes in cases::every(TELLING, len) {
            tally.tags += 1;
            for mode in MODES {
                let last = match len {
                    _ if len <= extent.positions_up_to => bytes.len() + 1,
                    _ => 0,
                };
                for position in 0..=last {
                    let whole = Whole::read(&bytes, mode, position);
                    match len <= extent.every_up_to {
                        true => hold_every(&whole, tally)?,
                        false => hold_taken(&whole, tally)?,
                    }
                }
            }
            if tally.tags.is_multiple_of(10_000) {
                let Tally { tags, cuttings, .. } = tally;
                eprintln!("pieces: every cutting: {tags} tags, {cuttings} cuttings so far");
            }
        }
    }
    Ok(())
}

/// Long tags, cut at random, in memory that is lent as it is needed, with takes at random.
fn long_tags(extent: &Extent, tally: &mut Tally) -> Result<(), String> {
    let mut lcg = Lcg::new(SEED);
    for round in 0..extent.drawn_long {
        let shape = Shape {
            attributes: match round % 40 {
                0 => KEYS - 3 + lcg.below(64),
                1 => 1 + lcg.below(KEYS),
                _ => 1 + lcg.below(60),
            },
            repeated: [0, 0, 3, 20][lcg.below(4)],
            shared: [0, 0, 30, 90][lcg.below(4)],
            damaged: [0, 0, 2, 10, 40][lcg.below(5)],
            wild: lcg.chance(30),
        };
        let mut bytes = cases::long_tag(&mut lcg, &shape);
        if round % 10 == 2 {
            // a long value, or what follows a damaged one
            bytes.extend_from_slice(b" long='");
            bytes.resize(bytes.len() + lcg.below(3_000), b'x');
            bytes.extend_from_slice(b"' a");
        }
        bytes.truncate(HOLD);
        let position = if lcg.chance(80) {
            0
        } else {
            lcg.below(bytes.len() + 2)
        };
        tally.tags += 1;
        for mode in MODES {
            let whole = Whole::read(&bytes, mode, position);
            hold_drawn_cutting(&whole, &mut lcg, tally)?;
        }
        if tally.tags.is_multiple_of(1_000) {
            let Tally { tags, calls, .. } = tally;
            eprintln!("pieces: long tags: {tags} tags, {calls} calls so far");
        }
    }
    Ok(())
}

/// Room for so many answers, with up to four numbers that make none.
fn drawn_room(lcg: &mut Lcg, recorded: usize) -> usize {
    // a take looks at all recorded keys: where there are many, it is given more room
    5 * (1 + lcg.below(9 + recorded)) + lcg.below(5)
}

fn hold_drawn_cutting(whole: &Whole, lcg: &mut Lcg, tally: &mut Tally) -> Result<(), String> {
    let mut memory = Memory::opened(
        lcg.below(8),
        [lcg.below(3), lcg.below(3), 2],
        whole.position,
    );
    let most = [1, 3, 20, 1_000, HOLD][lcg.below(5)];
    let often = [2, 20, 60][lcg.below(3)];
    let (mut held, mut taken, mut out) = (0, 0, Vec::new());
    tally.cuttings += 1;
    loop {
        let finished = memory.reader[FINISHED] != 0;
        let all = whole.tag.len() - held;
        // one answer after another costs a look at all keys each time
        if finished || lcg.below(100) < often {
            let room = drawn_room(lcg, memory.reader[COUNT]);
            out.clear();
            out.resize(room, UNTOUCHED);
            let before = (!finished).then(|| memory.clone());
            let count = memory.take(whole.mode, &mut out);
            tally.calls += 1;
            let due = whole.there(held, finished) - taken;
            let from = taken;
            let wrong = |what: &str, memory: &Memory| {
                let (whole, memory) = (whole.shown(), memory.shown());
                Err(format!(
                    "{what}: {whole}, {held} bytes, {from} taken, {due} due: {count} {memory}"
                ))
            };
            let told = whole.answers[taken..].as_flattened();
            if count > due.min(room / 5) || out[..5 * count] != told[..5 * count] {
                return wrong("a take", &memory);
            }
            if out[5 * count..].iter().any(|&n| n != UNTOUCHED) {
                return wrong("behind the answers", &memory);
            }
            taken += count;
            tally.answers += count;
            let why = memory.reader[WHY];
            let ended = finished && why == NONE_THERE;
            let full = memory.shortest() == memory.reader[COUNT];
            let right = match why {
                OUT_FULL => count == room / 5,
                NONE_THERE => count == due && count < room / 5,
                _ => why == MORE_KEYS && count < due && full && full != (memory.shortest() == KEYS),
            };
            if !right || !whole.left(&memory, taken, ended) {
                return wrong("what a take leaves", &memory);
            }
            if let Some(mut before) = before.filter(|_| count == 0) {
                tally.more += 1;
                before.reader[WHY] = why;
                if before != memory {
                    return wrong("none is there, and something changes", &memory);
                }
            }
            match why {
                MORE_KEYS => {
                    let more = |places: usize| KEYS.min(places + 1 + lcg.below(places + 2));
                    let places = memory.places().map(more);
                    memory = memory.with_lengths(memory.text.len(), places);
                }
                NONE_THERE if finished => return Ok(()),
                _ => {}
            }
        } else if all == 0 && lcg.chance(50) {
            if memory.finish() != 0 {
                return Err(format!("{}: the finish", whole.shown()));
            }
        } else {
            let piece = &whole.tag[held..][..lcg.below(most + 1).min(all)];
            let mut wanted = memory.clone();
            let (answer, due) = (memory.piece(piece), wanted.piece_due(piece));
            tally.calls += 1;
            if answer != due || memory != wanted {
                return Err(format!(
                    "{}: a piece of {}: {answer}, due {due}: {}",
                    whole.shown(),
                    piece.len(),
                    memory.shown()
                ));
            }
            if answer == 98 {
                tally.refused += 1;
                let room = HOLD.min(held + piece.len() + lcg.below(most));
                memory = memory.with_lengths(room, memory.places());
                continue;
            }
            held += piece.len();
            let phase = begun(memory.place(), &whole.tag[..held]);
            if memory.text[..held] != whole.tag[..held] || memory.reader[PHASE..] != phase {
                return Err(format!("{}: the phase: {}", whole.shown(), memory.shown()));
            }
        }
    }
}

/// A number near a length, or one that no length has.
fn drawn_number(lcg: &mut Lcg, len: usize) -> usize {
    match lcg.below(40) {
        0 => usize::MAX - lcg.below(2),
        1 => HOLD + 1,
        _ => lcg.below(len + 2),
    }
}

/// A reader of any content, good for the most part.
fn drawn_memory(lcg: &mut Lcg) -> Memory {
    let len = lcg.below(14);
    let mut places = [lcg.below(5), lcg.below(5), lcg.below(5)];
    if lcg.chance(70) {
        places = [3; 3];
    }
    let mut memory = Memory::opened(len, places, 0);
    memory.text = cases::drawn(lcg, b"  aab==\"'", len);
    let held = match lcg.chance(90) {
        true => lcg.below(len + 1),
        false => drawn_number(lcg, len),
    };
    let count = lcg.below(places[0].min(places[1]).min(places[2]) + 1);
    for k in 0..count {
        let start = lcg.below(held.min(len).max(1));
        let most = held.min(len).saturating_sub(start).max(1);
        let end = start + 1 + lcg.below(most.min(2)) - usize::from(lcg.chance(3));
        let key = memory.text.get(start..end).unwrap_or_default();
        memory.hashes[k] = hash(key) ^ u32::from(lcg.chance(2));
        (memory.starts[k], memory.ends[k]) = (start, end);
    }
    let kind = [1, 1, 1, 1, 0, 2, 2, 3, 3, lcg.below(6), 1, usize::MAX][lcg.below(12)];
    let mut position = drawn_number(lcg, held.min(len));
    if kind == 2 && lcg.chance(80) {
        position = lcg.below(held.min(len).max(1));
    }
    if kind == 3 && lcg.chance(90) {
        let eq = memory.text.iter().position(|&byte| byte == b'=');
        position = eq.unwrap_or(position);
    }
    let phase = match lcg.chance(30) {
        true => 0,
        false => [lcg.below(10), 10 + lcg.below(3), usize::MAX][lcg.below(40).saturating_sub(37)],
    };
    // the key of the phase is a recorded one, or any
    let (mut start, mut end) = (drawn_number(lcg, len), drawn_number(lcg, len));
    if count > 0 && lcg.chance(50) {
        let key = lcg.below(count);
        (start, end) = (memory.starts[key], memory.ends[key]);
    }
    memory.reader = [
        kind,
        position,
        if lcg.chance(95) {
            count
        } else {
            drawn_number(lcg, 5)
        },
        lcg.below(4),
        held,
        [0, 0, 0, 1, 2, usize::MAX][lcg.below(6)],
        phase,
        start,
        end,
    ];
    memory
}

/// A few calls one after another, each held against the rules.
fn hold_calls(
    memory: &mut Memory,
    lcg: &mut Lcg,
    out: &mut Vec<usize>,
    tally: &mut Tally,
) -> Result<(), String> {
    tally.cuttings += 1;
    let mode = MODES[lcg.below(4)];
    for _ in 0..1 + lcg.below(6) {
        let len = lcg.below(4);
        let piece = cases::drawn(lcg, b"  ab==\"'", len);
        let call = match lcg.below(8) {
            0..3 => Call::Piece(&piece),
            3 => Call::Finish,
            _ => Call::Take(mode, [0, 4, 5, 5, 5, 9, 10, 14, 25][lcg.below(9)]),
        };
        let (answer, answers) = memory.hold(call, out)?;
        tally.calls += 1;
        tally.answers += answers.len();
        match call {
            Call::Take(_, 5..) => {
                let bad = matches!(answers[..], [[7, ..]]);
                tally.bad += usize::from(bad);
                tally.more += usize::from(answers.is_empty());
            }
            _ => tally.refused += usize::from(answer > 0),
        }
        // what a caller does that is asked for more
        if answer == 98 && lcg.chance(50) {
            *memory = memory.with_lengths(memory.text.len() + len + lcg.below(3), memory.places());
        }
    }
    Ok(())
}

/// Readers of any content.
fn by_hand(extent: &Extent, tally: &mut Tally) -> Result<(), String> {
    let mut lcg = Lcg::new(SEED + 1);
    let mut out = Vec::new();
    for round in 0..extent.by_hand {
        let mut memory = drawn_memory(&mut lcg);
        tally.tags += 1;
        hold_calls(&mut memory, &mut lcg, &mut out, tally)?;
        if (round + 1).is_multiple_of(500_000) {
            eprintln!("pieces: by hand: {} calls so far", tally.calls);
        }
    }
    Ok(())
}

/// Full tables, a text as long as can be, and lengths that are wrong.
fn at_the_limits(extent: &Extent, tally: &mut Tally) -> Result<(), String> {
    let mut lcg = Lcg::new(SEED + 2);
    let mut out = Vec::new();
    for round in 0..extent.full {
        let mut memory = drawn_memory(&mut lcg);
        let held = memory.reader[HELD].min(memory.text.len());
        match round % 4 {
            // all places, or all but one, in use
            0 | 1 => {
                memory = memory.with_lengths(memory.text.len(), [KEYS; 3]);
                let key = lcg.below(held.max(1))..held;
                memory.starts.fill(key.start);
                memory.ends.fill(key.end);
                memory.hashes.fill(hash(&memory.text[key]));
                memory.reader[HELD] = held;
                memory.reader[COUNT] = [KEYS, KEYS, KEYS - 1, KEYS + 1][lcg.below(4)];
            }
            2 => {
                memory = memory.with_lengths(memory.text.len(), TOO_LONG[lcg.below(TOO_LONG.len())])
            }
            _ => {
                let len = HOLD - 2 + lcg.below(5);
                let places = memory.places();
                memory = memory.with_lengths(len, places);
                // whitespace, behind which the last bytes are drawn
                memory.text.fill(b' ');
                let last = cases::drawn(&mut lcg, b" ab='", 6);
                memory.text[len - 6..].copy_from_slice(&last);
                memory.reader[HELD] = HOLD - 4 + lcg.below(6);
                memory.reader[COUNT] = 0;
                memory.reader[POSITION] = memory.reader[HELD].saturating_sub(lcg.below(6));
                memory.reader[KEY_START] = HOLD - lcg.below(8);
                memory.reader[KEY_END] = HOLD - lcg.below(8);
                memory.reader[KIND] = lcg.below(3);
            }
        }
        tally.tags += 1;
        hold_calls(&mut memory, &mut lcg, &mut out, tally)?;
    }
    Ok(())
}

const PARTS: [(&str, Part<Extent, Tally>); 4] = [
    ("every cutting", every_cutting),
    ("long tags", long_tags),
    ("readers by hand", by_hand),
    ("at the limits", at_the_limits),
];

fn main() -> ExitCode {
    parts::run("pieces", [BOUNDED, SHORT, WHOLE], &PARTS, |_, _| false)
}
