//! The boundary to the static library (`library.rs`): safe calls on the memory that is lent to it.
//!
//! All `unsafe` of the crate is here, but for the declarations. The library keeps no pointer after a call,
//! allocates nothing, and writes nothing but what it is lent for writing. Its answers are numbers; what they
//! mean is said where they are taken apart, in `events::attributes` and `name`.

use crate::LentError;
use crate::library::{self, HOLD, KEYS};
use crate::memory::{Lent, Memory, View};
use alloc::boxed::Box;
use alloc::format;
use alloc::string::String;
use alloc::vec::Vec;
use core::mem::MaybeUninit;
use core::slice;
use core::sync::atomic::{AtomicBool, Ordering};

/// For how many keys there are places inside an iterator, and how many answers are read ahead there. An iterator stands
/// on the stack, once for each open tag where a program goes from tag to tag by recursion: with 16 answers in the place of
/// 8 it would have 1.4 KB, and 1,500 of them no room in 2 MB.
const FEW: usize = 32;
const BATCH: usize = 8;

/// How many answers are read ahead at most, where there is room on the heap or in lent tables. On the heap there are more where
/// the recorded keys are long: one for each `HASHED` bytes of them.
const MOST: usize = 256;
const HASHED: usize = 256;

/// How many bindings and how many bytes of text a resolver holds.
pub const RECORDS: usize = 1_026;
pub const TEXT: usize = 65_536;

/// The state of reading a tag: the kind of the place (0 done, 1 next, 2 skip a value, 3 skip from `=`), its
/// position, the number of recorded keys, and why the last call stopped.
type State = [usize; 4];

/// Why it stopped, where that was for want of places for keys.
const MORE_KEYS: usize = 2;

/// The numbers of a tag that arrives in pieces: a state, how many bytes are held, whether the finish has come, what the next
/// answer waits for, and the bounds of its key.
type Reader = [usize; 9];
const HELD: usize = 4;
const FINISHED: usize = 5;
const PHASE: usize = 6;
const KEY: usize = 7;

/// An answer about a tag: what it is, and up to four positions.
pub type Answer = [usize; ANSWER];
const ANSWER: usize = 5;

/// A binding in a resolver's memory: where its text starts, the lengths of prefix and namespace, its level.
pub type Record = [usize; 4];

/// Text used, number of records, level and limit of a resolver.
pub type Head = [usize; 4];

/// The numbers of an answer about a resolver, and those of one in a listing.
pub type Detail = [usize; 2];
pub type Listed = [usize; 5];

/// The answer of a call for which the memory that is lent is too short. Nothing is changed then.
pub const LEND_MORE: usize = 98;

/// So many names are resolved by one call.
pub const NAMES: usize = 16;

const NUMBER: usize = size_of::<usize>();

/// What this crate takes for granted of the library, in the order in which `mz_layout` numbers it.
const LAYOUT: [(&str, usize); 14] = [
    ("key places of a table", KEYS),
    ("numbers of a state", size_of::<State>() / NUMBER),
    ("numbers of an answer", ANSWER),
    ("bytes of text", TEXT),
    ("records", RECORDS),
    ("numbers of a record", size_of::<Record>() / NUMBER),
    ("numbers of a head", size_of::<Head>() / NUMBER),
    ("numbers of a detail", size_of::<Detail>() / NUMBER),
    (
        "numbers of a listing's detail",
        size_of::<Listed>() / NUMBER,
    ),
    ("bytes of a number", NUMBER),
    ("alignment of a number", align_of::<usize>()),
    ("bytes of a hash", size_of::<u32>()),
    ("numbers of a reader", size_of::<Reader>() / NUMBER),
    ("bytes held of a tag in pieces", HOLD),
];

/// Whether the layouts were compared, and agree.
static AGREED: AtomicBool = AtomicBool::new(false);

/// Sees to it that the library is one for this crate, before it is lent memory.
///
/// # Panics
///
/// If it isn't: every call would write where it must not, and no answer could say so.
#[inline]
fn agree() {
    // the flag stands for nothing else in memory, and what it says can't change
    if !AGREED.load(Ordering::Relaxed) {
        compare_layouts();
    }
}

#[cold]
fn compare_layouts() {
    let differences = differences(|what| library::mz_layout(what));
    assert!(
        differences.is_empty(),
        "the static library is not one for this crate: {differences}"
    );
    AGREED.store(true, Ordering::Relaxed);
}

/// Where a library says something else of its layout than is taken for granted here, in words.
fn differences(says: impl Fn(usize) -> usize) -> String {
    let differences: Vec<_> = LAYOUT
        .iter()
        .enumerate()
        .map(|(number, (what, ours))| (what, ours, says(number)))
        .filter(|(_, ours, theirs)| *ours != theirs)
        .map(|(what, ours, theirs)| format!("{what}: {theirs} in the library, {ours} in the crate"))
        .collect();
    differences.join("; ")
}

/// The index of the first colon, or the length where there is none.
#[inline]
pub fn split(name: &[u8]) -> usize {
    // SAFETY: pointer and length are those of one live slice, which the call only reads.
    unsafe { library::mz_split(name.as_ptr(), name.len()) }
}

/// 0 nothing, 1 the default, 2 the prefix from index 6 on.
#[inline]
pub fn declares(name: &str) -> usize {
    // SAFETY: as for `mz_split`.
    unsafe { library::mz_declares(name.as_ptr(), name.len()) }
}

/// 0 no, 1 yes, 2 it declares nothing.
pub fn verdict(name: &str, value: &str) -> usize {
    // SAFETY: each pointer and the length after it are those of a live slice, which the call only reads.
    unsafe { library::mz_verdict(name.as_ptr(), name.len(), value.as_ptr(), value.len()) }
}

/// 0 no, 1 yes, 2 neither.
#[inline]
pub fn as_bool(value: &str) -> usize {
    // SAFETY: as for `mz_split`.
    unsafe { library::mz_as_bool(value.as_ptr(), value.len()) }
}

/// How far a tag was read, and how many answers were read ahead.
#[derive(Clone)]
pub struct Ahead {
    /// The state, and the one before the answers that were read ahead, where there are any.
    state: State,
    before: State,
    filled: usize,
    /// So many answers are to be read ahead, where there is room for them.
    batch: usize,
}

impl Ahead {
    /// Nothing was read yet, and reading begins at `pos`.
    #[inline]
    const fn opened(pos: usize) -> Self {
        Ahead {
            state: [1, pos, 0, 0],
            before: [1, pos, 0, 0],
            filled: 0,
            batch: BATCH,
        }
    }

    /// The answers that were read ahead are taken, and the next batch begins.
    ///
    /// Each call of the library hashes all recorded keys. A batch as long as there are keys, or as `long`, what these have in
    /// bytes by [`HASHED`], makes that one short hash more for each answer, where batches of one length would take time by
    /// the square of the tag. Nor is it longer than twice the one before, so that little is read in vain where a program
    /// takes few answers or often turns the checks.
    #[inline]
    fn next_batch(&mut self, long: usize) {
        let [_, _, recorded, _] = self.state;
        self.batch = recorded.max(long).min(2 * self.filled).max(BATCH);
        self.before = self.state;
        self.filled = 0;
    }

    /// How many answers are to be read ahead, with room for so many numbers.
    #[inline]
    fn wanted(&self, out: &[MaybeUninit<usize>]) -> usize {
        self.batch.min(out.len() / ANSWER)
    }

    /// Reads on behind the answers that are there, until there are `most` of them or as many as are read ahead, no
    /// more follow, or a key has no place; the last is the result.
    #[inline]
    fn read_on(
        &mut self,
        places: Places,
        tag: &mut impl Tag,
        html: bool,
        checks: bool,
        most: usize,
    ) -> bool {
        agree();
        let room = most.min(self.wanted(places.out)) - self.filled;
        let places = Places {
            out: &mut places.out[ANSWER * self.filled..][..ANSWER * room],
            ..places
        };
        let count = tag.read(&mut self.state, places, html, checks);
        // The number that says "a wrong length" is none that can come, since no table is too long.
        assert!(count <= room, "the library read {count} answers of {room}");
        self.filled += count;
        room > 0 && self.state[3] == MORE_KEYS
    }

    /// How many answers were read ahead.
    #[inline]
    pub const fn filled(&self) -> usize {
        self.filled
    }

    /// The place of reading, to be shown.
    pub const fn state(&self) -> State {
        self.state
    }
}

/// Numbers that need not be set: bounds of keys, of which those that are recorded are written, and answers, of which
/// those that are counted are. No other is looked at.
type Numbers<const N: usize> = [MaybeUninit<usize>; N];
type Hashes<const N: usize> = [MaybeUninit<u32>; N];

const fn unset<T: Copy, const N: usize>() -> [MaybeUninit<T>; N] {
    [const { MaybeUninit::uninit() }; N]
}

/// The places for keys, each by its bounds and its hash, and for answers, as they are lent.
pub struct Places<'t> {
    starts: &'t mut [MaybeUninit<usize>],
    ends: &'t mut [MaybeUninit<usize>],
    hashes: &'t mut [MaybeUninit<u32>],
    out: &'t mut [MaybeUninit<usize>],
}

impl Places<'_> {
    /// How many bytes the recorded keys have.
    fn hashed(&self, recorded: usize) -> usize {
        let bounds = self.starts[..recorded].iter().zip(&self.ends[..recorded]);
        // SAFETY: the library wrote the bounds of each key that it counts.
        bounds
            .map(|(start, end)| unsafe { end.assume_init() - start.assume_init() })
            .sum()
    }

    /// What stands in shorter ones stands here as well.
    fn copy(&mut self, from: Places) {
        self.starts[..from.starts.len()].copy_from_slice(from.starts);
        self.ends[..from.ends.len()].copy_from_slice(from.ends);
        self.hashes[..from.hashes.len()].copy_from_slice(from.hashes);
        self.out[..from.out.len()].copy_from_slice(from.out);
    }
}

/// What answers are read from: a whole tag, or as much of it as is there.
pub trait Tag {
    /// Reads answers until there is no room for one more, none follows, or a key has no place; the state's last number
    /// says which. How many they are.
    fn read(&mut self, state: &mut State, places: Places, html: bool, checks: bool) -> usize;
}

// One call of the library that reads answers from bytes: its state, and the places for keys and answers.
macro_rules! read {
    ($function:ident, $bytes:expr, $state:expr, $places:ident, $html:ident, $checks:ident) => {{
        let Places {
            starts,
            ends,
            hashes,
            out,
        } = $places;
        // SAFETY: each pointer but that of the state, which has all its numbers, is that of a slice of ours
        // with the length after it; all are apart from each other and borrowed mutably, and the bytes are only
        // read. What is not written yet isn't read: of the keys the library looks at those before `state[2]`,
        // which only it counts, and into `out` it writes alone.
        unsafe {
            library::$function(
                $bytes.as_ptr(),
                $bytes.len(),
                starts.as_mut_ptr().cast(),
                starts.len(),
                ends.as_mut_ptr().cast(),
                ends.len(),
                hashes.as_mut_ptr().cast(),
                hashes.len(),
                $state.as_mut_ptr(),
                $html,
                $checks,
                out.as_mut_ptr().cast(),
                out.len(),
            )
        }
    }};
}

impl Tag for &[u8] {
    #[inline]
    fn read(&mut self, state: &mut State, places: Places, html: bool, checks: bool) -> usize {
        read!(mz_read_batch, self, state, places, html, checks)
    }
}

/// No place of a tag that is held.
const NOWHERE: usize = usize::MAX;

/// How much of a tag has come that arrives in pieces. The bytes are kept beside it, and so are the places for keys, with
/// a state that is the reader's own.
#[derive(Clone)]
pub struct Arrival {
    reader: Reader,
    /// The start of a key of which it is known that it is no duplicate: nothing is there before its value is. No key starts
    /// at [`NOWHERE`].
    asked: usize,
}

impl Arrival {
    /// Nothing has come yet, and reading begins at `pos`.
    #[inline]
    pub const fn opened(pos: usize) -> Self {
        Arrival {
            reader: [1, pos, 0, 0, 0, 0, 0, 0, 0],
            asked: NOWHERE,
        }
    }

    /// How many bytes are held.
    #[inline]
    pub const fn held(&self) -> usize {
        self.reader[HELD]
    }

    #[inline]
    pub const fn is_finished(&self) -> bool {
        self.reader[FINISHED] != 0
    }

    /// One piece more: 0, or 31, 32, 98.
    #[inline]
    pub fn piece(&mut self, text: &mut [u8], piece: &[u8]) -> usize {
        agree();
        // SAFETY: each pointer is that of a live slice with the length after it, or of all numbers of a reader. Text and
        // reader are borrowed mutably and apart from each other and from the piece, which is only read.
        unsafe {
            library::mz_piece(
                text.as_mut_ptr(),
                text.len(),
                self.reader.as_mut_ptr(),
                piece.as_ptr(),
                piece.len(),
            )
        }
    }

    /// The finish: 0, or 32.
    #[inline]
    pub fn finish(&mut self) -> usize {
        agree();
        // SAFETY: the reader has all its numbers, and is borrowed mutably.
        unsafe { library::mz_finish(self.reader.as_mut_ptr()) }
    }

    /// Whether an answer may be there after a piece. A call that asks hashes all recorded keys: where a piece leaves the
    /// phase at 0 reading has ended or has not begun, at 2 to 5 the next key or its `=` is not there, and from 6 on all that
    /// can be there before its value is that it is a duplicate, or one too many. In XML mode 9 is an answer.
    #[inline]
    pub fn is_worth_asking(&self, html: bool) -> bool {
        match self.reader[PHASE] {
            1 => true,
            9 if !html => true,
            6.. => self.asked != self.reader[KEY],
            _ => false,
        }
    }

    /// What is known of the next answer is forgotten: reading went back, or goes on by another rule.
    pub const fn forget(&mut self) {
        self.reader[PHASE] = 0;
        self.asked = NOWHERE;
    }

    /// What is there, to be read.
    #[inline]
    pub const fn tag<'t>(&'t mut self, text: &'t [u8]) -> Arrived<'t> {
        Arrived {
            arrival: self,
            text,
        }
    }
}

/// What is there of a tag.
pub struct Arrived<'t> {
    arrival: &'t mut Arrival,
    text: &'t [u8],
}

impl Tag for Arrived<'_> {
    #[inline]
    fn read(&mut self, state: &mut State, places: Places, html: bool, checks: bool) -> usize {
        let Arrival { reader, asked } = &mut *self.arrival;
        reader[..HELD].copy_from_slice(state);
        let count = read!(mz_take, self.text, reader, places, html, checks);
        state.copy_from_slice(&reader[..HELD]);
        *asked = match reader[PHASE] {
            6.. if count == 0 => reader[KEY],
            _ => NOWHERE,
        };
        count
    }
}

/// The bytes that are held of a tag.
pub trait Text {
    fn bytes(&self) -> &[u8];

    fn lend(&mut self) -> &mut [u8];

    /// Has room for so many bytes, which are no more than can be held, if that can be done.
    fn more(&mut self, wanted: usize) -> bool;
}

impl Text for Vec<u8> {
    #[inline]
    fn bytes(&self) -> &[u8] {
        self
    }

    #[inline]
    fn lend(&mut self) -> &mut [u8] {
        self
    }

    /// Twice as much as there was, or as much as is wanted; 256 bytes at first.
    #[cold]
    fn more(&mut self, wanted: usize) -> bool {
        let room = wanted.max(2 * self.len()).clamp(256, HOLD);
        self.reserve_exact(room - self.len());
        self.resize(room, 0);
        true
    }
}

impl Text for &mut [u8] {
    #[inline]
    fn bytes(&self) -> &[u8] {
        self
    }

    #[inline]
    fn lend(&mut self) -> &mut [u8] {
        self
    }

    fn more(&mut self, _: usize) -> bool {
        false
    }
}

/// What reading a tag needs to go on from one answer to the next.
pub trait Reads {
    fn ahead(&self) -> &Ahead;

    /// The numbers of the answers.
    fn out(&self) -> &[MaybeUninit<usize>];

    fn parts(&mut self) -> (&mut Ahead, Places<'_>);

    /// Longer places, with the recorded keys and the answers in them.
    fn more_places(&mut self);

    /// What is to be done before a batch is read, so that it is read by one call; `long` is as in `next_batch`.
    fn prepare(&mut self, long: usize);

    /// Reads the next answers, and forgets those before; whether no more follow them.
    #[inline]
    fn read(&mut self, tag: &mut impl Tag, html: bool, checks: bool) -> bool {
        let (ahead, places) = self.parts();
        let [_, _, recorded, _] = ahead.state;
        let long = places.hashed(recorded) / HASHED;
        ahead.next_batch(long);
        self.prepare(long);
        self.read_up_to(tag, html, checks, usize::MAX);
        self.ahead().filled < self.ahead().wanted(self.out())
    }

    /// Reads on until there are so many answers, in longer places where a key has none.
    #[inline]
    fn read_up_to(&mut self, tag: &mut impl Tag, html: bool, checks: bool, most: usize) {
        loop {
            let (ahead, places) = self.parts();
            if !ahead.read_on(places, tag, html, checks, most) {
                return;
            }
            self.more_places();
        }
    }

    /// Goes back to where the first `taken` of the answers read ahead were all that was read.
    fn read_again(&mut self, tag: &mut impl Tag, html: bool, checks: bool, taken: usize) {
        // Keys are recorded behind those that already are, so the ones counted then still stand.
        let (ahead, _) = self.parts();
        ahead.state = ahead.before;
        ahead.filled = 0;
        self.read_up_to(tag, html, checks, taken);
    }

    /// One of the answers that were read ahead.
    #[inline]
    fn answer(&self, index: usize) -> Answer {
        assert!(index < self.ahead().filled);
        // SAFETY: the answers that are counted have room in `out`, and the library wrote all five numbers of each.
        unsafe { self.out().as_ptr().cast::<Answer>().add(index).read() }
    }
}

/// What [`Attributes`](crate::events::attributes::Attributes) has inside: places for the keys of 32
/// attributes. A tag with more of them, or with keys of more than 2 KB, gets its places on the heap, and twice as many
/// whenever these are full.
// Not cleared: opening a tag costs the same whatever was read before.
#[derive(Clone)]
pub struct Inside {
    pub(crate) ahead: Ahead,
    starts: Numbers<FEW>,
    ends: Numbers<FEW>,
    hashes: Hashes<FEW>,
    out: Numbers<{ ANSWER * BATCH }>,
    more: Option<Heap>,
}

impl Inside {
    /// Memory in which a tag is read from `pos` on.
    #[inline]
    pub(crate) const fn opened(pos: usize) -> Self {
        Inside {
            ahead: Ahead::opened(pos),
            starts: unset(),
            ends: unset(),
            hashes: unset(),
            out: unset(),
            more: None,
        }
    }
}

impl Reads for Inside {
    #[inline]
    fn ahead(&self) -> &Ahead {
        &self.ahead
    }

    #[inline]
    fn out(&self) -> &[MaybeUninit<usize>] {
        match &self.more {
            None => &self.out,
            Some(heap) => heap.out(),
        }
    }

    #[inline]
    fn parts(&mut self) -> (&mut Ahead, Places<'_>) {
        let places = match &mut self.more {
            None => Places {
                starts: &mut self.starts,
                ends: &mut self.ends,
                hashes: &mut self.hashes,
                out: &mut self.out,
            },
            Some(heap) => heap.places(),
        };
        (&mut self.ahead, places)
    }

    #[cold]
    fn more_places(&mut self) {
        let (_, places) = self.parts();
        let keys = places.starts.len();
        assert!(keys < KEYS, "the library has no places for {KEYS} keys");
        self.move_to(KEYS.min(2 * keys), 0);
    }

    /// On the heap there is a place for each key that the batch can record.
    #[inline]
    fn prepare(&mut self, long: usize) {
        let [_, _, recorded, _] = self.ahead.state;
        while let Some(heap) = &self.more
            && heap.keys < KEYS.min(recorded + self.ahead.batch)
        {
            self.more_places();
        }
        let answers = self.ahead.batch.min(long);
        if answers > BATCH && self.out().len() < ANSWER * answers {
            let (_, places) = self.parts();
            let keys = places.starts.len();
            self.move_to(keys, answers);
        }
    }
}

impl Inside {
    /// Places on the heap for so many keys, and for so many answers at least, with what there is.
    #[cold]
    fn move_to(&mut self, keys: usize, answers: usize) {
        let (_, places) = self.parts();
        let answers = answers.max(places.out.len() / ANSWER);
        let mut heap = Heap::of(keys, answers);
        heap.places().copy(places);
        self.more = Some(heap);
    }
}

/// Places on the heap, in one piece: starts of keys, their ends, their hashes, and answers, one for two keys or more.
#[derive(Clone)]
struct Heap {
    keys: usize,
    memory: Box<[MaybeUninit<usize>]>,
}

impl Heap {
    /// Hashes in the room of one number.
    const HASHES: usize = NUMBER / size_of::<u32>();

    /// Places for so many keys, and for so many answers at least.
    fn of(keys: usize, answers: usize) -> Self {
        let answers = MOST.min(keys / 2).max(answers);
        let memory = Self::bounds(keys) + ANSWER * answers;
        Heap {
            keys,
            memory: Box::new_uninit_slice(memory),
        }
    }

    /// How many numbers the keys take, with their hashes.
    const fn bounds(keys: usize) -> usize {
        2 * keys + keys.div_ceil(Self::HASHES)
    }

    #[inline]
    fn out(&self) -> &[MaybeUninit<usize>] {
        &self.memory[Self::bounds(self.keys)..]
    }

    fn places(&mut self) -> Places<'_> {
        let (bounds, out) = self.memory.split_at_mut(Self::bounds(self.keys));
        let (starts, rest) = bounds.split_at_mut(self.keys);
        let (ends, hashes) = rest.split_at_mut(self.keys);
        // SAFETY: the numbers have room for so many hashes, which can stand where numbers can, and neither has to be
        // set. They are borrowed mutably for as long as the hashes are.
        let hashes = unsafe { slice::from_raw_parts_mut(hashes.as_mut_ptr().cast(), self.keys) };
        Places {
            starts,
            ends,
            hashes,
            out,
        }
    }
}

/// Memory of the caller's own in which tags are read, one after another: the places of all keys that can be
/// recorded, the place of reading, and the answers that were read ahead. Nothing is allocated for any tag.
///
/// [`SIZE`](Self::SIZE) bytes, 30 KB, and not cleared: opening a tag costs the same whatever was read before.
#[derive(Clone)]
pub struct Tables {
    pub(crate) ahead: Ahead,
    starts: Numbers<KEYS>,
    ends: Numbers<KEYS>,
    hashes: Hashes<KEYS>,
    out: Numbers<{ ANSWER * MOST }>,
}

impl Tables {
    /// How many bytes tables have.
    pub const SIZE: usize = size_of::<Self>();
    /// Their address is a multiple of this.
    pub const ALIGNMENT: usize = align_of::<Self>();
    /// So many keys of a tag can be recorded, in tables or without.
    pub const KEYS: usize = KEYS;

    /// Memory in which no tag was read yet.
    #[inline]
    pub const fn new() -> Self {
        Tables {
            ahead: Ahead::opened(0),
            starts: unset(),
            ends: unset(),
            hashes: unset(),
            out: unset(),
        }
    }

    /// Tables in memory that is lent as bytes, whatever stands there. The bytes need not be set, as most
    /// of the tables isn't.
    ///
    /// ```
    /// use mezzulidda::LentError;
    /// use mezzulidda::events::attributes::{Attributes, Tables};
    /// use std::mem::MaybeUninit;
    ///
    /// let mut room = [MaybeUninit::uninit(); Tables::SIZE + Tables::ALIGNMENT];
    /// let from = room.as_ptr().align_offset(Tables::ALIGNMENT);
    /// let tables = Tables::from_bytes(&mut room[from..][..Tables::SIZE])?;
    /// assert_eq!(Attributes::with_tables("chunk id='c-17'", 5, tables).count(), 1);
    /// # Ok::<(), LentError>(())
    /// ```
    pub fn from_bytes(bytes: &mut [MaybeUninit<u8>]) -> Result<&mut Self, LentError> {
        let place = bytes.as_mut_ptr();
        if bytes.len() != Self::SIZE {
            return Err(LentError::size(Self::SIZE, bytes.len()));
        }
        LentError::of_address(place.addr(), Self::ALIGNMENT)?;
        let tables: *mut Self = place.cast();
        // SAFETY: size and alignment were just tested, and the memory is borrowed mutably for as long as
        // the answer lives. The one part that has to be set is set first; the others are of types
        // that need not be, and so are the bytes when they come back.
        unsafe {
            (&raw mut (*tables).ahead).write(Ahead::opened(0));
            Ok(&mut *tables)
        }
    }

    /// Forgets the tag before, and reads the next one from `pos` on.
    #[inline]
    pub(crate) const fn open(&mut self, pos: usize) {
        self.ahead.state = [1, pos, 0, 0];
        self.ahead.filled = 0;
    }
}

// Bytes that are lent for tables are as many as tables are, and stand where they can.
const _: () =
    assert!(Tables::SIZE == size_of::<Tables>() && Tables::ALIGNMENT == align_of::<Tables>());

impl Reads for &mut Tables {
    #[inline]
    fn ahead(&self) -> &Ahead {
        &self.ahead
    }

    #[inline]
    fn out(&self) -> &[MaybeUninit<usize>] {
        &self.out
    }

    #[inline]
    fn parts(&mut self) -> (&mut Ahead, Places<'_>) {
        let Tables {
            ahead,
            starts,
            ends,
            hashes,
            out,
        } = &mut **self;
        let places = Places {
            starts,
            ends,
            hashes,
            out,
        };
        (ahead, places)
    }

    #[cold]
    fn more_places(&mut self) {
        unreachable!("the library has no places for {KEYS} keys")
    }

    /// All places are there.
    #[inline]
    fn prepare(&mut self, _: usize) {}
}

/// Bytes as numbers. `None` where these can't stand at their address; bytes behind the last whole number are
/// left out.
pub fn numbers_in(bytes: &mut [u8]) -> Option<&mut [usize]> {
    // SAFETY: any bytes are a number, and whatever is written to one leaves bytes.
    let (before, numbers, _) = unsafe { bytes.align_to_mut() };
    before.is_empty().then_some(numbers)
}

/// Memory for a resolver on the heap, with no resolver in it yet.
pub fn zeros<const TEXT: usize, const BINDINGS: usize>() -> Box<Memory<TEXT, BINDINGS>> {
    // SAFETY: it is arrays of numbers, and zeros are numbers.
    unsafe { Box::new_zeroed().assume_init() }
}

// One call of the library on a resolver's memory: by `as_mut_ptr` where it changes it, by `as_ptr` where it
// looks at it.
macro_rules! call {
    ($function:ident, $memory:ident.$pointer:ident() $(, $more:expr)*) => {
        // SAFETY: each pointer is that of a live slice with the length after it, or of an array of the length
        // that the library has for it. What the call writes is borrowed mutably here, and apart from
        // everything else; the rest it only reads.
        unsafe {
            library::$function(
                $memory.text.$pointer(),
                $memory.text.len(),
                $memory.records.$pointer(),
                $memory.records.len(),
                $memory.head.$pointer(),
                $($more),*
            )
        }
    };
}

// The layouts are compared in `fresh` and in `View::is_resolver`: there is no resolver in a memory before one of
// them has had it.
impl Lent<'_> {
    /// Forgets all declarations, and has the level 0 and the limit 128.
    pub(crate) fn fresh(&mut self) {
        agree();
        let answer = call!(mz_fresh, self.as_mut_ptr());
        assert_eq!(answer, 0, "the library's fresh resolver");
    }

    /// 0, or a refusal with its numbers; bounds are those in the prefix or the value.
    #[inline]
    pub(crate) fn add(&mut self, prefix: Option<&[u8]>, value: &[u8]) -> (usize, Detail) {
        let mut detail: Detail = [0; 2];
        let named = prefix.is_some();
        let prefix = prefix.unwrap_or_default();
        let answer = call!(
            mz_add,
            self.as_mut_ptr(),
            named,
            prefix.as_ptr(),
            prefix.len(),
            value.as_ptr(),
            value.len(),
            detail.as_mut_ptr()
        );
        (answer, detail)
    }

    /// 0, or a refusal with its numbers; bounds are those in the tag.
    #[inline]
    pub(crate) fn push(&mut self, tag: &[u8], at: usize) -> (usize, Detail) {
        let mut detail: Detail = [0; 2];
        let to = detail.as_mut_ptr();
        let answer = call!(mz_push, self.as_mut_ptr(), tag.as_ptr(), tag.len(), at, to);
        (answer, detail)
    }

    #[inline]
    pub(crate) fn pop(&mut self) -> usize {
        call!(mz_pop, self.as_mut_ptr())
    }

    #[inline]
    pub(crate) fn set_level(&mut self, level: u16) -> usize {
        call!(mz_set_level, self.as_mut_ptr(), level)
    }
}

impl View<'_> {
    /// Whether there is a resolver in it, by rule 20.
    pub(crate) fn is_resolver(self) -> bool {
        agree();
        // a place that no record has is the end, and 20 and 99 come before it
        self.binding(usize::MAX).0 == 0
    }

    /// 0 unbound, 1 bound, with the URI's bounds in the text, 2 unknown, with the prefix's in the name.
    #[inline]
    pub(crate) fn resolve(self, name: &[u8], use_default: bool) -> (usize, Detail) {
        let mut detail: Detail = [0; 2];
        let to = detail.as_mut_ptr();
        let answer = call!(
            mz_resolve,
            self.as_ptr(),
            name.as_ptr(),
            name.len(),
            use_default,
            to
        );
        (answer, detail)
    }

    /// The same for many names of a tag, each by its bounds, of which the first `elements` want the
    /// default. There is room for as many answers as there are names.
    pub(crate) fn resolve_all(
        self,
        tag: &str,
        [from, to]: [&[usize]; 2],
        elements: usize,
        answers: &mut Answers,
    ) -> usize {
        let Answers {
            kinds,
            begins,
            ends,
        } = answers;
        let (kinds, begins, ends) = (
            &mut kinds[..from.len()],
            &mut begins[..from.len()],
            &mut ends[..from.len()],
        );
        call!(
            mz_resolve_all,
            self.as_ptr(),
            tag.as_ptr(),
            tag.len(),
            from.as_ptr(),
            from.len(),
            to.as_ptr(),
            to.len(),
            elements,
            kinds.as_mut_ptr(),
            kinds.len(),
            begins.as_mut_ptr(),
            begins.len(),
            ends.as_mut_ptr(),
            ends.len()
        )
    }

    /// 0 the end, 1 a default, 2 a named one, with the bounds of prefix and value in the text and the
    /// next place.
    pub(crate) fn binding(self, place: usize) -> (usize, Listed) {
        let mut detail: Listed = [0; 5];
        let to = detail.as_mut_ptr();
        let answer = call!(mz_binding, self.as_ptr(), place, to);
        (answer, detail)
    }

    /// The same for one level.
    pub(crate) fn binding_of(self, level: u16, place: usize) -> (usize, Listed) {
        let mut detail: Listed = [0; 5];
        let to = detail.as_mut_ptr();
        let answer = call!(mz_binding_of, self.as_ptr(), level, place, to);
        (answer, detail)
    }

    /// 0 no, 1 yes: whether an attribute of a tag from here on is a true `nil`. Nothing that was read
    /// ahead is left: the next answer is that after the attribute.
    pub(crate) fn has_nil(
        self,
        tag: &[u8],
        reading: &mut impl Reads,
        html: bool,
        checks: bool,
    ) -> usize {
        let (tag, tag_len) = (tag.as_ptr(), tag.len());
        loop {
            let (ahead, places) = reading.parts();
            let Places {
                starts,
                ends,
                hashes,
                out: _,
            } = places;
            ahead.filled = 0;
            // as in `Ahead::read_on`, no answer turns on places behind the keys that the library has counted; where the
            // tables are short it copies such places, set or not, into its own
            let (keys_from, keys_to) = (starts.as_mut_ptr().cast(), ends.as_mut_ptr().cast());
            let answer = call!(
                mz_has_nil,
                self.as_ptr(),
                tag,
                tag_len,
                keys_from,
                starts.len(),
                keys_to,
                ends.len(),
                hashes.as_mut_ptr().cast(),
                hashes.len(),
                ahead.state.as_mut_ptr(),
                html,
                checks
            );
            if answer != LEND_MORE {
                return answer;
            }
            reading.more_places();
        }
    }
}

/// What `resolve` answers, for many names.
#[derive(Clone)]
pub struct Answers {
    kinds: [usize; NAMES],
    begins: [usize; NAMES],
    ends: [usize; NAMES],
}

impl Answers {
    /// Room for them.
    pub const fn new() -> Self {
        Answers {
            kinds: [0; NAMES],
            begins: [0; NAMES],
            ends: [0; NAMES],
        }
    }

    /// One of them.
    pub const fn get(&self, index: usize) -> (usize, Detail) {
        (self.kinds[index], [self.begins[index], self.ends[index]])
    }
}

#[cfg(test)]
mod tests {
    use super::{LAYOUT, String, Vec, differences, format, library};
    use crate::name::QName;
    use alloc::vec;

    #[test]
    fn another_layout_is_named_with_both_numbers() {
        assert_eq!(differences(|what| library::mz_layout(what)), "");
        assert_eq!(differences(|what| LAYOUT[what].1), "");
        for (number, (what, ours)) in LAYOUT.iter().enumerate() {
            let other = |asked: usize| LAYOUT[asked].1 + usize::from(asked == number);
            let said = format!("{what}: {} in the library, {ours} in the crate", ours + 1);
            assert_eq!(differences(other), said);
        }
        // a library that knows of none of them
        let none = differences(|_| 0);
        assert_eq!(none.matches(": 0 in the library").count(), LAYOUT.len());
    }

    #[test]
    fn the_reserved_prefixes_are_the_librarys() {
        // every text of up to six of the letters that the two have
        let mut prefixes = vec![String::new()];
        for from in 0.. {
            match prefixes.get(from) {
                Some(prefix) if prefix.len() < 6 => {
                    let longer = "xmlns".chars().map(|last| format!("{prefix}{last}"));
                    prefixes.extend(longer.collect::<Vec<_>>());
                }
                _ => break,
            }
        }
        let mut found = Vec::new();
        for prefix in prefixes {
            let (at, length) = (prefix.as_ptr(), prefix.len());
            // SAFETY: as for `mz_split`.
            let theirs = unsafe {
                [
                    library::mz_is_xml(at, length) != 0,
                    library::mz_is_xmlns(at, length) != 0,
                ]
            };
            let name = format!("{prefix}:");
            let ours = QName(&name).prefix().unwrap();
            assert_eq!([ours.is_xml(), ours.is_xmlns()], theirs, "{prefix}");
            if theirs != [false; 2] {
                found.push(prefix);
            }
        }
        assert_eq!(found, ["xml", "xmlns"]);
    }
}
