//! Makes of any bytes a tag and calls on a resolver, does the same with the Rust crate and with
//! quick-xml's own, and stops where the two differ.
//!
//! ```text
//!     flags  position  turns  numbered   tag ...  FF FF   call ...  FF   call ...
//!     1      2         1      1 byte                      its kind, then its argument
//! ```
//!
//! The tag is read as text by `Attributes`, where bytes that are none are replaced, and as it stands by
//! `ByteAttributes`, which is held against the crate's private iterator. A run is compared up to the first
//! refusal that quick-xml doesn't have, and that one has to be due: a key, a record or more text than there is room
//! for.
//!
//! The tag also comes in pieces, which are as long as `turns` says, and so does the argument of a call, cut at each
//! byte FE; with answers taken on the way, by `Pieces`, in memory of its own or in memory that is lent. They have to be
//! those of the whole tag, each with the piece that holds its last byte.
//!
//! The calls are made once more in memory that is lent, little of it at first and more when that is full: they have
//! to answer as in memory of the resolver's own.
//!
//! With `--cfg libfuzzer` this is the function that libFuzzer calls; else a program that draws its inputs,
//! `fuzz SECONDS`. Either ends with status 1 at a difference, and shows the input.

use mezzulidda::events::attributes::{
    Attr, AttrError, ByteAttributes, Held, Kept, PieceError, Pieces, Tables,
};
use mezzulidda::name::{Lent, NamespaceResolver};
use oracle::scopes;
use oracle::steps::Reader;
use std::fmt::Debug;
use std::panic::catch_unwind;

/// What the library has room for.
const KEYS: usize = Tables::KEYS;
const RECORDS: usize = 1_026;
const TEXT: usize = 65_536;
/// So many bytes of an input stand before the tag.
const FIRST: usize = 5;

/// A difference, in words.
type Compared = Result<(), String>;

/// What an input says: a tag, how it is read, and calls on a resolver.
struct Input {
    html: bool,
    checks: bool,
    /// Whether memory is lent: the reader's, in which another tag was read before, and the resolver's.
    lent: bool,
    /// Before which steps checks are turned to the other setting, a bit for each of eight.
    turns: u8,
    position: usize,
    /// So many bytes are lent for a resolver at first.
    bytes: usize,
    tag: Vec<u8>,
    /// How long the first pieces are in which the tag comes; `turns` has the lengths of the others.
    cuts: Vec<usize>,
    calls: Vec<Call>,
}

impl Input {
    fn of(bytes: &[u8]) -> Option<Self> {
        let (&[flags, low, high, turns, numbered], rest) = bytes.split_first_chunk::<FIRST>()?;
        let cut = rest.windows(2).position(|two| two == [0xff, 0xff]);
        let (own, calls) = match cut {
            Some(cut) => (&rest[..cut], &rest[cut + 2..]),
            None => (rest, &[][..]),
        };
        let bytes = Lent::LEAST + 3 * usize::from(numbered);
        // attributes of different names stand first, up to more than there is room for, if that is flagged
        let numbered = match flags & 24 {
            24 => usize::from(numbered) * KEYS / 200,
            _ => 0,
        };
        let mut tag = attributes_of_different_names(numbered, "k").into_bytes();
        tag.extend(own);
        Some(Input {
            html: flags & 1 != 0,
            checks: flags & 2 == 0,
            lent: flags & 4 != 0,
            turns,
            position: position_of(u16::from_le_bytes([low, high]), tag.len()),
            bytes,
            tag,
            cuts: Vec::new(),
            calls: calls.split(|&b| b == 0xff).filter_map(Call::of).collect(),
        })
    }

    /// A tag that comes in the pieces of a call's argument, behind two bytes that say how it is read.
    fn in_pieces(argument: &[u8]) -> Self {
        let (&[flags, turns], rest) = argument.split_first_chunk().unwrap_or((&[0, 0], &[]));
        let pieces: Vec<&[u8]> = rest.split(|&byte| byte == 0xfe).collect();
        Input {
            html: flags & 1 != 0,
            checks: flags & 2 == 0,
            lent: flags & 4 != 0,
            turns,
            position: usize::from(flags >> 5),
            bytes: 0,
            tag: pieces.concat(),
            cuts: pieces.iter().map(|piece| piece.len()).collect(),
            calls: Vec::new(),
        }
    }

    /// How long a piece is.
    fn cut(&self, turn: usize) -> usize {
        let drawn = || 1 + usize::from(self.turns.rotate_left(turn as u32)) % 40;
        self.cuts.get(turn).copied().unwrap_or_else(drawn)
    }

    const fn turns_before(&self, step: usize) -> bool {
        (self.turns >> (step % 8)) & 1 != 0
    }
}

/// A position up to two past the end, or the greatest number.
fn position_of(number: u16, len: usize) -> usize {
    match number {
        u16::MAX => usize::MAX,
        _ => usize::from(number) % (len + 3),
    }
}

fn attributes_of_different_names(count: usize, name: &str) -> String {
    (0..count).map(|n| format!(" {name}{n}='u'")).collect()
}

/// So many kinds of calls are told apart in an input.
const KINDS: u8 = 13;

/// One call on a resolver.
#[derive(Debug)]
enum Call {
    Pop,
    SetLevel(u16),
    SetLimit(usize),
    AddDefault(String),
    Add(String, String),
    /// A tag, and the length of its name.
    Push(String, usize),
    Names(String),
    Bindings,
    BindingsOf(u16),
    HasNil(String),
    /// A tag in pieces, which no resolver has to do with.
    Pieces(Vec<u8>),
}

impl Call {
    fn of(bytes: &[u8]) -> Option<Self> {
        let (kind, argument) = bytes.split_first()?;
        let text = String::from_utf8_lossy(argument).into_owned();
        let number = argument.first().copied().unwrap_or(0);
        let (prefix, uri) = text.split_once('=').unwrap_or((&text, ""));
        Some(match kind % KINDS {
            0 => Call::Pop,
            1 => Call::SetLevel(level(number)),
            2 if number < 200 => Call::SetLimit(number.into()),
            2 => Call::SetLimit(usize::MAX),
            3 => Call::AddDefault(text),
            4 => Call::Add(prefix.to_string(), uri.to_string()),
            5 => Call::Add(prefix.to_string(), uri.repeat(1_024)),
            6 => {
                // few, or so many that the second time there is no room
                let count = match number {
                    0..240 => usize::from(number % 16),
                    _ => RECORDS * 2 / 3,
                };
                Call::Push(attributes_of_different_names(count, "xmlns:p"), 0)
            }
            7 => Call::Names(text),
            8 => Call::BindingsOf(level(number)),
            9 => Call::HasNil(text),
            10 => Call::Bindings,
            12 => Call::Pieces(argument.to_vec()),
            _ => {
                let name_len = text.find(' ').unwrap_or(text.len() + 1);
                Call::Push(text, name_len)
            }
        })
    }
}

/// A level near the least one or the greatest. (255 parts the calls of an input, so it doesn't come.)
const fn level(number: u8) -> u16 {
    match number {
        0..240 => number as u16,
        _ => u16::MAX - (number - 240) as u16,
    }
}

fn shown(answer: impl Debug) -> String {
    format!("{answer:?}")
}

// All that a reader of attributes answers up to the end, and once more, with checks turned on the way.
macro_rules! answers {
    ($attributes:expr, $input:expr) => {{
        let mut attributes = $attributes;
        let mut checks = $input.checks;
        attributes.with_checks(checks);
        let mut answers = Vec::new();
        let mut ends = 0;
        while ends < 2 {
            if $input.turns_before(answers.len()) {
                checks = !checks;
                attributes.with_checks(checks);
            }
            let answer = attributes.next();
            ends += usize::from(answer.is_none());
            answers.push(match answer {
                Some(Err(refusal)) => format!("{refusal:?}, {refusal}"),
                Some(Ok(attribute)) => shown((attribute.as_bool(), attribute)),
                None => "end".to_string(),
            });
        }
        answers
    }};
}

// The calls, once for both crates, whose types have the same names and are not the same, and for memory that is
// lent.
macro_rules! calls_on {
    ($module:ident, $name:ident, $resolver:ty) => {
        mod $module {
            use super::{Call, Input, shown};
            use $name::events::BytesStart;
            use $name::events::attributes::Attributes;
            use $name::name::{Namespace, PrefixDeclaration, QName};

            #[allow(dead_code, reason = "where memory is lent only calls are made")]
            pub fn read(input: &Input, tag: &str, position: usize) -> Vec<String> {
                match input.html {
                    true => answers!(Attributes::html(tag, position), input),
                    false => answers!(Attributes::new(tag, position), input),
                }
            }

            /// The answer to a call.
            pub fn call(resolver: &mut $resolver, call: &Call) -> String {
                match call {
                    Call::Pop => shown(resolver.pop()),
                    Call::SetLevel(level) => shown(resolver.set_level(*level)),
                    Call::SetLimit(limit) => {
                        resolver.set_max_namespace_bindings(*limit);
                        String::new()
                    }
                    Call::AddDefault(uri) => {
                        shown(resolver.add(PrefixDeclaration::Default, Namespace(uri)))
                    }
                    Call::Add(prefix, uri) => {
                        shown(resolver.add(PrefixDeclaration::Named(prefix), Namespace(uri)))
                    }
                    Call::Push(tag, name_len) => {
                        shown(resolver.push(&BytesStart::from_content(tag.as_str(), *name_len)))
                    }
                    Call::Names(names) => names.split(' ').map(|n| about(resolver, n)).collect(),
                    Call::Bindings => shown(resolver.bindings().collect::<Vec<_>>()),
                    Call::BindingsOf(level) => {
                        shown(resolver.bindings_of(*level).collect::<Vec<_>>())
                    }
                    Call::HasNil(tag) => shown(Attributes::new(tag, 0).has_nil(resolver)),
                    Call::Pieces(_) => String::new(),
                }
            }

            /// The level and the limit.
            pub fn state(resolver: &$resolver) -> (u16, usize) {
                (resolver.level(), resolver.max_namespace_bindings())
            }

            /// All that is told about a name.
            fn about(resolver: &$resolver, name: &str) -> String {
                let name = QName(name);
                let reserved = name.prefix().map(|p| (p.is_xml(), p.is_xmlns()));
                let parts = (name.decompose(), name.local_name());
                let prefix = resolver.resolve_prefix(name.prefix(), true);
                let attribute = resolver.resolve_attribute(name);
                let namespace = Option::<Namespace>::try_from(attribute.0.clone());
                let declares = name.as_namespace_binding();
                let element = resolver.resolve_element(name);
                shown((
                    reserved, parts, declares, prefix, element, attribute, namespace,
                ))
            }
        }
    };
}
calls_on!(by_ours, mezzulidda, super::NamespaceResolver);
calls_on!(
    by_lent,
    mezzulidda,
    super::NamespaceResolver<super::Lent<'_>>
);
calls_on!(by_quick_xml, oracle, oracle::NamespaceResolver);

/// The crate's answers by `Attributes::with_tables`, in memory that another tag was read in.
fn read_in_lent_memory(input: &Input, tag: &str, position: usize) -> Vec<String> {
    use mezzulidda::events::attributes::Attributes;
    let mut tables = Tables::new();
    let before = attributes_of_different_names(40, "a");
    assert_eq!(Attributes::with_tables(&before, 0, &mut tables).count(), 40);
    match input.html {
        true => answers!(
            Attributes::html_with_tables(tag, position, &mut tables),
            input
        ),
        false => answers!(Attributes::with_tables(tag, position, &mut tables), input),
    }
}

/// The tag as text, by `Attributes`.
fn compare_text(input: &Input) -> Compared {
    let tag = String::from_utf8_lossy(&input.tag);
    let mut position = input.position;
    while position < tag.len() && !tag.is_char_boundary(position) {
        position += 1;
    }
    let theirs = by_quick_xml::read(input, &tag, position);
    let ours = match input.lent {
        true => read_in_lent_memory(input, &tag, position),
        false => by_ours::read(input, &tag, position),
    };
    let answers = ours.len().max(theirs.len());
    for n in 0..answers {
        let (ours, theirs) = (ours.get(n), theirs.get(n));
        // an answer records one key at most
        if n >= KEYS && ours.is_some_and(|answer| answer.starts_with("KeyTableFull")) {
            return Ok(());
        }
        if ours != theirs {
            return Err(format!("answer {n}: quick-xml {theirs:?}, ours {ours:?}"));
        }
    }
    Ok(())
}

/// An answer about bytes, which begin at an address, in the numbers that the oracle has for it, with 6 and 7.
fn numbers(answer: Result<Attr<&[u8]>, AttrError>, tag: usize) -> [usize; 5] {
    let at = |part: &[u8]| part.as_ptr() as usize - tag;
    let both = |code, key: &[u8], value: &[u8]| {
        let (key_at, value_at) = (at(key), at(value));
        [
            code,
            key_at,
            key_at + key.len(),
            value_at,
            value_at + value.len(),
        ]
    };
    match answer {
        Ok(Attr::DoubleQ(key, value)) => both(101, key, value),
        Ok(Attr::SingleQ(key, value)) => both(102, key, value),
        Ok(Attr::Unquoted(key, value)) => both(103, key, value),
        Ok(Attr::Empty(key)) => [104, at(key), at(key) + key.len(), 0, 0],
        Err(AttrError::ExpectedEq(at)) => [1, at, 0, 0, 0],
        Err(AttrError::ExpectedValue(len)) => [2, len, 0, 0, 0],
        Err(AttrError::UnquotedValue(at)) => [3, at, 0, 0, 0],
        Err(AttrError::ExpectedQuote(len, quote)) => [4, len, quote.into(), 0, 0],
        Err(AttrError::Duplicated(key, earlier)) => [5, key, earlier, 0, 0],
        Err(AttrError::KeyTableFull(key)) => [6, key, 0, 0, 0],
        Err(AttrError::BadState) => [7, 0, 0, 0, 0],
        Err(AttrError::NoText(_)) => unreachable!("bytes need not be text"),
    }
}

/// The tag as it stands, by `ByteAttributes`, from any position: its answers, up to 6.
fn compare_bytes(input: &Input) -> Result<Vec<[usize; 5]>, String> {
    let tag = &input.tag[..];
    let mut ours = match input.html {
        true => ByteAttributes::html(tag, input.position),
        false => ByteAttributes::new(tag, input.position),
    };
    ours.with_checks(input.checks);
    let mut theirs = Reader::open(tag, input.position, input.html, input.checks);
    let mut answers = Vec::new();
    loop {
        let answer = ours
            .next()
            .map(|answer| numbers(answer, tag.as_ptr() as usize));
        let mut wanted = theirs.step().map(|answer| answer.numbers());
        let full = theirs.keys().get(KEYS);
        if let Some(key) = full {
            wanted = Some([6, key.start, 0, 0, 0]);
        }
        if answer != wanted {
            return Err(format!("bytes: due {wanted:?}, ours {answer:?}"));
        }
        answers.extend(answer);
        if answer.is_none() || full.is_some() {
            return Ok(answers);
        }
    }
}

/// How many bytes have to be there for an answer: up to the last one that its rule looks at. None where it is the finish.
fn needed(answer: [usize; 5], tag: &[u8]) -> Option<usize> {
    let space = |byte: &u8| b" \t\r\n".contains(byte);
    let other_from = |at: usize| (at..tag.len()).find(|&at| !space(&tag[at]));
    let last = match answer {
        [101 | 102, .., quote] => Some(quote),
        [103, .., end] => Some(end),
        [104, _, end, ..] => other_from(end),
        [1 | 3, at, ..] => Some(at),
        // a key that is refused: the first byte behind it that is no whitespace
        [5 | 6, start, ..] => (start + 1..tag.len())
            .find(|&at| space(&tag[at]) || tag[at] == b'=')
            .and_then(other_from),
        _ => None,
    };
    last.filter(|&last| last < tag.len()).map(|last| last + 1)
}

/// The tag in pieces, with the answers that are there taken after some of them.
fn hold_pieces<T: Kept, B: Held>(
    mut ours: Pieces<T, B>,
    input: &Input,
    wanted: &[[usize; 5]],
) -> Compared {
    ours.with_checks(input.checks);
    let tag = &input.tag[..];
    let (mut held, mut taken) = (0, 0);
    for turn in 0.. {
        let finished = ours.is_finished();
        if finished || input.turns_before(turn) {
            let there =
                |answer: &&[usize; 5]| finished || needed(**answer, tag).is_some_and(|n| n <= held);
            let due = wanted.iter().take_while(there).count();
            while taken <= due {
                let from = ours.bytes().as_ptr() as usize;
                let answer = ours.next_bytes().map(|answer| numbers(answer, from));
                let next = wanted[..due].get(taken).copied();
                if answer != next {
                    return Err(format!(
                        "pieces, {held} bytes, answer {taken}: due {next:?}, ours {answer:?}"
                    ));
                }
                if answer.is_none() {
                    break;
                }
                taken += 1;
            }
        }
        if finished {
            break;
        }
        let piece = &tag[held..][..input.cut(turn).min(tag.len() - held)];
        let given = match held == tag.len() && turn >= input.cuts.len() {
            true => ours.finish(),
            false => ours.piece(piece),
        };
        if given.is_err() {
            return Err(format!("a piece, {held} bytes are held: {given:?}"));
        }
        held += piece.len();
    }
    match (ours.piece(b""), ours.finish()) {
        (Err(PieceError::Finished), Err(PieceError::Finished)) => Ok(()),
        taken => Err(format!("after the finish: {taken:?}")),
    }
}

/// The tag in pieces, in memory of the reader's own and in memory that is lent.
fn compare_pieces(input: &Input, wanted: &[[usize; 5]]) -> Compared {
    let Input { html, position, .. } = *input;
    // up to more than there is room for, which is refused
    if input.tag.len() > Pieces::MOST {
        let long = Pieces::new(0).piece(&input.tag);
        return match long {
            Err(PieceError::TooLong { held: 0, .. }) => Ok(()),
            _ => Err(format!("a piece of {} bytes: {long:?}", input.tag.len())),
        };
    }
    if input.lent {
        let mut tables = Tables::new();
        let mut text = vec![0x5a; input.tag.len()];
        let lent = match html {
            true => Pieces::html_with_tables(position, &mut tables, &mut text),
            false => Pieces::with_tables(position, &mut tables, &mut text),
        };
        return hold_pieces(lent, input, wanted);
    }
    let own = match html {
        true => Pieces::html(position),
        false => Pieces::new(position),
    };
    hold_pieces(own, input, wanted)
}

/// The calls, on a fresh resolver of each.
fn compare_calls(input: &Input) -> Compared {
    // the bindings are listed at the end of all calls, whatever they are
    let calls = input.calls.iter().chain([&Call::Bindings]);
    let mut ours = NamespaceResolver::default();
    let mut theirs = oracle::NamespaceResolver::default();
    for call in calls {
        if let Call::Pieces(argument) = call {
            let input = Input::in_pieces(argument);
            compare_pieces(&input, &compare_bytes(&input)?)?;
        }
        let answer = by_ours::call(&mut ours, call);
        let wanted = by_quick_xml::call(&mut theirs, call);
        let due = match answer.as_str() {
            "Err(BindingTableFull)" => scopes::records(&theirs).len() > RECORDS,
            "Err(TextFull)" => scopes::text(&theirs).len() > TEXT,
            _ => {
                let (state, due) = (by_ours::state(&ours), by_quick_xml::state(&theirs));
                if answer != wanted || state != due {
                    return Err(format!(
                        "{call:?}: quick-xml {wanted}, {due:?}; ours {answer}, {state:?}"
                    ));
                }
                continue;
            }
        };
        return match due {
            true => Ok(()),
            false => Err(format!(
                "{call:?}: {answer}, where there is room; quick-xml {wanted}"
            )),
        };
    }
    Ok(())
}

/// Bytes at an address that numbers can stand at.
#[repr(align(8))]
struct Bytes([u8; Lent::MOST]);

impl Bytes {
    fn new() -> Box<Self> {
        Box::new(Bytes([0x5a; Lent::MOST]))
    }

    fn lend(&mut self, bytes: usize) -> Lent<'_> {
        Lent::from_bytes(&mut self.0[..bytes]).expect("so many bytes are a resolver's memory")
    }

    fn resume(&mut self, bytes: usize) -> Result<NamespaceResolver<Lent<'_>>, String> {
        let resumed = NamespaceResolver::resume_in(self.lend(bytes));
        resumed.map_err(|refused| format!("what a call left in {bytes} bytes: {refused}"))
    }
}

/// A call in lent memory, with more of it where there is too little; that changes nothing.
fn call_lent(
    [now, next]: &mut [Box<Bytes>; 2],
    bytes: &mut usize,
    call: &Call,
) -> Result<(String, (u16, usize)), String> {
    loop {
        let mut resolver = now.resume(*bytes)?;
        let before = shown(&resolver);
        let answer = by_lent::call(&mut resolver, call);
        if !answer.starts_with("Err(LentMemoryFull") {
            return Ok((answer, by_lent::state(&resolver)));
        }
        let after = shown(&resolver);
        if after != before || *bytes == Lent::MOST {
            return Err(format!(
                "{call:?} in {bytes} bytes: {answer}, from {before} to {after}"
            ));
        }
        *bytes = Lent::MOST.min(*bytes + *bytes / 4);
        let copied = resolver.copy_in(next.lend(*bytes)).map(|copy| shown(&copy));
        if copied != Ok(before) {
            return Err(format!("a copy in {bytes} bytes: {copied:?} of {after}"));
        }
        std::mem::swap(now, next);
    }
}

/// The calls in memory of the resolver's own and in memory that is lent.
fn compare_memory(input: &Input) -> Compared {
    let mut own = NamespaceResolver::default();
    let mut memory = [Bytes::new(), Bytes::new()];
    let mut bytes = input.bytes;
    NamespaceResolver::new_in(memory[0].lend(bytes));
    for call in input.calls.iter().chain([&Call::Bindings]) {
        let wanted = (by_ours::call(&mut own, call), by_ours::state(&own));
        let answer = call_lent(&mut memory, &mut bytes, call)?;
        if answer != wanted {
            return Err(format!(
                "{call:?} in {bytes} bytes that are lent: {answer:?}, in its own {wanted:?}"
            ));
        }
    }
    Ok(())
}

fn compare(bytes: &[u8]) -> Compared {
    let Some(input) = Input::of(bytes) else {
        return Ok(());
    };
    compare_text(&input)?;
    let answers = compare_bytes(&input)?;
    compare_pieces(&input, &answers)?;
    if input.calls.is_empty() {
        return Ok(());
    }
    compare_calls(&input)?;
    match input.lent {
        true => compare_memory(&input),
        false => Ok(()),
    }
}

/// Compares, and says what differs; a panic is a difference too. Whether there is none.
fn holds(bytes: &[u8]) -> bool {
    let difference = match catch_unwind(|| compare(bytes)) {
        Ok(Ok(())) => return true,
        Ok(Err(difference)) => difference,
        Err(_) => "one of the two panics".to_string(),
    };
    eprintln!("fuzz: {difference}");
    eprintln!("fuzz: the input is b\"{}\"", bytes.escape_ascii());
    false
}

#[cfg(libfuzzer)]
mod called {
    unsafe extern "C" {
        // ends the process at once, without libFuzzer's own report of an exit
        safe fn _exit(status: i32) -> !;
    }

    // SAFETY: libFuzzer looks for a function of this name and type, and nothing else has the name.
    #[unsafe(no_mangle)]
    extern "C" fn LLVMFuzzerTestOneInput(data: *const u8, len: usize) -> i32 {
        let bytes = match len {
            0 => &[],
            // SAFETY: libFuzzer lends so many bytes for the time of the call.
            _ => unsafe { std::slice::from_raw_parts(data, len) },
        };
        if !super::holds(bytes) {
            _exit(1);
        }
        0
    }
}

#[cfg(not(libfuzzer))]
#[path = "../oracle/src/lcg.rs"]
mod lcg;

#[cfg(not(libfuzzer))]
mod drawn {
    use super::lcg::Lcg;
    use std::process::ExitCode;
    use std::time::{Duration, Instant};

    /// The words that libFuzzer is given too, one between the quotes of each line.
    const WORDS: &str = include_str!("fuzz.dict");
    const MOST_WORDS: usize = 60;

    /// What is drawn by a fixed sequence of numbers.
    struct Drawn(Lcg);

    impl Drawn {
        const fn below(&mut self, end: usize) -> usize {
            self.0.below(end)
        }

        const fn byte(&mut self) -> u8 {
            self.below(256) as u8
        }

        /// Words and single bytes; calls behind the tag in most.
        fn input(&mut self, words: &[Vec<u8>]) -> Vec<u8> {
            let mut input: Vec<u8> = (0..super::FIRST).map(|_| self.byte()).collect();
            for _ in 0..self.below(MOST_WORDS) {
                match self.below(8) {
                    0 => input.push(self.byte()),
                    1 => input.extend([0xff, self.below(super::KINDS.into()) as u8]),
                    2 if self.below(4) == 0 => input.extend([0xff, 0xff]),
                    _ => input.extend(&words[self.below(words.len())]),
                }
            }
            input
        }
    }

    /// A word of the list: `\"` and `\xNN` stand for bytes.
    fn word(line: &str) -> Option<Vec<u8>> {
        let mut rest = line.strip_prefix('"')?.strip_suffix('"')?;
        let mut word = Vec::new();
        while let Some((before, after)) = rest.split_once('\\') {
            word.extend(before.as_bytes());
            let (byte, len) = match after.strip_prefix('x') {
                Some(digits) => (u8::from_str_radix(digits.get(..2)?, 16).ok()?, 3),
                None => (*after.as_bytes().first()?, 1),
            };
            word.push(byte);
            rest = &after[len..];
        }
        word.extend(rest.as_bytes());
        Some(word)
    }

    pub fn main() -> ExitCode {
        let seconds = std::env::args().nth(1).and_then(|word| word.parse().ok());
        let Some(seconds) = seconds.map(Duration::from_secs) else {
            eprintln!("usage: fuzz SECONDS");
            return ExitCode::from(2);
        };
        let words: Vec<_> = WORDS.lines().filter_map(word).collect();
        let mut drawn = Drawn(Lcg::new(11));
        let mut runs = 0;
        let start = Instant::now();
        // every ten seconds, or ten times
        let step = (seconds.as_secs() / 10).clamp(1, 10);
        let mut next = step;
        while start.elapsed() < seconds {
            let now = start.elapsed().as_secs();
            if now >= next {
                eprintln!("fuzz: {now} of {} s: {runs} inputs", seconds.as_secs());
                next = now + step;
            }
            if !super::holds(&drawn.input(&words)) {
                return ExitCode::FAILURE;
            }
            runs += 1;
        }
        println!("fuzz: {runs} drawn inputs, no difference");
        ExitCode::SUCCESS
    }
}

#[cfg(not(libfuzzer))]
fn main() -> std::process::ExitCode {
    drawn::main()
}
