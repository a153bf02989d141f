//! The crate's iterator, one step at a time and from any state.
//!
//! `build` makes this a child of the crate's `events::attributes`, so it sees the private
//! `IterState`: a reader can be put into any state, and what a step leaves can be read.
//!
//! ```text
//!     a=1 b='2'          opened at 0, XML mode, checks on
//!     ^   ^    ^
//!     |   |    third step: end, done
//!     |   second step: SingleQ(4..5, 7..8), leaves next 9, keys 0..1 and 4..5
//!     first step: refusal 3 at 2, leaves skip-value 2, key 0..1
//! ```

use super::{Attr, AttrError, Attribute, Attributes, IterState, State};
use crate::events::BytesStart;
use crate::name::{NamespaceResolver, QName};
use std::borrow::Cow;
use std::fmt::{self, Display, Formatter};
use std::hint::black_box;
use std::ops::Range;

/// Where reading goes on: the crate's private `State`.
#[derive(Clone, Copy, Debug, PartialEq, Eq)]
pub enum Place {
    Done,
    Next(usize),
    SkipValue(usize),
    SkipEqValue(usize),
}

impl Place {
    /// The kind (0 done, 1 next, 2 skip-value, 3 skip from the `=`) and the position (0 for done).
    pub const fn numbers(self) -> [usize; 2] {
        match self {
            Place::Done => [0, 0],
            Place::Next(at) => [1, at],
            Place::SkipValue(at) => [2, at],
            Place::SkipEqValue(at) => [3, at],
        }
    }

    const fn of(state: State) -> Self {
        match state {
            State::Done => Place::Done,
            State::Next(at) => Place::Next(at),
            State::SkipValue(at) => Place::SkipValue(at),
            State::SkipEqValue(at) => Place::SkipEqValue(at),
        }
    }

    const fn state(self) -> State {
        match self {
            Place::Done => State::Done,
            Place::Next(at) => State::Next(at),
            Place::SkipValue(at) => State::SkipValue(at),
            Place::SkipEqValue(at) => State::SkipEqValue(at),
        }
    }
}

impl Display for Place {
    fn fmt(&self, f: &mut Formatter) -> fmt::Result {
        match self {
            Place::Done => write!(f, "done"),
            Place::Next(at) => write!(f, "next:{at}"),
            Place::SkipValue(at) => write!(f, "value:{at}"),
            Place::SkipEqValue(at) => write!(f, "eq:{at}"),
        }
    }
}

/// One answer of the iterator other than the end: an attribute with its bounds, or a refusal.
#[derive(Clone, Debug, PartialEq, Eq)]
pub enum Answer {
    DoubleQ(Range<usize>, Range<usize>),
    SingleQ(Range<usize>, Range<usize>),
    Unquoted(Range<usize>, Range<usize>),
    Empty(Range<usize>),
    /// 1: the position where `=` was expected.
    ExpectedEq(usize),
    /// 2: the tag's length.
    ExpectedValue(usize),
    /// 3: where the value without a quote begins.
    UnquotedValue(usize),
    /// 4: the tag's length and the quote that is missing.
    ExpectedQuote(usize, u8),
    /// 5: where this key begins, and where the equal earlier one does.
    Duplicated(usize, usize),
}

impl Answer {
    /// The answer as five numbers: a code, then its values in document 01's order, then zeros.
    /// Refusals have their number 1 to 5 as code; 101 DoubleQ, 102 SingleQ, 103 Unquoted, 104 Empty.
    pub fn numbers(&self) -> [usize; 5] {
        match self {
            Answer::DoubleQ(key, value) => [101, key.start, key.end, value.start, value.end],
            Answer::SingleQ(key, value) => [102, key.start, key.end, value.start, value.end],
            Answer::Unquoted(key, value) => [103, key.start, key.end, value.start, value.end],
            Answer::Empty(key) => [104, key.start, key.end, 0, 0],
            Answer::ExpectedEq(at) => [1, *at, 0, 0, 0],
            Answer::ExpectedValue(len) => [2, *len, 0, 0, 0],
            Answer::UnquotedValue(at) => [3, *at, 0, 0, 0],
            Answer::ExpectedQuote(len, quote) => [4, *len, usize::from(*quote), 0, 0],
            Answer::Duplicated(key, earlier) => [5, *key, *earlier, 0, 0],
        }
    }

    fn of(answer: Result<Attr<Range<usize>>, AttrError>) -> Self {
        match answer {
            Ok(Attr::DoubleQ(key, value)) => Answer::DoubleQ(key, value),
            Ok(Attr::SingleQ(key, value)) => Answer::SingleQ(key, value),
            Ok(Attr::Unquoted(key, value)) => Answer::Unquoted(key, value),
            Ok(Attr::Empty(key)) => Answer::Empty(key),
            Err(AttrError::ExpectedEq(at)) => Answer::ExpectedEq(at),
            Err(AttrError::ExpectedValue(len)) => Answer::ExpectedValue(len),
            Err(AttrError::UnquotedValue(at)) => Answer::UnquotedValue(at),
            Err(AttrError::ExpectedQuote(len, quote)) => Answer::ExpectedQuote(len, quote),
            Err(AttrError::Duplicated(key, earlier)) => Answer::Duplicated(key, earlier),
        }
    }
}

impl Display for Answer {
    fn fmt(&self, f: &mut Formatter) -> fmt::Result {
        let (letter, key, value) = match self {
            Answer::DoubleQ(key, value) => ('D', key, value),
            Answer::SingleQ(key, value) => ('S', key, value),
            Answer::Unquoted(key, value) => ('U', key, value),
            Answer::Empty(key) => return write!(f, "E {} {}", key.start, key.end),
            Answer::ExpectedEq(at) => return write!(f, "1 {at}"),
            Answer::ExpectedValue(len) => return write!(f, "2 {len}"),
            Answer::UnquotedValue(at) => return write!(f, "3 {at}"),
            Answer::ExpectedQuote(len, quote) => return write!(f, "4 {len} {quote}"),
            Answer::Duplicated(key, earlier) => return write!(f, "5 {key} {earlier}"),
        };
        write!(
            f,
            "{letter} {} {} {} {}",
            key.start, key.end, value.start, value.end
        )
    }
}

/// The crate's `IterState` over a tag's bytes, which need not be UTF-8.
#[derive(Clone, Debug)]
pub struct Reader<'t> {
    tag: &'t [u8],
    state: IterState,
}

impl<'t> Reader<'t> {
    /// What `Attributes::new` or `Attributes::html` opens, with `with_checks(checks)`.
    pub const fn open(tag: &'t [u8], position: usize, html: bool, checks: bool) -> Self {
        let mut state = IterState::new(position, html);
        state.check_duplicates = checks;
        Reader { tag, state }
    }

    /// A reader in any state that the crate can step from. `None` where the crate would panic: a
    /// skip place past the tag's end, or a recorded key that is no range of the tag. Document 01's
    /// refusal 7 covers those states, and some that the crate takes: there the two differ by design.
    pub fn from_state(
        tag: &'t [u8],
        place: Place,
        html: bool,
        checks: bool,
        keys: &[Range<usize>],
    ) -> Option<Self> {
        let skips_past_end = match place {
            Place::SkipValue(at) | Place::SkipEqValue(at) => at > tag.len(),
            Place::Done | Place::Next(_) => false,
        };
        let key_outside = keys.iter().any(|key| tag.get(key.clone()).is_none());
        if skips_past_end || key_outside {
            return None;
        }
        let state = IterState {
            state: place.state(),
            html,
            check_duplicates: checks,
            keys: keys.to_vec(),
            // The crate fills it from the keys when it first needs it.
            key_hashes: None,
        };
        Some(Reader { tag, state })
    }

    /// The next answer, `None` for the end.
    pub fn step(&mut self) -> Option<Answer> {
        self.state.next(self.tag).map(Answer::of)
    }

    /// `Attributes::has_nil` from where the reader stands. `None` where the tag is no text. From a place
    /// off a boundary, or with a key off one, the crate panics.
    pub fn has_nil(&mut self, resolver: &NamespaceResolver) -> Option<bool> {
        let tag = std::str::from_utf8(self.tag).ok()?;
        let mut attributes = Attributes::wrap(tag, 0, false);
        attributes.state = self.state.clone();
        let answer = attributes.has_nil(resolver);
        self.state = attributes.state;
        Some(answer)
    }

    pub const fn place(&self) -> Place {
        Place::of(self.state.state)
    }

    pub fn keys(&self) -> &[Range<usize>] {
        &self.state.keys
    }

    pub const fn html(&self) -> bool {
        self.state.html
    }

    pub const fn checks(&self) -> bool {
        self.state.check_duplicates
    }
}

/// An answer (`None` for the end) with the state that it left.
#[derive(Clone, Debug, PartialEq, Eq)]
pub struct Step {
    pub answer: Option<Answer>,
    pub place: Place,
    pub keys: Vec<Range<usize>>,
}

impl Step {
    fn take(reader: &mut Reader) -> Self {
        let answer = reader.step();
        Step {
            answer,
            place: reader.place(),
            keys: reader.keys().to_vec(),
        }
    }
}

/// The whole run of an opened reader: every answer and, last, the end.
pub fn run(tag: &[u8], position: usize, html: bool, checks: bool) -> Vec<Step> {
    let mut reader = Reader::open(tag, position, html, checks);
    let mut steps = Vec::new();
    loop {
        let step = Step::take(&mut reader);
        let ended = step.answer.is_none();
        steps.push(step);
        if ended {
            return steps;
        }
    }
}

/// The number of answers of the crate's public `Attributes`, read in a caller's loop. Each answer is
/// kept from being optimised away: this and `count_by_state` are for measuring.
pub fn count_by_attributes(tag: &str, html: bool, checks: bool) -> usize {
    let mut attributes = match html {
        true => Attributes::html(tag, 0),
        false => Attributes::new(tag, 0),
    };
    attributes.with_checks(checks);
    let mut count = 0;
    for answer in attributes {
        black_box(&answer);
        count += 1;
    }
    count
}

/// The same of the private `IterState`, whose answers are bounds and no parts of the tag.
pub fn count_by_state(tag: &[u8], html: bool, checks: bool) -> usize {
    let mut state = IterState::new(0, html);
    state.check_duplicates = checks;
    let mut count = 0;
    while let Some(answer) = state.next(tag) {
        black_box(&answer);
        count += 1;
    }
    count
}

/// One step from a given state. `None` where `Reader::from_state` gives none.
pub fn step_from(
    tag: &[u8],
    place: Place,
    html: bool,
    checks: bool,
    keys: &[Range<usize>],
) -> Option<Step> {
    Reader::from_state(tag, place, html, checks, keys).map(|mut reader| Step::take(&mut reader))
}

/// What `BytesStart::attributes` opens for a start tag of this content and name length.
pub fn opened_by_start_tag(content: &str, name_len: usize) -> Reader<'_> {
    let start = BytesStart::from_content(content, name_len);
    let state = start.attributes().state;
    Reader {
        tag: content.as_bytes(),
        state,
    }
}

/// `Attribute::as_bool` on a value: `None` for neither.
pub fn as_bool(value: &str) -> Option<bool> {
    Attribute {
        key: QName(""),
        value: Cow::Borrowed(value),
    }
    .as_bool()
}

/// Whether reading text from a position stays on character boundaries, so that the crate's forms
/// over text do not panic: it does so from a boundary, and from any position past the end.
pub const fn on_boundary(tag: &str, position: usize) -> bool {
    position > tag.len() || tag.is_char_boundary(position)
}

/// `Attributes::has_nil`: its answer and the reader that it leaves. `None` off a boundary.
pub fn has_nil<'t>(
    tag: &'t str,
    position: usize,
    html: bool,
    checks: bool,
    resolver: &NamespaceResolver,
) -> Option<(bool, Reader<'t>)> {
    if !on_boundary(tag, position) {
        return None;
    }
    let mut attributes = Attributes::wrap(tag, position, html);
    attributes.with_checks(checks);
    let answer = attributes.has_nil(resolver);
    Some((
        answer,
        Reader {
            tag: tag.as_bytes(),
            state: attributes.state,
        },
    ))
}
