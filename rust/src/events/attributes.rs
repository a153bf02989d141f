//! The attributes of a tag, one after another.

use crate::ffi::{self, Ahead, Answer, Reads, Tag};
use crate::memory::View;
use crate::name::{Holder, NamespaceResolver, QName};
use alloc::borrow::Cow;
use alloc::string::String;
use core::error::Error;
use core::fmt::{self, Debug, Display, Formatter};
use core::iter::FusedIterator;
use core::ops::Range;

mod pieces;

pub use crate::ffi::{Inside, Tables};
pub use pieces::{Held, PieceError, Pieces};

/// What reading a tag is kept in: the iterator's own memory, or lent tables. No other type has it.
pub trait Kept: Reads {}

impl Kept for Inside {}
impl Kept for &mut Tables {}

/// An attribute: its key, and its value as it stands in the tag.
#[derive(Clone, Debug, Eq, PartialEq)]
pub struct Attribute<'a> {
    /// The key. With checks on, no two attributes of a tag have the same.
    pub key: QName<'a>,
    /// The value, references not replaced.
    pub value: Cow<'a, str>,
}

impl Attribute<'_> {
    /// `1` and `true` are a yes, `0` and `false` a no, and nothing else is either.
    #[inline]
    pub fn as_bool(&self) -> Option<bool> {
        match ffi::as_bool(&self.value) {
            0 => Some(false),
            1 => Some(true),
            _ => None,
        }
    }
}

impl<'a> From<(&'a str, &'a str)> for Attribute<'a> {
    /// An attribute of this key, with a text for its value, which is escaped.
    ///
    /// ```
    /// use mezzulidda::events::attributes::Attribute;
    ///
    /// let volume = Attribute::from(("volume", "north & south"));
    /// assert_eq!(volume.value, "north &amp; south");
    /// ```
    fn from((key, value): (&'a str, &'a str)) -> Self {
        Self::from((key, Cow::Borrowed(value)))
    }
}

impl<'a> From<(&'a str, Cow<'a, str>)> for Attribute<'a> {
    /// The same; a value that needs no escape is taken as it is.
    fn from((key, value): (&'a str, Cow<'a, str>)) -> Self {
        Attribute {
            key: QName(key),
            value: escaped(value),
        }
    }
}

/// The reference that stands for a character, where XML has one without a declaration.
const fn reference(character: char) -> Option<&'static str> {
    match character {
        '<' => Some("&lt;"),
        '>' => Some("&gt;"),
        '&' => Some("&amp;"),
        '\'' => Some("&apos;"),
        '"' => Some("&quot;"),
        _ => None,
    }
}

/// A text as it can stand between quotes of either kind.
fn escaped(text: Cow<str>) -> Cow<str> {
    if !text.contains(|character| reference(character).is_some()) {
        return text;
    }
    let mut written = String::new();
    for character in text.chars() {
        match reference(character) {
            Some(reference) => written.push_str(reference),
            None => written.push(character),
        }
    }
    Cow::Owned(written)
}

impl<'a> From<Attr<&'a str>> for Attribute<'a> {
    #[inline]
    fn from(attr: Attr<&'a str>) -> Self {
        Attribute {
            key: attr.key(),
            value: Cow::Borrowed(attr.value()),
        }
    }
}

/// An attribute by the way it is written.
#[derive(Clone, PartialEq, Eq, PartialOrd, Ord, Hash)]
pub enum Attr<T> {
    /// `key="value"`
    DoubleQ(T, T),
    /// `key='value'`
    SingleQ(T, T),
    /// `key=value`, in HTML mode alone.
    Unquoted(T, T),
    /// `key`, in HTML mode alone.
    Empty(T),
}

impl<T> Attr<T> {
    /// The same with another kind of key and value.
    #[inline]
    pub fn map<U, F>(self, mut f: F) -> Attr<U>
    where
        F: FnMut(T) -> U,
    {
        match self {
            Attr::DoubleQ(key, value) => Attr::DoubleQ(f(key), f(value)),
            Attr::SingleQ(key, value) => Attr::SingleQ(f(key), f(value)),
            Attr::Unquoted(key, value) => Attr::Unquoted(f(key), f(value)),
            Attr::Empty(key) => Attr::Empty(f(key)),
        }
    }
}

impl<'a> Attr<&'a str> {
    /// The key.
    #[inline]
    pub const fn key(&self) -> QName<'a> {
        match self {
            Attr::DoubleQ(key, _)
            | Attr::SingleQ(key, _)
            | Attr::Unquoted(key, _)
            | Attr::Empty(key) => QName(key),
        }
    }

    /// The value, which is empty where there is none.
    #[inline]
    pub const fn value(&self) -> &'a str {
        match self {
            Attr::DoubleQ(_, value) | Attr::SingleQ(_, value) | Attr::Unquoted(_, value) => value,
            Attr::Empty(_) => "",
        }
    }
}

impl<T> From<Attr<T>> for (T, Option<T>) {
    #[inline]
    fn from(attr: Attr<T>) -> Self {
        match attr {
            Attr::DoubleQ(key, value) | Attr::SingleQ(key, value) | Attr::Unquoted(key, value) => {
                (key, Some(value))
            }
            Attr::Empty(key) => (key, None),
        }
    }
}

impl<T: Debug> Debug for Attr<T> {
    fn fmt(&self, f: &mut Formatter) -> fmt::Result {
        let (way, key, value) = match self {
            Attr::DoubleQ(key, value) => ("Attr::DoubleQ", key, Some(value)),
            Attr::SingleQ(key, value) => ("Attr::SingleQ", key, Some(value)),
            Attr::Unquoted(key, value) => ("Attr::Unquoted", key, Some(value)),
            Attr::Empty(key) => ("Attr::Empty", key, None),
        };
        let mut shown = f.debug_tuple(way);
        shown.field(key);
        if let Some(value) = value {
            shown.field(value);
        }
        shown.finish()
    }
}

/// What is wrong in a tag. Positions count bytes from the tag's start; each case shows a tag that has it
/// and, by `^`, the position.
#[derive(Clone, Debug, PartialEq, Eq)]
pub enum AttrError {
    /// A key without `=`, in XML mode. Reading goes on at the position.
    ///
    /// ```xml
    /// <chunk sealed id="c-17">
    ///               ^
    /// ```
    ExpectedEq(usize),
    /// Nothing after `=`: the position is the tag's length, and reading has ended.
    ///
    /// ```xml
    /// <chunk id= >
    ///            ^
    /// ```
    ExpectedValue(usize),
    /// A value without quotes, in XML mode. Reading goes on after it, at the next whitespace.
    ///
    /// ```xml
    /// <chunk offset=4096 id="c-17">
    ///               ^
    /// ```
    UnquotedValue(usize),
    /// A value whose quote, the second number, doesn't come again: the position is the tag's length, and
    /// reading has ended.
    ///
    /// ```xml
    /// <chunk id="c-17 >
    ///                 ^
    /// ```
    ExpectedQuote(usize, u8),
    /// A key that came before: its position, and that of the earlier one. Reading goes on at the next
    /// whitespace after its `=`, be that inside quotes.
    ///
    /// ```xml
    /// <chunk id="c-17" id="c-18" offset="0">
    ///                  ^
    /// ```
    ///
    /// Comes with checks on alone.
    Duplicated(usize, usize),
    /// A new key where [as many as can be](Tables::KEYS) are recorded, at the position of the key; reading has
    /// ended. quick-xml records without end and doesn't have this.
    ///
    /// Comes with checks on alone.
    KeyTableFull(usize),
    /// The state of reading is none that reading leaves. [`Attributes`] keeps its state to itself, so it
    /// doesn't come here; quick-xml doesn't have it.
    BadState,
    /// The bytes of a key or of its value are no text, with the key at the position; reading goes on behind the value.
    /// Comes of [`Pieces::next`] alone, and not of [`Pieces::next_bytes`]; quick-xml doesn't have it.
    NoText(usize),
}

impl Display for AttrError {
    fn fmt(&self, f: &mut Formatter) -> fmt::Result {
        match self {
            Self::ExpectedEq(pos) => write!(
                f,
                "position {pos}: attribute key must be directly followed by `=` or space"
            ),
            Self::ExpectedValue(pos) => {
                write!(
                    f,
                    "position {pos}: `=` must be followed by an attribute value"
                )
            }
            Self::UnquotedValue(pos) => write!(
                f,
                "position {pos}: attribute value must be enclosed in `\"` or `'`"
            ),
            Self::ExpectedQuote(pos, quote) => write!(
                f,
                "position {pos}: missing closing quote `{}` in attribute value",
                char::from(*quote)
            ),
            Self::Duplicated(pos, earlier) => write!(
                f,
                "position {pos}: duplicated attribute, previous declaration at position {earlier}"
            ),
            Self::KeyTableFull(pos) => {
                let most = Tables::KEYS;
                write!(
                    f,
                    "position {pos}: more than {most} different attribute keys"
                )
            }
            Self::BadState => write!(f, "the state of reading is none that reading leaves"),
            Self::NoText(pos) => write!(
                f,
                "position {pos}: the bytes of an attribute key or its value are not UTF-8"
            ),
        }
    }
}

impl Error for AttrError {}

type AttrResult<T> = Result<Attr<T>, AttrError>;

/// A run over a tag that doesn't hold the tag. Answers are read in batches ahead of those taken.
#[derive(Clone)]
struct IterState<T> {
    html: bool,
    check_duplicates: bool,
    /// So many of the answers read ahead were taken, and whether none follow them.
    taken: usize,
    ended: bool,
    kept: T,
}

impl<T: Kept> IterState<T> {
    #[inline]
    const fn new(kept: T, html: bool) -> Self {
        IterState {
            html,
            check_duplicates: true,
            taken: 0,
            ended: false,
            kept,
        }
    }

    /// Answers that were read ahead under the other setting and not taken are read anew.
    fn with_checks(&mut self, tag: &mut impl Tag, val: bool) {
        if val != self.check_duplicates && self.taken < self.kept.ahead().filled() {
            self.kept
                .read_again(tag, self.html, self.check_duplicates, self.taken);
            self.ended = false;
        }
        self.check_duplicates = val;
    }

    #[inline]
    fn next(&mut self, tag: &mut impl Tag) -> Option<AttrResult<Range<usize>>> {
        if self.taken == self.kept.ahead().filled() && !self.read(tag) {
            return None;
        }
        let answer = self.kept.answer(self.taken);
        self.taken += 1;
        Some(answered(answer))
    }

    /// Reads on; whether there is an answer more. A call of its own, so that what takes answers is short and goes
    /// into the caller's loop.
    #[inline(never)]
    fn read(&mut self, tag: &mut impl Tag) -> bool {
        if self.ended {
            return false;
        }
        self.ended = self.kept.read(tag, self.html, self.check_duplicates);
        self.taken = 0;
        self.kept.ahead().filled() > 0
    }

    /// The search goes on behind the answers that were taken: those read ahead are not among them.
    fn has_nil(&mut self, tag: &[u8], memory: View) -> bool {
        if self.taken < self.kept.ahead().filled() {
            self.kept
                .read_again(&mut { tag }, self.html, self.check_duplicates, self.taken);
        }
        let answer = memory.has_nil(tag, &mut self.kept, self.html, self.check_duplicates);
        (self.taken, self.ended) = (0, false);
        match answer {
            0 => false,
            1 => true,
            // 7, 20 and 99: only the library writes the state and a resolver's memory
            _ => unreachable!("the library answered {answer} on memory of its own"),
        }
    }
}

/// The library's numbers for an answer: a refusal's own number, or the way an attribute is written.
#[inline]
fn answered(answer: Answer) -> AttrResult<Range<usize>> {
    let [what, a, b, c, d] = answer;
    match what {
        101 => Ok(Attr::DoubleQ(a..b, c..d)),
        102 => Ok(Attr::SingleQ(a..b, c..d)),
        103 => Ok(Attr::Unquoted(a..b, c..d)),
        104 => Ok(Attr::Empty(a..b)),
        _ => Err(refused(what, a, b)),
    }
}

#[cold]
fn refused(number: usize, a: usize, b: usize) -> AttrError {
    match number {
        1 => AttrError::ExpectedEq(a),
        2 => AttrError::ExpectedValue(a),
        3 => AttrError::UnquotedValue(a),
        // the quote is a byte of the tag
        4 => AttrError::ExpectedQuote(a, b as u8),
        5 => AttrError::Duplicated(a, b),
        6 => AttrError::KeyTableFull(a),
        7 => AttrError::BadState,
        _ => unreachable!("the library has no answer {number} about a tag"),
    }
}

/// The attributes of a tag, and what is wrong in it, in the order in which they stand.
///
/// The memory for the keys of 32 attributes is inside, 1.1 KB in all, which stands on the stack once for each open tag
/// where a program goes from tag to tag by recursion; a tag with more keys gets its places on the heap, which grow with
/// their number. It can be lent instead ([`with_tables`](Attributes::with_tables)): no tag allocates then, and the iterator
/// is small and is moved at no cost.
#[derive(Clone)]
pub struct Attributes<'a, T = Inside> {
    buf: &'a str,
    state: IterState<T>,
}

impl<'a> Attributes<'a> {
    /// Reads `buf`, a tag's name and attributes, from `pos` on in XML mode. Past the end there is nothing.
    ///
    /// ```
    /// use mezzulidda::events::attributes::Attributes;
    ///
    /// let mut attributes = Attributes::new("chunk id = 'c-17' offset=\"4096\"", 5);
    /// let id = attributes.next().unwrap().unwrap();
    /// assert_eq!((id.key.into_inner(), &*id.value), ("id", "c-17"));
    /// let offset = attributes.next().unwrap().unwrap();
    /// assert_eq!((offset.key.into_inner(), &*offset.value), ("offset", "4096"));
    /// assert_eq!(attributes.next(), None);
    /// ```
    #[inline]
    pub const fn new(buf: &'a str, pos: usize) -> Self {
        let state = IterState::new(Inside::opened(pos), false);
        Attributes { buf, state }
    }

    /// The same in HTML mode: values may lack quotes, and keys a value.
    ///
    /// ```
    /// use mezzulidda::events::attributes::Attributes;
    ///
    /// let attributes = Attributes::html("chunk sealed offset=4096", 5);
    /// let values: Vec<_> = attributes.map(|a| a.unwrap().value).collect();
    /// assert_eq!(values, ["", "4096"]);
    /// ```
    #[inline]
    pub const fn html(buf: &'a str, pos: usize) -> Self {
        let state = IterState::new(Inside::opened(pos), true);
        Attributes { buf, state }
    }
}

impl<'a, 't> Attributes<'a, &'t mut Tables> {
    /// As [`new`](Attributes::new), in memory of the caller's own. What an earlier tag left there is of
    /// no effect.
    ///
    /// ```
    /// use mezzulidda::events::attributes::{Attributes, Tables};
    ///
    /// let mut tables = Tables::new();
    /// let mut read = 0;
    /// for tag in ["chunk id='c-17'", "chunk id='c-18' offset='0'"] {
    ///     read += Attributes::with_tables(tag, 5, &mut tables).count();
    /// }
    /// assert_eq!(read, 3);
    /// ```
    #[inline]
    pub fn with_tables(buf: &'a str, pos: usize, tables: &'t mut Tables) -> Self {
        tables.open(pos);
        let state = IterState::new(tables, false);
        Attributes { buf, state }
    }

    /// As [`html`](Attributes::html), in memory of the caller's own.
    #[inline]
    pub fn html_with_tables(buf: &'a str, pos: usize, tables: &'t mut Tables) -> Self {
        tables.open(pos);
        let state = IterState::new(tables, true);
        Attributes { buf, state }
    }
}

impl<T: Kept> Attributes<'_, T> {
    /// Whether keys are recorded and a second one of the same name is refused. They are, unless told
    /// otherwise; a change holds for what has not been handed out yet.
    pub fn with_checks(&mut self, val: bool) -> &mut Self {
        self.state.with_checks(&mut self.buf.as_bytes(), val);
        self
    }

    /// Whether one of the attributes that are left is `nil` in the namespace of XML Schema instances, with
    /// a yes for its value. What is wrong in the tag counts as a no. Reading stops after a yes.
    pub fn has_nil<M: Holder>(&mut self, resolver: &NamespaceResolver<M>) -> bool {
        self.state.has_nil(self.buf.as_bytes(), resolver.memory())
    }
}

impl<'a, T: Kept> Iterator for Attributes<'a, T> {
    type Item = Result<Attribute<'a>, AttrError>;

    /// # Panics
    ///
    /// As quick-xml's, where reading began inside a character and a key with it; and where the static library is
    /// not one for [this crate](crate#panics).
    // Key and value are sliced once for all kinds of attribute, which keeps this short; and it is always compiled
    // into the caller's loop, where rustc else makes a call of it: together a tenth of a tag of five attributes.
    #[inline(always)]
    fn next(&mut self) -> Option<Self::Item> {
        let answer = self.state.next(&mut self.buf.as_bytes())?;
        Some(answer.map(|attr| {
            let (key, value): (Range<usize>, Option<Range<usize>>) = attr.into();
            Attribute {
                key: QName(&self.buf[key]),
                value: Cow::Borrowed(value.map_or("", |value| &self.buf[value])),
            }
        }))
    }
}

impl<T: Kept> FusedIterator for Attributes<'_, T> {}

impl<T: Kept> Debug for Attributes<'_, T> {
    fn fmt(&self, f: &mut Formatter) -> fmt::Result {
        f.debug_struct("Attributes")
            .field("buf", &self.buf)
            .field("html", &self.state.html)
            .field("checks", &self.state.check_duplicates)
            .field("read", &Shown(self.state.kept.ahead()))
            .finish()
    }
}

/// The attributes of a tag that need not be text: the same rules on any bytes.
///
/// ```
/// use mezzulidda::events::attributes::{Attr, ByteAttributes};
///
/// let mut attributes = ByteAttributes::new(b"chunk id='\xff'", 5);
/// assert_eq!(attributes.next(), Some(Ok(Attr::SingleQ(&b"id"[..], &b"\xff"[..]))));
/// assert_eq!(attributes.next(), None);
/// ```
#[derive(Clone)]
pub struct ByteAttributes<'a, T = Inside> {
    buf: &'a [u8],
    state: IterState<T>,
}

impl<'a> ByteAttributes<'a> {
    /// Reads a tag from `pos` on in XML mode.
    #[inline]
    pub const fn new(buf: &'a [u8], pos: usize) -> Self {
        let state = IterState::new(Inside::opened(pos), false);
        ByteAttributes { buf, state }
    }

    /// Reads a tag from `pos` on in HTML mode.
    #[inline]
    pub const fn html(buf: &'a [u8], pos: usize) -> Self {
        let state = IterState::new(Inside::opened(pos), true);
        ByteAttributes { buf, state }
    }
}

impl<'a, 't> ByteAttributes<'a, &'t mut Tables> {
    /// As [`new`](ByteAttributes::new), in memory of the caller's own.
    #[inline]
    pub fn with_tables(buf: &'a [u8], pos: usize, tables: &'t mut Tables) -> Self {
        tables.open(pos);
        let state = IterState::new(tables, false);
        ByteAttributes { buf, state }
    }

    /// As [`html`](ByteAttributes::html), in memory of the caller's own.
    #[inline]
    pub fn html_with_tables(buf: &'a [u8], pos: usize, tables: &'t mut Tables) -> Self {
        tables.open(pos);
        let state = IterState::new(tables, true);
        ByteAttributes { buf, state }
    }
}

impl<T: Kept> ByteAttributes<'_, T> {
    /// As [`Attributes::with_checks`].
    pub fn with_checks(&mut self, val: bool) -> &mut Self {
        self.state.with_checks(&mut { self.buf }, val);
        self
    }

    /// As [`Attributes::has_nil`].
    pub fn has_nil<M: Holder>(&mut self, resolver: &NamespaceResolver<M>) -> bool {
        self.state.has_nil(self.buf, resolver.memory())
    }
}

impl<'a, T: Kept> Iterator for ByteAttributes<'a, T> {
    type Item = Result<Attr<&'a [u8]>, AttrError>;

    /// # Panics
    ///
    /// Where the static library is not one for [this crate](crate#panics).
    #[inline]
    fn next(&mut self) -> Option<Self::Item> {
        let answer = self.state.next(&mut { self.buf })?;
        Some(answer.map(|attr| attr.map(|range| &self.buf[range])))
    }
}

impl<T: Kept> FusedIterator for ByteAttributes<'_, T> {}

impl Default for Tables {
    fn default() -> Self {
        Tables::new()
    }
}

/// How far a tag was read, in words.
struct Shown<'t>(&'t Ahead);

impl Debug for Shown<'_> {
    fn fmt(&self, f: &mut Formatter) -> fmt::Result {
        let [kind, position, recorded, _] = self.0.state();
        let place = match kind {
            0 => "done",
            1 => "next",
            2 => "skip value",
            _ => "skip from `=`",
        };
        f.debug_struct("Read")
            .field("place", &format_args!("{place}({position})"))
            .field("recorded", &recorded)
            .field("ahead", &self.0.filled())
            .finish()
    }
}

impl Debug for Tables {
    fn fmt(&self, f: &mut Formatter) -> fmt::Result {
        Shown(&self.ahead).fmt(f)
    }
}

impl Debug for Inside {
    fn fmt(&self, f: &mut Formatter) -> fmt::Result {
        Shown(&self.ahead).fmt(f)
    }
}
