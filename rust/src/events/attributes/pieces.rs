//! The attributes of a tag that arrives in pieces.

use super::{
    Attr, AttrError, AttrResult, Attribute, Inside, IterState, Kept, QName, Shown, Tables,
};
use crate::ffi::{Arrival, LEND_MORE, Text};
use crate::library::HOLD;
use alloc::borrow::Cow;
use alloc::vec::Vec;
use core::error::Error;
use core::fmt::{self, Debug, Display, Formatter};
use core::ops::Range;

/// What the bytes of a tag are held in: memory that grows, or lent bytes. No other type has it.
pub trait Held: Text {}

impl Held for Vec<u8> {}
impl Held for &mut [u8] {}

/// Why a piece is not taken, or a finish. The reader is as it was.
#[derive(Clone, Copy, Debug, PartialEq, Eq)]
pub enum PieceError {
    /// With the piece more than [`Pieces::MOST`] bytes would be held.
    TooLong {
        /// So many bytes are held.
        held: usize,
        /// So many has the piece.
        piece: usize,
    },
    /// The finish has come: no piece may follow, an empty one neither, and no other finish.
    Finished,
    /// The text that is lent is too short.
    LentTextFull {
        /// So many bytes would be held.
        wanted: usize,
        /// So many are lent.
        given: usize,
    },
}

impl Display for PieceError {
    fn fmt(&self, f: &mut Formatter) -> fmt::Result {
        match self {
            Self::TooLong { held, piece } => write!(
                f,
                "a tag of more than {HOLD} bytes: {held} are held, and the next piece has {piece}"
            ),
            Self::Finished => write!(f, "the tag was finished before"),
            Self::LentTextFull { wanted, given } => write!(
                f,
                "{wanted} bytes of text are needed for the tag, and {given} are lent"
            ),
        }
    }
}

impl Error for PieceError {}

/// The attributes of a tag that arrives in pieces, cut wherever that may be.
///
/// [`piece`](Self::piece) takes the next bytes, [`finish`](Self::finish) says that there are no more, and
/// [`next`](Self::next) gives the answers that are there. They are those of [`Attributes`](super::Attributes) on the whole
/// tag, in the same order, however it is cut; each is there with the piece that holds the last byte which its rule looks
/// at: an attribute in quotes with the closing one.
///
/// ```
/// use mezzulidda::events::attributes::Pieces;
///
/// let mut tag = Pieces::new(5);
/// let mut read = Vec::new();
/// for piece in ["chunk id='c-", "17' off", "set='40", "96'"] {
///     tag.piece(piece.as_bytes())?;
///     while let Some(attribute) = tag.next() {
///         read.push(attribute?.value.into_owned());
///     }
///     read.push("more".to_string());
/// }
/// tag.finish()?;
/// assert_eq!(tag.next(), None);
/// assert_eq!(read, ["more", "c-17", "more", "more", "4096", "more"]);
/// # Ok::<(), Box<dyn std::error::Error>>(())
/// ```
///
/// What an answer costs does not turn on how often it was asked for: a call that finds nothing does not look at the bytes
/// again. Where answers are taken as soon as they are there, each costs a look at all keys that are recorded, so that a tag
/// of many attributes in short pieces takes time by the square of their number; where many are there at once, they share it.
///
/// The bytes are held in memory that grows with them, 256 at first and 65,536 at most, and with them the places for more than
/// 32 keys; all of it can be lent instead ([`with_tables`](Self::with_tables)).
#[derive(Clone)]
pub struct Pieces<T = Inside, B = Vec<u8>> {
    text: B,
    arrival: Arrival,
    state: IterState<T>,
}

impl Pieces {
    /// So many bytes of a tag can be held, in memory that is lent or not.
    pub const MOST: usize = HOLD;

    /// Reads a tag from `pos` on in XML mode, which counts from the first byte of the first piece. Nothing is allocated
    /// before that.
    #[inline]
    pub const fn new(pos: usize) -> Self {
        Pieces {
            text: Vec::new(),
            arrival: Arrival::opened(pos),
            state: IterState::new(Inside::opened(pos), false),
        }
    }

    /// The same in HTML mode: values may lack quotes, and keys a value.
    ///
    /// ```
    /// use mezzulidda::events::attributes::{Attr, Pieces};
    ///
    /// let mut tag = Pieces::html(5);
    /// tag.piece(b"chunk sealed off")?;
    /// assert_eq!(tag.next_bytes(), Some(Ok(Attr::Empty(&b"sealed"[..]))));
    /// // the value may go on
    /// tag.piece(b"set=4096")?;
    /// assert_eq!(tag.next_bytes(), None);
    /// tag.finish()?;
    /// assert_eq!(tag.next().unwrap()?.value, "4096");
    /// # Ok::<(), Box<dyn std::error::Error>>(())
    /// ```
    #[inline]
    pub const fn html(pos: usize) -> Self {
        Pieces {
            text: Vec::new(),
            arrival: Arrival::opened(pos),
            state: IterState::new(Inside::opened(pos), true),
        }
    }
}

impl<'t> Pieces<&'t mut Tables, &'t mut [u8]> {
    /// As [`new`](Pieces::new), in memory of the caller's own: nothing is allocated. The text is as long as the longest tag
    /// that is to be read; what is lent beyond [`MOST`](Pieces::MOST) bytes is not used. What stands there, and what an
    /// earlier tag left, is of no effect.
    ///
    /// ```
    /// use mezzulidda::events::attributes::{PieceError, Pieces, Tables};
    ///
    /// let (mut tables, mut text) = (Tables::new(), [0; 20]);
    /// let mut tag = Pieces::with_tables(5, &mut tables, &mut text);
    /// tag.piece(b"chunk id='c-17' ")?;
    /// assert_eq!(tag.next().unwrap().unwrap().value, "c-17");
    /// let full = PieceError::LentTextFull { wanted: 25, given: 20 };
    /// assert_eq!(tag.piece(b"offset='0"), Err(full));
    /// # Ok::<(), PieceError>(())
    /// ```
    #[inline]
    pub fn with_tables(pos: usize, tables: &'t mut Tables, text: &'t mut [u8]) -> Self {
        Self::lent(pos, tables, text, false)
    }

    /// As [`html`](Pieces::html), in memory of the caller's own.
    #[inline]
    pub fn html_with_tables(pos: usize, tables: &'t mut Tables, text: &'t mut [u8]) -> Self {
        Self::lent(pos, tables, text, true)
    }

    #[inline]
    fn lent(pos: usize, tables: &'t mut Tables, text: &'t mut [u8], html: bool) -> Self {
        tables.open(pos);
        let room = HOLD.min(text.len());
        Pieces {
            text: &mut text[..room],
            arrival: Arrival::opened(pos),
            state: IterState::new(tables, html),
        }
    }
}

impl<T: Kept, B: Held> Pieces<T, B> {
    /// Whether keys are recorded and a second one of the same name is refused, as in
    /// [`Attributes::with_checks`](super::Attributes::with_checks).
    pub fn with_checks(&mut self, val: bool) -> &mut Self {
        if val != self.state.check_duplicates {
            // an answer may be there now that was not, and where reading goes back the phase is of another place
            self.arrival.forget();
            let mut tag = self.arrival.tag(self.text.bytes());
            self.state.with_checks(&mut tag, val);
            self.state.ended &= self.arrival.is_finished();
        }
        self
    }

    /// Takes the next piece of the tag, of any length, 0 too; it may end inside a character. A piece that is refused leaves
    /// everything as it was.
    ///
    /// ```
    /// use mezzulidda::events::attributes::{PieceError, Pieces};
    ///
    /// let mut tag = Pieces::new(0);
    /// tag.piece(&[b' '; 65_536])?;
    /// let long = PieceError::TooLong { held: 65_536, piece: 1 };
    /// assert_eq!(tag.piece(b"a"), Err(long));
    /// tag.finish()?;
    /// assert_eq!(tag.piece(b""), Err(PieceError::Finished));
    /// # Ok::<(), PieceError>(())
    /// ```
    #[inline]
    pub fn piece(&mut self, piece: &[u8]) -> Result<(), PieceError> {
        loop {
            match self.arrival.piece(self.text.lend(), piece) {
                0 => break,
                LEND_MORE => self.more_text(piece.len())?,
                31 => {
                    return Err(PieceError::TooLong {
                        held: self.arrival.held(),
                        piece: piece.len(),
                    });
                }
                32 => return Err(PieceError::Finished),
                other => unreachable!("the library has no answer {other} to a piece"),
            }
        }
        self.state.ended = !self.arrival.is_worth_asking(self.state.html);
        Ok(())
    }

    #[cold]
    fn more_text(&mut self, piece: usize) -> Result<(), PieceError> {
        let wanted = self.arrival.held() + piece;
        let given = self.text.bytes().len();
        match self.text.more(wanted) {
            true => Ok(()),
            false => Err(PieceError::LentTextFull { wanted, given }),
        }
    }

    /// No more pieces come. What is left of the answers is there now, and the end behind them.
    pub fn finish(&mut self) -> Result<(), PieceError> {
        match self.arrival.finish() {
            0 => {
                self.state.ended = false;
                Ok(())
            }
            _ => Err(PieceError::Finished),
        }
    }

    /// Whether the finish has come.
    #[inline]
    pub const fn is_finished(&self) -> bool {
        self.arrival.is_finished()
    }

    /// The bytes that have come so far: positions in refusals are those in them.
    #[inline]
    pub fn bytes(&self) -> &[u8] {
        &self.text.bytes()[..self.arrival.held()]
    }

    /// The next answer. `None` where none is there: that means *more* until the tag [is finished](Self::is_finished), and
    /// the end then.
    ///
    /// The attribute stands in the reader's own bytes, so that it can be kept until the next call; that is why this is no
    /// [`Iterator`], and is called in a `while let`. Key and value have to be text, or it is [`AttrError::NoText`].
    // as `Attributes::next`: into the caller's loop
    #[expect(
        clippy::should_implement_trait,
        reason = "an iterator can't lend what it holds"
    )]
    #[inline]
    pub fn next(&mut self) -> Option<Result<Attribute<'_>, AttrError>> {
        let answer = self.take()?;
        Some(answer.and_then(|attr| {
            let (key, value): (Range<usize>, Option<Range<usize>>) = attr.into();
            let text = |range| str::from_utf8(&self.text.bytes()[range]);
            let position = key.start;
            match (text(key), value.map_or(Ok(""), text)) {
                (Ok(key), Ok(value)) => Ok(Attribute {
                    key: QName(key),
                    value: Cow::Borrowed(value),
                }),
                _ => Err(AttrError::NoText(position)),
            }
        }))
    }

    /// The same on any bytes, as [`ByteAttributes`](super::ByteAttributes) has it.
    ///
    /// ```
    /// use mezzulidda::events::attributes::{Attr, AttrError, Pieces};
    ///
    /// let mut tag = Pieces::new(5);
    /// tag.piece(b"chunk id='\xff' id='\xff'")?;
    /// assert_eq!(tag.clone().next(), Some(Err(AttrError::NoText(6))));
    /// assert_eq!(tag.next_bytes(), Some(Ok(Attr::SingleQ(&b"id"[..], &b"\xff"[..]))));
    /// assert_eq!(tag.next_bytes(), Some(Err(AttrError::Duplicated(13, 6))));
    /// # Ok::<(), Box<dyn std::error::Error>>(())
    /// ```
    #[inline]
    pub fn next_bytes(&mut self) -> Option<Result<Attr<&[u8]>, AttrError>> {
        let answer = self.take()?;
        Some(answer.map(|attr| attr.map(|range| &self.text.bytes()[range])))
    }

    #[inline]
    fn take(&mut self) -> Option<AttrResult<Range<usize>>> {
        self.state.next(&mut self.arrival.tag(self.text.bytes()))
    }
}

impl<T: Kept, B: Held> Debug for Pieces<T, B> {
    fn fmt(&self, f: &mut Formatter) -> fmt::Result {
        f.debug_struct("Pieces")
            .field("held", &self.arrival.held())
            .field("finished", &self.is_finished())
            .field("html", &self.state.html)
            .field("checks", &self.state.check_duplicates)
            .field("read", &Shown(self.state.kept.ahead()))
            .finish()
    }
}
