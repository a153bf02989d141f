//! The memory of a resolver: owned and growing, or the caller's own, of any size.

use crate::LentError;
use crate::ffi::{self, Head, RECORDS, Record, TEXT};
use alloc::boxed::Box;
use alloc::vec;
use alloc::vec::Vec;
use core::fmt::{self, Debug, Display, Formatter};

/// The numbers of a record, and of a head.
const RECORD: usize = size_of::<Record>() / size_of::<usize>();
const HEAD: usize = size_of::<Head>() / size_of::<usize>();

/// How much a resolver's memory holds, or has to hold.
#[derive(Clone, Copy, Debug, PartialEq, Eq)]
pub struct Room {
    /// Bytes of text: the prefixes and namespaces of all bindings.
    pub text: usize,
    /// Bindings, the two built-in ones among them.
    pub bindings: usize,
}

impl Room {
    /// What a resolver needs that has no declarations.
    pub const LEAST: Self = Room {
        text: 73,
        bindings: 2,
    };
    /// More than this no resolver can use.
    pub const MOST: Self = Room {
        text: TEXT,
        bindings: RECORDS,
    };

    const fn holds(self, other: Self) -> bool {
        self.text >= other.text && self.bindings >= other.bindings
    }

    /// Whether this much is lent where another is wanted.
    const fn lent(self, wanted: Self) -> Result<(), LentError> {
        match self.holds(wanted) {
            true => Ok(()),
            false => Err(LentError::Room {
                wanted,
                given: self,
            }),
        }
    }
}

impl Display for Room {
    fn fmt(&self, f: &mut Formatter) -> fmt::Result {
        let Room { text, bindings } = self;
        write!(f, "{text} bytes of text and {bindings} bindings")
    }
}

/// Memory of a fixed size for a resolver, for a static or for the stack: so many bytes of text, and so many
/// bindings, the two built-in ones among them. Without numbers it is as large as can be used, 98,400 bytes: more
/// than a thread with a small stack can have there, and [`boxed`](Self::boxed) then has it on the heap.
///
/// A call on a resolver looks at all of its memory, so that a small one makes it fast.
///
/// ```
/// use mezzulidda::name::{Memory, NamespaceResolver};
///
/// let mut memory = Memory::<512, 16>::zeros();
/// let resolver = NamespaceResolver::new_in(&mut memory);
/// assert_eq!(resolver.level(), 0);
/// ```
///
/// Less than a resolver without declarations needs is refused when the program is compiled:
///
/// ```compile_fail
/// use mezzulidda::name::{Memory, NamespaceResolver};
///
/// let mut memory = Memory::<72, 2>::zeros();
/// let resolver = NamespaceResolver::new_in(&mut memory);
/// ```
pub struct Memory<
    const TEXT: usize = { Room::MOST.text },
    const BINDINGS: usize = { Room::MOST.bindings },
> {
    head: Head,
    records: [Record; BINDINGS],
    text: [u8; TEXT],
}

impl Memory {
    /// Memory of full size, with no resolver in it yet.
    #[inline]
    pub const fn new() -> Self {
        Self::zeros()
    }
}

impl<const TEXT: usize, const BINDINGS: usize> Memory<TEXT, BINDINGS> {
    const ROOM: Room = {
        let room = Room {
            text: TEXT,
            bindings: BINDINGS,
        };
        assert!(
            room.holds(Room::LEAST),
            "a resolver needs 73 bytes of text and two bindings"
        );
        assert!(
            Room::MOST.holds(room),
            "a resolver can't use more than 65,536 bytes of text and 1,026 bindings"
        );
        room
    };

    /// Memory with no resolver in it yet.
    #[inline]
    pub const fn zeros() -> Self {
        const { Self::ROOM };
        Memory {
            head: [0; HEAD],
            records: [[0; RECORD]; BINDINGS],
            text: [0; TEXT],
        }
    }

    /// The same on the heap, with nothing of it on the stack on the way there.
    ///
    /// ```
    /// use mezzulidda::name::{Memory, NamespaceResolver};
    ///
    /// let mut memory: Box<Memory> = Memory::boxed();
    /// let resolver = NamespaceResolver::new_in(&mut *memory);
    /// assert_eq!(resolver.level(), 0);
    /// ```
    pub fn boxed() -> Box<Self> {
        const { Self::ROOM };
        ffi::zeros()
    }
}

impl<const TEXT: usize, const BINDINGS: usize> Default for Memory<TEXT, BINDINGS> {
    fn default() -> Self {
        Memory::zeros()
    }
}

impl<const TEXT: usize, const BINDINGS: usize> Debug for Memory<TEXT, BINDINGS> {
    fn fmt(&self, f: &mut Formatter) -> fmt::Result {
        let [text, bindings, ..] = self.head;
        f.debug_struct("Memory")
            .field("room", &Self::ROOM)
            .field("used", &Room { text, bindings })
            .finish()
    }
}

/// Memory for a resolver that is the caller's own: a borrow of a [`Memory`], or of bytes.
pub struct Lent<'m> {
    pub(crate) head: &'m mut Head,
    pub(crate) records: &'m mut [usize],
    pub(crate) text: &'m mut [u8],
}

impl<'m> Lent<'m> {
    /// The fewest bytes that hold a resolver.
    pub const LEAST: usize = size_of::<Head>() + 2 * size_of::<Record>() + Room::LEAST.text;
    /// The most that one uses.
    pub const MOST: usize = size_of::<Head>() + RECORDS * size_of::<Record>() + TEXT;
    /// Their address is a multiple of this.
    pub const ALIGNMENT: usize = align_of::<usize>();

    /// For each record so many bytes, its text included: by this share both are full at the same size.
    const SHARE: usize = 95;

    /// Any number of bytes as memory for a resolver, a third of them for records and the rest for text; those
    /// beyond [`MOST`](Self::MOST) are not used. They are left as they are: whether there is a resolver in
    /// them is another question
    /// ([`NamespaceResolver::resume_in`](crate::name::NamespaceResolver::resume_in)).
    ///
    /// ```
    /// use mezzulidda::LentError;
    /// use mezzulidda::name::{Lent, NamespaceResolver};
    ///
    /// #[repr(align(8))]
    /// struct Page([u8; 1024]);
    ///
    /// let mut page = Page([0; 1024]);
    /// let resolver = NamespaceResolver::new_in(Lent::from_bytes(&mut page.0)?);
    /// assert_eq!(resolver.level(), 0);
    /// # Ok::<(), LentError>(())
    /// ```
    #[expect(clippy::missing_panics_doc, reason = "length and address are tested")]
    pub fn from_bytes(bytes: &'m mut [u8]) -> Result<Self, LentError> {
        let given = bytes.len();
        let Some(more) = given.checked_sub(Self::LEAST) else {
            return Err(LentError::size(Self::LEAST, given));
        };
        LentError::of_address(bytes.as_ptr().addr(), Self::ALIGNMENT)?;
        let rows = RECORDS.min(2 + more / Self::SHARE);
        let (numbers, text) = bytes.split_at_mut(size_of::<Head>() + rows * size_of::<Record>());
        let room = TEXT.min(text.len());
        let numbers = ffi::numbers_in(numbers).expect("the address was tested");
        let (head, records) = numbers.split_first_chunk_mut().expect("a head comes first");
        Ok(Lent {
            head,
            records,
            text: &mut text[..room],
        })
    }

    /// How much it holds.
    pub const fn room(&self) -> Room {
        self.view().room()
    }

    pub(crate) const fn view(&self) -> View<'_> {
        View {
            head: self.head,
            records: self.records,
            text: self.text,
        }
    }

    /// Becomes the same as another, if there is room for that.
    pub(crate) fn copy(&mut self, other: View) -> Result<(), LentError> {
        let used = other.used();
        self.room().lent(used)?;
        *self.head = *other.head;
        let (records, unused) = self.records.split_at_mut(RECORD * used.bindings);
        records.copy_from_slice(&other.records[..records.len()]);
        unused.fill(0);
        let (text, unused) = self.text.split_at_mut(used.text);
        text.copy_from_slice(&other.text[..used.text]);
        unused.fill(0);
        Ok(())
    }
}

impl<'m, const TEXT: usize, const BINDINGS: usize> From<&'m mut Memory<TEXT, BINDINGS>>
    for Lent<'m>
{
    fn from(memory: &'m mut Memory<TEXT, BINDINGS>) -> Self {
        Lent {
            head: &mut memory.head,
            records: memory.records.as_flattened_mut(),
            text: &mut memory.text,
        }
    }
}

impl Debug for Lent<'_> {
    fn fmt(&self, f: &mut Formatter) -> fmt::Result {
        f.debug_struct("Lent").field("room", &self.room()).finish()
    }
}

/// Memory for a resolver on the heap: 1 KB at first, and twice as much whenever that does not do, up to 96 KB.
#[derive(Clone)]
pub struct Owned {
    pub(crate) head: Head,
    records: Vec<usize>,
    text: Vec<u8>,
}

impl Owned {
    const FIRST: Room = Room {
        text: 512,
        bindings: 16,
    };

    /// Memory with no resolver in it yet.
    pub(crate) fn new() -> Self {
        Owned {
            head: [0; HEAD],
            records: vec![0; RECORD * Self::FIRST.bindings],
            text: vec![0; Self::FIRST.text],
        }
    }

    /// Twice as much.
    #[cold]
    fn grow(&mut self) {
        let Room { text, bindings } = self.view().room();
        self.text.resize(TEXT.min(2 * text), 0);
        let bindings = RECORDS.min(2 * bindings);
        self.records.resize(RECORD * bindings, 0);
    }

    /// The same as what stands in other memory.
    pub(crate) fn of(other: View) -> Self {
        let mut owned = Owned::new();
        while !owned.view().room().holds(other.used()) {
            owned.grow();
        }
        let copied = owned.lend().copy(other);
        copied.expect("it grew until there was room");
        owned
    }

    pub(crate) const fn view(&self) -> View<'_> {
        View {
            head: &self.head,
            records: self.records.as_slice(),
            text: self.text.as_slice(),
        }
    }
}

impl Debug for Owned {
    fn fmt(&self, f: &mut Formatter) -> fmt::Result {
        let room = self.view().room();
        f.debug_struct("Owned").field("room", &room).finish()
    }
}

/// What a resolver's memory is held by: its own, or a borrow of it.
///
/// No other type has it, so that nothing but the library writes a resolver's memory.
pub trait Holder: Holds {}

impl Holder for Owned {}
impl Holder for Lent<'_> {}

/// How a resolver gets at its memory. The module is private, and so nobody else can have it.
pub trait Holds {
    fn view(&self) -> View<'_>;

    fn lend(&mut self) -> Lent<'_>;

    /// Makes more of it, if that can be done.
    fn more(&mut self) -> bool;
}

impl Holds for Owned {
    #[inline]
    fn view(&self) -> View<'_> {
        self.view()
    }

    #[inline]
    fn lend(&mut self) -> Lent<'_> {
        Lent {
            head: &mut self.head,
            records: &mut self.records,
            text: &mut self.text,
        }
    }

    fn more(&mut self) -> bool {
        let can = self.view().room() != Room::MOST;
        if can {
            self.grow();
        }
        can
    }
}

impl Holds for Lent<'_> {
    #[inline]
    fn view(&self) -> View<'_> {
        self.view()
    }

    #[inline]
    fn lend(&mut self) -> Lent<'_> {
        Lent {
            head: self.head,
            records: self.records,
            text: self.text,
        }
    }

    fn more(&mut self) -> bool {
        false
    }
}

/// A resolver's memory to be looked at.
#[derive(Clone, Copy)]
pub struct View<'m> {
    pub(crate) head: &'m Head,
    pub(crate) records: &'m [usize],
    pub(crate) text: &'m [u8],
}

impl<'m> View<'m> {
    /// How much it holds.
    pub(crate) const fn room(self) -> Room {
        Room {
            text: self.text.len(),
            bindings: self.records.len() / RECORD,
        }
    }

    /// How much of that is in use.
    pub(crate) const fn used(self) -> Room {
        Room {
            text: self.head[0],
            bindings: self.head[1],
        }
    }

    /// Whether what is in use, if that is not more than any resolver has, is lent.
    pub(crate) const fn is_lent(self) -> Result<(), LentError> {
        let used = self.used();
        match Room::MOST.holds(used) {
            true => self.room().lent(used),
            false => Ok(()),
        }
    }

    /// A part of the text of the bindings.
    #[inline]
    pub(crate) fn text(self, from: usize, to: usize) -> &'m str {
        // what was added is text, cut beside `=`, quotes and whitespace, and what was resumed was looked at
        str::from_utf8(&self.text[from..to]).expect("prefixes and namespaces are text")
    }

    /// The first record behind so many whose prefix or namespace is no text, where there is a resolver in it.
    pub(crate) fn without_text(self, behind: usize) -> Option<usize> {
        let records = self.records.chunks_exact(RECORD).take(self.used().bindings);
        let found = records.skip(behind).position(|record| {
            let (prefix, rest) = self.text[record[0]..].split_at(record[1]);
            let value = &rest[..record[2]];
            str::from_utf8(prefix).is_err() || str::from_utf8(value).is_err()
        });
        found.map(|index| behind + index)
    }

    pub(crate) const fn level(self) -> u16 {
        // the library keeps it below 65,536
        self.head[2] as u16
    }

    pub(crate) const fn limit(self) -> usize {
        self.head[3]
    }
}

impl Debug for View<'_> {
    fn fmt(&self, f: &mut Formatter) -> fmt::Result {
        f.debug_struct("View").field("used", &self.used()).finish()
    }
}
