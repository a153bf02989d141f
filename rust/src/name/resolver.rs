//! The scopes: which declarations hold, tag by tag.

use super::{
    LocalName, Namespace, NamespaceError, Prefix, PrefixDeclaration, QName, ResolveResult,
};
use crate::LentError;
use crate::events::BytesStart;
use crate::ffi::{self, Answers, Detail, LEND_MORE, Listed, NAMES};
use crate::memory::{Holds, View};
use alloc::string::{String, ToString};
use alloc::vec::Vec;
use core::fmt::{self, Debug, Formatter};
use core::iter::FusedIterator;
use core::ops::{Index, Range};

pub use crate::memory::{Holder, Lent, Memory, Owned, Room};

/// How many bindings a resolver accepts unless told otherwise, the two built-in ones not counted.
pub const DEFAULT_MAX_NAMESPACE_BINDINGS: usize = 128;

/// The bindings that hold at a place of a document.
///
/// Its memory is its own and grows with what it holds, up to 1,024 bindings and 65,536 bytes of text; of the
/// text the built-in bindings have 73.
///
/// ```
/// use mezzulidda::events::BytesStart;
/// use mezzulidda::name::{Namespace, NamespaceResolver, QName, ResolveResult};
///
/// let mut resolver = NamespaceResolver::default();
/// resolver.push(&BytesStart::from_content("volume xmlns='urn:a' xmlns:v='urn:b'", 6)).unwrap();
/// assert_eq!(resolver.resolve_element(QName("chunk")).0, ResolveResult::Bound(Namespace("urn:a")));
/// assert_eq!(resolver.resolve_attribute(QName("v:id")).0, ResolveResult::Bound(Namespace("urn:b")));
/// resolver.pop();
/// assert_eq!(resolver.resolve_element(QName("chunk")).0, ResolveResult::Unbound);
/// ```
///
/// It can be lent instead, in any size, from wherever the caller has it. Nothing is allocated then, and a
/// declaration that has no room is refused:
///
/// ```
/// use mezzulidda::events::BytesStart;
/// use mezzulidda::name::{Memory, NamespaceError, NamespaceResolver, Room};
/// use std::sync::Mutex;
///
/// // on the stack: 100 bytes of text, 8 bindings
/// let mut memory = Memory::<100, 8>::zeros();
/// let mut resolver = NamespaceResolver::new_in(&mut memory);
/// let tag = BytesStart::from_content("volume xmlns:v='urn:example:a-long-namespace'", 6);
/// let refused = NamespaceError::LentMemoryFull {
///     wanted: Room { text: 102, bindings: 3 },
///     given: Room { text: 100, bindings: 8 },
/// };
/// assert_eq!(resolver.push(&tag), Err(refused));
/// assert_eq!(resolver.level(), 0);
///
/// // in a static, of full size
/// static MEMORY: Mutex<Memory> = Mutex::new(Memory::new());
/// let mut memory = MEMORY.lock().unwrap();
/// let mut resolver = NamespaceResolver::new_in(&mut *memory);
/// assert_eq!(resolver.push(&tag), Ok(()));
/// ```
pub struct NamespaceResolver<M = Owned> {
    memory: M,
}

/// An answer that the library has for memory that is no resolver's (20), or for lengths that aren't
/// right (99). Only the library writes the memory.
#[cold]
fn impossible(answer: usize) -> ! {
    unreachable!("the library answered {answer} on memory of its own")
}

// What quick-xml has as `const`: no trait can be asked there, so each holder has its own.
macro_rules! read_by {
    ($($holder:ty),*) => { $(
        impl NamespaceResolver<$holder> {
            /// How many scopes were begun and not ended.
            pub const fn level(&self) -> u16 {
                self.memory.view().level()
            }

            /// How many bindings are accepted, the two built-in ones not counted.
            #[inline]
            pub const fn max_namespace_bindings(&self) -> usize {
                self.memory.view().limit()
            }

            /// The bindings that hold, without the built-in ones, in the order in which they were
            /// declared.
            #[inline]
            pub const fn bindings(&self) -> NamespaceBindingsIter<'_> {
                NamespaceBindingsIter {
                    memory: self.memory.view(),
                    place: 2,
                }
            }

            /// The bindings that were declared at a level, also where a later one hides them. The
            /// built-in ones are at level 0.
            pub const fn bindings_of(&self, level: u16) -> NamespaceBindingsOfLevelIter<'_> {
                NamespaceBindingsOfLevelIter {
                    memory: self.memory.view(),
                    place: 0,
                    level,
                }
            }
        }
    )* };
}
read_by!(Owned, Lent<'_>);

impl<'m> NamespaceResolver<Lent<'m>> {
    /// A resolver with no declarations, in memory that is given. What the memory held is forgotten.
    ///
    /// # Panics
    ///
    /// Where the static library is not one for [this crate](crate#panics).
    pub fn new_in(memory: impl Into<Lent<'m>>) -> Self {
        let mut memory = memory.into();
        memory.fresh();
        NamespaceResolver { memory }
    }

    /// The resolver that an earlier one left in this memory, as it was. The memory may hold anything: it
    /// is looked at first, by the same test that every call makes, and left as it is.
    ///
    /// ```
    /// use mezzulidda::LentError;
    /// use mezzulidda::events::BytesStart;
    /// use mezzulidda::name::{Memory, NamespaceResolver};
    ///
    /// let mut memory = Memory::new();
    /// assert_eq!(NamespaceResolver::resume_in(&mut memory).err(), Some(LentError::NoResolver));
    ///
    /// let mut resolver = NamespaceResolver::new_in(&mut memory);
    /// resolver.push(&BytesStart::from_content("volume xmlns='urn:a'", 6)).unwrap();
    /// let resolver = NamespaceResolver::resume_in(&mut memory)?;
    /// assert_eq!(resolver.level(), 1);
    /// # Ok::<(), LentError>(())
    /// ```
    ///
    /// # Panics
    ///
    /// Where the static library is not one for [this crate](crate#panics).
    pub fn resume_in(memory: impl Into<Lent<'m>>) -> Result<Self, LentError> {
        let memory = memory.into();
        let held = memory.view();
        held.is_lent()?;
        if !held.is_resolver() {
            return Err(LentError::NoResolver);
        }
        // rule 20 is about bytes, and what is handed out here is text
        match held.without_text(0) {
            Some(binding) => Err(LentError::NoText(binding)),
            None => Ok(NamespaceResolver { memory }),
        }
    }

    /// The memory, for another resolver.
    pub fn into_memory(self) -> Lent<'m> {
        self.memory
    }
}

impl<M: Holder> NamespaceResolver<M> {
    /// The same resolver in memory that is given, if there is room for it.
    pub fn copy_in<'n>(
        &self,
        memory: impl Into<Lent<'n>>,
    ) -> Result<NamespaceResolver<Lent<'n>>, LentError> {
        let mut memory = memory.into();
        memory.copy(self.memory())?;
        Ok(NamespaceResolver { memory })
    }

    /// The same resolver in memory of its own.
    pub fn copied(&self) -> NamespaceResolver {
        let memory = Owned::of(self.memory());
        NamespaceResolver { memory }
    }

    /// A call that may need more memory: where there can be more it is made again.
    #[inline]
    fn changed(
        &mut self,
        call: impl Fn(&mut Lent) -> (usize, Detail),
    ) -> Result<(usize, Detail), NamespaceError> {
        loop {
            let told = call(&mut self.memory.lend());
            if told.0 != LEND_MORE {
                return Ok(told);
            }
            if !self.memory.more() {
                return Err(self.too_small(call));
            }
        }
    }

    /// What is said of a call for which the memory is too small: a copy that has more tells what it needs.
    #[cold]
    fn too_small(&self, call: impl Fn(&mut Lent) -> (usize, Detail)) -> NamespaceError {
        let mut copy = self.copied();
        match copy.changed(call) {
            Ok(_) => NamespaceError::LentMemoryFull {
                wanted: copy.memory().used(),
                given: self.memory().room(),
            },
            Err(_) => impossible(LEND_MORE),
        }
    }

    /// Binds a prefix, or the default, at the present level.
    ///
    /// A refusal changes nothing. `xml` may be bound to its own namespace, which adds nothing.
    pub fn add(
        &mut self,
        prefix: PrefixDeclaration,
        namespace: Namespace,
    ) -> Result<(), NamespaceError> {
        let prefix = match prefix {
            PrefixDeclaration::Default => None,
            PrefixDeclaration::Named(prefix) => Some(prefix.as_bytes()),
        };
        let value = namespace.0.as_bytes();
        let (answer, detail) = self.changed(|memory| memory.add(prefix, value))?;
        refusal(answer, detail, value, prefix.unwrap_or_default())
    }

    /// Begins a scope: one level more, and the declarations of a tag.
    ///
    /// The tag is read in XML mode up to the first thing that is wrong in it. Where a declaration is
    /// refused those before it stay, and so does the level. Lent memory that is too small is no such refusal:
    /// it changes nothing.
    pub fn push(&mut self, start: &BytesStart) -> Result<(), NamespaceError> {
        let tag = start.as_bytes();
        let (answer, detail) = self.changed(|memory| memory.push(tag, start.name_len()))?;
        refusal(answer, detail, tag, tag)
    }

    /// As [`push`](Self::push), of a tag that need not be text, whose attributes begin at `pos`.
    ///
    /// A resolver holds text. Where a declaration that it would hold is not UTF-8, or what a refusal says of
    /// one, that is refused, and nothing is changed: not the level either.
    ///
    /// ```
    /// use mezzulidda::name::{Namespace, NamespaceError, NamespaceResolver};
    ///
    /// let mut resolver = NamespaceResolver::default();
    /// resolver.push_bytes(b"volume xmlns:v='urn:b' label='\xff'", 6)?;
    /// let (namespace, local) = resolver.resolve_bytes(b"v:\xff", true);
    /// assert_eq!((namespace, local), (Ok(Some(Namespace("urn:b"))), &b"\xff"[..]));
    ///
    /// let refused = resolver.push_bytes(b"chunk xmlns:v='\xff'", 5);
    /// assert_eq!((refused, resolver.level()), (Err(NamespaceError::NoText), 1));
    /// # Ok::<(), NamespaceError>(())
    /// ```
    pub fn push_bytes(&mut self, tag: &[u8], pos: usize) -> Result<(), NamespaceError> {
        let before = self.memory().used().bindings;
        let (answer, detail) = self.changed(|memory| memory.push(tag, pos))?;
        let told = refusal(answer, detail, tag, tag);
        if told == Err(NamespaceError::NoText) || self.memory().without_text(before).is_some() {
            // all that a push leaves goes with its level
            self.pop();
            return Err(NamespaceError::NoText);
        }
        told
    }

    /// Ends a scope: one level less, and without the bindings that were added at it. At level 0 there is
    /// none to end.
    #[inline]
    pub fn pop(&mut self) {
        match self.memory.lend().pop() {
            0 => (),
            answer => impossible(answer),
        }
    }

    /// Goes to a level. Bindings of levels above it are dropped.
    pub fn set_level(&mut self, level: u16) {
        match self.memory.lend().set_level(level) {
            0 => (),
            answer => impossible(answer),
        }
    }

    /// Sets how many bindings are accepted. None is dropped; more than 1,024 don't fit, whatever is set.
    #[inline]
    pub fn set_max_namespace_bindings(&mut self, limit: usize) -> &mut Self {
        self.memory.lend().head[3] = limit;
        self
    }

    /// How much the memory holds at present.
    pub fn room(&self) -> Room {
        self.memory().room()
    }

    /// The namespace of a name, and the name without its prefix. The default namespace holds for names of
    /// elements and not for those of attributes: `use_default` says which it is.
    #[inline]
    pub fn resolve<'n>(
        &self,
        name: QName<'n>,
        use_default: bool,
    ) -> (ResolveResult<'_>, LocalName<'n>) {
        (self.resolved(name.0, use_default), name.local_name())
    }

    /// The namespace of an element's name.
    #[inline]
    pub fn resolve_element<'n>(&self, name: QName<'n>) -> (ResolveResult<'_>, LocalName<'n>) {
        self.resolve(name, true)
    }

    /// The namespace of an attribute's name.
    #[inline]
    pub fn resolve_attribute<'n>(&self, name: QName<'n>) -> (ResolveResult<'_>, LocalName<'n>) {
        self.resolve(name, false)
    }

    /// The namespace that a prefix is bound to or, where there is no prefix, the default one if that is
    /// wanted.
    pub fn resolve_prefix(&self, prefix: Option<Prefix>, use_default: bool) -> ResolveResult<'_> {
        // a prefix with its colon is a name of that prefix, and the empty name is one without any
        self.resolved(prefix.map_or("", |prefix| prefix.with_colon), use_default)
    }

    /// As [`resolve`](Self::resolve), of a name that need not be text: the namespace if it is in one, or its
    /// prefix where nothing binds that; and the name without its prefix.
    ///
    /// ```
    /// use mezzulidda::name::NamespaceResolver;
    ///
    /// let resolver = NamespaceResolver::default();
    /// assert_eq!(resolver.resolve_bytes(b"\xff", true), (Ok(None), &b"\xff"[..]));
    /// assert_eq!(resolver.resolve_bytes(b"\xff:id", true), (Err(&b"\xff"[..]), &b"id"[..]));
    /// ```
    pub fn resolve_bytes<'n>(
        &self,
        name: &'n [u8],
        use_default: bool,
    ) -> (Result<Option<Namespace<'_>>, &'n [u8]>, &'n [u8]) {
        let memory = self.memory();
        let local = name.get(ffi::split(name) + 1..).unwrap_or(name);
        (
            found(memory, name, memory.resolve(name, use_default)),
            local,
        )
    }

    /// What the library reads it in.
    #[inline]
    pub(crate) fn memory(&self) -> View<'_> {
        self.memory.view()
    }

    #[inline]
    fn resolved(&self, name: &str, use_default: bool) -> ResolveResult<'_> {
        let memory = self.memory();
        resolved(memory, name, memory.resolve(name.as_bytes(), use_default))
    }

    /// The namespace of a tag's own name, and then those of names that stand in the tag, as the keys of
    /// its attributes do: each is what [`resolve_element`](Self::resolve_element) answers for the first
    /// and [`resolve_attribute`](Self::resolve_attribute) for the others.
    ///
    /// The memory is tested once for 16 names where each of these tests it anew.
    ///
    /// ```
    /// use mezzulidda::events::BytesStart;
    /// use mezzulidda::name::{Namespace, NamespaceResolver, ResolveResult};
    ///
    /// let tag = BytesStart::from_content("v:chunk xmlns:v='urn:b' v:id='c-17' id='17'", 7);
    /// let mut resolver = NamespaceResolver::default();
    /// resolver.push(&tag).unwrap();
    /// let keys: Vec<_> = tag.attributes().skip(1).map(|a| a.unwrap().key).collect();
    /// let names: Vec<_> = resolver.resolve_all(&tag, &keys).map(|(namespace, _)| namespace).collect();
    /// let bound = ResolveResult::Bound(Namespace("urn:b"));
    /// assert_eq!(names, [bound.clone(), bound, ResolveResult::Unbound]);
    /// ```
    ///
    /// # Panics
    ///
    /// Where [`BytesStart::name`] does.
    pub fn resolve_all<'r, 'n>(
        &'r self,
        start: &'n BytesStart,
        keys: &'n [QName<'n>],
    ) -> ResolvedNames<'r, 'n> {
        ResolvedNames {
            memory: self.memory(),
            tag: start,
            own: Some(start.name()),
            keys,
            answers: Answers::new(),
            taken: 0,
            filled: 0,
        }
    }
}

/// What the library answers for a name: its namespace, if it is in one, or the prefix that nothing binds.
#[inline]
fn found<'r, 'n, N>(
    memory: View<'r>,
    name: &'n N,
    (answer, [from, to]): (usize, Detail),
) -> Result<Option<Namespace<'r>>, &'n N>
where
    N: Index<Range<usize>, Output = N> + ?Sized,
{
    match answer {
        0 => Ok(None),
        1 => Ok(Some(Namespace(memory.text(from, to)))),
        2 => Err(&name[from..to]),
        _ => impossible(answer),
    }
}

/// The same of a text, as quick-xml has it.
#[inline]
fn resolved<'r>(memory: View<'r>, name: &str, answer: (usize, Detail)) -> ResolveResult<'r> {
    match found(memory, name, answer) {
        Ok(None) => ResolveResult::Unbound,
        Ok(Some(namespace)) => ResolveResult::Bound(namespace),
        Err(prefix) => unknown(prefix),
    }
}

#[cold]
fn unknown<'r>(prefix: &str) -> ResolveResult<'r> {
    ResolveResult::Unknown(prefix.to_string())
}

/// What a listing shows of one record.
fn shown<'a>(
    memory: View<'a>,
    kind: usize,
    detail: Listed,
) -> (PrefixDeclaration<'a>, Namespace<'a>) {
    let [prefix_from, prefix_to, from, to, _] = detail;
    let prefix = match kind {
        1 => PrefixDeclaration::Default,
        2 => PrefixDeclaration::Named(memory.text(prefix_from, prefix_to)),
        _ => impossible(kind),
    };
    (prefix, Namespace(memory.text(from, to)))
}

/// The library's answer to a declaration, with what its bounds are of.
fn refusal(
    answer: usize,
    [from, to]: Detail,
    namespace: &[u8],
    prefix: &[u8],
) -> Result<(), NamespaceError> {
    let text = |whole: &[u8]| {
        String::from_utf8(whole[from..to].to_vec()).map_err(|_| NamespaceError::NoText)
    };
    Err(match answer {
        0 => return Ok(()),
        12 => NamespaceError::InvalidXmlPrefixBind(text(namespace)?),
        13 => NamespaceError::InvalidXmlnsPrefixBind(text(namespace)?),
        14 => NamespaceError::InvalidPrefixForXml(text(prefix)?),
        15 => NamespaceError::InvalidPrefixForXmlns(text(prefix)?),
        16 => NamespaceError::TooManyBindings(from),
        17 => NamespaceError::TooDeeplyNested(from),
        18 => NamespaceError::BindingTableFull,
        19 => NamespaceError::TextFull,
        20 => NamespaceError::BadResolver,
        _ => impossible(answer),
    })
}

impl Default for NamespaceResolver {
    /// A resolver with no declarations, in memory of its own.
    ///
    /// # Panics
    ///
    /// Where the static library is not one for [this crate](crate#panics).
    fn default() -> Self {
        let mut memory = Owned::new();
        memory.lend().fresh();
        NamespaceResolver { memory }
    }
}

impl Clone for NamespaceResolver {
    fn clone(&self) -> Self {
        let memory = self.memory.clone();
        NamespaceResolver { memory }
    }
}

impl<M: Holder> Debug for NamespaceResolver<M> {
    fn fmt(&self, f: &mut Formatter) -> fmt::Result {
        let memory = self.memory();
        let bindings: Vec<_> = NamespaceBindingsIter { memory, place: 2 }.collect();
        f.debug_struct("NamespaceResolver")
            .field("level", &memory.level())
            .field("max_namespace_bindings", &memory.limit())
            .field("bindings", &bindings)
            .finish()
    }
}

/// The namespaces of a tag's names: see [`NamespaceResolver::resolve_all`].
#[derive(Clone)]
pub struct ResolvedNames<'r, 'n> {
    memory: View<'r>,
    tag: &'n str,
    /// The tag's own name until it was handed out, and the names after it that were not.
    own: Option<QName<'n>>,
    keys: &'n [QName<'n>],
    /// Answers for the first of them, and how many of these were handed out.
    answers: Answers,
    taken: usize,
    filled: usize,
}

impl<'n> ResolvedNames<'_, 'n> {
    /// Asks for the names that follow, as far as they stand in the tag.
    fn fill(&mut self) {
        let mut bounds = [[0; NAMES]; 2];
        let names = self.own.iter().chain(self.keys).take(NAMES);
        let inside = names.map_while(|name| place_in(self.tag, name.0));
        let mut count = 0;
        for (from, to) in inside {
            bounds[0][count] = from;
            bounds[1][count] = to;
            count += 1;
        }
        let bounds = bounds.each_ref().map(|numbers| &numbers[..count]);
        let elements = usize::from(self.own.is_some());
        match self
            .memory
            .resolve_all(self.tag, bounds, elements, &mut self.answers)
        {
            0 => (self.taken, self.filled) = (0, count),
            answer => impossible(answer),
        }
    }
}

/// Where a name stands in a tag, if its bytes are bytes of the tag.
fn place_in(tag: &str, name: &str) -> Option<(usize, usize)> {
    let from = name.as_ptr().addr().checked_sub(tag.as_ptr().addr())?;
    let to = from.checked_add(name.len())?;
    (to <= tag.len()).then_some((from, to))
}

impl<'r, 'n> Iterator for ResolvedNames<'r, 'n> {
    type Item = (ResolveResult<'r>, LocalName<'n>);

    #[inline]
    fn next(&mut self) -> Option<Self::Item> {
        let name = *self.own.as_ref().or(self.keys.first())?;
        if self.taken == self.filled {
            self.fill();
        }
        let answer = if self.taken < self.filled {
            self.taken += 1;
            self.answers.get(self.taken - 1)
        } else {
            // a name of another tag is asked for alone
            self.memory.resolve(name.0.as_bytes(), self.own.is_some())
        };
        if self.own.take().is_none() {
            self.keys = &self.keys[1..];
        }
        Some((resolved(self.memory, name.0, answer), name.local_name()))
    }

    fn size_hint(&self) -> (usize, Option<usize>) {
        let left = usize::from(self.own.is_some()) + self.keys.len();
        (left, Some(left))
    }
}

impl ExactSizeIterator for ResolvedNames<'_, '_> {}
impl FusedIterator for ResolvedNames<'_, '_> {}

impl Debug for ResolvedNames<'_, '_> {
    fn fmt(&self, f: &mut Formatter) -> fmt::Result {
        f.debug_struct("ResolvedNames")
            .field("own", &self.own)
            .field("keys", &self.keys)
            .finish()
    }
}

/// What a listing shows, if that is not its end; the place goes past it.
fn next_of<'a>(
    memory: View<'a>,
    (kind, detail): (usize, Listed),
    place: &mut usize,
) -> Option<(PrefixDeclaration<'a>, Namespace<'a>)> {
    if kind == 0 {
        return None;
    }
    *place = detail[4];
    Some(shown(memory, kind, detail))
}

/// The bindings that hold: see [`NamespaceResolver::bindings`].
#[derive(Debug, Clone)]
pub struct NamespaceBindingsIter<'a> {
    memory: View<'a>,
    place: usize,
}

impl<'a> Iterator for NamespaceBindingsIter<'a> {
    type Item = (PrefixDeclaration<'a>, Namespace<'a>);

    fn next(&mut self) -> Option<Self::Item> {
        let listed = self.memory.binding(self.place);
        next_of(self.memory, listed, &mut self.place)
    }

    fn size_hint(&self) -> (usize, Option<usize>) {
        (0, Some(self.memory.used().bindings - self.place))
    }
}

impl FusedIterator for NamespaceBindingsIter<'_> {}

/// The bindings of a level: see [`NamespaceResolver::bindings_of`].
#[derive(Debug, Clone)]
pub struct NamespaceBindingsOfLevelIter<'a> {
    memory: View<'a>,
    place: usize,
    level: u16,
}

impl<'a> Iterator for NamespaceBindingsOfLevelIter<'a> {
    type Item = (PrefixDeclaration<'a>, Namespace<'a>);

    fn next(&mut self) -> Option<Self::Item> {
        let listed = self.memory.binding_of(self.level, self.place);
        next_of(self.memory, listed, &mut self.place)
    }

    fn size_hint(&self) -> (usize, Option<usize>) {
        (0, Some(self.memory.used().bindings - self.place))
    }
}

impl FusedIterator for NamespaceBindingsOfLevelIter<'_> {}
