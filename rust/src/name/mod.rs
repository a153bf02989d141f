//! Names with prefixes, and the namespaces that tags bind prefixes to.

mod resolver;

use crate::ffi;
use alloc::string::String;
use core::cmp::Ordering;
use core::error::Error;
use core::fmt::{self, Debug, Display, Formatter};
use core::hash::{Hash, Hasher};

pub use resolver::{
    DEFAULT_MAX_NAMESPACE_BINDINGS, Holder, Lent, Memory, NamespaceBindingsIter,
    NamespaceBindingsOfLevelIter, NamespaceResolver, Owned, ResolvedNames, Room,
};

/// A declaration that isn't accepted, or a prefix that none declares.
#[derive(Debug, Clone, PartialEq, Eq)]
pub enum NamespaceError {
    /// No binding has this prefix.
    UnknownPrefix(String),
    /// `xml` bound to another namespace than its own, which is given.
    InvalidXmlPrefixBind(String),
    /// `xmlns` bound, to the namespace that is given.
    InvalidXmlnsPrefixBind(String),
    /// The prefix that is given, and is not `xml`, bound to the namespace of `xml`.
    InvalidPrefixForXml(String),
    /// The prefix that is given bound to the namespace of `xmlns`.
    InvalidPrefixForXmlns(String),
    /// One binding more than the limit, which is given
    /// ([`NamespaceResolver::set_max_namespace_bindings`]).
    TooManyBindings(usize),
    /// One level more than 65,535.
    TooDeeplyNested(usize),
    /// One binding more than a resolver holds: 1,024 and the two built-in ones. quick-xml allocates without
    /// end and doesn't have this.
    BindingTableFull,
    /// More text than a resolver holds: 65,536 bytes of prefixes and namespaces. quick-xml doesn't have this.
    TextFull,
    /// More than the memory holds that was lent for the resolver. Nothing was changed. It comes where memory is
    /// lent alone ([`NamespaceResolver::new_in`]), and quick-xml doesn't have it.
    LentMemoryFull {
        /// So much would be in use.
        wanted: Room,
        /// So much is lent.
        given: Room,
    },
    /// A declaration of a tag that need not be text ([`NamespaceResolver::push_bytes`]) is not UTF-8. Nothing
    /// was changed. quick-xml doesn't have this: its tags are text.
    NoText,
    /// The memory is not that of a resolver. Memory is looked at before it is a resolver's
    /// ([`NamespaceResolver::resume_in`]) and the library alone writes it then, so it doesn't come here;
    /// quick-xml doesn't have it.
    BadResolver,
}

impl Display for NamespaceError {
    fn fmt(&self, f: &mut Formatter) -> fmt::Result {
        match self {
            Self::UnknownPrefix(prefix) => write!(f, "unknown namespace prefix '{prefix}'"),
            Self::InvalidXmlPrefixBind(namespace) => write!(
                f,
                "the namespace prefix 'xml' cannot be bound to '{namespace}'"
            ),
            Self::InvalidXmlnsPrefixBind(namespace) => write!(
                f,
                "the namespace prefix 'xmlns' cannot be bound to '{namespace}'"
            ),
            Self::InvalidPrefixForXml(prefix) => write!(
                f,
                "the namespace prefix '{prefix}' cannot be bound to 'http://www.w3.org/XML/1998/namespace'"
            ),
            Self::InvalidPrefixForXmlns(prefix) => write!(
                f,
                "the namespace prefix '{prefix}' cannot be bound to 'http://www.w3.org/2000/xmlns/'"
            ),
            Self::TooManyBindings(limit) => write!(
                f,
                "more than {limit} namespace bindings in scope; raise the limit with NamespaceResolver::set_max_namespace_bindings"
            ),
            Self::TooDeeplyNested(limit) => write!(
                f,
                "document nests elements deeper than the supported limit of {limit}"
            ),
            Self::BindingTableFull => write!(f, "all 1,024 namespace bindings are in use"),
            Self::TextFull => write!(
                f,
                "the namespace bindings in scope have more than 65,536 bytes of text"
            ),
            Self::LentMemoryFull { wanted, given } => {
                write!(f, "room for {wanted} is needed, and for {given} is lent")
            }
            Self::NoText => write!(f, "a namespace declaration is not UTF-8"),
            Self::BadResolver => write!(f, "the memory is not that of a resolver"),
        }
    }
}

impl Error for NamespaceError {}

// What the kinds of names below share: they are shown with their kind, and are texts.
macro_rules! shown {
    ($($kind:ident),*) => { $(
        impl Debug for $kind<'_> {
            fn fmt(&self, f: &mut Formatter) -> fmt::Result {
                write!(f, concat!(stringify!($kind), "({})"), self.into_inner())
            }
        }

        impl AsRef<str> for $kind<'_> {
            #[inline]
            fn as_ref(&self) -> &str {
                self.into_inner()
            }
        }
    )* };
}
shown!(QName, LocalName, Prefix, Namespace);

/// A name as it stands in a tag, with its prefix if it has one.
#[derive(Clone, Copy, PartialEq, Eq, PartialOrd, Ord, Hash)]
pub struct QName<'a>(pub &'a str);

impl<'a> QName<'a> {
    /// The text.
    #[inline(always)]
    pub const fn into_inner(self) -> &'a str {
        self.0
    }

    /// What follows the first colon; all of it where there is none.
    ///
    /// ```
    /// # use mezzulidda::name::QName;
    /// assert_eq!(QName("v:chunk").local_name().into_inner(), "chunk");
    /// assert_eq!(QName("chunk").local_name().into_inner(), "chunk");
    /// ```
    pub fn local_name(&self) -> LocalName<'a> {
        self.decompose().0
    }

    /// What stands before the first colon.
    ///
    /// ```
    /// # use mezzulidda::name::QName;
    /// assert_eq!(QName("v:chunk").prefix().map(|p| p.into_inner()), Some("v"));
    /// assert_eq!(QName("chunk").prefix(), None);
    /// ```
    pub fn prefix(&self) -> Option<Prefix<'a>> {
        self.decompose().1
    }

    /// Both parts.
    #[inline]
    pub fn decompose(&self) -> (LocalName<'a>, Option<Prefix<'a>>) {
        let colon = ffi::split(self.0.as_bytes());
        if colon == self.0.len() {
            return (LocalName(self.0), None);
        }
        let (prefix, local) = self.0.split_at(colon + 1);
        (LocalName(local), Some(Prefix { with_colon: prefix }))
    }

    /// What an attribute of this name declares. The prefix may be empty: nothing is judged here.
    ///
    /// ```
    /// # use mezzulidda::name::{PrefixDeclaration, QName};
    /// assert_eq!(QName("xmlns").as_namespace_binding(), Some(PrefixDeclaration::Default));
    /// assert_eq!(QName("xmlns:v").as_namespace_binding(), Some(PrefixDeclaration::Named("v")));
    /// assert_eq!(QName("v:xmlns").as_namespace_binding(), None);
    /// ```
    pub fn as_namespace_binding(&self) -> Option<PrefixDeclaration<'a>> {
        match ffi::declares(self.0) {
            1 => Some(PrefixDeclaration::Default),
            2 => Some(PrefixDeclaration::Named(&self.0["xmlns:".len()..])),
            _ => None,
        }
    }

    /// Whether Namespaces in XML 1.0 allows the declaration that an attribute of this name and this value
    /// makes; `None` where it makes none. quick-xml accepts more, and has no such method.
    ///
    /// ```
    /// # use mezzulidda::name::QName;
    /// assert_eq!(QName("xmlns:v").verdict("urn:volume"), Some(true));
    /// assert_eq!(QName("xmlns:v").verdict(""), Some(false));
    /// assert_eq!(QName("xmlns").verdict(""), Some(true));
    /// assert_eq!(QName("xmlns").verdict("http://www.w3.org/2000/xmlns/"), Some(false));
    /// assert_eq!(QName("id").verdict("c-17"), None);
    /// ```
    pub fn verdict(&self, value: &str) -> Option<bool> {
        match ffi::verdict(self.0, value) {
            0 => Some(false),
            1 => Some(true),
            _ => None,
        }
    }
}

/// A name without its prefix.
#[derive(Clone, Copy, PartialEq, Eq, PartialOrd, Ord, Hash)]
pub struct LocalName<'a>(&'a str);

impl<'a> LocalName<'a> {
    /// The text.
    #[inline(always)]
    pub const fn into_inner(self) -> &'a str {
        self.0
    }
}

impl<'a> From<QName<'a>> for LocalName<'a> {
    #[inline]
    fn from(name: QName<'a>) -> Self {
        name.local_name()
    }
}

/// The prefix of a name.
///
/// It keeps the colon that ends it: that is a name by itself, which the library can resolve.
#[derive(Clone, Copy)]
pub struct Prefix<'a> {
    with_colon: &'a str,
}

impl<'a> Prefix<'a> {
    /// The text.
    #[inline(always)]
    pub const fn into_inner(self) -> &'a str {
        self.with_colon.split_at(self.with_colon.len() - 1).0
    }

    // These two don't ask the library, which a constant function can't call: a test holds them against it.

    /// Whether it is `xml`.
    #[inline]
    pub const fn is_xml(&self) -> bool {
        matches!(self.with_colon.as_bytes(), b"xml:")
    }

    /// Whether it is `xmlns`.
    #[inline]
    pub const fn is_xmlns(&self) -> bool {
        matches!(self.with_colon.as_bytes(), b"xmlns:")
    }
}

impl PartialEq for Prefix<'_> {
    fn eq(&self, other: &Self) -> bool {
        self.into_inner() == other.into_inner()
    }
}

impl Eq for Prefix<'_> {}

impl PartialOrd for Prefix<'_> {
    fn partial_cmp(&self, other: &Self) -> Option<Ordering> {
        Some(self.cmp(other))
    }
}

impl Ord for Prefix<'_> {
    fn cmp(&self, other: &Self) -> Ordering {
        self.into_inner().cmp(other.into_inner())
    }
}

impl Hash for Prefix<'_> {
    fn hash<H: Hasher>(&self, state: &mut H) {
        self.into_inner().hash(state);
    }
}

/// What an attribute declares.
#[derive(Clone, Copy, PartialEq, Eq, PartialOrd, Ord, Hash)]
pub enum PrefixDeclaration<'a> {
    /// `xmlns="namespace"`
    Default,
    /// `xmlns:prefix="namespace"`
    Named(&'a str),
}

impl Debug for PrefixDeclaration<'_> {
    fn fmt(&self, f: &mut Formatter) -> fmt::Result {
        match self {
            Self::Default => write!(f, "PrefixDeclaration::Default"),
            Self::Named(prefix) => write!(f, "PrefixDeclaration::Named({prefix})"),
        }
    }
}

/// The name of a namespace: the value of its declaration, references not replaced.
#[derive(Clone, Copy, PartialEq, Eq, PartialOrd, Ord, Hash)]
pub struct Namespace<'a>(pub &'a str);

impl<'a> Namespace<'a> {
    /// The text.
    #[inline(always)]
    pub const fn into_inner(self) -> &'a str {
        self.0
    }
}

/// The namespace that a name is in.
#[derive(Clone, PartialEq, Eq, Hash)]
pub enum ResolveResult<'ns> {
    /// The name has no prefix, and no default namespace holds for it.
    Unbound,
    /// It is in this namespace.
    Bound(Namespace<'ns>),
    /// It has this prefix, which nothing binds.
    Unknown(String),
}

impl Debug for ResolveResult<'_> {
    fn fmt(&self, f: &mut Formatter) -> fmt::Result {
        match self {
            Self::Unbound => write!(f, "Unbound"),
            Self::Bound(namespace) => write!(f, "Bound({namespace:?})"),
            Self::Unknown(prefix) => write!(f, "Unknown({prefix})"),
        }
    }
}

impl<'ns> TryFrom<ResolveResult<'ns>> for Option<Namespace<'ns>> {
    type Error = NamespaceError;

    /// The namespace, if there is one; an unknown prefix is a refusal.
    fn try_from(result: ResolveResult<'ns>) -> Result<Self, NamespaceError> {
        match result {
            ResolveResult::Unbound => Ok(None),
            ResolveResult::Bound(namespace) => Ok(Some(namespace)),
            ResolveResult::Unknown(prefix) => Err(NamespaceError::UnknownPrefix(prefix)),
        }
    }
}
