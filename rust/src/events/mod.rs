//! The opening tag, as far as attributes and scopes need it.

pub mod attributes;

use crate::name::{LocalName, QName};
use alloc::borrow::Cow;
use attributes::{AttrError, Attribute, Attributes, Tables};
use core::fmt::{self, Debug, Formatter};
use core::ops::Deref;

/// An opening tag: what stands between `<` and `>` or `/>`, and where its name ends.
///
/// ```
/// use mezzulidda::events::BytesStart;
///
/// let tag = BytesStart::from_content("v:chunk id='c-17'", 7);
/// assert_eq!(tag.name().into_inner(), "v:chunk");
/// assert_eq!(tag.local_name().into_inner(), "chunk");
/// assert_eq!(tag.attributes_raw(), " id='c-17'");
/// ```
#[derive(Clone, Eq, Hash, PartialEq, PartialOrd, Ord)]
pub struct BytesStart<'i> {
    buf: Cow<'i, str>,
    name_len: usize,
}

impl<'i> BytesStart<'i> {
    /// A tag of this name and without attributes.
    #[inline]
    pub fn new<C: Into<Cow<'i, str>>>(name: C) -> Self {
        let buf = name.into();
        let name_len = buf.len();
        BytesStart { buf, name_len }
    }

    /// A tag of this content, whose first `name_len` bytes are its name.
    #[inline]
    pub fn from_content<C: Into<Cow<'i, str>>>(content: C, name_len: usize) -> Self {
        let buf = content.into();
        BytesStart { buf, name_len }
    }

    /// The same tag, with its own copy of the content.
    pub fn into_owned(self) -> BytesStart<'static> {
        BytesStart::from_content(self.buf.into_owned(), self.name_len)
    }

    /// A copy of the tag, with its own copy of the content.
    pub fn to_owned(&self) -> BytesStart<'static> {
        self.clone().into_owned()
    }

    /// The same tag, with the content borrowed from this one.
    pub fn borrow(&self) -> BytesStart<'_> {
        BytesStart::from_content(&*self.buf, self.name_len)
    }

    /// The name, with its prefix.
    ///
    /// # Panics
    ///
    /// As quick-xml's, where the length given for it is past the content's end or inside a character.
    #[inline]
    pub fn name(&self) -> QName<'_> {
        QName(&self.buf[..self.name_len])
    }

    /// The name without its prefix.
    ///
    /// # Panics
    ///
    /// Where [`name`](Self::name) does.
    #[inline]
    pub fn local_name(&self) -> LocalName<'_> {
        self.name().into()
    }

    /// The attributes, in XML mode.
    #[inline]
    pub fn attributes(&self) -> Attributes<'_> {
        Attributes::new(&self.buf, self.name_len)
    }

    /// The attributes, in HTML mode: values without quotes and keys without a value are attributes too.
    #[inline]
    pub fn html_attributes(&self) -> Attributes<'_> {
        Attributes::html(&self.buf, self.name_len)
    }

    /// As [`attributes`](Self::attributes), in memory of the caller's own.
    #[inline]
    pub fn attributes_with_tables<'t>(
        &self,
        tables: &'t mut Tables,
    ) -> Attributes<'_, &'t mut Tables> {
        Attributes::with_tables(&self.buf, self.name_len, tables)
    }

    /// As [`html_attributes`](Self::html_attributes), in memory of the caller's own.
    #[inline]
    pub fn html_attributes_with_tables<'t>(
        &self,
        tables: &'t mut Tables,
    ) -> Attributes<'_, &'t mut Tables> {
        Attributes::html_with_tables(&self.buf, self.name_len, tables)
    }

    /// What follows the name, as it stands.
    ///
    /// # Panics
    ///
    /// Where [`name`](Self::name) does.
    #[inline]
    pub fn attributes_raw(&self) -> &str {
        &self.buf[self.name_len..]
    }

    /// The first attribute of this name, or the refusal that comes before it. Keys are not checked: one that comes
    /// twice is no refusal.
    ///
    /// # Panics
    ///
    /// Where the iterator over [`attributes`](Self::attributes) does.
    pub fn try_get_attribute<'a>(
        &'a self,
        attr_name: &str,
    ) -> Result<Option<Attribute<'a>>, AttrError> {
        for attribute in self.attributes().with_checks(false) {
            let attribute = attribute?;
            if attribute.key.into_inner() == attr_name {
                return Ok(Some(attribute));
            }
        }
        Ok(None)
    }

    pub(crate) const fn name_len(&self) -> usize {
        self.name_len
    }
}

impl Debug for BytesStart<'_> {
    fn fmt(&self, f: &mut Formatter) -> fmt::Result {
        let held = match &self.buf {
            Cow::Borrowed(_) => "Borrowed",
            Cow::Owned(_) => "Owned",
        };
        let Self { buf, name_len } = self;
        write!(
            f,
            "BytesStart {{ buf: {held}({buf:?}), name_len: {name_len} }}"
        )
    }
}

impl Deref for BytesStart<'_> {
    type Target = str;

    fn deref(&self) -> &str {
        &self.buf
    }
}

impl AsRef<str> for BytesStart<'_> {
    fn as_ref(&self) -> &str {
        self
    }
}
