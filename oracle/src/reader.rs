//! Stands for the crate's `Reader` over text, of which not every file is given: it cuts a document into events, so that a loop
//! over them can be run. It holds a document to nothing but the ends of its parts.

use crate::errors::{Error, SyntaxError};
use crate::events::{BytesDecl, BytesEnd, BytesPI, BytesStart, BytesText, Event};

pub struct Reader<R> {
    rest: R,
}

impl<'a> Reader<&'a str> {
    #[allow(clippy::should_implement_trait)]
    pub fn from_str(document: &'a str) -> Self {
        Reader { rest: document }
    }

    pub fn read_event(&mut self) -> Result<Event<'a>, Error> {
        let rest = self.rest;
        let Some(markup) = rest.strip_prefix('<') else {
            if rest.is_empty() {
                return Ok(Event::Eof);
            }
            let end = rest.find('<').unwrap_or(rest.len());
            self.rest = &rest[end..];
            return Ok(Event::Text(BytesText::from_escaped(&rest[..end])));
        };
        if let Some(comment) = markup.strip_prefix("!--") {
            let content = self.cut(
                comment,
                comment.find("-->"),
                3,
                SyntaxError::UnclosedComment,
            )?;
            return Ok(Event::Comment(BytesText::from_escaped(content)));
        }
        if let Some(instruction) = markup.strip_prefix('?') {
            let content = self.cut(
                instruction,
                instruction.find("?>"),
                2,
                SyntaxError::UnclosedPI,
            )?;
            return Ok(match content.strip_prefix("xml") {
                Some(rest) if rest.starts_with(' ') => {
                    Event::Decl(BytesDecl::from_start(BytesStart::from_content(content, 3)))
                }
                _ => Event::PI(BytesPI::new(content)),
            });
        }
        let content = self.cut(markup, tag_end(markup), 1, SyntaxError::UnclosedTag)?;
        if let Some(name) = content.strip_prefix('/') {
            return Ok(Event::End(BytesEnd::new(name.trim_end())));
        }
        if let Some(declaration) = content.strip_prefix('!') {
            return Ok(Event::DocType(BytesText::from_escaped(declaration)));
        }
        let (content, empty) = match content.strip_suffix('/') {
            Some(content) => (content, true),
            None => (content, false),
        };
        let name_len = content.find(char::is_whitespace).unwrap_or(content.len());
        let start = BytesStart::from_content(content, name_len);
        Ok(if empty {
            Event::Empty(start)
        } else {
            Event::Start(start)
        })
    }

    /// What stands before an end of so many bytes; behind that reading goes on.
    fn cut(
        &mut self,
        text: &'a str,
        end: Option<usize>,
        len: usize,
        lacks: SyntaxError,
    ) -> Result<&'a str, Error> {
        let end = end.ok_or(lacks)?;
        self.rest = &text[end + len..];
        Ok(&text[..end])
    }
}

/// The first `>` outside of quotes.
fn tag_end(markup: &str) -> Option<usize> {
    let mut quote = None;
    markup.bytes().position(|b| match quote {
        None => {
            quote = Some(b).filter(|b| b"\"'".contains(b));
            b == b'>'
        }
        Some(open) => {
            quote = quote.filter(|_| b != open);
            false
        }
    })
}
