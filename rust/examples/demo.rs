//! Reads a catalogue and prints which chunk goes where. Where a tag is damaged it says so, with the line
//! and a mark under the byte, and what else stands in the tag is read all the same. A catalogue that ends
//! too early is damaged as well.
//!
//! Usage: `demo [CATALOGUE]`; without one, `catalogue.xml` beside this file. Lines and columns count from 1.
//!
//! Status: 0 no fault; 3 faults, which are shown; 2 a wrong use; 1 the catalogue can't be read, or what is
//! printed can't be written.

use mezzulidda::events::BytesStart;
use mezzulidda::events::attributes::{AttrError, Attributes};
use mezzulidda::name::{Namespace, NamespaceError, NamespaceResolver, QName, ResolveResult};
use std::borrow::Cow;
use std::io::Write;
use std::path::Path;
use std::process::ExitCode;

const CATALOGUE: Namespace = Namespace("urn:example:catalogue");
const VOLUME: Namespace = Namespace("urn:example:volume");

/// The tags of a document: where each begins, behind its `<`, and what stands up to its `>`, or nothing
/// where the document ends before that. Good for catalogues, whose values have no `>` and which have no
/// CDATA; a reader of XML is another matter.
fn tags(document: &str) -> impl Iterator<Item = (usize, Option<&str>)> {
    let mut from = 0;
    std::iter::from_fn(move || {
        let start = from + document[from..].find('<')? + 1;
        let rest = &document[start..];
        let end = if rest.starts_with("!--") { "-->" } else { ">" };
        let len = rest.find(end);
        from = len.map_or(document.len(), |len| start + len + end.len());
        Some((start, len.map(|len| &rest[..len])))
    })
    .filter(|(_, tag)| !tag.is_some_and(|tag| tag.starts_with(['!', '?'])))
}

/// What a tag begins with, up to the first whitespace.
fn name_of(tag: &str) -> &str {
    tag.split(char::is_whitespace).next().unwrap_or_default()
}

/// Where in its tag something is wrong.
const fn position(error: &AttrError) -> usize {
    match error {
        AttrError::ExpectedEq(pos)
        | AttrError::ExpectedValue(pos)
        | AttrError::UnquotedValue(pos)
        | AttrError::ExpectedQuote(pos, _)
        | AttrError::Duplicated(pos, _)
        | AttrError::KeyTableFull(pos)
        | AttrError::NoText(pos) => *pos,
        AttrError::BadState => 0,
    }
}

/// What is wrong, and the line of its byte with a mark under it.
fn show(document: &str, byte: usize, what: &str) -> String {
    let before = &document[..byte];
    let line_start = before.rfind('\n').map_or(0, |end| end + 1);
    let line = document[line_start..].lines().next().unwrap_or_default();
    let number = before.matches('\n').count() + 1;
    let column = document[line_start..byte].chars().count();
    let place = format!("line {number}, column {}", column + 1);
    format!("{place}: {what}\n  | {line}\n  | {:column$}^\n", "")
}

/// What a catalogue says on the way from tag to tag.
struct Reader<'d> {
    document: &'d str,
    resolver: NamespaceResolver,
    volume: Option<&'d str>,
    depth: usize,
    faults: usize,
    report: String,
}

impl<'d> Reader<'d> {
    fn fault(&mut self, byte: usize, what: &str) {
        self.faults += 1;
        let shown = show(self.document, byte, what);
        self.report.push_str(&shown);
    }

    /// The values of a tag's attributes that have these names, each without a prefix or in a namespace.
    fn values<const N: usize>(
        &mut self,
        start: usize,
        tag: &'d str,
        name_len: usize,
        wanted: [(Option<Namespace>, &str); N],
    ) -> [Option<&'d str>; N] {
        let mut values = [None; N];
        for attribute in Attributes::new(tag, name_len) {
            let attribute = match attribute {
                Ok(attribute) => attribute,
                Err(error) => {
                    // the line and column stand for the position that the error names as well
                    let words = error.to_string();
                    let what = words.split_once(": ").map_or(&*words, |(_, what)| what);
                    self.fault(start + position(&error), what);
                    continue;
                }
            };
            let (resolved, local) = self.resolver.resolve_attribute(attribute.key);
            let namespace = match resolved {
                ResolveResult::Unbound => None,
                ResolveResult::Bound(namespace) => Some(namespace),
                ResolveResult::Unknown(_) => continue,
            };
            for (value, name) in values.iter_mut().zip(wanted) {
                if name == (namespace, local.into_inner())
                    && let Cow::Borrowed(text) = attribute.value
                {
                    *value = Some(text);
                }
            }
        }
        values
    }

    fn open(&mut self, start: usize, tag: &'d str) -> Result<(), NamespaceError> {
        let name_len = name_of(tag).len();
        let event = BytesStart::from_content(tag, name_len);
        self.resolver.push(&event)?;
        self.depth += 1;
        match self.catalogued(event.name()) {
            Some("volume") => {
                [self.volume] = self.values(start, tag, name_len, [(None, "name")]);
            }
            Some("chunk") => {
                let wanted = [(None, "id"), (None, "length"), (Some(VOLUME), "offset")];
                let values = self.values(start, tag, name_len, wanted);
                let [id, length, offset] = values.map(|value| value.unwrap_or("?"));
                let volume = self.volume.unwrap_or("?");
                let line = format!("{id}  {length:>6} bytes  to {volume} at {offset}\n");
                self.report.push_str(&line);
            }
            _ => (),
        }
        Ok(())
    }

    fn close(&mut self, name: QName) {
        if self.catalogued(name) == Some("volume") {
            self.volume = None;
        }
        self.depth -= 1;
        self.resolver.pop();
    }

    /// What a tag is called, if its name is one of a catalogue.
    fn catalogued<'n>(&self, name: QName<'n>) -> Option<&'n str> {
        let (namespace, local) = self.resolver.resolve_element(name);
        (namespace == ResolveResult::Bound(CATALOGUE)).then_some(local.into_inner())
    }

    fn read(&mut self) {
        let mut root = false;
        for (start, tag) in tags(self.document) {
            let Some(tag) = tag else {
                return self.fault(start - 1, "the catalogue ends inside what begins here");
            };
            if let Some(name) = tag.strip_prefix('/') {
                if self.depth == 0 {
                    return self.fault(start - 1, "this closes a tag, and none is open");
                }
                self.close(QName(name_of(name)));
                continue;
            }
            let (tag, closed) = match tag.strip_suffix('/') {
                Some(tag) => (tag, true),
                None => (tag, false),
            };
            if let Err(error) = self.open(start, tag) {
                return self.fault(start - 1, &error.to_string());
            }
            root = true;
            if closed {
                self.close(QName(name_of(tag)));
            }
        }
        if self.depth > 0 || !root {
            let what = format!("the catalogue ends here; tags still open: {}", self.depth);
            self.fault(self.document.trim_end().len(), &what);
        }
    }
}

const FAILED: u8 = 1;
const WRONG_USE: u8 = 2;
const FAULTS: u8 = 3;

fn fail(status: u8, why: &str) -> ExitCode {
    // where that can't be written either, the status is left
    let _ = writeln!(std::io::stderr(), "demo: {why}");
    ExitCode::from(status)
}

fn main() -> ExitCode {
    let beside = concat!(env!("CARGO_MANIFEST_DIR"), "/examples/catalogue.xml");
    let words: Vec<_> = std::env::args_os().skip(1).collect();
    let path = match &words[..] {
        [] => Path::new(beside),
        [path] if !path.as_encoded_bytes().starts_with(b"-") => Path::new(path),
        _ => return fail(WRONG_USE, "usage: demo [CATALOGUE]"),
    };
    let document = match std::fs::read_to_string(path) {
        Ok(document) => document,
        Err(error) => return fail(FAILED, &format!("{}: {error}", path.display())),
    };
    let mut reader = Reader {
        document: &document,
        resolver: NamespaceResolver::default(),
        volume: None,
        depth: 0,
        faults: 0,
        report: String::new(),
    };
    reader.read();
    let report = format!("{}faults: {}\n", reader.report, reader.faults);
    let mut out = std::io::stdout();
    if let Err(error) = out.write_all(report.as_bytes()).and_then(|()| out.flush()) {
        return fail(FAILED, &format!("can't write to standard output: {error}"));
    }
    match reader.faults {
        0 => ExitCode::SUCCESS,
        _ => ExitCode::from(FAULTS),
    }
}
