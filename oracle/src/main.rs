//! The oracle as a program: one request a line on standard input, one line of answer each.
//!
//! Words of a request are separated by one space; the last takes the rest of the line, spaces and
//! all. Bytes that a line can't hold are written as in `text.rs`. README.md lists the requests. A
//! line that is no request is answered by `?` and the reason, and the next one is read.

use oracle::scopes;
use oracle::steps::{self, Place, Reader, Step};
use oracle::text;
use oracle::{
    Namespace, NamespaceError, NamespaceResolver, PrefixDeclaration, QName, ResolveResult,
};
use std::io::{BufRead, Write};
use std::ops::Range;
use std::process::ExitCode;

type Reply = Result<String, String>;

const INSIDE_CHARACTER: &str = "the position is inside a character";

fn main() -> ExitCode {
    match serve() {
        Ok(()) => ExitCode::SUCCESS,
        Err(why) => {
            eprintln!("oracle: {why}");
            ExitCode::FAILURE
        }
    }
}

fn serve() -> std::io::Result<()> {
    let mut resolver = NamespaceResolver::default();
    let mut out = std::io::stdout().lock();
    for line in std::io::stdin().lock().split(b'\n') {
        let reply = answer(&line?, &mut resolver).unwrap_or_else(|why| format!("? {why}"));
        writeln!(out, "{reply}")?;
        out.flush()?;
    }
    Ok(())
}

// The words of a request that are still to be read.
struct Words<'l>(Option<&'l [u8]>);

impl<'l> Words<'l> {
    fn word(&mut self) -> Result<&'l str, String> {
        let rest = self.0.ok_or("a word is missing")?;
        let end = rest.iter().position(|&b| b == b' ');
        self.0 = end.map(|at| &rest[at + 1..]);
        let word = &rest[..end.unwrap_or(rest.len())];
        std::str::from_utf8(word).map_err(|_| "a word is no UTF-8".to_string())
    }

    fn number<N: std::str::FromStr>(&mut self) -> Result<N, String> {
        let word = self.word()?;
        word.parse()
            .map_err(|_| format!("'{word}' is no number that fits here"))
    }

    fn choice(&mut self, no: &str, yes: &str) -> Result<bool, String> {
        match self.word()? {
            word if word == no => Ok(false),
            word if word == yes => Ok(true),
            word => Err(format!("'{word}' is neither {no} nor {yes}")),
        }
    }

    // The mode and the checks by which a tag is read.
    fn reading(&mut self) -> Result<(bool, bool), String> {
        Ok((self.choice("xml", "html")?, self.choice("off", "on")?))
    }

    // The rest of the line; nothing where no space followed the last word.
    fn bytes(&mut self) -> Result<Vec<u8>, String> {
        text::read(self.0.take().unwrap_or_default())
    }

    fn string(&mut self) -> Result<String, String> {
        utf8(self.bytes()?)
    }
}

fn utf8(bytes: Vec<u8>) -> Result<String, String> {
    String::from_utf8(bytes).map_err(|_| "the crate takes UTF-8 alone here".to_string())
}

fn answer(line: &[u8], resolver: &mut NamespaceResolver) -> Reply {
    let mut words = Words(Some(line));
    let request = words.word()?;
    match request {
        "split" | "declares" | "is_xml" | "is_xmlns" => about_name(request, words),
        "run" | "step" | "start" | "as_bool" | "whitespace" => about_steps(request, words),
        "new" | "add" | "push" | "pop" | "set_level" | "set_limit" => {
            change(request, words, resolver)
        }
        "level" => Ok(resolver.level().to_string()),
        "limit" => Ok(resolver.max_namespace_bindings().to_string()),
        "records" => Ok(records_shown(resolver)),
        "text" => Ok(text::shown(scopes::text(resolver).as_bytes())),
        "bindings" => Ok(bindings_shown(resolver.bindings())),
        "bindings_of" => Ok(bindings_shown(resolver.bindings_of(words.number()?))),
        "has_nil" => nil(words, resolver),
        _ => look_up(request, words, resolver),
    }
}

fn about_name(request: &str, mut words: Words) -> Reply {
    let name = words.string()?;
    Ok(match request {
        "split" => {
            let (prefix, local) = scopes::split(&name);
            with_local(optional("prefix", prefix), local)
        }
        "declares" => declaration_shown(scopes::declares(&name)),
        "is_xml" => scopes::is_xml(&name).to_string(),
        _ => scopes::is_xmlns(&name).to_string(),
    })
}

fn about_steps(request: &str, mut words: Words) -> Reply {
    match request {
        "run" => {
            let (html, checks) = words.reading()?;
            let position = words.number()?;
            let steps = steps::run(&words.bytes()?, position, html, checks);
            Ok(steps.iter().map(step_shown).collect::<Vec<_>>().join("; "))
        }
        "step" => {
            let (html, checks) = words.reading()?;
            let place = place_read(words.word()?)?;
            let keys = keys_read(words.word()?)?;
            steps::step_from(&words.bytes()?, place, html, checks, &keys)
                .map(|step| step_shown(&step))
                .ok_or_else(|| "the crate panics from that state".to_string())
        }
        "start" => {
            let name_len = words.number()?;
            let content = words.string()?;
            Ok(reader_shown(&steps::opened_by_start_tag(
                &content, name_len,
            )))
        }
        "as_bool" => {
            let said = steps::as_bool(&words.string()?);
            Ok(said.map_or("neither".to_string(), |yes| yes.to_string()))
        }
        _ => {
            let spaces = (0..=u8::MAX).filter(|&b| oracle::is_whitespace(b));
            Ok(spaces.map(|b| b.to_string()).collect::<Vec<_>>().join(" "))
        }
    }
}

fn change(request: &str, mut words: Words, resolver: &mut NamespaceResolver) -> Reply {
    let mut outcome = Ok(());
    match request {
        "add" => {
            let prefix = tagged(words.word()?, "default", "prefix:")?;
            let value = words.string()?;
            let declared = prefix
                .as_deref()
                .map_or(PrefixDeclaration::Default, PrefixDeclaration::Named);
            outcome = resolver.add(declared, Namespace(&value));
        }
        "push" => {
            let position = words.number()?;
            outcome = scopes::push(resolver, &words.string()?, position).ok_or(INSIDE_CHARACTER)?;
        }
        "pop" => resolver.pop(),
        "set_level" => resolver.set_level(words.number()?),
        "set_limit" => _ = resolver.set_max_namespace_bindings(words.number()?),
        _ => *resolver = NamespaceResolver::default(),
    }
    Ok(outcome.map_or_else(|refusal| refusal_shown(&refusal), |()| "ok".to_string()))
}

fn nil(mut words: Words, resolver: &NamespaceResolver) -> Reply {
    let (html, checks) = words.reading()?;
    let position = words.number()?;
    let tag = words.string()?;
    let (yes, left) =
        steps::has_nil(&tag, position, html, checks, resolver).ok_or(INSIDE_CHARACTER)?;
    Ok(format!("{yes} {}", reader_shown(&left)))
}

fn look_up(request: &str, mut words: Words, resolver: &NamespaceResolver) -> Reply {
    let use_default = match request {
        "resolve_element" => {
            return Ok(resolved_shown(
                resolver.resolve_element(QName(&words.string()?)),
            ));
        }
        "resolve_attribute" => {
            return Ok(resolved_shown(
                resolver.resolve_attribute(QName(&words.string()?)),
            ));
        }
        "resolve" | "resolve_prefix" | "namespace_of" => words.choice("no", "yes")?,
        _ => return Err(format!("'{request}' is no request")),
    };
    if request == "resolve_prefix" {
        let prefix = tagged(words.word()?, "none", "prefix:")?;
        return Ok(result_shown(&scopes::resolve_prefix(
            resolver,
            prefix.as_deref(),
            use_default,
        )));
    }
    let name = words.string()?;
    if request == "resolve" {
        return Ok(resolved_shown(resolver.resolve(QName(&name), use_default)));
    }
    Ok(match scopes::namespace_of(resolver, &name, use_default) {
        Ok((namespace, local)) => with_local(optional("bound", namespace), local),
        Err(refusal) => refusal_shown(&refusal),
    })
}

// `default` or `prefix:TEXT`, with the words given.
fn tagged(word: &str, none: &str, some: &str) -> Result<Option<String>, String> {
    if word == none {
        return Ok(None);
    }
    let text = word
        .strip_prefix(some)
        .ok_or(format!("'{word}' is neither {none} nor {some}TEXT"))?;
    text::read(text.as_bytes()).and_then(utf8).map(Some)
}

fn place_read(word: &str) -> Result<Place, String> {
    let (kind, at) = word.split_once(':').unwrap_or((word, "0"));
    let at = at.parse().map_err(|_| format!("'{at}' is no position"))?;
    match kind {
        "done" => Ok(Place::Done),
        "next" => Ok(Place::Next(at)),
        "value" => Ok(Place::SkipValue(at)),
        "eq" => Ok(Place::SkipEqValue(at)),
        _ => Err(format!("'{kind}' is none of done, next:N, value:N, eq:N")),
    }
}

fn keys_read(word: &str) -> Result<Vec<Range<usize>>, String> {
    if word == "-" {
        return Ok(Vec::new());
    }
    let key = |part: &str| {
        let (start, end) = part.split_once("..")?;
        Some(start.parse().ok()?..end.parse().ok()?)
    };
    let keys: Option<Vec<_>> = word.split(',').map(key).collect();
    keys.ok_or(format!("'{word}' is neither - nor keys as 0..1,4..5"))
}

fn keys_shown(keys: &[Range<usize>]) -> String {
    if keys.is_empty() {
        return "-".to_string();
    }
    keys.iter()
        .map(|k| format!("{}..{}", k.start, k.end))
        .collect::<Vec<_>>()
        .join(",")
}

// The answer, then the place and the keys that it leaves.
fn step_shown(step: &Step) -> String {
    let answer = step
        .answer
        .as_ref()
        .map_or("end".to_string(), |a| a.to_string());
    format!("{answer} @{} {}", step.place, keys_shown(&step.keys))
}

fn reader_shown(reader: &Reader) -> String {
    let mode = if reader.html() { "html" } else { "xml" };
    let checks = if reader.checks() { "on" } else { "off" };
    format!(
        "{mode} {checks} @{} {}",
        reader.place(),
        keys_shown(reader.keys())
    )
}

fn optional(word: &str, text: Option<&str>) -> String {
    match text {
        Some(text) => format!("{word}:{}", text::shown(text.as_bytes())),
        None => "none".to_string(),
    }
}

fn declaration_shown(declared: Option<PrefixDeclaration>) -> String {
    match declared {
        None => "none".to_string(),
        Some(PrefixDeclaration::Default) => "default".to_string(),
        Some(PrefixDeclaration::Named(prefix)) => optional("prefix", Some(prefix)),
    }
}

fn refusal_shown(refusal: &NamespaceError) -> String {
    let value = match refusal {
        NamespaceError::UnknownPrefix(text)
        | NamespaceError::InvalidXmlPrefixBind(text)
        | NamespaceError::InvalidXmlnsPrefixBind(text)
        | NamespaceError::InvalidPrefixForXml(text)
        | NamespaceError::InvalidPrefixForXmlns(text) => text::shown(text.as_bytes()),
        NamespaceError::TooManyBindings(limit) | NamespaceError::TooDeeplyNested(limit) => {
            limit.to_string()
        }
    };
    format!("{} {value}", scopes::number(refusal))
}

fn result_shown(result: &ResolveResult) -> String {
    match result {
        ResolveResult::Unbound => "unbound".to_string(),
        ResolveResult::Bound(Namespace(uri)) => optional("bound", Some(uri)),
        ResolveResult::Unknown(prefix) => optional("unknown", Some(prefix)),
    }
}

fn with_local(shown: String, local: &str) -> String {
    format!("{shown} local:{}", text::shown(local.as_bytes()))
}

fn resolved_shown((result, local): (ResolveResult, impl AsRef<str>)) -> String {
    with_local(result_shown(&result), local.as_ref())
}

fn bindings_shown<'r>(
    bindings: impl Iterator<Item = (PrefixDeclaration<'r>, Namespace<'r>)>,
) -> String {
    let pair = |(declared, Namespace(uri))| {
        format!(
            "{}={}",
            declaration_shown(Some(declared)),
            text::shown(uri.as_bytes())
        )
    };
    let pairs: Vec<_> = bindings.map(pair).collect();
    if pairs.is_empty() {
        "-".to_string()
    } else {
        pairs.join(" ")
    }
}

fn records_shown(resolver: &NamespaceResolver) -> String {
    let record =
        |r: &scopes::Record| format!("{},{},{},{}", r.start, r.prefix_len, r.value_len, r.level);
    scopes::records(resolver)
        .iter()
        .map(record)
        .collect::<Vec<_>>()
        .join(" ")
}
