//! The recorded questions, each within the scope of one tag: the namespace of a name or of a prefix,
//! with an unknown prefix as the crate's error, and searches for `nil`.

use crate::due::resolved_wanted;
use oracle::text::shown;
use oracle::{Namespace, NamespaceError, NamespaceResolver, QName, ResolveResult, scopes, steps};

/// The tags whose scopes are asked in. The crate refuses none of them.
const SCOPES: [&str; 7] = [
    "",
    " xmlns:i='http://www.w3.org/2001/XMLSchema-instance'",
    " xmlns='http://www.w3.org/2001/XMLSchema-instance'",
    " xmlns:i='http://www.w3.org/2001/XMLSchema-instance' xmlns:p='u' xmlns='d' xmlns:q=''",
    " xmlns:i='http://www.w3.org/2001/XMLSchema' xmlns:nil='http://www.w3.org/2001/XMLSchema-instance'",
    " xmlns:\u{e9}='http://www.w3.org/2001/XMLSchema-instance' xmlns:i='v' xmlns=''",
    " xmlns:i='v' x xmlns:p='w'",
];

const NAMES: [&str; 14] = [
    "", "a", ":", ":a", "a:", "p:a", "q:a", "i:nil", "p:a:b", "xml:lang", "xmlns:p", "\u{e9}:a",
    "pp:a", "nil:i",
];

const PREFIXES: [Option<&str>; 9] = [
    None,
    Some(""),
    Some("p"),
    Some("q"),
    Some("i"),
    Some("xml"),
    Some("xmlns"),
    Some("\u{e9}"),
    Some("pp"),
];

const TAGS: [&str; 20] = [
    "",
    " i:nil='true'",
    " i:nil='1' b='2'",
    "i:nil=\"true\" x='1'",
    " i:nil='0'",
    " i:nil='false' i:nil='true'",
    " i:nil=' true '",
    " i:nil='TRUE'",
    " nil='true'",
    " :nil='1'",
    " p:nil='1' i:nil='1' q:nil='1'",
    " i:nill='1' i:ni='1'",
    " i:nil",
    " i:nil=1",
    " i:nil=true x",
    " a='1' a='2' i:nil='1' b='3'",
    " i:nil='tru' \u{e9}:nil='true'",
    " nil:nil='1'",
    " i:nil=\"1",
    " x=1 i:nil='1'",
];

/// A question, the text that it is about, and what the crate answers: a code and three numbers.
struct Case {
    scope: &'static str,
    question: Question,
    text: &'static str,
    answer: [usize; 4],
}

/// The numbers are those of recorded/README.md.
enum Question {
    Name { wanted: bool },
    Prefix { named: bool, wanted: bool },
    Nil { html: bool, checks: bool, at: usize },
}

impl Question {
    /// Its number, its two settings and its position.
    fn parts(&self) -> (u8, [bool; 2], usize) {
        match *self {
            Question::Name { wanted } => (0, [wanted, false], 0),
            Question::Prefix { named, wanted } => (1, [wanted, named], 0),
            Question::Nil { html, checks, at } => (2, [html, checks], at),
        }
    }

    fn text(&self) -> String {
        let default = |wanted| if wanted { "yes" } else { "no" };
        match *self {
            Question::Name { wanted } => format!("namespace_of {}", default(wanted)),
            Question::Prefix { named, wanted } => {
                let prefix = if named { "prefix" } else { "none" };
                format!("resolve_prefix {} {prefix}", default(wanted))
            }
            Question::Nil { html, checks, at } => {
                let mode = if html { "html" } else { "xml" };
                format!("has_nil {mode} {} {at}", if checks { "on" } else { "off" })
            }
        }
    }
}

/// A lookup as the crate's optional namespace: 0 with the bounds of the URI or nothing, or the
/// refusal's number with those of the prefix.
fn optional(resolver: &NamespaceResolver, found: ResolveResult) -> [usize; 4] {
    let bounds = resolved_wanted(resolver, &found).detail;
    let at = |n: usize| bounds.get(n).copied().unwrap_or(0);
    let told: Result<Option<Namespace>, NamespaceError> = found.try_into();
    match told {
        Ok(_) => [0, at(0), at(1), 0],
        Err(refusal) => [scopes::number(&refusal), at(0), at(1), 0],
    }
}

fn cases() -> Result<Vec<Case>, String> {
    let mut cases = Vec::new();
    for scope in SCOPES {
        let mut resolver = NamespaceResolver::default();
        if !matches!(scopes::push(&mut resolver, scope, 0), Some(Ok(()))) {
            return Err(format!("the crate refuses the scope |{scope}|"));
        }
        let mut add = |question, text, answer| {
            cases.push(Case {
                scope,
                question,
                text,
                answer,
            });
        };
        for wanted in [false, true] {
            for name in NAMES {
                let (found, _) = resolver.resolve(QName(name), wanted);
                let answer = optional(&resolver, found);
                add(Question::Name { wanted }, name, answer);
            }
            for prefix in PREFIXES {
                let found = scopes::resolve_prefix(&resolver, prefix, wanted);
                let answer = optional(&resolver, found);
                let named = prefix.is_some();
                add(
                    Question::Prefix { named, wanted },
                    prefix.unwrap_or(""),
                    answer,
                );
            }
        }
        for tag in TAGS {
            for (html, checks, at) in [
                (false, true, 0),
                (false, false, 0),
                (true, true, 0),
                (true, false, 1),
            ] {
                let (yes, left) = steps::has_nil(tag, at, html, checks, &resolver)
                    .ok_or("a tag is opened inside a character")?;
                let [kind, place] = left.place().numbers();
                let answer = [usize::from(yes), kind, place, left.keys().len()];
                add(Question::Nil { html, checks, at }, tag, answer);
            }
        }
    }
    Ok(cases)
}

/// The list for people.
pub fn text() -> Result<String, String> {
    let cases = cases()?;
    let mut text = format!(
        "# What quick-xml 0.42.0 answers to {} questions. Written by oracle/record, which runs the crate's own source.\n\
         # The list is in oracle/src/asked.rs. A line: the tag whose scope it is, between bars; the question, with its\n\
         # settings; the name, the prefix or the tag between bars; the answer's code and its three numbers.\n\
         # asked.bin has the same questions in the same order; recorded/README.md says what the codes and numbers are.\n",
        cases.len()
    );
    for case in &cases {
        let scope = shown(case.scope.as_bytes());
        let about = shown(case.text.as_bytes());
        let [code, first, second, third] = case.answer;
        text.push_str(&format!(
            "|{scope}| {} |{about}|: {code} {first} {second} {third}\n",
            case.question.text()
        ));
    }
    Ok(text)
}

/// The list for programs. `two` writes a number.
pub fn bytes(two: impl Fn(usize) -> [u8; 2]) -> Result<Vec<u8>, String> {
    let mut bytes = Vec::new();
    for case in cases()? {
        let (number, settings, at) = case.question.parts();
        bytes.push(number);
        bytes.extend(settings.map(u8::from));
        bytes.extend(two(at));
        for text in [case.scope, case.text] {
            bytes.extend(two(text.len()));
            bytes.extend_from_slice(text.as_bytes());
        }
        bytes.extend(case.answer.into_iter().flat_map(&two));
    }
    Ok(bytes)
}
