//! Makes the same calls on the Rust crate and on quick-xml's own, and holds what they show of each
//! answer against each other: what a program sees that swaps one for the other.
//!
//! Tags and calls are drawn by a fixed sequence. Usage: `swap [RUNS]`. Status: 0 no difference; 101 and
//! the tag or the calls where there is one.

#[path = "../oracle/src/lcg.rs"]
mod lcg;

use lcg::Lcg;
use std::fmt::Debug;

/// The pieces of which tags are put together.
const PIECES: [&str; 19] = [
    "a", "b", "ab", "é", "=", "=", "\"", "'", " ", "\t", "\n", ":", "xmlns", "xmlns:", "='1'",
    "=\"2\"", " a='1'", " b=x", " c",
];
const PREFIXES: [&str; 8] = ["p", "q", "pé", "xml", "xmlns", "", ":", "a:b"];
const URIS: [&str; 7] = [
    "http://www.w3.org/2001/XMLSchema-instance",
    "u",
    "v",
    "",
    "é",
    "http://www.w3.org/XML/1998/namespace",
    "http://www.w3.org/2000/xmlns/",
];
const NAMES: [&str; 10] = [
    "a", "p:a", "q:a", "pé:a", "xml:a", "xmlns:a", ":a", "a:b:c", "z:a", "",
];
const LEVELS: u16 = 7;
/// The attributes of tags that are searched for `nil`; a number stands in place of `#`.
const NILS: [&str; 12] = [
    " p:nil='1'",
    " q:nil=\"true\"",
    " q:nil='true'",
    " pé:nil='1'",
    " p:nil='0'",
    " nil='1'",
    " z:nil='true'",
    " p:nil=1",
    " p:nil",
    " k#='1'",
    " k#='1'",
    " k#='1'",
];
/// The attributes of long tags, of which names in one place of two have one hash (FNV-1a with 32 bits).
const LONG: [&str; 6] = [
    " k#='1'",
    " yaczf#=''",
    " glbpp#=''",
    " é#=\"2\"",
    " b#=x",
    " a='1 2'",
];
/// So many tags are searched after each call on a resolver.
const SEARCHES: usize = 4;
/// So many keys the crate records; a long tag has no more, so that the refusal that quick-xml lacks does not come.
const KEYS: usize = ::mezzulidda::events::attributes::Tables::KEYS;
/// No tag here has more answers, with what is shown of each.
const ANSWERS: usize = 3 * KEYS;

/// What is drawn by a fixed sequence of numbers.
#[derive(Clone)]
struct Drawn(Lcg);

impl Drawn {
    fn below(&mut self, end: usize) -> usize {
        self.0.below(end)
    }

    fn one_of<T: Copy>(&mut self, list: &[T]) -> T {
        list[self.below(list.len())]
    }

    fn is_one_in(&mut self, of: usize) -> bool {
        self.below(of) == 0
    }

    /// A short tag of pieces, or a long one of attributes.
    fn tag(&mut self) -> String {
        if self.is_one_in(50) {
            return self.attributes(KEYS, &LONG);
        }
        (0..self.below(40)).map(|_| self.one_of(&PIECES)).collect()
    }

    /// Fewer attributes than `end`; the number in their names is not that of another, for the most part.
    fn attributes(&mut self, end: usize, list: &[&str]) -> String {
        let attribute = |n: usize, one: &str| one.replace('#', &n.to_string());
        let number = |n: usize, drawn: &mut Self| if drawn.is_one_in(9) { n / 2 } else { n };
        (0..self.below(end))
            .map(|n| attribute(number(n, self), self.one_of(list)))
            .collect()
    }

    /// A tag named `t` with many attributes that are `nil`, or nearly so.
    fn nils(&mut self) -> String {
        let end = if self.is_one_in(20) { 400 } else { 40 };
        "t".to_string() + &self.attributes(end, &NILS)
    }

    /// A tag named `t`, mostly of declarations.
    fn declarations(&mut self) -> String {
        let mut tag = "t".to_string();
        for _ in 0..self.below(4) {
            match self.below(5) {
                0 => tag.push_str(" x"),
                1 => tag.push_str(&format!(" xmlns='{}'", self.one_of(&URIS))),
                _ => {
                    let (prefix, uri) = (self.one_of(&PREFIXES), self.one_of(&URIS));
                    tag.push_str(&format!(" xmlns:{prefix}='{uri}'"));
                }
            }
        }
        tag
    }
}

fn shown(answer: impl Debug) -> String {
    format!("{answer:?}")
}

// The calls, once for both crates: their types have the same names and are not the same.
macro_rules! calls_on {
    ($name:ident) => {
        mod $name {
            use super::{ANSWERS, Drawn, LEVELS, NAMES, PREFIXES, SEARCHES, URIS, shown};
            use $name::events::BytesStart;
            use $name::events::attributes::Attributes;
            use $name::name::{Namespace, NamespaceResolver, PrefixDeclaration, QName};

            /// Reads a tag to its end, and once more; with checks turned on and off on the way if
            /// that is drawn.
            pub fn read(tag: &str, pos: usize, html: bool, drawn: &mut Drawn) -> Vec<String> {
                let mut attributes = if html {
                    Attributes::html(tag, pos)
                } else {
                    Attributes::new(tag, pos)
                };
                let turns = drawn.is_one_in(3);
                let mut answers = Vec::new();
                let mut ends = 0;
                while ends < 2 {
                    assert!(answers.len() < ANSWERS, "{tag:?} has no end");
                    if turns && drawn.is_one_in(3) {
                        attributes.with_checks(drawn.is_one_in(2));
                    }
                    let answer = attributes.next();
                    ends += usize::from(answer.is_none());
                    if let Some(Ok(attribute)) = &answer {
                        answers.push(shown(attribute.as_bool()));
                    }
                    answers.push(shown(answer));
                }
                answers
            }

            /// So many calls on a fresh resolver, with all that it tells after each.
            pub fn resolve(calls: usize, drawn: &mut Drawn) -> Vec<String> {
                let mut resolver = NamespaceResolver::default();
                if drawn.is_one_in(3) {
                    resolver.set_max_namespace_bindings(drawn.below(6));
                }
                let mut told = Vec::new();
                for _ in 0..calls {
                    told.push(change(&mut resolver, drawn));
                    tell(&resolver, &mut told);
                    for _ in 0..SEARCHES {
                        search(&resolver, drawn, &mut told);
                    }
                }
                told
            }

            fn change(resolver: &mut NamespaceResolver, drawn: &mut Drawn) -> String {
                match drawn.below(6) {
                    0 => shown(resolver.pop()),
                    1 => shown(resolver.set_level(drawn.below(LEVELS.into()) as u16)),
                    2 => {
                        let prefix = match drawn.is_one_in(3) {
                            true => PrefixDeclaration::Default,
                            false => PrefixDeclaration::Named(drawn.one_of(&PREFIXES)),
                        };
                        shown(resolver.add(prefix, Namespace(drawn.one_of(&URIS))))
                    }
                    _ => shown(resolver.push(&BytesStart::from_content(drawn.declarations(), 1))),
                }
            }

            /// Searches a tag for `nil`, and takes answers and turns checks in between.
            fn search(resolver: &NamespaceResolver, drawn: &mut Drawn, told: &mut Vec<String>) {
                let tag = drawn.nils();
                let mut attributes = if drawn.is_one_in(3) {
                    Attributes::html(&tag, 1)
                } else {
                    Attributes::new(&tag, 1)
                };
                for _ in 0..drawn.below(30 + tag.len() / 30) {
                    match drawn.below(6) {
                        0 => told.push(shown(attributes.has_nil(resolver))),
                        1 => {
                            attributes.with_checks(drawn.is_one_in(2));
                        }
                        _ => told.push(shown(attributes.next())),
                    }
                }
            }

            fn tell(resolver: &NamespaceResolver, told: &mut Vec<String>) {
                told.push(shown((resolver.level(), resolver.max_namespace_bindings())));
                for name in NAMES.map(QName) {
                    told.push(shown(resolver.resolve_element(name)));
                    told.push(shown(resolver.resolve_attribute(name)));
                    told.push(shown(resolver.resolve_prefix(name.prefix(), true)));
                }
                told.push(shown(resolver.bindings().collect::<Vec<_>>()));
                for level in 0..LEVELS {
                    told.push(shown(resolver.bindings_of(level).collect::<Vec<_>>()));
                }
            }
        }
    };
}
calls_on!(mezzulidda);
calls_on!(oracle);

fn main() {
    let runs = match std::env::args().nth(1) {
        Some(word) => word.parse().expect("usage: swap [RUNS]"),
        None => 20_000,
    };
    let mut drawn = Drawn(Lcg::new(7));
    let mut answers = 0;
    for _ in 0..runs {
        let tag = drawn.tag();
        // at a character's start, or past the end
        let mut pos = drawn.below(tag.len() + 3);
        while pos < tag.len() && !tag.is_char_boundary(pos) {
            pos += 1;
        }
        let html = drawn.is_one_in(2);
        let ours = mezzulidda::read(&tag, pos, html, &mut drawn.clone());
        let theirs = oracle::read(&tag, pos, html, &mut drawn);
        assert_eq!(ours, theirs, "{tag:?} from {pos}, html: {html}");
        answers += ours.len();
    }
    let (resolvers, calls) = (runs / 500, 50);
    let mut told = 0;
    for _ in 0..resolvers {
        let before = drawn.0.clone();
        let ours = mezzulidda::resolve(calls, &mut drawn.clone());
        let theirs = oracle::resolve(calls, &mut drawn);
        assert_eq!(ours, theirs, "the calls drawn from {before:?}");
        told += ours.len();
    }
    println!(
        "swap: {answers} answers of {runs} tags and {told} of {} calls on resolvers, with {} tags searched \
         for nil, no difference",
        resolvers * calls,
        resolvers * calls * SEARCHES
    );
}
