//! The recorded calls on a resolver: runs of calls, each from a fresh one, and after each call that
//! changes it some names resolved and the listings.

use crate::cases::Lcg;
use crate::declarations::{PREFIXES, Tags, VALUES, XML_URI, drawn_prefix, drawn_tag, drawn_value};
use crate::due::{Shown, Wanted, add_wanted, listing, push_wanted, resolved_wanted};
use oracle::text::shown;
use oracle::{NamespaceResolver, QName, scopes};

const SEED: u64 = 42_006;

/// A call, what is due, and the text used, the record count and the level that it leaves.
struct Case {
    call: Call,
    wanted: Wanted,
    left: [usize; 3],
}

/// The numbers are those of recorded/README.md.
enum Call {
    Fresh,
    AddDefault(String),
    AddNamed(String, String),
    Push(String, usize),
    Pop,
    SetLevel(u16),
    SetLimit(usize),
    ResolveAttribute(String),
    ResolveElement(String),
    Binding(usize),
    BindingOf(usize, u16),
}

impl Call {
    /// Its number, two numbers and two texts.
    fn parts(&self) -> (u8, [usize; 2], [&str; 2]) {
        match self {
            Call::Fresh => (0, [0, 0], ["", ""]),
            Call::AddDefault(value) => (1, [0, 0], ["", value]),
            Call::AddNamed(prefix, value) => (2, [0, 0], [prefix, value]),
            Call::Push(tag, at) => (3, [*at, 0], [tag, ""]),
            Call::Pop => (4, [0, 0], ["", ""]),
            Call::SetLevel(level) => (5, [usize::from(*level), 0], ["", ""]),
            Call::SetLimit(limit) => (6, [*limit, 0], ["", ""]),
            Call::ResolveAttribute(name) => (7, [0, 0], [name, ""]),
            Call::ResolveElement(name) => (8, [0, 0], [name, ""]),
            Call::Binding(place) => (9, [*place, 0], ["", ""]),
            Call::BindingOf(place, level) => (10, [*place, usize::from(*level)], ["", ""]),
        }
    }

    fn text(&self) -> String {
        let bars = |text: &str| format!("|{}|", shown(text.as_bytes()));
        match self {
            Call::Fresh => "fresh".to_string(),
            Call::AddDefault(value) => format!("add default {}", bars(value)),
            Call::AddNamed(prefix, value) => format!("add {} {}", bars(prefix), bars(value)),
            Call::Push(tag, at) => format!("push {at} {}", bars(tag)),
            Call::Pop => "pop".to_string(),
            Call::SetLevel(level) => format!("set_level {level}"),
            Call::SetLimit(limit) => format!("set_limit {limit}"),
            Call::ResolveAttribute(name) => format!("resolve_attribute {}", bars(name)),
            Call::ResolveElement(name) => format!("resolve_element {}", bars(name)),
            Call::Binding(place) => format!("bindings {place}"),
            Call::BindingOf(place, level) => format!("bindings_of {level} {place}"),
        }
    }

    /// What is due from the crate's resolver, which it changes.
    fn wanted(&self, resolver: &mut NamespaceResolver) -> Result<Wanted, String> {
        match self {
            Call::Fresh => *resolver = NamespaceResolver::default(),
            Call::AddDefault(value) => return Ok(add_wanted(resolver, None, value)),
            Call::AddNamed(prefix, value) => return Ok(add_wanted(resolver, Some(prefix), value)),
            Call::Push(tag, at) => return push_wanted(resolver, tag, *at),
            Call::Pop => resolver.pop(),
            Call::SetLevel(level) => resolver.set_level(*level),
            Call::SetLimit(limit) => {
                resolver.set_max_namespace_bindings(*limit);
            }
            Call::ResolveAttribute(name) => {
                let (resolved, _) = resolver.resolve_attribute(QName(name));
                return Ok(resolved_wanted(resolver, &resolved));
            }
            Call::ResolveElement(name) => {
                let (resolved, _) = resolver.resolve_element(QName(name));
                return Ok(resolved_wanted(resolver, &resolved));
            }
            Call::Binding(place) => {
                return Ok(from(*place, listing(resolver, resolver.bindings())));
            }
            Call::BindingOf(place, level) => {
                return Ok(from(
                    *place,
                    listing(resolver, resolver.bindings_of(*level)),
                ));
            }
        }
        Ok(Wanted::new(0, &[]))
    }
}

/// What a listing answers at a place: the first that it shows from there on, or the end.
fn from(place: usize, listed: Vec<Shown>) -> Wanted {
    let found = listed.into_iter().find(|shown| shown.index >= place);
    found.map_or(Wanted::new(0, &[]), |shown| shown.answer)
}

/// The list as it is made, with the crate's resolver as the calls so far have left it.
struct List {
    cases: Vec<Case>,
    resolver: NamespaceResolver,
}

impl List {
    fn call(&mut self, call: Call) -> Result<(), String> {
        let wanted = call.wanted(&mut self.resolver)?;
        if wanted.is_added() {
            return Err(format!(
                "{}: an added refusal, where the crate's answers are recorded",
                call.text()
            ));
        }
        let left = [
            scopes::text(&self.resolver).len(),
            scopes::records(&self.resolver).len(),
            usize::from(self.resolver.level()),
        ];
        self.cases.push(Case { call, wanted, left });
        Ok(())
    }

    /// A call that changes the resolver, then some names and both listings up to their ends.
    fn change(&mut self, call: Call) -> Result<(), String> {
        self.call(call)?;
        for name in ["a", "p:a", "q:b:c"] {
            self.call(Call::ResolveElement(name.to_string()))?;
        }
        for name in ["a", ":a", "xml:lang"] {
            self.call(Call::ResolveAttribute(name.to_string()))?;
        }
        self.list(Call::Binding)?;
        let level = self.resolver.level();
        self.list(|place| Call::BindingOf(place, level))
    }

    /// A listing from place 0 to its end, each answer from the place that the one before left.
    fn list(&mut self, at: impl Fn(usize) -> Call) -> Result<(), String> {
        let mut place = Some(0);
        while let Some(from) = place {
            self.call(at(from))?;
            // The end has no next place.
            place = self
                .cases
                .last()
                .and_then(|case| case.wanted.detail.get(4).copied());
        }
        Ok(())
    }
}

fn cases() -> Result<Vec<Case>, String> {
    let mut list = List {
        cases: Vec::new(),
        resolver: NamespaceResolver::default(),
    };
    stated(&mut list)?;
    reserved(&mut list)?;
    ends(&mut list)?;
    let mut lcg = Lcg::new(SEED);
    for run in 0..40 {
        drawn(&mut list, &mut lcg, run)?;
    }
    Ok(list.cases)
}

/// Document 01's rows.
fn stated(list: &mut List) -> Result<(), String> {
    let push = |tag: &str| Call::Push(tag.to_string(), 0);
    for call in [
        Call::Fresh,
        push(" xmlns=\"u\" xmlns:p=\"v\""),
        push(" xmlns:p=\"\""),
        Call::Pop,
        Call::Pop,
        Call::Pop,
        push(" xmlns:=\"u\""),
        Call::Pop,
        push(" xmlns:p=\"v\" xmlns:xmlns=\"w\" xmlns:q=\"z\""),
        Call::Pop,
        push(" xmlns:p=\"v\" x xmlns:q=\"w\""),
        push(" xmlns:p=\"v\" xmlns:p=\"w\""),
    ] {
        list.change(call)?;
    }
    Ok(())
}

/// Every telling prefix with every telling value, with room for a binding and without.
fn reserved(list: &mut List) -> Result<(), String> {
    for limit in [1, 0] {
        for value in VALUES {
            for prefix in PREFIXES {
                list.call(Call::Fresh)?;
                list.call(Call::SetLimit(limit))?;
                list.call(Call::AddNamed(prefix.to_string(), value.to_string()))?;
                list.call(Call::ResolveElement(format!("{prefix}:a")))?;
            }
            list.call(Call::AddDefault(value.to_string()))?;
            list.call(Call::ResolveElement("a".to_string()))?;
        }
    }
    Ok(())
}

/// The 129th binding, a limit below what is in use, and the deepest level.
fn ends(list: &mut List) -> Result<(), String> {
    list.call(Call::Fresh)?;
    for index in 0..128 {
        list.call(Call::AddNamed(format!("p{index}"), "u".to_string()))?;
    }
    list.call(Call::AddNamed("p".to_string(), "u".to_string()))?;
    list.call(Call::AddNamed("xml".to_string(), XML_URI.to_string()))?;
    list.call(Call::SetLimit(129))?;
    list.call(Call::Push("xmlns:p='v' xmlns:q='w'".to_string(), 0))?;
    list.call(Call::SetLimit(2))?;
    list.call(Call::AddDefault(String::new()))?;
    list.call(Call::SetLevel(u16::MAX))?;
    list.call(Call::Push("xmlns:p='u'".to_string(), 0))?;
    list.call(Call::Pop)?;
    list.change(Call::SetLevel(0))
}

/// A run of drawn calls.
fn drawn(list: &mut List, lcg: &mut Lcg, run: usize) -> Result<(), String> {
    let tags = Tags {
        attributes: [2, 3, 6][run % 3],
        value_len: 6,
        telling: 60,
        damaged: [0, 0, 10][lcg.below(3)],
    };
    list.call(Call::Fresh)?;
    for _ in 0..12 {
        let level = list.resolver.level();
        let call = match lcg.below(100) {
            0..45 => {
                let (tag, at) = drawn_tag(lcg, &tags);
                // A place past the end is one past it, so that it fits two bytes.
                let at = at.min(tag.len() + 1);
                Call::Push(tag, at)
            }
            45..60 => Call::AddNamed(drawn_prefix(lcg, &tags), drawn_value(lcg, &tags)),
            60..68 => Call::AddDefault(drawn_value(lcg, &tags)),
            68..88 => Call::Pop,
            88..95 => Call::SetLevel(level / 2 + lcg.below(4) as u16),
            _ => Call::SetLimit(lcg.below(8)),
        };
        list.change(call)?;
    }
    Ok(())
}

/// The list for people.
pub fn text() -> Result<String, String> {
    let cases = cases()?;
    let mut text = format!(
        "# What quick-xml 0.42.0's resolver answers to {} calls. Written by oracle/record, which runs the crate's own source.\n\
         # The list is in oracle/src/calls.rs; its drawn tags come from oracle/src/declarations.rs, seed {SEED}.\n\
         # A line: the call, with texts between bars; the answer's code and its numbers; text used, record count and level after it.\n\
         # scopes.bin has the same calls in the same order; recorded/README.md says what the codes and numbers are.\n",
        cases.len()
    );
    for case in &cases {
        let numbers: String = case.wanted.detail.iter().map(|n| format!(" {n}")).collect();
        let [used, count, level] = case.left;
        let call = case.call.text();
        let code = case.wanted.code;
        text.push_str(&format!(
            "{call}: {code}{numbers}; {used} {count} {level}\n"
        ));
    }
    Ok(text)
}

/// The list for programs. `two` writes a number.
pub fn bytes(two: impl Fn(usize) -> [u8; 2]) -> Result<Vec<u8>, String> {
    let mut bytes = Vec::new();
    for case in cases()? {
        let (number, numbers, texts) = case.call.parts();
        bytes.push(number);
        bytes.extend(numbers.into_iter().flat_map(&two));
        for text in texts {
            bytes.extend(two(text.len()));
            bytes.extend_from_slice(text.as_bytes());
        }
        let mut detail = case.wanted.detail;
        detail.resize(5, 0);
        let answer = [case.wanted.code]
            .into_iter()
            .chain(detail)
            .chain(case.left);
        bytes.extend(answer.flat_map(&two));
    }
    Ok(bytes)
}
