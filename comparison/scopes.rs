//! Holds the library's resolver against the crate's own.
//!
//! After every call: the answer with its numbers, the whole lent memory (text, records, level, limit,
//! and zeros behind them), both listings from their first place to their end, and a set of names
//! resolved as element, as attribute and by their prefix alone. What the crate decides is taken from
//! the crate. The added refusals are decided here by document 01's sentences: 18 and 19 where the
//! crate adds what the tables have no room for, 20 from the state that is given. A drawn run of calls
//! is compared up to the first of them.
//!
//! Names whose prefix is unknown: what the crate makes its refusal 11 of is what the library answers 2 for,
//! with the bounds of the same prefix. Searches for `nil`: the answer, the place and the recorded keys that
//! are left with their hashes, key places that are not in use, and the resolver, which is as it was. 7, 20 and, where
//! a key has no place of all that there can be, 6 are decided here.
//!
//! Memory may be lent shorter than its capacity: it is the resolver whose missing places are unused and zero. So
//! a call on short memory is held against the same call on full memory, which the crate decides: the same answer
//! where what it leaves is held, else 98 and nothing changed; and 99 where what is in use is not lent, or more
//! than the capacity is.
//!
//! Usage: `scopes [--short | --whole]`. Status 0 and counts where all agrees, status 1 and the first difference
//! with the calls that led to it where it doesn't.

#[allow(dead_code)]
#[path = "../oracle/src/cases.rs"]
mod cases;

#[path = "../oracle/src/declarations.rs"]
mod declarations;
#[path = "scopes/drawn.rs"]
mod drawn;
#[path = "../oracle/src/due.rs"]
mod due;
mod hash;
#[path = "scopes/lent.rs"]
mod lent;
#[path = "../rust/src/library.rs"]
mod library;
#[path = "scopes/nil.rs"]
mod nil;
mod parts;
#[path = "scopes/short.rs"]
mod short;

use cases::Lcg;
use declarations::{PREFIXES, Tags, VALUES, XML_URI, XMLNS_URI};
use drawn::{FILLING, MIXED, NAMES, Shape, change, drawn_call};
use due::{RECORDS, Shown, TEXT, Wanted, listing, resolved_wanted};
use lent::{
    BUILT_IN, BUILT_IN_TEXT, Call, DEEPEST, LIMIT, NUMBERS, ROW, Scope, UNTOUCHED, WRONG_LENGTH,
    cut,
};
use library::KEYS;
use nil::{Cursor, INSTANCE, Tag};
use oracle::scopes;
use oracle::steps::Reader;
use oracle::{Namespace, NamespaceError, NamespaceResolver, QName, ResolveResult};
use parts::{Counts, Part};
use std::collections::BTreeSet;
use std::process::ExitCode;

const SEED: u64 = 42_005;

#[derive(Default)]
struct Tally {
    runs: usize,
    calls: usize,
    refusals: usize,
    added: usize,
    resolved: usize,
    unknown: usize,
    listed: usize,
    searches: usize,
    yes: usize,
    short: usize,
    full: usize,
    bad: usize,
    lend_more: usize,
    wrong_length: usize,
}

impl Counts for Tally {
    fn line(&self, what: &str) -> String {
        format!(
            "{what}: {} runs, {} calls compared ({} refused, {} by an added refusal), {} names \
             resolved ({} of them refusal 11), {} bindings listed, {} searches for nil ({} of them a yes), \
             {} calls on memory of other lengths ({} of them 18 or 19, {} 20, {} 98, {} 99)",
            self.runs,
            self.calls,
            self.refusals,
            self.added,
            self.resolved,
            self.unknown,
            self.listed,
            self.searches,
            self.yes,
            self.short,
            self.full,
            self.bad,
            self.lend_more,
            self.wrong_length
        )
    }

    fn add(&mut self, other: &Tally) {
        self.runs += other.runs;
        self.calls += other.calls;
        self.refusals += other.refusals;
        self.added += other.added;
        self.resolved += other.resolved;
        self.unknown += other.unknown;
        self.listed += other.listed;
        self.searches += other.searches;
        self.yes += other.yes;
        self.short += other.short;
        self.full += other.full;
        self.bad += other.bad;
        self.lend_more += other.lend_more;
        self.wrong_length += other.wrong_length;
    }

    fn reached(&self) -> String {
        format!("{} calls", self.calls + self.short)
    }
}

/// Both resolvers side by side, with the calls that led to where they are.
struct Pair<'t> {
    ours: Scope,
    theirs: NamespaceResolver,
    calls: Vec<String>,
    lcg: Lcg,
    tally: &'t mut Tally,
}

impl<'t> Pair<'t> {
    /// Both fresh. `seed` decides at which places listings are asked beside their first.
    fn fresh(seed: u64, tally: &'t mut Tally) -> Result<Self, String> {
        let mut pair = Pair::of(
            Scope::unwritten(),
            NamespaceResolver::default(),
            seed,
            tally,
        );
        pair.make(Call::Fresh)?;
        Ok(pair)
    }

    fn of(ours: Scope, theirs: NamespaceResolver, seed: u64, tally: &'t mut Tally) -> Self {
        tally.runs += 1;
        Pair {
            ours,
            theirs,
            calls: Vec::new(),
            lcg: Lcg::new(seed),
            tally,
        }
    }

    /// A difference, with the last calls that led to it.
    fn error(&self, difference: &str) -> String {
        let from = self.calls.len().saturating_sub(12);
        let mut lines = vec![difference.to_string()];
        if from > 0 {
            lines.push(format!("after {from} calls"));
        }
        lines.extend_from_slice(&self.calls[from..]);
        lines.join("\n  ")
    }

    /// One answer of the library, held against what is due.
    fn ask(&mut self, call: &Call, wanted: &Wanted) -> Result<(), String> {
        let mut detail = vec![UNTOUCHED; call.detail_len()];
        let code = call.ours(&mut self.ours, &mut detail);
        let due = call.detail_of(wanted.code, &wanted.detail);
        if code == wanted.code && detail == due {
            return Ok(());
        }
        Err(self.error(&format!(
            "{}: ours {code} {detail:?}, wanted {} {due:?}",
            call.shown(),
            wanted.code
        )))
    }

    /// A call that changes both, and everything that can be seen of them after it. The result is its
    /// code.
    fn make(&mut self, call: Call) -> Result<usize, String> {
        let code = self.make_alone(call)?;
        self.hold_lookups()?;
        Ok(code)
    }

    /// The same without lookups and listings: for calls by the thousand that lead somewhere.
    fn make_alone(&mut self, call: Call) -> Result<usize, String> {
        self.calls.push(call.shown());
        let wanted = call.theirs(&mut self.theirs).map_err(|e| self.error(&e))?;
        self.tally.calls += 1;
        self.tally.refusals += usize::from(wanted.code != 0);
        self.tally.added += usize::from(wanted.is_added());
        self.ask(&call, &wanted)?;
        self.hold_state()?;
        Ok(wanted.code)
    }

    /// A call whose code document 01 states.
    fn expect(&mut self, call: Call, code: usize) -> Result<(), String> {
        let got = self.make(call)?;
        self.stated("the answer", got, code)
    }

    /// A number that document 01 states: both sides have it already, or the comparison has failed.
    fn stated(&self, what: &str, got: usize, stated: usize) -> Result<(), String> {
        if got == stated {
            return Ok(());
        }
        Err(self.error(&format!(
            "{what} is {got} on both sides, where document 01 states {stated}"
        )))
    }

    fn hold_state(&self) -> Result<(), String> {
        match self.ours.difference(&Scope::of(&self.theirs)) {
            None => Ok(()),
            Some(difference) => Err(self.error(&difference)),
        }
    }

    fn hold_lookups(&mut self) -> Result<(), String> {
        let mut names: Vec<String> = NAMES.iter().map(|name| name.to_string()).collect();
        let drawn = self.lcg.below(PREFIXES.len());
        names.push(format!("{}:a", PREFIXES[drawn]));
        // The prefix of some record, whatever it is.
        let records = scopes::records(&self.theirs);
        let record = &records[self.lcg.below(records.len())];
        let prefix = &scopes::text(&self.theirs)[record.start..record.start + record.prefix_len];
        names.push(format!("{prefix}:a"));
        for name in &names {
            self.hold_name(name)?;
        }
        self.hold_at_once(names)?;
        for prefix in PREFIXES.iter().filter(|prefix| !prefix.contains(':')) {
            self.hold_prefix(Some(prefix), &format!("{prefix}:"))?;
        }
        self.hold_prefix(None, "a")?;
        self.hold_bindings()?;
        for level in self.telling_levels() {
            self.hold_bindings_of(level)?;
        }
        self.hold_state()
    }

    /// `resolve` both ways, and the crate's two names for it.
    fn hold_name(&mut self, name: &str) -> Result<(), String> {
        for default in [true, false] {
            let (resolved, _) = self.theirs.resolve(QName(name), default);
            let (named, _) = match default {
                true => self.theirs.resolve_element(QName(name)),
                false => self.theirs.resolve_attribute(QName(name)),
            };
            if resolved != named {
                return Err(self.error(&format!("the crate resolves |{}| in two ways", cut(name))));
            }
            let wanted = resolved_wanted(&self.theirs, &resolved);
            self.tally.resolved += 1;
            self.tally.unknown += usize::from(is_refused(resolved, name, &wanted)?);
            self.ask(&Call::Resolve(name.to_string(), default), &wanted)?;
        }
        Ok(())
    }

    /// Searches in a tag, in each mode, behind the first answers if that is drawn: up to the end, and once
    /// more.
    fn hold_nil(&mut self, text: &str, position: usize) -> Result<(), String> {
        for tag in Tag::readings(text) {
            let mut theirs = Reader::open(text.as_bytes(), position, tag.html, tag.checks);
            let mut ours = Cursor::opened(position);
            for _ in 0..self.lcg.below(6).saturating_sub(3) {
                theirs.step();
                ours.step(tag);
            }
            while self.hold_search(tag, &mut ours, &mut theirs)? {}
            self.hold_search(tag, &mut ours, &mut theirs)?;
        }
        self.hold_state()
    }

    /// One search of both. The result is the answer.
    fn hold_search(
        &mut self,
        tag: Tag,
        ours: &mut Cursor,
        theirs: &mut Reader,
    ) -> Result<bool, String> {
        let answer = theirs
            .has_nil(&self.theirs)
            .ok_or("a tag that is no text")?;
        let wanted = ours.gone_on(tag.text, theirs);
        self.hold_found(tag, ours, usize::from(answer), &wanted)?;
        Ok(answer)
    }

    /// One search of the library, held against what is due.
    fn hold_found(
        &mut self,
        tag: Tag,
        ours: &mut Cursor,
        code: usize,
        wanted: &Cursor,
    ) -> Result<(), String> {
        self.tally.searches += 1;
        self.tally.yes += usize::from(code == 1);
        let before = ours.shown();
        let got = ours.search(&mut self.ours, tag);
        if got == code && ours == wanted {
            return Ok(());
        }
        Err(self.error(&format!(
            "has_nil {} from {before}: ours {got} leaving {}, wanted {code} leaving {}",
            tag.shown(),
            ours.shown(),
            wanted.shown()
        )))
    }

    /// All of them in one call, half of them as elements' names.
    fn hold_at_once(&mut self, names: Vec<String>) -> Result<(), String> {
        let elements = names.len() / 2;
        let mut columns = [const { Vec::new() }; 3];
        for (index, name) in names.iter().enumerate() {
            let (resolved, _) = self.theirs.resolve(QName(name), index < elements);
            let mut wanted = resolved_wanted(&self.theirs, &resolved);
            wanted.detail.resize(2, 0);
            columns[0].push(wanted.code);
            columns[1].push(wanted.detail[0]);
            columns[2].push(wanted.detail[1]);
        }
        self.tally.resolved += names.len();
        let wanted = Wanted::new(0, &columns.concat());
        self.ask(&Call::ResolveAll(names, elements), &wanted)
    }

    /// `resolve_prefix`, asked of the library by a name that has this prefix.
    fn hold_prefix(&mut self, prefix: Option<&str>, name: &str) -> Result<(), String> {
        for default in [true, false] {
            let resolved = scopes::resolve_prefix(&self.theirs, prefix, default);
            let wanted = resolved_wanted(&self.theirs, &resolved);
            self.tally.resolved += 1;
            self.ask(&Call::Resolve(name.to_string(), default), &wanted)?;
        }
        Ok(())
    }

    /// Every level that has a record, the present one and those around it, and a drawn one.
    fn telling_levels(&mut self) -> BTreeSet<u16> {
        let level = self.theirs.level();
        let records = scopes::records(&self.theirs);
        let mut levels: BTreeSet<u16> = records.iter().map(|record| record.level).collect();
        let drawn = self.lcg.below(usize::from(level) + 1) as u16;
        let around = [level.saturating_sub(1), level, level.saturating_add(1)];
        levels.extend([0, drawn, DEEPEST].into_iter().chain(around));
        levels
    }

    fn hold_bindings(&mut self) -> Result<(), String> {
        let listed = listing(&self.theirs, self.theirs.bindings());
        self.hold_listing(&listed, Call::Binding)
    }

    fn hold_bindings_of(&mut self, level: u16) -> Result<(), String> {
        let listed = listing(&self.theirs, self.theirs.bindings_of(level));
        self.hold_listing(&listed, |place| Call::BindingOf(level, place))
    }

    /// A listing from place 0 to its end, each answer from the place that the one before left; then
    /// from places around the ends of the table and from drawn ones.
    fn hold_listing(
        &mut self,
        listed: &[Shown],
        call: impl Fn(usize) -> Call,
    ) -> Result<(), String> {
        let end = |place| Wanted::new(0, &[0, 0, 0, 0, place]);
        let mut place = 0;
        for shown in listed {
            self.ask(&call(place), &shown.answer)?;
            place = shown.index + 1;
        }
        self.tally.listed += listed.len();
        self.ask(&call(place), &end(place))?;
        let count = scopes::records(&self.theirs).len();
        let drawn = [(); 2].map(|()| self.lcg.below(count + 2));
        let places = [1, 2, count - 1, count, count + 1, RECORDS, usize::MAX];
        for place in places.into_iter().chain(drawn) {
            match listed.iter().find(|shown| shown.index >= place) {
                Some(shown) => self.ask(&call(place), &shown.answer)?,
                None => self.ask(&call(place), &end(place))?,
            }
        }
        Ok(())
    }
}

/// Whether the crate refuses what a name resolves to, with 11. It does so exactly where the library's answer
/// is 2, and the text of its refusal is the part of the name that has the answer's bounds.
fn is_refused(resolved: ResolveResult, name: &str, wanted: &Wanted) -> Result<bool, String> {
    let due = match wanted.detail[..] {
        [from, to] if wanted.code == 2 => Some(&name[from..to]),
        _ => None,
    };
    let refused = match Option::<Namespace>::try_from(resolved) {
        Err(NamespaceError::UnknownPrefix(prefix)) => Some(prefix),
        _ => None,
    };
    if refused.as_deref() == due {
        return Ok(due.is_some());
    }
    Err(format!(
        "the crate's refusal of |{}| is {refused:?}, where the prefix is {due:?}",
        cut(name)
    ))
}

/// How much is run. The bounded part takes less than a minute; the short one is for a tool that looks at
/// each access to memory.
struct Extent {
    /// Else those that make most calls are left out.
    every_part: bool,
    runs: usize,
    filled: usize,
    bad: usize,
    nils: usize,
    short: usize,
}

const SHORT: Extent = Extent {
    every_part: false,
    runs: 1,
    filled: 0,
    bad: 40,
    nils: 6,
    short: 2,
};
const BOUNDED: Extent = Extent {
    every_part: true,
    runs: 300,
    filled: 6,
    bad: 4_000,
    nils: 400,
    short: 72,
};
const WHOLE: Extent = Extent {
    every_part: true,
    runs: 6_000,
    filled: 80,
    bad: 60_000,
    nils: 8_000,
    short: 2_400,
};

/// The rows of document 01 that speak of a resolver, with the numbers they state.
fn stated_rows(_: &Extent, tally: &mut Tally) -> Result<(), String> {
    let mut pair = Pair::fresh(SEED, tally)?;
    pair.stated("text used", pair.ours.head[0], BUILT_IN_TEXT)?;
    pair.stated("the limit", pair.ours.head[3], LIMIT)?;
    pair.expect(Call::push(" xmlns=\"u\" xmlns:p=\"v\""), 0)?;
    pair.stated("text used", pair.ours.head[0], 76)?;
    pair.expect(Call::push(" xmlns:p=\"\""), 0)?;
    pair.expect(Call::Pop, 0)?;
    pair.expect(Call::Pop, 0)?;
    pair.stated("text used", pair.ours.head[0], BUILT_IN_TEXT)?;
    pair.expect(Call::Pop, 0)?;
    pair.expect(Call::push(" xmlns:=\"u\""), 0)?;
    pair.expect(Call::Pop, 0)?;
    let refused = " xmlns:p=\"v\" xmlns:xmlns=\"w\" xmlns:q=\"z\"";
    pair.expect(Call::push(refused), 13)?;
    pair.stated("the level", pair.ours.head[2], 1)?;
    pair.expect(Call::Pop, 0)?;
    pair.expect(Call::push(" xmlns:p=\"v\" x xmlns:q=\"w\""), 0)?;
    // A tag is read with checks off: the same key again declares again.
    pair.expect(Call::push(" xmlns:p=\"v\" xmlns:p=\"w\""), 0)?;
    reserved(&mut pair)
}

/// Every prefix with every value, as `add` and as `push`, also where the limit leaves no room.
fn reserved(pair: &mut Pair) -> Result<(), String> {
    for limit in [usize::MAX, 0] {
        pair.make(Call::SetLimit(limit))?;
        for value in VALUES {
            for prefix in PREFIXES {
                pair.make(Call::SetLevel(0))?;
                pair.make(Call::add(prefix, value))?;
                pair.make(Call::push(&format!("xmlns:{prefix}='{value}'")))?;
            }
            pair.make(Call::SetLevel(0))?;
            pair.make(Call::Add(None, value.to_string()))?;
            pair.make(Call::push(&format!("xmlns = \"{value}\"")))?;
            pair.make(Call::Fresh)?;
            pair.make(Call::SetLimit(limit))?;
        }
    }
    Ok(())
}

/// 128 bindings and the 129th, by `add` and in one tag; limits above and below what is in use; `xml`
/// bound to its own URI where the limit is reached.
fn limits(_: &Extent, tally: &mut Tally) -> Result<(), String> {
    let mut pair = Pair::fresh(SEED + 1, tally)?;
    for index in 0..LIMIT {
        let code = pair.make_alone(Call::add(&format!("p{index}"), "u"))?;
        pair.stated("the answer", code, 0)?;
    }
    pair.expect(Call::add("p", "u"), 16)?;
    pair.expect(Call::Add(None, String::new()), 16)?;
    pair.expect(Call::add("xml", XML_URI), 0)?;
    pair.expect(Call::add("xml", "u"), 12)?;
    pair.expect(Call::push("xmlns:xml='u'"), 12)?;
    pair.expect(
        Call::push(&format!("xmlns:xml='{XML_URI}' xmlns:q='u'")),
        16,
    )?;
    pair.expect(Call::SetLimit(LIMIT + 1), 0)?;
    pair.expect(Call::push("xmlns:q='u' xmlns:r='v'"), 16)?;
    pair.expect(Call::SetLimit(3), 0)?;
    pair.stated("the record count", pair.ours.head[1], BUILT_IN + LIMIT + 1)?;
    pair.expect(Call::add("p", "u"), 16)?;
    pair.expect(Call::SetLevel(0), 0)?;

    pair.make(Call::Fresh)?;
    let tag: String = (0..=LIMIT)
        .map(|index| format!(" xmlns:p{index}='u'"))
        .collect();
    pair.expect(Call::push(&tag), 16)?;
    pair.stated("the record count", pair.ours.head[1], BUILT_IN + LIMIT)?;
    pair.expect(Call::Pop, 0)?;
    pair.expect(Call::push(&tag[..tag.len() - " xmlns:p128='u'".len()]), 0)?;
    pair.expect(Call::add("p", "u"), 16)
}

/// The deepest level, reached by one call and by one push after another, and the push past it.
fn depth(_: &Extent, tally: &mut Tally) -> Result<(), String> {
    let mut pair = Pair::fresh(SEED + 2, tally)?;
    pair.expect(Call::SetLevel(DEEPEST - 1), 0)?;
    pair.expect(Call::push("xmlns:p='u'"), 0)?;
    pair.expect(Call::push("xmlns:p='v'"), 17)?;
    pair.expect(Call::push("xmlns:xmlns='v'"), 17)?;
    pair.expect(Call::add("q", "w"), 0)?;
    pair.expect(Call::Pop, 0)?;
    pair.stated("text used", pair.ours.head[0], BUILT_IN_TEXT)?;
    pair.make(Call::Fresh)?;
    pair.make(Call::SetLimit(usize::MAX))?;
    for level in 1..=400 {
        pair.make_alone(Call::push("xmlns='u'"))?;
        if level % 100 == 0 {
            pair.hold_lookups()?;
        }
    }
    pair.expect(Call::SetLevel(DEEPEST), 0)?;
    pair.expect(Call::push(""), 17)?;
    pair.expect(Call::SetLevel(200), 0)?;
    pair.stated("the record count", pair.ours.head[1], BUILT_IN + 200)?;
    pair.expect(Call::SetLevel(0), 0)
}

/// Every byte of text, and one more: 19. Room that a pop frees is used again.
fn text_room(_: &Extent, tally: &mut Tally) -> Result<(), String> {
    let mut pair = Pair::fresh(SEED + 3, tally)?;
    let room = TEXT - BUILT_IN_TEXT;
    for (prefix, len) in [
        ("p", room),
        ("", room + 1),
        ("pqr", room - 2),
        ("p", usize::from(u16::MAX)),
    ] {
        pair.expect(Call::add(prefix, &"u".repeat(len)), 19)?;
        pair.expect(
            Call::push(&format!("xmlns:{prefix}='{}'", "u".repeat(len))),
            19,
        )?;
        pair.expect(Call::Pop, 0)?;
    }
    for prefix in ["p", "", "pqr"] {
        let value = "u".repeat(room - prefix.len());
        pair.expect(Call::push(&format!("xmlns:{prefix}=\"{value}\"")), 0)?;
        pair.stated("text used", pair.ours.head[0], TEXT)?;
        pair.expect(Call::add("", ""), 0)?;
        pair.expect(Call::Add(None, String::new()), 0)?;
        pair.expect(Call::add("p", ""), 19)?;
        pair.expect(Call::Add(None, "u".to_string()), 19)?;
        pair.expect(Call::add("xml", XML_URI), 0)?;
        pair.expect(Call::add("q", XML_URI), 14)?;
        pair.expect(Call::add("q", XMLNS_URI), 15)?;
        pair.expect(Call::push("xmlns='' xmlns:q='' xmlns:xml='u'"), 19)?;
        pair.expect(Call::SetLimit(1), 0)?;
        pair.expect(Call::add("p", "u"), 16)?;
        pair.expect(Call::SetLimit(LIMIT), 0)?;
        pair.expect(Call::SetLevel(1), 0)?;
        pair.expect(Call::SetLevel(0), 0)?;
        pair.stated("text used", pair.ours.head[0], BUILT_IN_TEXT)?;
    }
    Ok(())
}

/// The last of 1,026 records, and the next: 18. It comes behind 12 to 16, and before 19.
fn record_room(_: &Extent, tally: &mut Tally) -> Result<(), String> {
    let mut pair = Pair::fresh(SEED + 4, tally)?;
    let own = RECORDS - BUILT_IN;
    pair.expect(Call::SetLimit(usize::MAX), 0)?;
    for index in 0..own - 1 {
        pair.make_alone(Call::add(&format!("p{}", index % 700), "u"))?;
    }
    pair.expect(Call::push("xmlns:q='v' xmlns:r='w'"), 18)?;
    pair.stated("the record count", pair.ours.head[1], RECORDS)?;
    pair.expect(Call::add("p", "u"), 18)?;
    pair.expect(Call::Add(None, String::new()), 18)?;
    pair.expect(Call::add("p", &"u".repeat(TEXT)), 18)?;
    pair.expect(Call::add("xml", XML_URI), 0)?;
    pair.expect(Call::add("xml", "u"), 12)?;
    pair.expect(Call::add("xmlns", XMLNS_URI), 13)?;
    pair.expect(Call::add("p", XML_URI), 14)?;
    pair.expect(Call::SetLimit(own), 0)?;
    pair.expect(Call::add("p", "u"), 16)?;
    pair.expect(Call::SetLimit(own + 1), 0)?;
    pair.expect(Call::add("p", "u"), 18)?;
    pair.expect(Call::Pop, 0)?;
    pair.stated("the record count", pair.ours.head[1], RECORDS - 1)?;
    pair.expect(Call::push("xmlns:q=''"), 0)?;
    pair.expect(Call::SetLevel(0), 0)?;
    let filler = "u".repeat(TEXT - pair.ours.head[0]);
    pair.expect(Call::Add(None, filler), 0)?;
    pair.expect(Call::Add(None, "u".to_string()), 18)
}

/// Level 0 on full tables, the records or the text: what was added within a tag goes, the built-ins stay; and what was added at
/// level 0 itself, none, one or all of it, stays at every level.
fn level_zero(_: &Extent, tally: &mut Tally) -> Result<(), String> {
    let (records, bytes) = (RECORDS - BUILT_IN, TEXT - BUILT_IN_TEXT);
    let mut pair = Pair::fresh(SEED + 9, tally)?;
    for (count, len) in [(records, 3), (1, bytes)] {
        for at_zero in [0, 1, count] {
            pair.make(Call::Fresh)?;
            pair.expect(Call::SetLimit(usize::MAX), 0)?;
            for index in 0..count {
                if index == at_zero {
                    pair.expect(Call::push(""), 0)?;
                }
                pair.make_alone(Call::Add(None, "u".repeat(len)))?;
            }
            for (call, own) in [
                (Call::SetLevel(DEEPEST), count),
                (Call::SetLevel(0), at_zero),
                (Call::Pop, at_zero),
                (Call::SetLevel(0), at_zero),
            ] {
                pair.expect(call, 0)?;
                pair.stated("the record count", pair.ours.head[1], BUILT_IN + own)?;
                pair.stated("text used", pair.ours.head[0], BUILT_IN_TEXT + own * len)?;
            }
        }
    }
    Ok(())
}

/// A call of each kind. Each would change or answer something on the resolver that it is made on.
fn call_of_each_kind() -> Vec<Call> {
    vec![
        Call::add("q", "w"),
        Call::add("xmlns", "w"),
        Call::Add(None, "w".to_string()),
        Call::push("xmlns:q='w'"),
        Call::push("xmlns:xmlns='w'"),
        Call::Pop,
        Call::SetLevel(0),
        Call::SetLevel(DEEPEST),
        Call::Resolve("p:a".to_string(), true),
        Call::Resolve("a".to_string(), false),
        Call::ResolveAll(vec!["p:a".to_string(), "a".to_string()], 1),
        Call::Binding(0),
        Call::Binding(usize::MAX),
        Call::BindingOf(0, 0),
        Call::BindingOf(1, RECORDS),
    ]
}

/// A call that has to answer `code` and to leave the resolver alone.
fn hold_unwritten(scope: &Scope, call: &Call, code: usize) -> Result<(), String> {
    let mut ours = scope.clone();
    let mut detail = vec![UNTOUCHED; call.detail_len()];
    let got = call.ours(&mut ours, &mut detail);
    let due = call.detail_of(code, &[]);
    if got == code && ours == *scope && detail == due {
        return Ok(());
    }
    let written = if ours == *scope { "" } else { ", and wrote" };
    Err(format!(
        "{}: ours {got} {detail:?}{written}, wanted {code} {due:?}",
        call.shown()
    ))
}

/// A search that has to answer `code` and to write nothing: with an iterator that 7 would refuse, too.
fn hold_search_unwritten(
    scope: &Scope,
    cursor: &Cursor,
    code: usize,
    tally: &mut Tally,
) -> Result<(), String> {
    let tag = Tag::readings("i:nil='1'")[0];
    let (mut ours, mut left) = (scope.clone(), cursor.clone());
    let got = left.search(&mut ours, tag);
    tally.searches += 1;
    if got == code && ours == *scope && left == *cursor {
        return Ok(());
    }
    Err(format!(
        "has_nil from {}: ours {got} leaving {}, wanted {code} and nothing written",
        cursor.shown(),
        left.shown()
    ))
}

/// Text and records that are shorter than what is in use, and longer than the capacity; key tables that are
/// longer than theirs; and names whose arrays have not all the same length.
fn wrong_lengths(_: &Extent, tally: &mut Tally) -> Result<(), String> {
    let mut pair = Pair::fresh(SEED + 5, tally)?;
    pair.make(Call::push("xmlns='u' xmlns:p='v'"))?;
    let good = pair.ours.clone();
    let (used, count) = (good.head[0], good.head[1]);
    let shorter = [
        (used - 1, NUMBERS),
        (0, NUMBERS),
        (TEXT, ROW * count - 1),
        (TEXT, 0),
        (used - 1, ROW * count - 1),
        (0, 0),
    ];
    let longer = [
        (TEXT + 1, NUMBERS),
        (TEXT, NUMBERS + 1),
        (used, NUMBERS + 1),
    ];
    for (text, numbers) in shorter.into_iter().chain(longer) {
        let scope = good.with_lengths(text, numbers);
        let mut calls = call_of_each_kind();
        if longer.contains(&(text, numbers)) {
            calls.push(Call::Fresh);
        }
        for call in &calls {
            hold_unwritten(&scope, call, WRONG_LENGTH)
                .map_err(|e| format!("text of {text}, records of {numbers} numbers: {e}"))?;
            tally.short += 1;
            tally.wrong_length += 1;
        }
        for position in [0, 99] {
            hold_search_unwritten(
                &scope,
                &Cursor::at("", [2, position], &[]),
                WRONG_LENGTH,
                tally,
            )?;
        }
    }
    for places in hash::TOO_LONG {
        for position in [0, 99] {
            let cursor = Cursor::at("", [2, position], &[]).with_places(places);
            hold_search_unwritten(&good, &cursor, WRONG_LENGTH, tally)?;
        }
    }
    names_of_other_lengths(&good, tally)
}

/// Five arrays of up to three elements each.
fn names_of_other_lengths(good: &Scope, tally: &mut Tally) -> Result<(), String> {
    for number in 0..4usize.pow(5) {
        let lens = [0, 1, 2, 3, 4].map(|place| number / 4usize.pow(place) % 4);
        let equal = lens.iter().all(|len| *len == lens[0]);
        let due = if equal { 0 } else { WRONG_LENGTH };
        let mut scope = good.clone();
        let got = lent::resolve_all_of(&mut scope, lens);
        tally.short += 1;
        tally.wrong_length += usize::from(!equal);
        if got != due || scope != *good {
            return Err(format!(
                "names with arrays of {lens:?}: ours {got}, wanted {due}"
            ));
        }
    }
    Ok(())
}

/// Searches for `nil` in drawn tags, within drawn scopes; and from drawn states.
fn nils(extent: &Extent, tally: &mut Tally) -> Result<(), String> {
    nil_rows(tally)?;
    let mut lcg = Lcg::new(SEED + 7);
    for run in 0..extent.nils {
        let mut pair = Pair::fresh(SEED + 200_000 + run as u64, tally)?;
        for _ in 0..1 + lcg.below(3) {
            pair.make_alone(Call::push(&nil::drawn_scope(&mut lcg)))?;
            for _ in 0..8 {
                let (tag, at) = nil::drawn_tag(&mut lcg, false);
                pair.hold_nil(&tag, at)?;
            }
            let (tag, _) = nil::drawn_tag(&mut lcg, true);
            hold_nil_anywhere(&mut pair, &tag, &mut lcg)?;
            if lcg.chance(20) {
                pair.make_alone(Call::Pop)?;
            }
        }
        if run % 1_000 == 999 {
            eprintln!("scopes: nil: {} searches so far", pair.tally.searches);
        }
    }
    Ok(())
}

/// From any state: 7 where document 01 says so, else the crate's answer.
fn hold_nil_anywhere(pair: &mut Pair, text: &str, lcg: &mut Lcg) -> Result<(), String> {
    for tag in Tag::readings(text) {
        let (place, keys) = nil::drawn_state(lcg, text);
        let mut ours = Cursor::at(text, place.numbers(), &keys);
        if nil::is_bad(text, place, &keys) {
            let wanted = ours.zeroed();
            pair.hold_found(tag, &mut ours, 7, &wanted)?;
            continue;
        }
        // a hash that is not its key's, by one bit
        for index in 0..keys.len() {
            let mut wrong = ours.clone();
            wrong.hashes[index] ^= 1 << lcg.below(32);
            let wanted = wrong.zeroed();
            pair.hold_found(tag, &mut wrong, 7, &wanted)?;
        }
        // behind the recorded keys it is of no effect, whatever stands there
        ours.hashes[keys.len()] = ours.hashes[0];
        let from = Reader::from_state(text.as_bytes(), place, tag.html, tag.checks, &keys);
        let mut theirs = from.ok_or("a good state that the crate can't step from")?;
        pair.hold_search(tag, &mut ours, &mut theirs)?;
    }
    pair.hold_state()
}

/// A full table of keys: refusal 6 counts as a no, and has ended the reading. With checks off it doesn't
/// come. More keys than there are places, and kinds of places that there are not: 7.
fn nil_rows(tally: &mut Tally) -> Result<(), String> {
    let mut pair = Pair::fresh(SEED + 8, tally)?;
    pair.make(Call::push(&format!(" xmlns:i='{INSTANCE}'")))?;
    let mut text: String = (0..KEYS).map(|index| format!(" k{index}=''")).collect();
    let before = text.len();
    text.push_str(" i:nil='1' i:nil='true'");
    pair.hold_nil(&text[..before], 0)?;
    for tag in Tag::readings(&text) {
        let mut ours = Cursor::opened(0);
        let mut theirs = Reader::open(text.as_bytes(), 0, tag.html, tag.checks);
        if !tag.checks {
            pair.hold_search(tag, &mut ours, &mut theirs)?;
            continue;
        }
        (0..KEYS).for_each(|_| drop(theirs.step()));
        let mut wanted = ours.gone_on(&text, &theirs);
        wanted.numbers[..3].copy_from_slice(&[0, 0, KEYS]);
        pair.hold_found(tag, &mut ours, 0, &wanted)?;
        for numbers in [
            [1, 0, KEYS + 1],
            [1, 0, usize::MAX],
            [4, 0, 0],
            [5, 0, 1],
            [usize::MAX, 0, usize::MAX],
            [2, usize::MAX, 0],
            [3, usize::MAX, 0],
        ] {
            ours.numbers[..3].copy_from_slice(&numbers);
            let wanted = ours.zeroed();
            pair.hold_found(tag, &mut ours, 7, &wanted)?;
        }
        // a position beside done says nothing, and stays
        for position in [0, 1, text.len(), usize::MAX] {
            ours.numbers[..3].copy_from_slice(&[0, position, 0]);
            let wanted = ours.clone();
            pair.hold_found(tag, &mut ours, 0, &wanted)?;
        }
    }
    pair.hold_state()
}

/// Calls drawn on fresh resolvers, up to the first added refusal.
fn hold_drawn(seed: u64, shape: &Shape, tally: &mut Tally) -> Result<(), String> {
    let mut lcg = Lcg::new(seed);
    let mut pair = Pair::fresh(seed, tally)?;
    if !shape.limited {
        pair.make(Call::SetLimit(usize::MAX))?;
    }
    for _ in 0..shape.calls {
        let call = drawn_call(&mut lcg, &pair.theirs, shape);
        if matches!(pair.make(call)?, 18..=20) {
            break;
        }
    }
    Ok(())
}

fn drawn(extent: &Extent, tally: &mut Tally) -> Result<(), String> {
    for run in 0..extent.runs {
        let shape = Shape {
            calls: 40,
            tags: Tags {
                attributes: [0, 2, 4, 12][run % 4],
                value_len: 8,
                telling: 60,
                damaged: [0, 0, 10][run % 3],
            },
            deep: run % 5 == 0,
            limited: run % 2 == 0,
            mix: MIXED,
        };
        hold_drawn(SEED + 100 + run as u64, &shape, tally)?;
        if run % 200 == 199 {
            eprintln!("scopes: drawn calls: {} calls so far", tally.calls);
        }
    }
    Ok(())
}

/// Runs that fill the records or the text.
fn filled(extent: &Extent, tally: &mut Tally) -> Result<(), String> {
    for run in 0..extent.filled {
        let shape = Shape {
            calls: 200,
            tags: Tags {
                attributes: if run % 2 == 0 { 80 } else { 12 },
                value_len: if run % 2 == 0 { 3 } else { 2_000 },
                telling: 1,
                damaged: 0,
            },
            deep: false,
            limited: false,
            mix: FILLING,
        };
        hold_drawn(SEED + 100_000 + run as u64, &shape, tally)?;
        eprintln!("scopes: filled tables: {} calls so far", tally.calls);
    }
    Ok(())
}

/// Good resolvers with one or two changes by hand: 20 from every call, with nothing written, exactly
/// where document 01's form is left; where it isn't, the crate's resolver of the same content decides.
fn changed_by_hand(extent: &Extent, tally: &mut Tally) -> Result<(), String> {
    let mut lcg = Lcg::new(SEED + 6);
    let shape = Shape {
        calls: 0,
        tags: Tags {
            attributes: 5,
            value_len: 6,
            telling: 30,
            damaged: 0,
        },
        deep: false,
        limited: true,
        mix: MIXED,
    };
    for round in 0..extent.bad {
        let mut resolver = NamespaceResolver::default();
        for _ in 0..lcg.below(6) {
            drawn_call(&mut lcg, &resolver, &shape).theirs(&mut resolver)?;
        }
        let mut scope = Scope::of(&resolver);
        let changes = 1 + lcg.below(2);
        (0..changes).for_each(|_| change(&mut lcg, &mut scope));
        if scope.is_bad() {
            hold_bad(&scope, tally)?;
        } else if let Some(theirs) = scope.theirs() {
            let seed = SEED + round as u64;
            let mut pair = Pair::of(scope, theirs, seed, tally);
            pair.calls
                .push(format!("a good resolver made by hand, round {round}"));
            pair.hold_lookups()?;
            let call = drawn_call(&mut lcg, &pair.theirs, &shape);
            pair.make(call)?;
        }
    }
    Ok(())
}

fn hold_bad(scope: &Scope, tally: &mut Tally) -> Result<(), String> {
    tally.runs += 1;
    for position in [0, 99] {
        hold_search_unwritten(scope, &Cursor::at("", [2, position], &[]), 20, tally)?;
    }
    for call in call_of_each_kind() {
        tally.calls += 1;
        tally.refusals += 1;
        tally.added += 1;
        hold_unwritten(scope, &call, 20).map_err(|difference| {
            let [used, count, level, limit] = [0, 1, 2, 3].map(|index| scope.head[index]);
            let records: Vec<_> = (0..count.clamp(3, 9)).map(|i| scope.row(i)).collect();
            format!(
                "{difference}\n  on a resolver that is not of document 01's form: text used {used}, \
                 {count} records, level {level}, limit {limit}, the first records {records:?}"
            )
        })?;
    }
    Ok(())
}

const PARTS: [(&str, Part<Extent, Tally>); 12] = [
    ("document 01's rows", stated_rows),
    ("limits", limits),
    ("depth", depth),
    ("text full", text_room),
    ("records full", record_room),
    ("level 0", level_zero),
    ("wrong lengths", wrong_lengths),
    ("nil", nils),
    ("drawn calls", drawn),
    ("filled tables", filled),
    ("changed by hand", changed_by_hand),
    ("short memory", short::short_memory),
];

const MOST_CALLS: [&str; 6] = [
    "document 01's rows",
    "limits",
    "depth",
    "records full",
    "level 0",
    "filled tables",
];

fn main() -> ExitCode {
    parts::run("scopes", [BOUNDED, SHORT, WHOLE], &PARTS, |extent, what| {
        !extent.every_part && MOST_CALLS.contains(&what)
    })
}
