//! Memory that is lent shorter than its capacity, call by call: near what is in use before and after the call,
//! exactly, one less and one more.
//!
//! What is lent is made first, cut from a resolver that drawn calls led to, sometimes with a change by hand. The
//! same with zeros behind it, up to the capacity, is what it stands for: the call on that decides.

use crate::cases::Lcg;
use crate::declarations::Tags;
use crate::drawn::{FILLING, MIXED, NAMES, Shape, change, drawn_call};
use crate::due::{RECORDS, TEXT};
use crate::lent::{
    BUILT_IN, BUILT_IN_TEXT, Call, LEND_MORE, NUMBERS, ROW, Scope, UNTOUCHED, WRONG_LENGTH,
};
use crate::library::KEYS;
use crate::nil::{self, Cursor, Tag};
use crate::{Extent, SEED, Tally};
use oracle::NamespaceResolver;

/// An answer with what it leaves.
#[derive(PartialEq)]
struct Left {
    code: usize,
    detail: Vec<usize>,
    scope: Scope,
}

impl Left {
    /// What a call does.
    fn by(call: &Call, mut scope: Scope) -> Self {
        let mut detail = vec![UNTOUCHED; call.detail_len()];
        let code = call.ours(&mut scope, &mut detail);
        Left {
            code,
            detail,
            scope,
        }
    }

    /// An answer that changes nothing.
    fn unchanged(code: usize, call: &Call, scope: &Scope) -> Self {
        Left {
            code,
            detail: call.detail_of(code, &[]),
            scope: scope.clone(),
        }
    }

    fn shown(&self) -> String {
        let Left {
            code,
            detail,
            scope,
        } = self;
        format!("{code} {detail:?} leaving {:?}", scope.head)
    }
}

/// What is due where this is lent.
fn due(call: &Call, lent: &Scope) -> Left {
    let (text, numbers) = (lent.text.len(), lent.records.len());
    let within = text <= TEXT && numbers <= NUMBERS;
    // a fresh resolver is made of memory of any content
    let fits = match call {
        Call::Fresh => within,
        _ => lent.holds(lent.head[0], lent.head[1]),
    };
    if !fits {
        return Left::unchanged(WRONG_LENGTH, call, lent);
    }
    let whole = Left::by(call, lent.with_lengths(TEXT, NUMBERS));
    if call.changes() && !lent.holds(whole.scope.head[0], whole.scope.head[1]) {
        return Left::unchanged(LEND_MORE, call, lent);
    }
    // nothing is lost: what it leaves is held
    let scope = whole.scope.with_lengths(text, numbers);
    assert!(scope.with_lengths(TEXT, NUMBERS) == whole.scope);
    Left { scope, ..whole }
}

/// What the library leaves, held against what is due.
fn hold(call: &Call, lent: &Scope, tally: &mut Tally) -> Result<Left, String> {
    let wanted = due(call, lent);
    let ours = Left::by(call, lent.clone());
    tally.short += 1;
    tally.full += usize::from(matches!(wanted.code, 18 | 19));
    tally.bad += usize::from(wanted.code == 20);
    tally.lend_more += usize::from(wanted.code == LEND_MORE);
    tally.wrong_length += usize::from(wanted.code == WRONG_LENGTH);
    if ours == wanted {
        return Ok(ours);
    }
    let beside = if ours.scope == wanted.scope {
        "the same memory"
    } else {
        "other memory"
    };
    Err(format!(
        "{} on text of {} and records of {} numbers, head {:?}:\n  ours   {}, {beside}\n  wanted {}",
        call.shown(),
        lent.text.len(),
        lent.records.len(),
        lent.head,
        ours.shown(),
        wanted.shown()
    ))
}

/// A length near one of these, or far from all of them; up to one past the capacity.
fn near(lcg: &mut Lcg, lengths: &[usize], capacity: usize) -> usize {
    let length = match lcg.below(8) {
        0 => lcg.below(capacity + 2),
        1 => capacity,
        _ => lengths[lcg.below(lengths.len())],
    };
    let other = match lcg.below(8) {
        0 | 1 => length.saturating_sub(1),
        2 => length + 1,
        3 => length + 2 + lcg.below(6),
        4 => length.saturating_sub(2 + lcg.below(6)),
        _ => length,
    };
    other.min(capacity + 1)
}

/// One call on memory of several lengths.
fn hold_lengths(
    lcg: &mut Lcg,
    call: &Call,
    scope: &Scope,
    tally: &mut Tally,
) -> Result<(), String> {
    let after = hold(call, scope, tally)?.scope.head;
    let used = [
        BUILT_IN_TEXT,
        scope.head[0].min(TEXT),
        after[0].min(TEXT),
        after[0].min(TEXT),
    ];
    let rows = [
        BUILT_IN,
        scope.head[1].min(RECORDS),
        after[1].min(RECORDS),
        after[1].min(RECORDS),
    ];
    let numbers = rows.map(|count| ROW * count);
    // exactly what is needed, and one number or byte less
    for (text, numbers) in [
        (used[2], numbers[2]),
        (used[2].saturating_sub(1), numbers[2]),
        (used[2], numbers[2].saturating_sub(1)),
    ] {
        hold(call, &scope.with_lengths(text, numbers), tally)?;
    }
    for _ in 0..8 {
        let text = near(lcg, &used, TEXT);
        let numbers = near(lcg, &numbers, NUMBERS);
        hold(call, &scope.with_lengths(text, numbers), tally)?;
    }
    Ok(())
}

/// A search with key tables of any length: the same where all keys that it would record have a place.
fn hold_places(lcg: &mut Lcg, scope: &Scope, tally: &mut Tally) -> Result<(), String> {
    let (text, at) = nil::drawn_tag(lcg, true);
    let tag = Tag::readings(&text)[lcg.below(4)];
    let (place, keys) = nil::drawn_state(lcg, &text);
    let from = match lcg.chance(60) {
        true => Cursor::opened(at),
        false => Cursor::at(&text, place.numbers(), &keys),
    };
    let (mut whole, mut untouched) = (from.clone(), scope.clone());
    let code = whole.search(&mut untouched, tag);
    let counts = [from.numbers[2], whole.numbers[2], whole.numbers[2]];
    for round in 0..6 {
        let mut lengths = [(); 3].map(|()| near(lcg, &counts, KEYS).min(KEYS));
        if lcg.chance(70) {
            lengths = [lengths[0]; 3];
        }
        if round == 0 {
            lengths = [KEYS; 3];
        }
        let mut ours = from.with_places(lengths);
        let before = ours.clone();
        let got = ours.search(&mut untouched, tag);
        let places = lengths.into_iter().fold(KEYS, usize::min);
        let (due, wanted) = match code {
            20 => (20, before.clone()),
            _ if from.numbers[2] > places => (7, before.zeroed()),
            7 => (7, before.zeroed()),
            _ if whole.numbers[2] > places => (LEND_MORE, before.clone()),
            _ => {
                // unused places of each table are as they were
                let mut left = before.clone();
                let recorded = whole.numbers[2];
                left.starts[..recorded].copy_from_slice(&whole.starts[..recorded]);
                left.ends[..recorded].copy_from_slice(&whole.ends[..recorded]);
                left.hashes[..recorded].copy_from_slice(&whole.hashes[..recorded]);
                left.numbers.clone_from(&whole.numbers);
                (code, left)
            }
        };
        tally.searches += 1;
        tally.yes += usize::from(due == 1);
        tally.lend_more += usize::from(due == LEND_MORE);
        if got != due || ours != wanted || untouched != *scope {
            return Err(format!(
                "has_nil {} with {lengths:?} places, from {}: ours {got} leaving {}, wanted {due} leaving {}",
                tag.shown(),
                before.shown(),
                ours.shown(),
                wanted.shown()
            ));
        }
    }
    Ok(())
}

/// A call that asks.
fn asked(lcg: &mut Lcg, scope: &Scope) -> Call {
    let name = |lcg: &mut Lcg| lcg.pick::<str>(&NAMES).to_string();
    let places = [0, 2, scope.head[1], RECORDS, usize::MAX];
    let place = places[lcg.below(places.len())];
    match lcg.below(4) {
        0 => Call::Resolve(name(lcg), lcg.chance(50)),
        1 => Call::ResolveAll((0..lcg.below(5)).map(|_| name(lcg)).collect(), lcg.below(3)),
        2 => Call::Binding(place),
        _ => Call::BindingOf(lcg.below(4) as u16, place),
    }
}

/// Drawn runs, every sixth on a resolver that has little room left, of records or of text.
pub fn short_memory(extent: &Extent, tally: &mut Tally) -> Result<(), String> {
    let mut lcg = Lcg::new(SEED + 9);
    for run in 0..extent.short {
        let filled = match run % 12 {
            5 => Some(true),
            11 => Some(false),
            _ => None,
        };
        let shape = Shape {
            calls: 12,
            tags: Tags {
                attributes: [0, 2, 4, 12][run % 4],
                value_len: 8,
                telling: 60,
                damaged: [0, 0, 10][run % 3],
            },
            deep: run % 5 == 0,
            limited: filled.is_none(),
            mix: if filled.is_some() { FILLING } else { MIXED },
        };
        hold_run(&mut lcg, &shape, filled, tally)?;
        if run % 24 == 23 {
            eprintln!("scopes: short memory: {} calls so far", tally.short);
        }
    }
    Ok(())
}

/// Leaves room for few records, or for few bytes of text.
fn fill(resolver: &mut NamespaceResolver, records: bool) -> Result<(), String> {
    if records {
        for index in 0..RECORDS - BUILT_IN - 2 {
            Call::add(&format!("p{index}"), "u").theirs(resolver)?;
        }
        return Ok(());
    }
    let value = "u".repeat(TEXT - BUILT_IN_TEXT - 12);
    Call::Add(None, value).theirs(resolver).map(drop)
}

/// Calls on one resolver, each on memory of many lengths first.
fn hold_run(
    lcg: &mut Lcg,
    shape: &Shape,
    filled: Option<bool>,
    tally: &mut Tally,
) -> Result<(), String> {
    tally.runs += 1;
    let mut theirs = NamespaceResolver::default();
    if !shape.limited {
        theirs.set_max_namespace_bindings(usize::MAX);
    }
    match filled {
        Some(records) => fill(&mut theirs, records)?,
        // within a namespace that has `nil`, for the most part
        None => drop(Call::push(&nil::drawn_scope(lcg)).theirs(&mut theirs)?),
    }
    for _ in 0..shape.calls {
        let call = drawn_call(lcg, &theirs, shape);
        let scope = Scope::of(&theirs);
        let mut other = scope.clone();
        change(lcg, &mut other);
        let more = [Call::Fresh, asked(lcg, &scope), asked(lcg, &scope)];
        // the limit is a number of the caller's own
        let calls = more.iter().chain([&call]);
        for call in calls.filter(|call| !matches!(call, Call::SetLimit(_))) {
            hold_lengths(lcg, call, &scope, tally)?;
            hold_lengths(lcg, call, &other, tally)?;
        }
        hold_places(lcg, &scope, tally)?;
        hold_places(lcg, &other, tally)?;
        // what the tables have no room for is decided elsewhere
        let mut after = theirs.clone();
        let told = call.theirs(&mut after)?;
        if !told.is_added() {
            theirs = after;
        }
    }
    Ok(())
}
