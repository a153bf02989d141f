//! Calls on a resolver and changes to it by hand, drawn.

use crate::cases::Lcg;
use crate::declarations::{Tags, drawn_prefix, drawn_tag, drawn_value};
use crate::due::{RECORDS, TEXT};
use crate::lent::{BUILT_IN, BUILT_IN_TEXT, Call, DEEPEST, LIMIT, Scope};
use oracle::NamespaceResolver;
use oracle::scopes;

/// Names whose prefix is one of `PREFIXES`, nearly one, missing or empty.
pub const NAMES: [&str; 14] = [
    "", "a", ":", ":a", "p", "p:", "p:a", "q:b:c", "pp:a", "xml:lang", "xmlns", "xmlns:p",
    "\u{e9}:a", "zz:a",
];

/// How calls are drawn.
#[derive(Clone, Copy)]
pub struct Shape {
    pub calls: usize,
    pub tags: Tags,
    /// Whether levels near the deepest are set.
    pub deep: bool,
    /// Whether limits are drawn; else there is none.
    pub limited: bool,
    pub mix: [usize; 4],
}

/// In a hundred calls: those below the first number push, those below the next ones add, pop and set a
/// level; the rest sets the limit.
pub const MIXED: [usize; 4] = [40, 65, 85, 92];
pub const FILLING: [usize; 4] = [70, 92, 98, 98];

fn drawn_level(lcg: &mut Lcg, level: u16, deep: bool) -> u16 {
    match lcg.below(4) {
        0 if deep => DEEPEST - lcg.below(4) as u16,
        1 => level.saturating_add(lcg.below(4) as u16),
        2 => 0,
        _ => lcg.below(usize::from(level) + 1) as u16,
    }
}

pub fn drawn_call(lcg: &mut Lcg, resolver: &NamespaceResolver, shape: &Shape) -> Call {
    let kind = lcg.below(100);
    match shape.mix.iter().position(|&below| kind < below) {
        Some(0) => {
            let (tag, at) = drawn_tag(lcg, &shape.tags);
            Call::Push(tag, at)
        }
        Some(1) => {
            let named = lcg.chance(75).then(|| drawn_prefix(lcg, &shape.tags));
            Call::Add(named, drawn_value(lcg, &shape.tags))
        }
        Some(2) => Call::Pop,
        Some(_) => Call::SetLevel(drawn_level(lcg, resolver.level(), shape.deep)),
        None if shape.limited => {
            let in_use = scopes::records(resolver).len() - BUILT_IN;
            let limits = [0, 1, in_use, in_use + 1, in_use + 5, LIMIT, usize::MAX];
            Call::SetLimit(limits[lcg.below(limits.len())])
        }
        None => Call::SetLimit(usize::MAX),
    }
}

/// A number that stands near another, or far from it.
fn near(lcg: &mut Lcg, number: usize) -> usize {
    let others = [
        number.wrapping_add(1),
        number.wrapping_sub(1),
        number.wrapping_add(2),
        0,
        1,
        RECORDS,
        RECORDS + 1,
        TEXT,
        TEXT + 1,
        usize::MAX,
    ];
    others[lcg.below(others.len())]
}

/// Which record: a used one for the most part, the built-ins and the first unused ones often.
fn some_record(lcg: &mut Lcg, count: usize) -> usize {
    let last = count.min(RECORDS) - 1;
    let indices = [
        0,
        1,
        lcg.below(last + 1),
        last,
        count.min(RECORDS - 1),
        lcg.below(RECORDS),
        RECORDS - 1,
    ];
    indices[lcg.below(indices.len())]
}

/// One change to a resolver by hand, which leaves it good or not.
pub fn change(lcg: &mut Lcg, scope: &mut Scope) {
    let [used, count] = [
        scope.head[0].clamp(1, TEXT),
        scope.head[1].clamp(1, RECORDS),
    ];
    let index = some_record(lcg, count);
    match lcg.below(12) {
        0 => scope.text[lcg.below(used)] ^= 1,
        1 => scope.text[lcg.below(BUILT_IN_TEXT)] ^= 1,
        2 => {
            let places = [used, lcg.below(TEXT), TEXT - 1];
            scope.text[places[lcg.below(3)].min(TEXT - 1)] ^= 1;
        }
        part @ 3..7 => {
            let number = &mut scope.row_mut(index)[part - 3];
            *number = near(lcg, *number);
        }
        // The bound between prefix and value moves: good, but for the built-ins.
        7 => {
            let row = scope.row_mut(index);
            row[1] = row[1].wrapping_add(1);
            row[2] = row[2].wrapping_sub(1);
        }
        8 => scope.head[0] = near(lcg, scope.head[0]),
        9 => scope.head[1] = near(lcg, scope.head[1]),
        // the deepest level there is, and one that sixteen bits can't hold
        10 => {
            let levels = [0, 1, DEEPEST.into(), usize::from(DEEPEST) + 1, usize::MAX];
            scope.head[2] = levels[lcg.below(levels.len())];
        }
        // all levels go up with that of a record, so that only their size can be wrong
        _ => {
            let level = usize::from(DEEPEST) + lcg.below(2);
            scope.row_mut(index)[3] = level;
            scope.head[2] = level;
        }
    }
}
