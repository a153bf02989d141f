//! Times the library's resolver against the crate's own: one process, the same declarations and names,
//! both built for release; the ways take turns (turns.rs).
//!
//! Every call of the library tests the whole memory that it is lent (refusal 20). So each row has the memory that
//! it was measured with: 1 KB at first, and twice as much where that does not do, as the Rust crate lends it. The
//! time with memory of full size stands beside it.
//!
//! What one of many names costs beyond the test is the time of a call with all names less that of a call with
//! none. The prefixes are those that generators write, `ns0` to `ns119`: many of one length, different at their
//! ends. The crate looks from the last binding to the first, so that the first one bound is its longest search.
//!
//! Usage: `scopes [--check] [--markdown]`. Status 1 where the two sides differ in an answer or, with
//! `--check`, where a ratio or a time is above the one that is wanted.

#[path = "../rust/src/library.rs"]
mod library;
mod turns;

use library::{
    KEYS, mz_binding, mz_fresh, mz_pop, mz_push, mz_read_batch, mz_resolve, mz_resolve_all,
};
use oracle::events::BytesStart;
use oracle::{NamespaceResolver, QName, ResolveResult, scopes};
use std::cell::RefCell;
use std::hint::black_box;
use std::process::ExitCode;
use turns::{ROUNDS, fastest, none_missed, shown};

const TEXT: usize = 65_536;
const RECORDS: usize = 1_026;
/// Numbers of a record, of a head, of a state and of an answer.
const ROW: usize = 4;
const HEAD: usize = 4;
const STATE: usize = 4;
const ANSWER: usize = 5;
const NUMBER: usize = size_of::<usize>();
/// Names that are looked up by one call.
const NAMES: usize = 256;
/// The library's answer where more memory is wanted.
const LEND_MORE: usize = 98;

/// The caller's own resolver that is lent to the library.
struct Lent {
    text: Vec<u8>,
    records: Vec<usize>,
    head: [usize; HEAD],
}

macro_rules! call {
    ($function:ident, $lent:expr $(, $more:expr)*) => {{
        let lent: &mut Lent = $lent;
        // SAFETY: each pointer is that of a live slice of the length beside it, or of an array of the length
        // that the library has for it; what is written is borrowed mutably, and apart from everything else.
        unsafe {
            $function(
                lent.text.as_mut_ptr(),
                lent.text.len(),
                lent.records.as_mut_ptr(),
                lent.records.len(),
                lent.head.as_mut_ptr(),
                $($more),*
            )
        }
    }};
}

impl Lent {
    fn fresh(text: usize, rows: usize) -> Result<Self, String> {
        let mut lent = Lent {
            text: vec![0; text],
            records: vec![0; ROW * rows],
            head: [0; HEAD],
        };
        match call!(mz_fresh, &mut lent) {
            0 => Ok(lent),
            answer => Err(format!("no fresh resolver: {answer}")),
        }
    }

    /// 1 KB for text and records, as the Rust crate begins.
    fn first() -> Result<Self, String> {
        Lent::fresh(512, 16)
    }

    fn full() -> Result<Self, String> {
        Lent::fresh(TEXT, RECORDS)
    }

    /// So many bytes in all, as the Rust crate parts them.
    fn of_bytes(bytes: usize) -> Result<Self, String> {
        let rows = 2 + (bytes - Lent::fresh(73, 2)?.bytes()) / 95;
        Lent::fresh(bytes - NUMBER * (HEAD + ROW * rows), rows)
    }

    /// How many bytes are lent.
    const fn bytes(&self) -> usize {
        self.text.len() + NUMBER * (self.records.len() + HEAD)
    }

    /// Twice as much memory, with the same resolver in it.
    fn grow(&mut self) {
        let text = TEXT.min(2 * self.text.len());
        let numbers = (ROW * RECORDS).min(2 * self.records.len());
        self.text.resize(text, 0);
        self.records.resize(numbers, 0);
    }

    fn push_at(&mut self, tag: &str, at: usize) -> usize {
        let mut detail = [0; 2];
        let to = detail.as_mut_ptr();
        call!(mz_push, self, tag.as_ptr(), tag.len(), at, to)
    }

    fn push(&mut self, tag: &str) -> usize {
        self.push_at(tag, 0)
    }

    /// The same, with more memory where that is wanted.
    fn push_growing(&mut self, tag: &str) -> usize {
        loop {
            match self.push(tag) {
                LEND_MORE => self.grow(),
                answer => return answer,
            }
        }
    }

    fn pop(&mut self) -> usize {
        call!(mz_pop, self)
    }

    /// The kind, and the bounds.
    fn resolve_as(&mut self, name: &str, element: bool) -> [usize; 3] {
        let mut detail = [0; 2];
        let to = detail.as_mut_ptr();
        let kind = call!(mz_resolve, self, name.as_ptr(), name.len(), element, to);
        [kind, detail[0], detail[1]]
    }

    fn resolve(&mut self, name: &str) -> [usize; 3] {
        self.resolve_as(name, false)
    }

    /// A listing from a place past all bindings has nothing to do but the test.
    fn test(&mut self) -> usize {
        let mut detail = [0; 5];
        let to = detail.as_mut_ptr();
        call!(mz_binding, self, usize::MAX, to)
    }

    /// Looks up names of a tag, of which the first so many are elements'.
    fn resolve_all(
        &mut self,
        tag: &str,
        [from, to]: [&[usize]; 2],
        elements: usize,
        found: &mut Found,
    ) -> usize {
        let count = from.len();
        call!(
            mz_resolve_all,
            self,
            tag.as_ptr(),
            tag.len(),
            from.as_ptr(),
            count,
            to.as_ptr(),
            to.len(),
            elements,
            found.kinds[..count].as_mut_ptr(),
            count,
            found.begins[..count].as_mut_ptr(),
            count,
            found.ends[..count].as_mut_ptr(),
            count
        )
    }
}

/// What `mz_resolve_all` writes.
struct Found {
    kinds: [usize; NAMES],
    begins: [usize; NAMES],
    ends: [usize; NAMES],
}

impl Found {
    const fn new() -> Self {
        Found {
            kinds: [0; NAMES],
            begins: [0; NAMES],
            ends: [0; NAMES],
        }
    }
}

/// Names in one tag, and each by itself.
struct Names {
    tag: String,
    from: Vec<usize>,
    to: Vec<usize>,
    each: Vec<String>,
}

impl Names {
    fn new(each: Vec<String>) -> Self {
        let (mut tag, mut from, mut to) = (String::new(), Vec::new(), Vec::new());
        for name in &each {
            tag.push(' ');
            from.push(tag.len());
            tag += name;
            to.push(tag.len());
        }
        Names {
            tag,
            from,
            to,
            each,
        }
    }

    fn bounds(&self, count: usize) -> [&[usize]; 2] {
        [&self.from[..count], &self.to[..count]]
    }
}

/// Both resolvers within a tag of so many declarations, and ours once more in memory of full size.
struct Pair {
    bindings: usize,
    theirs: NamespaceResolver,
    ours: RefCell<Lent>,
    full: RefCell<Lent>,
}

/// A tag of so many declarations.
fn declarations(bindings: usize) -> String {
    (0..bindings)
        .map(|n| format!(" xmlns:ns{n}=\"http://example.com/ns/{n}\""))
        .collect()
}

impl Pair {
    fn new(bindings: usize) -> Result<Self, String> {
        Pair::within(bindings, Lent::first()?)
    }

    fn within(bindings: usize, mut ours: Lent) -> Result<Self, String> {
        let tag = declarations(bindings);
        let (mut theirs, mut full) = (NamespaceResolver::default(), Lent::full()?);
        let pushed = matches!(scopes::push(&mut theirs, &tag, 0), Some(Ok(())));
        if !pushed || ours.push_growing(&tag) != 0 || full.push(&tag) != 0 {
            return Err(format!("{bindings} declarations are refused"));
        }
        Ok(Pair {
            bindings,
            theirs,
            ours: RefCell::new(ours),
            full: RefCell::new(full),
        })
    }

    /// Whether both resolve a name alike.
    fn agree(&self, name: &str) -> Result<(), String> {
        let ours = &mut *self.ours.borrow_mut();
        let [kind, begin, end] = ours.resolve(name);
        let alike = match self.theirs.resolve(QName(name), false).0 {
            ResolveResult::Bound(uri) => {
                kind == 1 && ours.text[begin..end] == *uri.into_inner().as_bytes()
            }
            ResolveResult::Unknown(prefix) => kind == 2 && name[begin..end] == prefix,
            ResolveResult::Unbound => kind == 0,
        };
        if alike && self.full.borrow_mut().resolve(name) == [kind, begin, end] {
            return Ok(());
        }
        Err(format!("{name} over {} bindings", self.bindings))
    }

    /// Whether all of the names are answered by one call as by a call for each.
    fn agree_all(&self, names: &Names, found: &mut Found) -> Result<(), String> {
        let answer = self.ours.borrow_mut().resolve_all(
            &names.tag,
            names.bounds(names.each.len()),
            0,
            found,
        );
        for (index, name) in names.each.iter().enumerate() {
            self.agree(name)?;
            let due = self.ours.borrow_mut().resolve(name);
            if answer != 0 || due != [found.kinds[index], found.begins[index], found.ends[index]] {
                return Err(format!("{name} among {NAMES} names"));
            }
        }
        Ok(())
    }

    fn lent(&self) -> usize {
        self.ours.borrow().bytes()
    }
}

/// What is wanted at most: how many times the crate's time, or nanoseconds.
#[derive(Clone, Copy)]
enum Most {
    Times(f64),
    Nanoseconds(f64),
}

/// Nanoseconds of both sides, with so many bytes lent and with full memory.
struct Row {
    what: String,
    bindings: usize,
    lent: usize,
    by_crate: f64,
    ours: f64,
    full: f64,
    most: Option<Most>,
}

impl Row {
    /// How many times as long as the crate the library takes.
    fn ratio(&self) -> f64 {
        self.ours / self.by_crate
    }

    /// What is said where the ratio or the time is above the wanted one.
    fn missed(&self) -> Option<String> {
        let (got, most, unit) = match self.most? {
            Most::Times(most) => (self.ratio(), most, "times"),
            Most::Nanoseconds(most) => (self.ours, most, "ns"),
        };
        let (what, bindings, lent) = (&self.what, self.bindings, self.lent);
        (got > most).then(|| {
            format!(
                "missed: {what}, {bindings} bindings, {lent} bytes: {got:.2} {unit}, wanted at most {most}"
            )
        })
    }
}

fn their_resolve(resolver: &NamespaceResolver, name: &str) -> usize {
    black_box(resolver.resolve(QName(black_box(name)), false));
    0
}

/// A tag with two declarations goes in and out again.
fn push_and_pop(bindings: usize) -> Result<Row, String> {
    const TAG: &str = " xmlns=\"http://example.com/default\" xmlns:q=\"http://example.com/q\"";
    let Pair {
        mut theirs,
        ours,
        full,
        ..
    } = Pair::new(bindings)?;
    let (mut ours, mut full) = (ours.into_inner(), full.into_inner());
    if ours.push_growing(TAG) + full.push(TAG) + ours.pop() + full.pop() != 0 {
        return Err("two declarations are refused".to_string());
    }
    let lent = ours.bytes();
    let [by_crate, ours, full] = fastest([
        &mut || {
            let _ = black_box(scopes::push(&mut theirs, black_box(TAG), 0));
            theirs.pop();
            0
        },
        &mut || ours.push(black_box(TAG)) + ours.pop(),
        &mut || full.push(black_box(TAG)) + full.pop(),
    ]);
    Ok(Row {
        what: "push and pop, two declarations".to_string(),
        bindings,
        lent,
        by_crate,
        ours,
        full,
        most: (bindings <= 20).then_some(Most::Times(3.0)),
    })
}

/// The names that are looked up, by which binding their prefix has.
fn names(bindings: usize) -> [(&'static str, Vec<String>); 5] {
    let bound = |n: usize| format!("ns{n}:item");
    [
        ("the first bound", vec![bound(0); NAMES]),
        ("the last bound", vec![bound(bindings - 1); NAMES]),
        ("none", vec!["nsx:item".to_string(); NAMES]),
        (
            "the last two, in turn",
            (0..NAMES).map(|k| bound(bindings - 1 - k % 2)).collect(),
        ),
        (
            "all in turn",
            (0..NAMES).map(|k| bound(k * bindings / NAMES)).collect(),
        ),
    ]
}

/// One name by one call. What is wanted is about the crate's longest search.
fn resolve_one(pair: &Pair, whose: &str, name: &str) -> Result<Row, String> {
    pair.agree(name)?;
    let [by_crate, ours, full] = fastest([
        &mut || their_resolve(&pair.theirs, name),
        &mut || pair.ours.borrow_mut().resolve(black_box(name))[0],
        &mut || pair.full.borrow_mut().resolve(black_box(name))[0],
    ]);
    let times = match pair.bindings {
        2 => 4.0,
        20 => 1.5,
        _ => 1.0,
    };
    Ok(Row {
        what: format!("resolve, prefix: {whose}"),
        bindings: pair.bindings,
        lent: pair.lent(),
        by_crate,
        ours,
        full,
        most: (whose == "the first bound").then_some(Most::Times(times)),
    })
}

/// One of many names by one call, beyond the test of the resolver.
fn resolve_many(pair: &Pair, whose: &str, each: Vec<String>) -> Result<Row, String> {
    let names = Names::new(each);
    let found = RefCell::new(Found::new());
    pair.agree_all(&names, &mut found.borrow_mut())?;
    let asked = |lent: &RefCell<Lent>, count| {
        let found = &mut *found.borrow_mut();
        let names = black_box(&names);
        lent.borrow_mut()
            .resolve_all(&names.tag, names.bounds(count), 0, found)
    };
    let [by_crate, all, none, full, full_none] = fastest([
        &mut || {
            let each = names.each.iter();
            each.map(|name| their_resolve(&pair.theirs, name)).sum()
        },
        &mut || asked(&pair.ours, NAMES),
        &mut || asked(&pair.ours, 0),
        &mut || asked(&pair.full, NAMES),
        &mut || asked(&pair.full, 0),
    ]);
    Ok(Row {
        what: format!("a name of {NAMES}, beyond the test, prefix: {whose}"),
        bindings: pair.bindings,
        lent: pair.lent(),
        by_crate: by_crate / NAMES as f64,
        ours: (all - none) / NAMES as f64,
        full: (full - full_none) / NAMES as f64,
        most: (pair.bindings >= 20).then_some(Most::Times(0.5)),
    })
}

/// Rule 20's test by itself, beside the crate's lookup over as many bindings.
fn test_alone(pair: &Pair, most: Option<f64>) -> Row {
    let [by_crate, ours, full] = fastest([
        &mut || their_resolve(&pair.theirs, "ns0:item"),
        &mut || pair.ours.borrow_mut().test(),
        &mut || pair.full.borrow_mut().test(),
    ]);
    Row {
        what: "rule 20's test alone, beside the crate's resolve".to_string(),
        bindings: pair.bindings,
        lent: pair.lent(),
        by_crate,
        ours,
        full,
        most: most.map(Most::Nanoseconds),
    }
}

/// A tag of five attributes within a scope that has its prefixes, and the length of its name.
const TAG: &str = "ns0:chunk id=\"c-0000042\" ns1:offset=\"18446744\" ns1:length=\"65536\" \
                   volume=\"archive/north-17\" ns0:sha=\"9f86d081884c7d659a2feaa0c55ad015a3bf4f1b\"";
const TAG_NAME: usize = 9;
const ATTRIBUTES: usize = 5;

/// Places for keys, and room for answers, as the Rust crate's iterator has them.
const PLACES: usize = 32;
const BATCH: usize = 8;

/// The iterator that is lent.
struct Reader {
    starts: [usize; PLACES],
    ends: [usize; PLACES],
    hashes: [u32; PLACES],
    out: [[usize; ANSWER]; BATCH],
}

impl Reader {
    const fn new() -> Self {
        Reader {
            starts: [0; PLACES],
            ends: [0; PLACES],
            hashes: [0; PLACES],
            out: [[0; ANSWER]; BATCH],
        }
    }

    /// All answers of the tag, checks on.
    fn read(&mut self, tag: &str) -> &[[usize; ANSWER]] {
        let mut state = [1, TAG_NAME, 0, 0];
        // SAFETY: each pointer is that of a live array or slice of the stated length, or of the four numbers
        // of a state; the tag is only read, and the five that are written are borrowed mutably and apart
        // from each other.
        let count = unsafe {
            mz_read_batch(
                tag.as_ptr(),
                tag.len(),
                self.starts.as_mut_ptr(),
                PLACES,
                self.ends.as_mut_ptr(),
                PLACES,
                self.hashes.as_mut_ptr(),
                PLACES,
                state.as_mut_ptr(),
                false,
                true,
                self.out.as_mut_ptr().cast(),
                ANSWER * BATCH,
            )
        };
        &self.out[..count]
    }
}

/// The tag goes in, its name and those of its attributes are resolved, and it goes out again: quick-xml's way. The
/// result is how many of them are bound.
fn their_loop(resolver: &mut NamespaceResolver, tag: &str) -> usize {
    let bound = |resolved: &ResolveResult| usize::from(matches!(resolved, ResolveResult::Bound(_)));
    let start = BytesStart::from_content(tag, TAG_NAME);
    if resolver.push(&start).is_err() {
        return 0;
    }
    let mut count = bound(&resolver.resolve_element(start.name()).0);
    for attribute in start.attributes().flatten() {
        count += bound(&resolver.resolve_attribute(attribute.key).0);
        black_box(&attribute.value);
    }
    resolver.pop();
    count
}

/// The same by one call for each name.
fn loop_by_single_calls(lent: &mut Lent, reader: &mut Reader, tag: &str) -> usize {
    if lent.push_at(tag, TAG_NAME) != 0 {
        return 0;
    }
    let mut count = usize::from(lent.resolve_as(&tag[..TAG_NAME], true)[0] == 1);
    for [_, from, to, ..] in reader.read(tag) {
        count += usize::from(lent.resolve(&tag[*from..*to])[0] == 1);
    }
    lent.pop();
    count
}

/// The same by one call for all names.
fn loop_by_resolve_all(
    lent: &mut Lent,
    reader: &mut Reader,
    found: &mut Found,
    tag: &str,
) -> usize {
    if lent.push_at(tag, TAG_NAME) != 0 {
        return 0;
    }
    let mut bounds = [[0; BATCH + 1]; 2];
    bounds[1][0] = TAG_NAME;
    let answers = reader.read(tag);
    for (index, [_, from, to, ..]) in answers.iter().enumerate() {
        bounds[0][index + 1] = *from;
        bounds[1][index + 1] = *to;
    }
    let names = 1 + answers.len();
    let bounds = bounds.each_ref().map(|numbers| &numbers[..names]);
    let answer = lent.resolve_all(tag, bounds, 1, found);
    let count = found.kinds[..names].iter().filter(|kind| **kind == 1);
    let count = answer + count.count();
    lent.pop();
    count
}

/// The loop, in both ways.
fn whole_loop(bindings: usize) -> Result<[Row; 2], String> {
    let Pair {
        mut theirs,
        ours,
        full,
        ..
    } = Pair::new(bindings)?;
    let lent = ours.borrow().bytes();
    let (reader, found) = (RefCell::new(Reader::new()), RefCell::new(Found::new()));
    let single = |lent: &RefCell<Lent>| {
        let (lent, reader) = (&mut *lent.borrow_mut(), &mut *reader.borrow_mut());
        loop_by_single_calls(lent, reader, black_box(TAG))
    };
    let all = |lent: &RefCell<Lent>| {
        let (lent, reader) = (&mut *lent.borrow_mut(), &mut *reader.borrow_mut());
        loop_by_resolve_all(lent, reader, &mut found.borrow_mut(), black_box(TAG))
    };
    let counts = [
        their_loop(&mut theirs, TAG),
        single(&ours),
        all(&ours),
        single(&full),
        all(&full),
    ];
    if counts != [4; 5] || reader.borrow_mut().read(TAG).len() != ATTRIBUTES {
        return Err(format!("the names of a tag that are bound: {counts:?}"));
    }
    let [by_crate, by_single, by_all, full_single, full_all] = fastest([
        &mut || their_loop(&mut theirs, black_box(TAG)),
        &mut || single(&ours),
        &mut || all(&ours),
        &mut || single(&full),
        &mut || all(&full),
    ]);
    let row = |way: &str, ours, full, most| Row {
        what: format!("push, a name, five attributes, pop: {way}"),
        bindings,
        lent,
        by_crate,
        ours,
        full,
        most: (bindings == 2).then_some(Most::Times(most)),
    };
    Ok([
        row("resolve_all", by_all, full_all, 1.5),
        row("single calls", by_single, full_single, 3.0),
    ])
}

fn measure_all() -> Result<Vec<Row>, String> {
    let pairs = [Pair::new(2)?, Pair::new(20)?, Pair::new(120)?];
    let mut rows = Vec::new();
    for (bytes, most) in [(1_024, 40.0), (4_096, 100.0)] {
        let pair = Pair::within(2, Lent::of_bytes(bytes)?)?;
        rows.push(test_alone(&pair, Some(most)));
    }
    rows.extend(pairs.iter().map(|pair| test_alone(pair, None)));
    for pair in &pairs {
        rows.push(push_and_pop(pair.bindings)?);
    }
    for pair in &pairs {
        for (whose, each) in &names(pair.bindings)[..3] {
            rows.push(resolve_one(pair, whose, &each[0])?);
        }
    }
    for pair in &pairs {
        rows.extend(whole_loop(pair.bindings)?);
    }
    for pair in &pairs {
        for (whose, each) in names(pair.bindings) {
            rows.push(resolve_many(pair, whose, each)?);
        }
    }
    Ok(rows)
}

fn print(rows: &[Row], markdown: bool) {
    if markdown {
        println!("| ns | Bindings | Lent | Crate | Library | Ratio | Full memory |");
        println!("|---|--:|--:|--:|--:|--:|--:|");
    } else {
        println!(
            "{:56} {:>8} {:>6} {:>8} {:>8} {:>7} {:>8}",
            "ns", "bindings", "lent", "crate", "library", "ratio", "full"
        );
    }
    for row in rows {
        let (what, bindings, lent, ratio) = (&row.what, row.bindings, row.lent, row.ratio());
        let [by_crate, ours, full] = [row.by_crate, row.ours, row.full].map(shown);
        if markdown {
            println!(
                "| {what} | {bindings} | {lent} | {by_crate} | {ours} | {ratio:.2} | {full} |"
            );
        } else {
            println!(
                "{what:56} {bindings:>8} {lent:>6} {by_crate:>8} {ours:>8} {ratio:>7.2} {full:>8}"
            );
        }
    }
}

/// How much memory is lent for the least that can be done with it.
fn print_memory() -> Result<(), String> {
    let fresh = [Lent::fresh(73, 2)?, Lent::first()?, Lent::full()?].map(|lent| lent.bytes());
    let [least, first, full] = fresh;
    let iterator = |places: usize| NUMBER * (2 * places + STATE) + size_of::<u32>() * places;
    let (reader, most, answer) = (iterator(PLACES), iterator(KEYS), NUMBER * ANSWER);
    println!(
        "Memory: a fresh resolver {least} bytes at least, {first} here, {full} of full size; an iterator {reader} \
         bytes with places for {PLACES} keys, {most} with all, and {answer} for each answer that is read ahead. The \
         crate: {} and {} bytes, and what it has on the heap.\n",
        size_of::<NamespaceResolver>(),
        size_of::<oracle::events::attributes::Attributes>()
    );
    Ok(())
}

/// Says which wanted ratios are missed; whether none is.
fn all_met(rows: &[Row]) -> bool {
    let missed: Vec<String> = rows.iter().filter_map(Row::missed).collect();
    let wanted = rows.iter().filter(|row| row.most.is_some()).count();
    none_missed(wanted, &missed)
}

fn main() -> ExitCode {
    let arguments: Vec<String> = std::env::args().skip(1).collect();
    let known = |argument: &String| argument == "--check" || argument == "--markdown";
    if !arguments.iter().all(known) {
        eprintln!("usage: scopes [--check] [--markdown]");
        return ExitCode::from(2);
    }
    let asked = |option: &str| arguments.iter().any(|argument| argument == option);
    let rows = match measure_all() {
        Ok(rows) => rows,
        Err(difference) => {
            eprintln!("scopes: the two sides differ: {difference}");
            return ExitCode::FAILURE;
        }
    };
    println!(
        "Each time is the least of {ROUNDS} rounds, all ways in turn. Bindings: declared, beyond the two built in. \
         Lent: bytes of memory. Ratio: how many times as long as the crate the library takes.\n"
    );
    if let Err(difference) = print_memory() {
        eprintln!("scopes: {difference}");
        return ExitCode::FAILURE;
    }
    print(&rows, asked("--markdown"));
    if asked("--check") {
        println!();
        return match all_met(&rows) {
            true => ExitCode::SUCCESS,
            false => ExitCode::FAILURE,
        };
    }
    ExitCode::SUCCESS
}
