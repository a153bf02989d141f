//! Times the library's iterator against the crate's own: one process, the same tags, XML mode, both
//! built for release.
//!
//! Three ways to read a whole tag take turns, a short round each, and of all its rounds each way's
//! fastest counts: another program on the machine can slow a round down, and nothing can make one
//! faster. For the crate the faster of two ways is taken, its public `Attributes` and the private
//! `IterState` below it. The library's batch is lent the same tables for every tag; they are not
//! cleared in between.
//!
//! Built with `before`, the batch of another library takes its turns among them: `./bench --before`.
//!
//! Usage: `iterator [--check] [--markdown]`, or `iterator --plot` for the figures that benchmark/plot
//! draws. Status 1 where the ways differ in how many answers a tag has or, with `--check`, where a ratio
//! is below the one that is wanted, or a tag takes over 5 % longer than by the other library.

#[path = "../rust/src/library.rs"]
mod library;
mod turns;

use library::{KEYS, mz_read_batch};
use oracle::steps::{count_by_attributes, count_by_state};
use std::cell::RefCell;
use std::hint::black_box;
use std::process::ExitCode;
use turns::{ROUNDS, fastest, none_missed, shown};

/// The form of `mz_read_batch`.
type ReadBatch = unsafe extern "C" fn(
    *const u8,
    usize,
    *mut usize,
    usize,
    *mut usize,
    usize,
    *mut u32,
    usize,
    *mut usize,
    bool,
    bool,
    *mut usize,
    usize,
) -> usize;

#[cfg(before)]
unsafe extern "C" {
    /// `mz_read_batch` of the other library, under the name that `./bench` gives it.
    fn before_read_batch();
}

// SAFETY: whoever names a library to `./bench --before` says that its batch has this form.
#[cfg(before)]
const BEFORE: Option<ReadBatch> =
    Some(unsafe { std::mem::transmute::<unsafe extern "C" fn(), ReadBatch>(before_read_batch) });
#[cfg(not(before))]
const BEFORE: Option<ReadBatch> = None;

/// How many times as long as by the other library a tag may take.
const SLOWER: f64 = 1.05;

/// Room for all answers of any tag here, and one more, so that one call reads to the end.
const ROOM: usize = 5 * (KEYS + 1);

/// What is lent to the batch, tag after tag.
struct Lent {
    starts: [usize; KEYS],
    ends: [usize; KEYS],
    hashes: [u32; KEYS],
    out: [usize; ROOM],
}

impl Lent {
    #[inline(always)]
    fn read(&mut self, batch: ReadBatch, tag: &[u8], checks: bool) -> usize {
        // The place next, at 0, and no recorded key.
        let mut state = [1, 0, 0, 0];
        // SAFETY: each pointer is that of a live array or slice of the stated length, or of the four numbers
        // of a state; the tag is only read, and the five that are written are borrowed mutably and apart
        // from each other.
        let count = unsafe {
            batch(
                tag.as_ptr(),
                tag.len(),
                self.starts.as_mut_ptr(),
                KEYS,
                self.ends.as_mut_ptr(),
                KEYS,
                self.hashes.as_mut_ptr(),
                KEYS,
                state.as_mut_ptr(),
                false,
                checks,
                self.out.as_mut_ptr(),
                ROOM,
            )
        };
        black_box(&self.out);
        count
    }
}

/// A tag, and the least ratio that the batch is wanted to have with checks on and with checks off.
struct Case {
    name: String,
    tag: String,
    wanted: [Option<f64>; 2],
}

const CATALOGUE: &str = " id=\"c-0000042\" offset=\"18446744\" length=\"65536\" \
                         volume=\"archive/north-17\" sha=\"9f86d081884c7d659a2feaa0c55ad015a3bf4f1b\"";
const _: () = assert!(CATALOGUE.len() == 121);

/// A tag of so many short attributes.
fn short_attributes(count: usize) -> String {
    (0..count).map(|n| format!(" a{n}=\"{n}\"")).collect()
}

fn cases() -> Vec<Case> {
    let case = |name: &str, tag: String, on: f64, off: Option<f64>| Case {
        name: name.to_string(),
        tag,
        wanted: [Some(on), off],
    };
    let short = |count: usize, on: Option<f64>| Case {
        name: format!("{count} short attributes"),
        tag: short_attributes(count),
        wanted: [on, Some(1.25)],
    };
    let unquoted = (0..20).map(|n| format!(" a{n}=v{n}")).collect();
    let long = "v".repeat(4_096);
    vec![
        case(
            "catalogue, 5 attributes, 121 bytes",
            CATALOGUE.to_string(),
            1.7,
            Some(1.25),
        ),
        short(22, Some(1.8)),
        short(32, Some(1.8)),
        short(33, Some(1.8)),
        short(64, Some(1.6)),
        short(256, Some(1.2)),
        short(700, Some(1.2)),
        short(KEYS, None),
        case(
            "two values of 4 KB",
            format!(" a=\"{long}\" b='{long}'"),
            8.0,
            None,
        ),
        case("20 unquoted values", unquoted, 1.8, None),
    ]
}

/// One tag with checks on or off: how many answers it has, and nanoseconds a tag.
struct Row {
    name: String,
    checks: bool,
    answers: usize,
    by_crate: f64,
    batch: f64,
    before: Option<f64>,
    wanted: Option<f64>,
}

impl Row {
    /// How many times the crate's speed the batch has.
    fn batch_ratio(&self) -> f64 {
        self.by_crate / self.batch
    }

    /// How many times as long as by the other library the batch takes.
    fn beside(&self) -> Option<f64> {
        self.before.map(|before| self.batch / before)
    }

    /// What is said where that is too long.
    fn slower(&self) -> Option<String> {
        let times = self.beside()?;
        (times > SLOWER).then(|| {
            let checks = self.checks_shown();
            format!(
                "slower: {}, checks {checks}: {times:.2} times as long as before",
                self.name
            )
        })
    }

    const fn checks_shown(&self) -> &'static str {
        if self.checks { "on" } else { "off" }
    }

    /// What is said where the batch's ratio is below the wanted one.
    fn missed(&self) -> Option<String> {
        let wanted = self.wanted?;
        let ratio = self.batch_ratio();
        (ratio < wanted).then(|| {
            let checks = self.checks_shown();
            format!(
                "missed: {}, checks {checks}: {ratio:.2}, wanted {wanted}",
                self.name
            )
        })
    }
}

fn measure(case: &Case, checks: bool) -> Result<Row, String> {
    let text = case.tag.as_str();
    let tag = text.as_bytes();
    let mut lent = Lent {
        starts: [0; KEYS],
        ends: [0; KEYS],
        hashes: [0; KEYS],
        out: [0; ROOM],
    };
    let mut attributes = || count_by_attributes(black_box(text), false, checks);
    let mut state = || count_by_state(black_box(tag), false, checks);
    // Both libraries read into the same memory, in turn.
    let lent = RefCell::new(&mut lent);
    let mut batch = || {
        lent.borrow_mut()
            .read(mz_read_batch, black_box(tag), checks)
    };
    let mut before = || match BEFORE {
        Some(before) => lent.borrow_mut().read(before, black_box(tag), checks),
        None => 0,
    };
    let mut counts = vec![attributes(), state(), batch()];
    counts.extend(BEFORE.map(|_| before()));
    let answers = counts[0];
    if counts.iter().any(|&count| count != answers) {
        return Err(format!(
            "{}: Attributes, IterState and batch give {counts:?} answers",
            case.name
        ));
    }
    let (attributes, state, batch, before) = if BEFORE.is_some() {
        let [attributes, state, batch, before] =
            fastest([&mut attributes, &mut state, &mut batch, &mut before]);
        (attributes, state, batch, Some(before))
    } else {
        let [attributes, state, batch] = fastest([&mut attributes, &mut state, &mut batch]);
        (attributes, state, batch, None)
    };
    Ok(Row {
        name: case.name.clone(),
        checks,
        answers,
        by_crate: attributes.min(state),
        batch,
        before,
        wanted: case.wanted[usize::from(!checks)],
    })
}

fn print_plain(rows: &[Row]) {
    print!(
        "{:36} {:6} {:>7} {:>8} {:>8} {:>6}",
        "ns a tag", "checks", "answers", "crate", "batch", "ratio"
    );
    if BEFORE.is_some() {
        print!(" {:>8} {:>6}", "before", "beside");
    }
    println!();
    for row in rows {
        print!(
            "{:36} {:6} {:>7} {:>8} {:>8} {:>6.2}",
            row.name,
            row.checks_shown(),
            row.answers,
            shown(row.by_crate),
            shown(row.batch),
            row.batch_ratio()
        );
        if let (Some(before), Some(beside)) = (row.before, row.beside()) {
            print!(" {:>8} {beside:>6.2}", shown(before));
        }
        println!();
    }
}

fn print_markdown(rows: &[Row]) {
    let (names, rules) = match BEFORE {
        Some(_) => (" Before | Beside |", "--:|--:|"),
        None => ("", ""),
    };
    println!("| ns a tag | Checks | Answers | Crate | Batch | Ratio |{names}");
    println!("|---|---|--:|--:|--:|--:|{rules}");
    for row in rows {
        print!(
            "| {} | {} | {} | {} | {} | {:.2} |",
            row.name,
            row.checks_shown(),
            row.answers,
            shown(row.by_crate),
            shown(row.batch),
            row.batch_ratio()
        );
        if let (Some(before), Some(beside)) = (row.before, row.beside()) {
            print!(" {} | {beside:.2} |", shown(before));
        }
        println!();
    }
}

/// Says which wanted ratios are missed, and what is slower than by the other library; whether nothing is.
fn all_met(rows: &[Row]) -> bool {
    let missed: Vec<String> = rows.iter().filter_map(Row::missed).collect();
    let wanted = rows.iter().filter(|row| row.wanted.is_some()).count();
    let slower: Vec<String> = rows.iter().filter_map(Row::slower).collect();
    for line in &slower {
        println!("{line}");
    }
    none_missed(wanted, &missed) && slower.is_empty()
}

fn measure_all() -> Result<Vec<Row>, String> {
    let mut rows = Vec::new();
    for checks in [true, false] {
        for case in cases() {
            rows.push(measure(&case, checks)?);
        }
    }
    Ok(rows)
}

/// The numbers of attributes that are plotted: 32 and 33 are where the crate begins to search by hash.
const PLOTTED: [usize; 18] = [
    1, 2, 4, 8, 16, 22, 32, 33, 48, 64, 96, 128, 192, 256, 384, 512, 700, KEYS,
];

/// All of them are measured so many times over, and each way's fastest counts.
const PASSES: usize = 4;

/// For each plotted number of short attributes, checks on, nanoseconds a tag: the crate's, the batch's.
fn measure_plotted() -> Result<[[f64; 2]; PLOTTED.len()], String> {
    let mut least = [[f64::INFINITY; 2]; PLOTTED.len()];
    for index in (0..PASSES).flat_map(|_| 0..PLOTTED.len()) {
        let count = PLOTTED[index];
        let case = Case {
            name: format!("{count} short attributes"),
            tag: short_attributes(count),
            wanted: [None, None],
        };
        let row = measure(&case, true)?;
        let [by_crate, batch] = least[index];
        least[index] = [by_crate.min(row.by_crate), batch.min(row.batch)];
    }
    Ok(least)
}

/// Prints them as benchmark/plot reads them.
fn print_plotted() -> ExitCode {
    let measured = match measure_plotted() {
        Ok(measured) => measured,
        Err(difference) => {
            eprintln!("iterator: {difference}");
            return ExitCode::FAILURE;
        }
    };
    println!("attributes\tcrate\tbatch");
    for (count, [by_crate, batch]) in PLOTTED.iter().zip(measured) {
        println!("{count}\t{by_crate:.1}\t{batch:.1}");
    }
    ExitCode::SUCCESS
}

fn main() -> ExitCode {
    let arguments: Vec<String> = std::env::args().skip(1).collect();
    if arguments == ["--plot"] {
        return print_plotted();
    }
    let known = |argument: &String| argument == "--check" || argument == "--markdown";
    if !arguments.iter().all(known) {
        eprintln!("usage: iterator [--check] [--markdown], or iterator --plot");
        return ExitCode::from(2);
    }
    let asked = |option: &str| arguments.iter().any(|argument| argument == option);
    let rows = match measure_all() {
        Ok(rows) => rows,
        Err(difference) => {
            eprintln!("iterator: {difference}");
            return ExitCode::FAILURE;
        }
    };
    println!(
        "XML mode. Each time is the least of {ROUNDS} rounds, all ways in turn. Ratio: how many times \
         the crate's speed.\n"
    );
    match asked("--markdown") {
        true => print_markdown(&rows),
        false => print_plain(&rows),
    }
    if asked("--check") {
        println!();
        return if all_met(&rows) {
            ExitCode::SUCCESS
        } else {
            ExitCode::FAILURE
        };
    }
    ExitCode::SUCCESS
}
