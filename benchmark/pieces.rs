//! Times the library's reader of tags that arrive in pieces: beside the batch on the whole tag, byte by byte, and for tags
//! of which one is sixteen times as long as the other. XML mode, checks on, built for release.
//!
//! The ways take turns (turns.rs). What is lent is the same for every tag, and is not cleared in between. After a piece
//! a way takes nothing before the finish, or asks after each piece, or asks where the phase tells that an answer may be there,
//! as the Rust crate does.
//!
//! Usage: `pieces [--check] [--markdown]`, or `pieces --plot` for the figures that benchmark/plot draws. Status 1 where the
//! ways differ in how many answers a tag has or, with `--check`, where a figure is above the one that is wanted.

#[path = "../rust/src/library.rs"]
mod library;
mod turns;

use library::{HOLD, KEYS, mz_finish, mz_piece, mz_read_batch, mz_take};
use std::cell::RefCell;
use std::hint::black_box;
use std::process::ExitCode;
use turns::{fastest_of, none_missed, shown};

/// Room for all answers of any tag here, and one more, so that one call reads to the end.
const ROOM: usize = 5 * (KEYS + 1);

/// Rounds of each row; a row whose tag is long has fewer.
const ROUNDS: usize = 4_000;
const LONG_ROUNDS: usize = 300;

/// What is lent, tag after tag.
struct Lent {
    text: [u8; HOLD],
    starts: [usize; KEYS],
    ends: [usize; KEYS],
    hashes: [u32; KEYS],
    out: [usize; ROOM],
}

/// When answers are asked for, before the finish.
#[derive(Clone, Copy, PartialEq)]
enum Asks {
    Never,
    /// Where the phase says that one may be there.
    ByPhase,
    /// After each piece.
    Always,
}

impl Asks {
    const fn shown(self) -> &'static str {
        match self {
            Asks::Never => "at the end",
            Asks::ByPhase => "by the phase",
            Asks::Always => "after each piece",
        }
    }
}

impl Lent {
    fn new() -> Box<Self> {
        Box::new(Lent {
            text: [0; HOLD],
            starts: [0; KEYS],
            ends: [0; KEYS],
            hashes: [0; KEYS],
            out: [0; ROOM],
        })
    }

    /// The whole tag, by the batch.
    fn whole(&mut self, tag: &[u8]) -> usize {
        let mut state = [1, 0, 0, 0];
        // SAFETY: each pointer is that of a live array or slice of the stated length, or of the four numbers
        // of a state; the tag is only read, and the five that are written are borrowed mutably and apart
        // from each other.
        let count = unsafe {
            mz_read_batch(
                tag.as_ptr(),
                tag.len(),
                self.starts.as_mut_ptr(),
                KEYS,
                self.ends.as_mut_ptr(),
                KEYS,
                self.hashes.as_mut_ptr(),
                KEYS,
                state.as_mut_ptr(),
                false,
                true,
                self.out.as_mut_ptr(),
                ROOM,
            )
        };
        black_box(&self.out);
        count
    }

    #[inline(always)]
    fn take(&mut self, reader: &mut [usize; 9]) -> usize {
        // SAFETY: as above, with the nine numbers of a reader.
        let count = unsafe {
            mz_take(
                self.text.as_ptr(),
                HOLD,
                self.starts.as_mut_ptr(),
                KEYS,
                self.ends.as_mut_ptr(),
                KEYS,
                self.hashes.as_mut_ptr(),
                KEYS,
                reader.as_mut_ptr(),
                false,
                true,
                self.out.as_mut_ptr(),
                ROOM,
            )
        };
        black_box(&self.out);
        count
    }

    /// The tag in pieces of this size.
    fn in_pieces(&mut self, tag: &[u8], size: usize, asks: Asks) -> usize {
        let mut reader = [1, 0, 0, 0, 0, 0, 0, 0, 0];
        let mut answers = 0;
        let mut asked = usize::MAX;
        for piece in tag.chunks(size) {
            // SAFETY: each pointer is that of a live array or slice of the stated length, or of the nine numbers; the
            // piece is only read, and lies apart from what is written.
            let answer = unsafe {
                mz_piece(
                    self.text.as_mut_ptr(),
                    HOLD,
                    reader.as_mut_ptr(),
                    piece.as_ptr(),
                    piece.len(),
                )
            };
            assert_eq!(answer, 0);
            let worth = match (asks, reader[6]) {
                (Asks::Never, _) => false,
                (Asks::Always, _) | (_, 1 | 9) => true,
                (_, 6..9) => asked != reader[7],
                _ => false,
            };
            if worth {
                asked = reader[7];
                answers += self.take(&mut reader);
            }
        }
        // SAFETY: the pointer is that of the nine numbers, borrowed mutably.
        assert_eq!(unsafe { mz_finish(reader.as_mut_ptr()) }, 0);
        answers + self.take(&mut reader)
    }
}

const CATALOGUE: &str = " id=\"c-0000042\" offset=\"18446744\" length=\"65536\" \
                         volume=\"archive/north-17\" sha=\"9f86d081884c7d659a2feaa0c55ad015a3bf4f1b\"";
const _: () = assert!(CATALOGUE.len() == 121);

/// A tag of so many short attributes.
fn short_attributes(count: usize) -> String {
    (0..count).map(|n| format!(" a{n}=\"{n}\"")).collect()
}

/// A tag of so many bytes with one attribute.
fn one_value(bytes: usize) -> String {
    format!(" a=\"{}\"", "v".repeat(bytes - 5))
}

/// A tag of attributes of 24 bytes each, up to so many bytes.
fn attributes_of_24(bytes: usize) -> String {
    (0..bytes / 24)
        .map(|n| format!(" key{n:04}=\"{:012}\"", 7 * n))
        .collect()
}

/// A line of the table: what was timed, nanoseconds of it, and of what stands beside it; and the most that is wanted of a figure,
/// which is their ratio or nanoseconds a piece.
struct Row {
    name: String,
    asks: Asks,
    time: f64,
    pieces: usize,
    beside: Option<f64>,
    wanted: Option<f64>,
}

impl Row {
    fn a_piece(&self) -> f64 {
        self.time / self.pieces as f64
    }

    fn ratio(&self) -> Option<f64> {
        self.beside.map(|beside| self.time / beside)
    }

    /// What is said where a figure is above the one that is wanted.
    fn missed(&self) -> Option<String> {
        let wanted = self.wanted?;
        let figure = self.ratio().unwrap_or(self.a_piece());
        (figure > wanted).then(|| {
            let (name, asks) = (&self.name, self.asks.shown());
            format!("missed: {name}, {asks}: {figure:.2}, wanted {wanted}")
        })
    }

    fn cells(&self) -> [String; 6] {
        let number = |number: Option<f64>| number.map_or(String::new(), shown);
        [
            self.asks.shown().to_string(),
            shown(self.time),
            shown(self.a_piece()),
            number(self.beside),
            self.ratio()
                .map_or(String::new(), |ratio| format!("{ratio:.2}")),
            self.wanted
                .map_or(String::new(), |wanted| wanted.to_string()),
        ]
    }
}

/// Nanoseconds of the whole tag by the batch, and in pieces of a size by each way to ask.
fn measure(tag: &[u8], size: usize, asks: &[Asks]) -> Result<(f64, Vec<f64>), String> {
    let lent = RefCell::new(Lent::new());
    let rounds = if tag.len() / size > 1_000 {
        LONG_ROUNDS
    } else {
        ROUNDS
    };
    let answers = lent.borrow_mut().whole(tag);
    let mut times = Vec::new();
    let mut least = f64::INFINITY;
    for &asks in asks {
        let mut whole = || lent.borrow_mut().whole(black_box(tag));
        let mut pieces = || lent.borrow_mut().in_pieces(black_box(tag), size, asks);
        if pieces() != answers {
            return Err(format!(
                "a tag of {} bytes in pieces of {size} has not {answers} answers",
                tag.len()
            ));
        }
        let [by_batch, by_pieces] = fastest_of(rounds, [&mut whole, &mut pieces]);
        least = least.min(by_batch);
        times.push(by_pieces);
    }
    Ok((least, times))
}

/// One piece and the finish, beside the batch on the whole tag.
fn at_once() -> Result<Vec<Row>, String> {
    let tags = [
        (
            "catalogue, 5 attributes, 121 bytes",
            CATALOGUE.to_string(),
            true,
        ),
        ("22 short attributes", short_attributes(22), true),
        ("256 short attributes", short_attributes(256), true),
        ("1024 short attributes", short_attributes(KEYS), false),
        ("a value of 4 KB", one_value(4_096), false),
    ];
    let mut rows = Vec::new();
    for (name, tag, wanted) in tags {
        let asks = [Asks::Never, Asks::Always];
        let (batch, times) = measure(tag.as_bytes(), tag.len(), &asks)?;
        for (asks, time) in asks.into_iter().zip(times) {
            rows.push(Row {
                name: format!("{name}: one piece, beside the batch"),
                asks,
                time,
                pieces: 1,
                beside: Some(batch),
                wanted: (wanted && asks == Asks::Never).then_some(1.5),
            });
        }
    }
    Ok(rows)
}

const EACH: [Asks; 3] = [Asks::Never, Asks::ByPhase, Asks::Always];

/// Pieces of one byte.
fn byte_by_byte() -> Result<Vec<Row>, String> {
    let tags = [
        (
            "catalogue, 121 pieces of a byte",
            CATALOGUE.to_string(),
            true,
        ),
        (
            "256 short attributes in bytes",
            short_attributes(256),
            false,
        ),
    ];
    let mut rows = Vec::new();
    for (name, tag, wanted) in tags {
        let (_, times) = measure(tag.as_bytes(), 1, &EACH)?;
        for (asks, time) in EACH.into_iter().zip(times) {
            rows.push(Row {
                name: name.to_string(),
                asks,
                time,
                pieces: tag.len(),
                beside: None,
                wanted: (wanted && asks != Asks::Always).then_some(30.0),
            });
        }
    }
    Ok(rows)
}

/// A value of 64 KB beside one of 4 KB, byte by byte.
fn long_values() -> Result<Vec<Row>, String> {
    let (short, long) = (one_value(4_096), one_value(HOLD));
    let (_, short_times) = measure(short.as_bytes(), 1, &EACH)?;
    let (_, long_times) = measure(long.as_bytes(), 1, &EACH)?;
    let rows = EACH
        .into_iter()
        .zip(long_times.into_iter().zip(short_times));
    Ok(rows
        .map(|(asks, (time, beside))| Row {
            name: "a tag of 64 KB in bytes, beside one of 4 KB".to_string(),
            asks,
            time,
            pieces: HOLD,
            beside: Some(beside),
            wanted: Some(20.0),
        })
        .collect())
}

fn measure_all() -> Result<Vec<Row>, String> {
    Ok([at_once()?, byte_by_byte()?, long_values()?]
        .into_iter()
        .flatten()
        .collect())
}

fn print(rows: &[Row], markdown: bool) {
    if markdown {
        println!("| ns a tag | Asked | Time | A piece | Beside | Ratio | Wanted, at most |");
        println!("|---|---|--:|--:|--:|--:|--:|");
    } else {
        println!(
            "{:66} {:16} {:>9} {:>9} {:>9} {:>6} {:>7}",
            "ns a tag", "asked", "time", "a piece", "beside", "ratio", "wanted"
        );
    }
    for row in rows {
        let [asks, time, a_piece, beside, ratio, wanted] = row.cells();
        if markdown {
            println!(
                "| {} | {asks} | {time} | {a_piece} | {beside} | {ratio} | {wanted} |",
                row.name
            );
        } else {
            println!(
                "{:66} {asks:16} {time:>9} {a_piece:>9} {beside:>9} {ratio:>6} {wanted:>7}",
                row.name
            );
        }
    }
}

/// The sizes of pieces that are plotted.
const PLOTTED: u32 = 13;

/// Prints nanoseconds a byte for each size of pieces, asked by the phase, as benchmark/plot reads them: of a tag with one
/// value of 4 KB, of one with 64 KB, and of one with attributes of 24 bytes.
fn print_plotted() -> Result<(), String> {
    let tags = [one_value(4_096), one_value(HOLD), attributes_of_24(4_096)];
    println!("piece\tvalue of 4 KB\tvalue of 64 KB\tattributes");
    for power in 0..PLOTTED {
        let size = 1 << power;
        print!("{size}");
        for tag in &tags {
            let (_, times) = measure(tag.as_bytes(), size, &[Asks::ByPhase])?;
            print!("\t{:.3}", times[0] / tag.len() as f64);
        }
        println!();
    }
    Ok(())
}

fn main() -> ExitCode {
    let arguments: Vec<String> = std::env::args().skip(1).collect();
    let asked = |option: &str| arguments.iter().any(|argument| argument == option);
    let failed = |difference: String| {
        eprintln!("pieces: {difference}");
        ExitCode::FAILURE
    };
    if arguments == ["--plot"] {
        return print_plotted().map_or_else(failed, |()| ExitCode::SUCCESS);
    }
    let known = |argument: &String| argument == "--check" || argument == "--markdown";
    if !arguments.iter().all(known) {
        eprintln!("usage: pieces [--check] [--markdown], or pieces --plot");
        return ExitCode::from(2);
    }
    let rows = match measure_all() {
        Ok(rows) => rows,
        Err(difference) => return failed(difference),
    };
    println!(
        "XML mode, checks on. Each time is the least of {ROUNDS} rounds, or of {LONG_ROUNDS} where pieces are over 1,000.\n"
    );
    print(&rows, asked("--markdown"));
    if asked("--check") {
        println!();
        let missed: Vec<String> = rows.iter().filter_map(Row::missed).collect();
        let wanted = rows.iter().filter(|row| row.wanted.is_some()).count();
        if !none_missed(wanted, &missed) {
            return ExitCode::FAILURE;
        }
    }
    ExitCode::SUCCESS
}
