//! The frame of a comparison: its parts run one after another, each with counts of its own, up to the
//! first difference.

use std::process::ExitCode;
use std::time::Instant;

/// What a part counts.
pub trait Counts: Default {
    /// All counts in one line.
    fn line(&self, what: &str) -> String;

    fn add(&mut self, other: &Self);

    /// How far a part came.
    fn reached(&self) -> String;
}

pub type Part<E, C> = fn(&E, &mut C) -> Result<(), String>;

/// Runs the parts to the extent that the arguments ask for: bounded, short, or the whole. A part that
/// `left_out` names is passed over. Where each begins is said on standard error, with the seconds so far.
pub fn run<E, C: Counts>(
    name: &str,
    [bounded, short, whole]: [E; 3],
    parts: &[(&str, Part<E, C>)],
    left_out: impl Fn(&E, &str) -> bool,
) -> ExitCode {
    let arguments: Vec<String> = std::env::args().skip(1).collect();
    let extent = match &arguments[..] {
        [] => bounded,
        [word] if word == "--short" => short,
        [word] if word == "--whole" => whole,
        _ => {
            eprintln!("usage: {name} [--short | --whole]");
            return ExitCode::from(2);
        }
    };
    let mut all = C::default();
    let start = Instant::now();
    let due: Vec<_> = parts
        .iter()
        .filter(|(what, _)| !left_out(&extent, what))
        .collect();
    for (turn, (what, part)) in due.iter().enumerate() {
        let seconds = start.elapsed().as_secs();
        eprintln!(
            "{name}: {seconds} s: part {} of {}: {what}",
            turn + 1,
            due.len()
        );
        let mut counts = C::default();
        if let Err(difference) = part(&extent, &mut counts) {
            let reached = counts.reached();
            println!("{name}: difference in {what}, after {reached}: {difference}");
            return ExitCode::FAILURE;
        }
        println!("{}", counts.line(what));
        all.add(&counts);
    }
    println!("{}, no difference", all.line(name));
    ExitCode::SUCCESS
}
