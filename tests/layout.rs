//! A program that is linked with a library of another layout: its own `mz_layout` stands for that. Whatever
//! it does first with memory, the crate has to refuse; the word says what.

use mezzulidda::events::attributes::{Attributes, Pieces, Tables};
use mezzulidda::name::{Memory, NamespaceResolver};

const LAYOUT: [usize; 14] = [
    Tables::KEYS,
    4,
    5,
    65_535,
    1_026,
    4,
    4,
    2,
    5,
    8,
    4,
    4,
    9,
    Pieces::MOST,
];

#[unsafe(no_mangle)]
extern "C" fn mz_layout(what: usize) -> usize {
    LAYOUT.get(what).copied().unwrap_or(0)
}

fn main() {
    match std::env::args().nth(1).as_deref() {
        Some("tag") => drop(Attributes::new("a b=''", 1).next()),
        Some("piece") => drop(Pieces::new(0).piece(b"a")),
        Some("finish") => drop(Pieces::new(0).finish()),
        Some("pieces") => drop(Pieces::new(0).next()),
        Some("new") => drop(NamespaceResolver::default()),
        Some("resume") => drop(NamespaceResolver::resume_in(&mut Memory::<73, 2>::zeros())),
        _ => std::process::exit(2),
    }
}
