//! Reads one tag across chunk boundaries: standard input, or a file, in pieces of so many bytes, each attribute printed as
//! soon as its last byte is there.
//!
//! ```text
//! printf "chunk id='c-17' offset=4096 id=''" | pieces 8
//! ```
//!
//! Usage: `pieces [SIZE [FILE]]`, with a size from 1 to 65,536; without one pieces have 8 bytes. The tag is what stands between `<` and `>`: its name,
//! up to the first whitespace, and its attributes. Each line has how many bytes had come. Status: 0; 3 with faults in the
//! tag; 2 a wrong use; 1 where it can't be read or written.

use mezzulidda::events::attributes::Pieces;
use std::env;
use std::error::Error;
use std::fs::File;
use std::io::{self, ErrorKind, Read, Write};
use std::process::ExitCode;

/// How many bytes have come when something is printed.
fn at(come: usize, what: &str) -> Result<(), io::Error> {
    writeln!(io::stdout(), "{come:>6}  {what}")
}

/// Prints what is there; how many of these are faults.
fn show(tag: &mut Pieces) -> Result<usize, io::Error> {
    let mut faults = 0;
    let come = tag.bytes().len();
    while let Some(answer) = tag.next() {
        match answer {
            Ok(attribute) => at(
                come,
                &format!("{}: {}", attribute.key.into_inner(), attribute.value),
            )?,
            Err(fault) => {
                faults += 1;
                at(come, &format!("! {fault}"))?;
            }
        }
    }
    Ok(faults)
}

/// The next piece, of this size but for the last; empty at the end.
fn piece<'b>(from: &mut dyn Read, into: &'b mut [u8]) -> Result<&'b [u8], io::Error> {
    let mut filled = 0;
    while filled < into.len() {
        match from.read(&mut into[filled..]) {
            Ok(0) => break,
            Ok(read) => filled += read,
            Err(error) if error.kind() == ErrorKind::Interrupted => {}
            Err(error) => return Err(error),
        }
    }
    Ok(&into[..filled])
}

/// Reads the tag; how many faults it has. Its attributes are behind its name, so that where they begin is known once there
/// is whitespace: what comes before that is kept aside.
fn read(from: &mut dyn Read, size: usize) -> Result<usize, Box<dyn Error>> {
    let mut buffer = vec![0; size];
    let mut name = Vec::new();
    let mut tag: Option<Pieces> = None;
    let mut faults = 0;
    loop {
        let piece = piece(from, &mut buffer)?;
        if piece.is_empty() {
            break;
        }
        match &mut tag {
            Some(tag) => tag.piece(piece)?,
            None => {
                let before = name.len();
                name.extend_from_slice(piece);
                let Some(end) = piece.iter().position(|byte| b" \t\r\n".contains(byte)) else {
                    if name.len() > Pieces::MOST {
                        return Err(format!("a name of more than {} bytes", Pieces::MOST).into());
                    }
                    continue;
                };
                let mut opened = Pieces::new(before + end);
                opened.piece(&name)?;
                tag = Some(opened);
            }
        }
        if let Some(tag) = &mut tag {
            faults += show(tag)?;
        }
    }
    // a name alone has no attributes
    if let Some(tag) = &mut tag {
        tag.finish()?;
        faults += show(tag)?;
    }
    Ok(faults)
}

fn main() -> ExitCode {
    let words: Vec<String> = env::args().skip(1).collect();
    let size = words.first().map_or(Ok(8), |word| word.parse());
    let (Ok(size @ 1..=Pieces::MOST), 0..=2) = (size, words.len()) else {
        eprintln!("usage: pieces [SIZE [FILE]]");
        return ExitCode::from(2);
    };
    let read = match words.get(1) {
        None => read(&mut io::stdin().lock(), size),
        Some(file) => File::open(file)
            .map_err(Box::from)
            .and_then(|mut file| read(&mut file, size)),
    };
    match read {
        Ok(0) => ExitCode::SUCCESS,
        Ok(_) => ExitCode::from(3),
        Err(error) => {
            eprintln!("pieces: {error}");
            ExitCode::FAILURE
        }
    }
}
