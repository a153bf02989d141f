//! Tags that arrive in pieces: the answers of the whole tag, however it is cut; when each is there; what is refused; and
//! what asking costs.

use mezzulidda::events::attributes::{
    Attr, AttrError, ByteAttributes, Held, Kept, PieceError, Pieces, Tables,
};
use std::time::{Duration, Instant};

/// An answer that holds nothing of a reader.
type Told = Result<Attr<Vec<u8>>, AttrError>;

fn told(answer: Result<Attr<&[u8]>, AttrError>) -> Told {
    answer.map(|attr| attr.map(<[u8]>::to_vec))
}

/// All answers that are there.
fn there<T: Kept, B: Held>(tag: &mut Pieces<T, B>) -> Vec<Told> {
    let mut answers = Vec::new();
    while let Some(answer) = tag.next_bytes() {
        answers.push(told(answer));
    }
    assert_eq!(tag.next_bytes(), None);
    answers
}

fn opened(html: bool, position: usize) -> Pieces {
    match html {
        true => Pieces::html(position),
        false => Pieces::new(position),
    }
}

/// The answers of a whole tag.
fn whole(tag: &[u8], html: bool, checks: bool, position: usize) -> Vec<Told> {
    let mut attributes = match html {
        true => ByteAttributes::html(tag, position),
        false => ByteAttributes::new(tag, position),
    };
    attributes.with_checks(checks).map(told).collect()
}

const TAGS: [&str; 12] = [
    "",
    " ",
    "a='1' b=\"2\"",
    " a = '1'b= \"\"a='3' c",
    "a=1 b='x' a=2 c",
    "a='1 b",
    "a= ",
    "a  ",
    "= '1' =='2'",
    "a a a='' b",
    "\ta\r=\n'é' é=\"日本\" é",
    "chunk id='c-17' offset=\"4096\" id='' length = '65536' sealed",
];

/// Each tag in both modes, with checks on and off, from its start and from inside.
fn readings() -> impl Iterator<Item = (&'static [u8], bool, bool, usize)> {
    TAGS.into_iter().flat_map(|tag| {
        [0, 1, 5, 200].into_iter().flat_map(move |position| {
            [(false, true), (false, false), (true, true), (true, false)]
                .map(|(html, checks)| (tag.as_bytes(), html, checks, position))
        })
    })
}

#[test]
fn as_the_whole_tag_however_it_is_cut() {
    let mut tables = Tables::new();
    let mut text = [0x5a; 100];
    for (tag, html, checks, position) in readings() {
        let wanted = whole(tag, html, checks, position);
        for size in 1..=tag.len().max(1) {
            for takes in [false, true] {
                let mut own = opened(html, position);
                let mut lent = match html {
                    true => Pieces::html_with_tables(position, &mut tables, &mut text),
                    false => Pieces::with_tables(position, &mut tables, &mut text),
                };
                own.with_checks(checks);
                lent.with_checks(checks);
                let mut read = [Vec::new(), Vec::new()];
                for piece in tag.chunks(size) {
                    own.piece(piece).unwrap();
                    lent.piece(piece).unwrap();
                    own.piece(b"").unwrap();
                    if takes {
                        read[0].extend(there(&mut own));
                        read[1].extend(there(&mut lent));
                    }
                }
                assert_eq!((own.bytes(), lent.bytes()), (tag, tag));
                assert!(!own.is_finished());
                own.finish().unwrap();
                lent.finish().unwrap();
                assert!(own.is_finished() && lent.is_finished());
                read[0].extend(there(&mut own));
                read[1].extend(there(&mut lent));
                assert_eq!(read[0], wanted, "{tag:?} {html} {checks} {size}");
                assert_eq!(read[1], wanted, "{tag:?} {html} {checks} {size}, lent");
            }
        }
    }
}

/// With which byte each answer is there, where a tag comes byte by byte; the finish is the tag's length.
fn moments(tag: &str, html: bool) -> Vec<usize> {
    let mut reader = opened(html, 0);
    let mut moments = Vec::new();
    for (at, byte) in tag.bytes().enumerate() {
        reader.piece(&[byte]).unwrap();
        moments.extend(there(&mut reader).iter().map(|_| at));
    }
    reader.finish().unwrap();
    moments.extend(there(&mut reader).iter().map(|_| tag.len()));
    moments
}

#[test]
fn each_answer_is_there_with_its_last_byte() {
    // the closing quotes
    assert_eq!(moments("a='1' b=\"2\"c", false), [4, 10, 12]);
    // a value without quotes: its first byte in XML mode, the whitespace after it in HTML mode
    assert_eq!(moments("a=12 b=3", false), [2, 7]);
    assert_eq!(moments("a=12 b=3", true), [4, 8]);
    // a bare key: the next byte that is no whitespace
    assert_eq!(moments("a  b  ", false), [3, 6]);
    assert_eq!(moments("a  b  ", true), [3, 6]);
    // a duplicate: its `=`, or without one as any bare key
    assert_eq!(moments("a='' a =''", false), [3, 7]);
    assert_eq!(moments("a='' a ='' a b", true), [3, 7, 13, 14]);
    // no value, no closing quote: the finish
    assert_eq!(moments("a= ", false), [3]);
    assert_eq!(moments("a='1", false), [4]);
}

#[test]
fn what_is_refused_changes_nothing() {
    let mut tag = Pieces::new(0);
    tag.piece(&[b'a'; 65_530]).unwrap();
    let long = PieceError::TooLong {
        held: 65_530,
        piece: 7,
    };
    assert_eq!(tag.piece(b"='1' b="), Err(long));
    assert_eq!(
        long.to_string(),
        "a tag of more than 65536 bytes: 65530 are held, and the next piece has 7"
    );
    assert_eq!(tag.bytes().len(), 65_530);
    assert_eq!(tag.next(), None);
    tag.piece(b"='1' b").unwrap();
    assert_eq!(tag.next().unwrap().unwrap().value, "1");
    assert_eq!(tag.bytes().len(), Pieces::MOST);
    tag.piece(b"").unwrap();
    let long = PieceError::TooLong {
        held: 65_536,
        piece: 1,
    };
    assert_eq!(tag.piece(b"b"), Err(long));
    tag.finish().unwrap();
    // this comes first
    for piece in [&b""[..], b"b", &[0; 70_000]] {
        assert_eq!(tag.piece(piece), Err(PieceError::Finished));
    }
    assert_eq!(tag.finish(), Err(PieceError::Finished));
    assert_eq!(
        PieceError::Finished.to_string(),
        "the tag was finished before"
    );
    assert_eq!(tag.next(), Some(Err(AttrError::ExpectedEq(65_536))));
    assert_eq!(tag.next(), None);
}

#[test]
fn lent_text() {
    let (mut tables, mut text) = (Tables::new(), [0x5a; 12]);
    let mut tag = Pieces::with_tables(0, &mut tables, &mut text);
    tag.piece(b"a='1' b=").unwrap();
    let full = PieceError::LentTextFull {
        wanted: 13,
        given: 12,
    };
    assert_eq!(tag.piece(b"'2' c"), Err(full));
    assert_eq!(
        full.to_string(),
        "13 bytes of text are needed for the tag, and 12 are lent"
    );
    assert_eq!(tag.bytes(), b"a='1' b=");
    tag.piece(b"'2' ").unwrap();
    assert_eq!(there(&mut tag).len(), 2);
    // too long at all comes first
    assert!(matches!(
        tag.piece(&[0; 65_536]),
        Err(PieceError::TooLong { .. })
    ));
    // the next tag, of which nothing is there yet
    let mut tag = Pieces::with_tables(0, &mut tables, &mut text);
    assert_eq!(tag.next(), None);
    assert_eq!(tag.bytes(), b"");
    tag.piece(b"a='3'").unwrap();
    assert_eq!(tag.next().unwrap().unwrap().value, "3");
    // more than can be used
    let mut text = vec![0; 65_540];
    let mut tag = Pieces::html_with_tables(0, &mut tables, &mut text);
    tag.piece(&[b'a'; 65_536]).unwrap();
    assert_eq!(
        tag.piece(b"a"),
        Err(PieceError::TooLong {
            held: 65_536,
            piece: 1
        })
    );
}

#[test]
fn text_that_is_cut_inside_a_character() {
    let tag = "chunk é='日本' b='\u{1d11e}'".as_bytes();
    for size in 1..tag.len() {
        let mut reader = Pieces::new(5);
        let mut read = Vec::new();
        for piece in tag.chunks(size) {
            reader.piece(piece).unwrap();
            while let Some(attribute) = reader.next() {
                let attribute = attribute.unwrap();
                read.push((
                    attribute.key.into_inner().to_string(),
                    attribute.value.into_owned(),
                ));
            }
        }
        let wanted = [("é", "日本"), ("b", "\u{1d11e}")];
        assert_eq!(read, wanted.map(|(k, v)| (k.to_string(), v.to_string())));
    }
    // bytes that are no text: as a value, as a key; reading goes on behind them
    let mut reader = Pieces::new(0);
    reader.piece(b"a='\xff' \xff='' a='1' b='2'").unwrap();
    assert_eq!(reader.next(), Some(Err(AttrError::NoText(0))));
    assert_eq!(reader.next(), Some(Err(AttrError::NoText(6))));
    assert_eq!(reader.next(), Some(Err(AttrError::Duplicated(11, 0))));
    assert_eq!(reader.next().unwrap().unwrap().value, "2");
    assert_eq!(
        AttrError::NoText(6).to_string(),
        "position 6: the bytes of an attribute key or its value are not UTF-8"
    );
}

#[test]
fn checks_that_are_turned() {
    // at each answer, with all that follows read ahead, and before the value of a duplicate
    for at in 0..12 {
        for size in [1, 3, 8, 100] {
            let tag: String = (0..12).map(|n| format!(" k{}='{n}'", n % 4)).collect();
            let mut reader = Pieces::new(0);
            let mut wanted = ByteAttributes::new(tag.as_bytes(), 0);
            let mut read = 0;
            let mut pieces = tag.as_bytes().chunks(size);
            loop {
                while let Some(answer) = reader.next_bytes() {
                    assert_eq!(Some(told(answer)), wanted.next().map(told));
                    read += 1;
                    if read % 12 == at {
                        reader.with_checks(false);
                        wanted.with_checks(false);
                    } else if read % 12 == at + 3 {
                        reader.with_checks(true);
                        wanted.with_checks(true);
                    }
                }
                match pieces.next() {
                    Some(piece) => reader.piece(piece).unwrap(),
                    None if reader.is_finished() => break,
                    None => reader.finish().unwrap(),
                }
            }
            assert_eq!((read, wanted.next()), (12, None));
        }
    }
    // a key that is recorded, and of which it was asked in vain
    let mut reader = Pieces::new(0);
    reader.piece(b"a='' ").unwrap();
    assert!(reader.next_bytes().is_some());
    reader.with_checks(false).piece(b"a=").unwrap();
    assert_eq!(reader.next_bytes(), None);
    reader.with_checks(true);
    let again = Some(Err(AttrError::Duplicated(5, 0)));
    let mut later = reader.clone();
    assert_eq!(reader.next_bytes(), again);
    later.piece(b"'x").unwrap();
    assert_eq!(later.next_bytes(), again);
    // answers that are read ahead, and a piece behind them
    let mut reader = Pieces::new(0);
    reader.piece(b"a='' b='' b=''").unwrap();
    assert!(reader.next_bytes().is_some());
    reader.piece(b" c='").unwrap();
    reader.with_checks(false);
    assert_eq!(there(&mut reader).len(), 2);
    reader.piece(b"'").unwrap();
    assert_eq!(there(&mut reader).len(), 1);
    let mut reader = Pieces::new(0);
    reader.piece(b"a='' b='' a='x").unwrap();
    reader.with_checks(false);
    assert_eq!(there(&mut reader).len(), 2);
    // no key was recorded, and now none is that has no value yet
    reader.with_checks(true);
    assert_eq!(reader.next_bytes(), None);
    reader.piece(b"' a='' a=").unwrap();
    let wanted = [
        Ok(Attr::SingleQ(b"a".to_vec(), b"x".to_vec())),
        Err(AttrError::Duplicated(16, 10)),
        Err(AttrError::Duplicated(21, 10)),
    ];
    assert_eq!(there(&mut reader), wanted);
    reader.with_checks(false);
    assert_eq!(reader.next_bytes(), None);
}

#[test]
fn many_attributes_of_one_piece_and_of_many() {
    for count in [33, 700, Tables::KEYS] {
        let tag: String = (0..count).map(|n| format!(" k{n}='{n}'")).collect();
        let tag = format!("{tag} k0='' last=''");
        let wanted = whole(tag.as_bytes(), false, true, 0);
        assert_eq!(wanted.len(), count + 2);
        // one answer after another costs a look at all keys each
        for size in [tag.len(), 1_000, if count > 33 { 100 } else { 1 }] {
            let mut reader = Pieces::new(0);
            let mut read = Vec::new();
            for piece in tag.as_bytes().chunks(size) {
                reader.piece(piece).unwrap();
                read.extend(there(&mut reader));
            }
            assert_eq!(read, wanted);
            reader.finish().unwrap();
            assert_eq!(reader.next(), None);
        }
    }
}

/// The least time of a few that it takes to read on by bytes, asking after each.
fn reading_on(reader: &Pieces, byte: u8, count: usize, asks: bool) -> Duration {
    let once = || {
        let mut reader = reader.clone();
        let start = Instant::now();
        for _ in 0..count {
            reader.piece(&[byte]).unwrap();
            if asks {
                assert_eq!(reader.next_bytes(), None);
                assert_eq!(reader.next_bytes(), None);
            }
        }
        start.elapsed()
    };
    (0..5).map(|_| once()).min().unwrap()
}

/// A call of the library looks at all recorded keys: here that takes hundreds of times as long as a piece of one byte. It
/// isn't called where nothing can be there.
#[test]
fn asking_in_vain_costs_nothing() {
    let keys: String = (0..1_000).map(|n| format!(" k{n}=''")).collect();
    let most: String = (0..=Tables::KEYS).map(|n| format!(" k{n}=''")).collect();
    for (before, byte, html) in [
        (format!("{keys} a='"), b'x', false),
        (format!("{keys} a=\""), b'x', true),
        (format!("{keys} a="), b' ', false),
        (format!("{keys} a="), b'x', true),
        (format!("{keys} a"), b' ', false),
        (format!("{keys} a"), b'a', true),
        (keys.clone(), b' ', false),
        (format!("{keys} a=x"), b'x', false),
        (format!("{keys} k0='"), b'x', false),
        // reading has ended
        (most, b'x', false),
    ] {
        let mut reader = opened(html, 0);
        reader.piece(before.as_bytes()).unwrap();
        there(&mut reader);
        let alone = reading_on(&reader, byte, 5_000, false);
        let asked = reading_on(&reader, byte, 5_000, true);
        let behind = before.rsplit(' ').next();
        assert!(asked < 20 * alone, "{behind:?}: {asked:?}, {alone:?} alone");
    }
    // reading has not begun
    let mut reader = Pieces::new(usize::MAX);
    reader.piece(b"").unwrap();
    assert_eq!(reader.next(), None);
}

#[test]
fn a_reader_shows_how_far_it_is() {
    let mut reader = Pieces::html(2);
    reader.piece(b"  a='1' b").unwrap();
    assert!(reader.next().is_some());
    assert_eq!(
        format!("{reader:?}"),
        "Pieces { held: 9, finished: false, html: true, checks: true, \
         read: Read { place: next(7), recorded: 1, ahead: 1 } }"
    );
}
