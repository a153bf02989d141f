//! Cases by the thousand, the same on every machine: tags made by the generator of numbers beside this
//! file. Recorded answers and the comparison draw from here.

#[path = "lcg.rs"]
mod lcg;

pub use lcg::Lcg;

/// The bytes that steer the iterator, and two that don't.
pub const TELLING: [u8; 8] = *b" ab=\"':\t";

/// Every text of exactly `len` bytes over an alphabet, one after another.
pub fn every<'a>(alphabet: &'a [u8], len: u32) -> impl Iterator<Item = Vec<u8>> + 'a {
    let count = alphabet.len().pow(len);
    let text = move |mut rank: usize| {
        let mut bytes = Vec::new();
        for _ in 0..len {
            bytes.push(alphabet[rank % alphabet.len()]);
            rank /= alphabet.len();
        }
        bytes
    };
    (0..count).map(text)
}

/// A text of exactly `len` bytes over an alphabet.
pub fn drawn(lcg: &mut Lcg, alphabet: &[u8], len: usize) -> Vec<u8> {
    (0..len)
        .map(|_| alphabet[lcg.below(alphabet.len())])
        .collect()
}

/// Pairs of names that have one hash, by FNV-1a with 32 bits; so have two that go on alike.
pub const SHARED: [[&str; 2]; 4] = [
    ["yaczf", "glbpp"],
    ["yzfzf", "geepp"],
    ["yomzf", "gvlpp"],
    ["gtbxf", "yicrp"],
];

/// What a long tag is made of: so many attributes, of which so many in a hundred repeat an earlier
/// key, so many of the others share the hash of one beside them, and so many have a damaged value or none. `wild` puts
/// bytes in that are no UTF-8.
pub struct Shape {
    pub attributes: usize,
    pub repeated: usize,
    pub shared: usize,
    pub damaged: usize,
    pub wild: bool,
}

/// A tag's bytes of that shape. Without `wild` they are UTF-8.
pub fn long_tag(lcg: &mut Lcg, shape: &Shape) -> Vec<u8> {
    let mut keys: Vec<Vec<u8>> = Vec::new();
    let mut tag = Vec::new();
    for index in 0..shape.attributes {
        let repeats = !keys.is_empty() && lcg.chance(shape.repeated);
        let key = match repeats {
            true => keys[lcg.below(keys.len())].clone(),
            // where none is wanted nothing is drawn
            false if shape.shared > 0 && lcg.chance(shape.shared) => shared_key(lcg, index),
            false => fresh_key(lcg, index, shape.wild),
        };
        tag.extend_from_slice(
            lcg.pick::<[u8]>(&[b" ", b" ", b" ", b"  ", b"\n", b"\t ", b"\r\n", b""]),
        );
        tag.extend_from_slice(&key);
        keys.push(key);
        match lcg.chance(shape.damaged) {
            true => damaged_value(lcg, &mut tag),
            false => good_value(lcg, &mut tag, shape.wild),
        }
    }
    tag
}

// One of two keys of one hash, which end in the half of their index.
fn shared_key(lcg: &mut Lcg, index: usize) -> Vec<u8> {
    let pair = SHARED[lcg.below(SHARED.len())];
    format!("{}{}", pair[index % 2], index / 2).into_bytes()
}

// A key that ends in its index, so that it differs from those of other indices.
fn fresh_key(lcg: &mut Lcg, index: usize, wild: bool) -> Vec<u8> {
    let heads = [
        "",
        "a",
        "b",
        "id",
        "p:x",
        "xmlns:",
        "xml:",
        "\u{e9}",
        "\u{65e5}\u{672c}:",
        "\"",
        "'",
        "/",
    ];
    let mut key = lcg.pick::<str>(&heads).as_bytes().to_vec();
    if wild && lcg.chance(30) {
        key.extend_from_slice(lcg.pick::<[u8]>(&[b"\xff", b"\xc3", b"\x80\xbf"]));
    }
    key.extend_from_slice(index.to_string().as_bytes());
    key
}

fn good_value(lcg: &mut Lcg, tag: &mut Vec<u8>, wild: bool) {
    tag.extend_from_slice(lcg.pick::<[u8]>(&[b"=", b"=", b"=", b" =", b"= ", b"\t=\n "]));
    let (quote, other) = if lcg.chance(50) {
        (b'"', b'\'')
    } else {
        (b'\'', b'"')
    };
    tag.push(quote);
    for _ in 0..lcg.below(5) {
        match lcg.below(8) {
            0 => tag.push(b' '),
            1 => tag.push(b'='),
            2 => tag.push(other),
            3 => tag.extend_from_slice("\u{e9}".as_bytes()),
            4 => tag.extend_from_slice("\u{1d11e}".as_bytes()),
            5 if wild => tag.push(0xff),
            _ => tag.push(b'v'),
        }
    }
    tag.push(quote);
}

// No value, no quotes, one quote, or more of `=` and text than belongs there.
fn damaged_value(lcg: &mut Lcg, tag: &mut Vec<u8>) {
    let ends: [&[u8]; 12] = [
        b"",
        b" ",
        b"=",
        b"= ",
        b"=v",
        b"=v'w",
        b"=\"v",
        b"='v w",
        b"==\"v\"",
        b" = =v",
        b"=\"v\"w",
        b"=v=\"w x\"",
    ];
    tag.extend_from_slice(lcg.pick::<[u8]>(&ends));
}
