//! Declarations and the tags that hold them, drawn: with reserved prefixes and URIs, empty values,
//! repeated declarations and damaged attributes more often than chance would have them.

use crate::cases::Lcg;
use oracle::steps::on_boundary;

pub const XML_URI: &str = "http://www.w3.org/XML/1998/namespace";
pub const XMLNS_URI: &str = "http://www.w3.org/2000/xmlns/";

/// Prefixes that are reserved, nearly reserved, beginnings of each other, empty, or with a colon.
pub const PREFIXES: [&str; 14] = [
    "p", "q", "p", "q", "pp", "", "xml", "xmlns", "xm", "xmlnss", "XML", "\u{e9}", "p:q", ":",
];

/// Values that are reserved URIs, nearly one, empty, or none of these. As with the prefixes, what
/// stands here twice is drawn twice as often.
pub const VALUES: [&str; 14] = [
    "",
    "",
    "u",
    "v",
    "w",
    "p",
    "\u{e9}",
    XML_URI,
    XML_URI,
    XMLNS_URI,
    XMLNS_URI,
    "http://www.w3.org/XML/1998/namespac",
    "http://www.w3.org/2000/xmlns",
    "http://example.org/",
];

/// How tags are drawn.
#[derive(Clone, Copy)]
pub struct Tags {
    /// Attributes of a tag, at most.
    pub attributes: usize,
    /// Length of a value that is none of `VALUES`, at most.
    pub value_len: usize,
    /// In a hundred: prefixes and values of `PREFIXES` and `VALUES`, and attributes that are damaged.
    pub telling: usize,
    pub damaged: usize,
}

pub fn drawn_value(lcg: &mut Lcg, tags: &Tags) -> String {
    if lcg.chance(tags.telling) {
        return lcg.pick::<str>(&VALUES).to_string();
    }
    let len = lcg.below(tags.value_len + 1);
    let letter = ["u", "v", "/", "&"][lcg.below(4)];
    letter.repeat(len)
}

pub fn drawn_prefix(lcg: &mut Lcg, tags: &Tags) -> String {
    match lcg.chance(tags.telling) {
        true => lcg.pick::<str>(&PREFIXES).to_string(),
        false => format!("n{}", lcg.below(40)),
    }
}

fn drawn_attribute(lcg: &mut Lcg, tags: &Tags) -> String {
    let spaces = [" ", " ", " ", "  ", "\n", "\t", ""];
    let keys = ["xmlns", "a", "xmln", "xmlnsp", "p:xmlns", "Xmlns:p"];
    let key = match lcg.below(100) {
        0..75 => format!("xmlns:{}", drawn_prefix(lcg, tags)),
        75..90 => "xmlns".to_string(),
        _ => keys[lcg.below(keys.len())].to_string(),
    };
    let space = lcg.pick::<str>(&spaces);
    if lcg.chance(tags.damaged) {
        let ends = [
            "", " ", "=", "=u", "='u", "=\"u v", "=='u'", "=u'v'", "='u'v",
        ];
        return format!("{space}{key}{}", lcg.pick::<str>(&ends));
    }
    let equals = lcg.pick::<str>(&["=", "=", "=", " =", "= ", "\n=\t"]);
    let quote = lcg.pick::<str>(&["\"", "'"]);
    let value = drawn_value(lcg, tags);
    format!("{space}{key}{equals}{quote}{value}{quote}")
}

/// A tag with its name, and where its attributes are said to begin: at the name's end for the most
/// part, else anywhere in it or behind it.
pub fn drawn_tag(lcg: &mut Lcg, tags: &Tags) -> (String, usize) {
    let name = lcg.pick::<str>(&["", "t", "p:t", "\u{e9}", "xmlns='u'"]);
    let mut tag = name.to_string();
    let mut attributes: Vec<String> = Vec::new();
    for _ in 0..lcg.below(tags.attributes + 1) {
        let repeats = !attributes.is_empty() && lcg.chance(10);
        let attribute = match repeats {
            true => attributes[lcg.below(attributes.len())].clone(),
            false => drawn_attribute(lcg, tags),
        };
        tag.push_str(&attribute);
        attributes.push(attribute);
    }
    let at = match lcg.below(100) {
        0..90 => name.len(),
        90..97 => lcg.below(tag.len() + 3),
        _ => usize::MAX,
    };
    let at = if on_boundary(&tag, at) {
        at
    } else {
        name.len()
    };
    (tag, at)
}
