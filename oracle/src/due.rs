//! What is due after a call on a resolver, in numbers: the crate's answer with its places, and document
//! 01's refusals 18 and 19, for which the crate has no bound. Recorded answers and the comparison take
//! it from here.

use oracle::scopes::{self, Record};
use oracle::steps::{Answer, Reader};
use oracle::text::shown;
use oracle::{Namespace, NamespaceError, NamespaceResolver, PrefixDeclaration, ResolveResult};

/// Document 01's capacities: bytes of text and records, the built-in ones among them.
pub const TEXT: usize = 65_536;
pub const RECORDS: usize = 1_026;

/// The answer that is due: a code, and the numbers that it has. Codes: of a call that changes the
/// resolver 0 or a refusal's number; of a lookup 0 unbound, 1 bound, with the URI's bounds in the text,
/// 2 unknown, with the prefix's bounds in the name; of a listing 0 the end, 1 a default, 2 a named one,
/// with the bounds of prefix and value in the text and the next place.
#[derive(Debug)]
pub struct Wanted {
    pub code: usize,
    pub detail: Vec<usize>,
}

impl Wanted {
    pub fn new(code: usize, detail: &[usize]) -> Self {
        let detail = detail.to_vec();
        Wanted { code, detail }
    }

    /// Of document 01's own, which the crate doesn't know.
    pub const fn is_added(&self) -> bool {
        matches!(self.code, 18..=20)
    }
}

enum Refused {
    ByCrate(NamespaceError),
    /// 18 or 19.
    Added(usize),
}

/// One declaration added to the crate's resolver. At their turn, behind every refusal of the crate,
/// come 18, where all records are in use, and 19, where the text would get too long.
fn add_due(
    resolver: &mut NamespaceResolver,
    declared: PrefixDeclaration,
    value: &str,
) -> Result<(), Refused> {
    let prefix_len = match declared {
        PrefixDeclaration::Default => 0,
        PrefixDeclaration::Named(prefix) => prefix.len(),
    };
    let used = scopes::records(resolver).len();
    let text_full = scopes::text(resolver).len() + prefix_len + value.len() > TEXT;
    if used < RECORDS && !text_full {
        return resolver
            .add(declared, Namespace(value))
            .map_err(Refused::ByCrate);
    }
    let mut after = resolver.clone();
    after
        .add(declared, Namespace(value))
        .map_err(Refused::ByCrate)?;
    // `xml` bound to its own URI takes no room.
    if scopes::records(&after).len() == used {
        return Ok(());
    }
    Err(Refused::Added(if used == RECORDS { 18 } else { 19 }))
}

/// The refusal as an answer, where the declaration's prefix and value stand at these bounds.
fn refusal(refused: Refused, prefix: [usize; 2], value: [usize; 2]) -> Wanted {
    let error = match refused {
        Refused::Added(number) => return Wanted::new(number, &[]),
        Refused::ByCrate(error) => error,
    };
    let number = scopes::number(&error);
    match error {
        NamespaceError::InvalidXmlPrefixBind(_) | NamespaceError::InvalidXmlnsPrefixBind(_) => {
            Wanted::new(number, &value)
        }
        NamespaceError::InvalidPrefixForXml(_) | NamespaceError::InvalidPrefixForXmlns(_) => {
            Wanted::new(number, &prefix)
        }
        NamespaceError::TooManyBindings(count) | NamespaceError::TooDeeplyNested(count) => {
            Wanted::new(number, &[count])
        }
        NamespaceError::UnknownPrefix(_) => Wanted::new(number, &[]),
    }
}

pub fn add_wanted(resolver: &mut NamespaceResolver, prefix: Option<&str>, value: &str) -> Wanted {
    let declared = prefix.map_or(PrefixDeclaration::Default, PrefixDeclaration::Named);
    let prefix_len = prefix.map_or(0, str::len);
    match add_due(resolver, declared, value) {
        Ok(()) => Wanted::new(0, &[]),
        Err(refused) => refusal(refused, [0, prefix_len], [0, value.len()]),
    }
}

/// The crate's own `push`. Its error has a text without a place, and it knows no 18 and 19: for these
/// it is taken apart into the crate's iterator and the crate's `add`, and where none is added both
/// ways have to agree.
pub fn push_wanted(
    resolver: &mut NamespaceResolver,
    tag: &str,
    at: usize,
) -> Result<Wanted, String> {
    let mut whole = resolver.clone();
    let answered = scopes::push(&mut whole, tag, at).ok_or_else(|| {
        format!(
            "a push at {at}, off a character of |{}|",
            shown(tag.as_bytes())
        )
    })?;
    let Some(level) = resolver.level().checked_add(1) else {
        return match answered {
            Err(error) => Ok(refusal(Refused::ByCrate(error), [0, 0], [0, 0])),
            Ok(()) => Err("the crate pushed past its deepest level".to_string()),
        };
    };
    resolver.set_level(level);
    let wanted = declarations_wanted(resolver, tag, at);
    let number = answered.as_ref().map_or_else(scopes::number, |()| 0);
    if !wanted.is_added() && (number != wanted.code || !alike(resolver, &whole)) {
        return Err(format!(
            "the crate's push of |{}| is not its iterator with its add",
            shown(tag.as_bytes())
        ));
    }
    Ok(wanted)
}

fn alike(one: &NamespaceResolver, other: &NamespaceResolver) -> bool {
    scopes::text(one) == scopes::text(other)
        && scopes::records(one) == scopes::records(other)
        && one.level() == other.level()
}

fn declarations_wanted(resolver: &mut NamespaceResolver, tag: &str, at: usize) -> Wanted {
    let mut reader = Reader::open(tag.as_bytes(), at, false, false);
    while let Some(Answer::DoubleQ(key, value) | Answer::SingleQ(key, value)) = reader.step() {
        let Some(declared) = scopes::declares(&tag[key.clone()]) else {
            continue;
        };
        let prefix_at = match declared {
            PrefixDeclaration::Default => key.end,
            PrefixDeclaration::Named(prefix) => key.end - prefix.len(),
        };
        if let Err(refused) = add_due(resolver, declared, &tag[value.clone()]) {
            return refusal(refused, [prefix_at, key.end], [value.start, value.end]);
        }
    }
    Wanted::new(0, &[])
}

/// Where a part of the resolver's text stands in it.
fn place_in(resolver: &NamespaceResolver, part: &str) -> [usize; 2] {
    let start = part.as_ptr() as usize - scopes::text(resolver).as_ptr() as usize;
    [start, start + part.len()]
}

pub fn resolved_wanted(resolver: &NamespaceResolver, resolved: &ResolveResult) -> Wanted {
    match resolved {
        ResolveResult::Unbound => Wanted::new(0, &[]),
        ResolveResult::Bound(uri) => Wanted::new(1, &place_in(resolver, uri.into_inner())),
        ResolveResult::Unknown(prefix) => Wanted::new(2, &[0, prefix.len()]),
    }
}

/// A binding that a listing of the crate shows: its record's index, and the library's answer to it.
pub struct Shown {
    pub index: usize,
    pub answer: Wanted,
}

/// What a listing of the crate shows. A value that is shown is not empty, so its place in the text
/// tells the record.
pub fn listing<'r>(
    resolver: &'r NamespaceResolver,
    bindings: impl Iterator<Item = (PrefixDeclaration<'r>, Namespace<'r>)>,
) -> Vec<Shown> {
    let records = scopes::records(resolver);
    let mut from = 0;
    bindings
        .map(|(declared, uri)| {
            let [start, end] = place_in(resolver, uri.into_inner());
            let is_it = |r: &Record| r.start + r.prefix_len == start && r.value_len > 0;
            while !is_it(&records[from]) {
                from += 1;
            }
            let record = &records[from];
            let code = match declared {
                PrefixDeclaration::Default => 1,
                PrefixDeclaration::Named(_) => 2,
            };
            let prefix_end = record.start + record.prefix_len;
            let detail = [record.start, prefix_end, start, end, from + 1];
            Shown {
                index: from,
                answer: Wanted::new(code, &detail),
            }
        })
        .collect()
}
