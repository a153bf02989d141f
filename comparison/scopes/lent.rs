//! The memory that a resolver is lent in, and the calls on it: as the library takes them, and as the
//! crate does.

use crate::due::{RECORDS, TEXT, Wanted, add_wanted, push_wanted};
use crate::library;
use oracle::NamespaceResolver;
use oracle::scopes::{self, Record};
use oracle::text::shown;

/// What the built-ins take of document 01's capacities.
pub const BUILT_IN: usize = 2;
pub const BUILT_IN_TEXT: usize = 73;
/// The limit of a fresh resolver, and the deepest level.
pub const LIMIT: usize = 128;
pub const DEEPEST: u16 = u16::MAX;

/// What stands in memory that a call has to leave alone.
pub const UNTOUCHED: usize = 0x5a5a_5a5a;
/// The library's answers about lent memory: text or records are too short for what the call would leave; and
/// what is in use is not lent, or more than the capacity is.
pub const LEND_MORE: usize = 98;
pub const WRONG_LENGTH: usize = 99;

/// Numbers of a record: start, prefix length, value length, level; and those of all records.
pub const ROW: usize = 4;
pub const NUMBERS: usize = ROW * RECORDS;

/// The caller's own resolver that is lent to the library. Text and records can have any length.
#[derive(Clone, PartialEq)]
pub struct Scope {
    pub text: Vec<u8>,
    pub records: Vec<usize>,
    pub head: Vec<usize>,
}

macro_rules! call {
    ($function:ident, $scope:expr $(, $more:expr)*) => {{
        let scope: &mut Scope = $scope;
        assert!(scope.head.len() == 4);
        // SAFETY: each pointer is that of a live slice of the length beside it, or of the length that
        // was just tested, or of a detail or a state of the length that the call writes; what is written is
        // borrowed mutably, and apart from everything else.
        unsafe {
            library::$function(
                scope.text.as_mut_ptr(),
                scope.text.len(),
                scope.records.as_mut_ptr(),
                scope.records.len(),
                scope.head.as_mut_ptr(),
                $($more),*
            )
        }
    }};
}

/// A call on a resolver.
#[derive(Clone)]
pub enum Call {
    Fresh,
    Add(Option<String>, String),
    Push(String, usize),
    Pop,
    SetLevel(u16),
    /// The limit is a number of the caller's own: nothing is called for it.
    SetLimit(usize),
    Resolve(String, bool),
    /// Names of one tag, the first so many of them elements'. Kinds, begins and ends stand one behind the
    /// other in the detail.
    ResolveAll(Vec<String>, usize),
    Binding(usize),
    BindingOf(u16, usize),
}

impl Call {
    pub fn add(prefix: &str, value: &str) -> Self {
        Call::Add(Some(prefix.to_string()), value.to_string())
    }

    pub fn push(tag: &str) -> Self {
        Call::Push(tag.to_string(), 0)
    }

    /// So many numbers has the detail that is lent with it.
    pub const fn detail_len(&self) -> usize {
        match self {
            Call::Binding(_) | Call::BindingOf(..) => 5,
            Call::Add(..) | Call::Push(..) | Call::Resolve(..) => 2,
            Call::ResolveAll(names, _) => 3 * names.len(),
            Call::Fresh | Call::Pop | Call::SetLevel(_) | Call::SetLimit(_) => 0,
        }
    }

    /// The library's answer.
    pub fn ours(&self, scope: &mut Scope, detail: &mut [usize]) -> usize {
        assert!(detail.len() == self.detail_len());
        let to = detail.as_mut_ptr();
        match self {
            Call::Fresh => call!(mz_fresh, scope),
            Call::Add(prefix, value) => {
                let named = prefix.is_some();
                let prefix = prefix.as_deref().unwrap_or_default();
                let (p, p_len) = (prefix.as_ptr(), prefix.len());
                let (v, v_len) = (value.as_ptr(), value.len());
                call!(mz_add, scope, named, p, p_len, v, v_len, to)
            }
            Call::Push(tag, at) => call!(mz_push, scope, tag.as_ptr(), tag.len(), *at, to),
            Call::Pop => call!(mz_pop, scope),
            Call::SetLevel(level) => call!(mz_set_level, scope, *level),
            Call::SetLimit(limit) => {
                scope.head[3] = *limit;
                0
            }
            Call::Resolve(name, default) => {
                let (name, len) = (name.as_ptr(), name.len());
                call!(mz_resolve, scope, name, len, *default, to)
            }
            Call::ResolveAll(names, elements) => resolve_all(scope, names, *elements, detail),
            Call::Binding(place) => call!(mz_binding, scope, *place, to),
            Call::BindingOf(level, place) => call!(mz_binding_of, scope, *level, *place, to),
        }
    }

    /// The detail that is due with an answer: the numbers that the answer has, then zeros; where a listing
    /// shows nothing the place that was asked comes last. Of many names a refusal writes nothing.
    pub fn detail_of(&self, code: usize, numbers: &[usize]) -> Vec<usize> {
        let len = self.detail_len();
        let mut detail = numbers.to_vec();
        match self {
            Call::ResolveAll(..) if code != 0 => detail = vec![UNTOUCHED; len],
            Call::Binding(place) | Call::BindingOf(_, place) if !matches!(code, 1 | 2) => {
                detail = vec![0, 0, 0, 0, *place];
            }
            _ => detail.resize(len, 0),
        }
        detail
    }

    /// Whether it can change the resolver.
    pub const fn changes(&self) -> bool {
        matches!(
            self,
            Call::Fresh | Call::Add(..) | Call::Push(..) | Call::Pop | Call::SetLevel(_)
        )
    }

    /// The crate's answer to a call that changes the resolver.
    pub fn theirs(&self, resolver: &mut NamespaceResolver) -> Result<Wanted, String> {
        match self {
            Call::Fresh => *resolver = NamespaceResolver::default(),
            Call::Add(prefix, value) => return Ok(add_wanted(resolver, prefix.as_deref(), value)),
            Call::Push(tag, at) => return push_wanted(resolver, tag, *at),
            Call::Pop => resolver.pop(),
            Call::SetLevel(level) => resolver.set_level(*level),
            Call::SetLimit(limit) => {
                resolver.set_max_namespace_bindings(*limit);
            }
            Call::Resolve(..) | Call::ResolveAll(..) | Call::Binding(_) | Call::BindingOf(..) => {
                return Err(format!("{} changes nothing", self.shown()));
            }
        }
        Ok(Wanted::new(0, &[]))
    }

    pub fn shown(&self) -> String {
        match self {
            Call::Fresh => "fresh".to_string(),
            Call::Add(None, value) => format!("add default |{}|", cut(value)),
            Call::Add(Some(prefix), value) => format!("add |{}| |{}|", cut(prefix), cut(value)),
            Call::Push(tag, at) => format!("push at {at} |{}|", cut(tag)),
            Call::Pop => "pop".to_string(),
            Call::SetLevel(level) => format!("set_level {level}"),
            Call::SetLimit(limit) => format!("set_limit {limit}"),
            Call::Resolve(name, true) => format!("resolve_element |{}|", cut(name)),
            Call::Resolve(name, false) => format!("resolve_attribute |{}|", cut(name)),
            Call::ResolveAll(names, elements) => {
                let names: Vec<_> = names.iter().map(|name| cut(name)).collect();
                format!(
                    "resolve all, {elements} as elements |{}|",
                    names.join("| |")
                )
            }
            Call::Binding(place) => format!("bindings from {place}"),
            Call::BindingOf(level, place) => format!("bindings_of {level} from {place}"),
        }
    }
}

/// The bounds of names that stand in one tag, a blank behind each.
fn bounds(names: &[String]) -> (Vec<usize>, Vec<usize>) {
    let mut at = 0;
    let bounds = names.iter().map(|name| {
        let from = at;
        at += name.len() + 1;
        (from, at - 1)
    });
    bounds.unzip()
}

/// The library's answers about them.
fn resolve_all(
    scope: &mut Scope,
    names: &[String],
    elements: usize,
    detail: &mut [usize],
) -> usize {
    let tag: String = names.iter().map(|name| format!("{name} ")).collect();
    let (from, to) = bounds(names);
    let (kinds, rest) = detail.split_at_mut(names.len());
    let (begins, ends) = rest.split_at_mut(names.len());
    call!(
        mz_resolve_all,
        scope,
        tag.as_ptr(),
        tag.len(),
        from.as_ptr(),
        from.len(),
        to.as_ptr(),
        to.len(),
        elements,
        kinds.as_mut_ptr(),
        kinds.len(),
        begins.as_mut_ptr(),
        begins.len(),
        ends.as_mut_ptr(),
        ends.len()
    )
}

/// The answer to names whose five arrays have lengths of their own, the first so many of each.
pub fn resolve_all_of(scope: &mut Scope, lens: [usize; 5]) -> usize {
    let tag = "p:a a";
    let (from, to) = ([0, 4, 0], [3, 5, 0]);
    let mut told = [[UNTOUCHED; 3]; 3];
    let [kinds, begins, ends] = told.each_mut().map(|numbers| numbers.as_mut_ptr());
    let code = call!(
        mz_resolve_all,
        scope,
        tag.as_ptr(),
        tag.len(),
        from[..lens[0]].as_ptr(),
        lens[0],
        to[..lens[1]].as_ptr(),
        lens[1],
        1,
        kinds,
        lens[2].min(3),
        begins,
        lens[3].min(3),
        ends,
        lens[4].min(3)
    );
    let written = told.as_flattened().iter().any(|n| *n != UNTOUCHED);
    match written {
        // none of the codes
        true if code != 0 => usize::MAX,
        _ => code,
    }
}

/// The library's search for `nil` in a tag, with an iterator in four arrays: starts and ends of recorded
/// keys, and its numbers; and the keys' hashes.
pub fn has_nil(
    scope: &mut Scope,
    tag: &str,
    [starts, ends, numbers]: [&mut Vec<usize>; 3],
    hashes: &mut [u32],
    html: bool,
    checks: bool,
) -> usize {
    assert!(numbers.len() == 4);
    call!(
        mz_has_nil,
        scope,
        tag.as_ptr(),
        tag.len(),
        starts.as_mut_ptr(),
        starts.len(),
        ends.as_mut_ptr(),
        ends.len(),
        hashes.as_mut_ptr(),
        hashes.len(),
        numbers.as_mut_ptr(),
        html,
        checks
    )
}

/// A text as it is shown: a long one with its middle left out.
pub fn cut(text: &str) -> String {
    let bytes = text.as_bytes();
    match bytes.len() {
        0..=200 => shown(bytes),
        len => format!(
            "{} ..{} bytes in all.. {}",
            shown(&bytes[..40]),
            len,
            shown(&bytes[len - 20..])
        ),
    }
}

impl Scope {
    /// Memory that a resolver has not been written to.
    pub fn unwritten() -> Self {
        Scope {
            text: vec![0x5a; TEXT],
            records: vec![UNTOUCHED; NUMBERS],
            head: vec![UNTOUCHED; 4],
        }
    }

    /// The crate's resolver as it has to stand in lent memory.
    pub fn of(resolver: &NamespaceResolver) -> Self {
        let (text, records) = (scopes::text(resolver), scopes::records(resolver));
        let limit = resolver.max_namespace_bindings();
        let mut scope = Scope {
            text: vec![0; TEXT.max(text.len())],
            records: vec![0; NUMBERS],
            head: vec![text.len(), records.len(), resolver.level().into(), limit],
        };
        scope.text[..text.len()].copy_from_slice(text.as_bytes());
        for (row, record) in scope.records.chunks_exact_mut(ROW).zip(&records) {
            let level = record.level.into();
            row.copy_from_slice(&[record.start, record.prefix_len, record.value_len, level]);
        }
        scope
    }

    /// The same with text and records of these lengths: cut, or with zeros behind.
    pub fn with_lengths(&self, text: usize, numbers: usize) -> Self {
        let mut scope = self.clone();
        scope.text.resize(text, 0);
        scope.records.resize(numbers, 0);
        // so that an access beyond them is one beyond what was allocated
        scope.text.shrink_to_fit();
        scope.records.shrink_to_fit();
        scope
    }

    /// Whether it holds so much text and so many records, and is no longer than the capacity. More than that
    /// in use is no matter of lengths, and answered by 20.
    pub fn holds(&self, used: usize, count: usize) -> bool {
        let (text, numbers) = (self.text.len(), self.records.len());
        let holds_text = text <= TEXT && (used <= text || used > TEXT);
        let holds_rows = numbers <= NUMBERS && (count > RECORDS || ROW * count <= numbers);
        holds_text && holds_rows
    }

    /// The four numbers of a record, as they stand.
    pub fn row(&self, index: usize) -> [usize; ROW] {
        let row = &self.records[ROW * index..][..ROW];
        row.try_into().expect("four numbers")
    }

    pub fn row_mut(&mut self, index: usize) -> &mut [usize] {
        &mut self.records[ROW * index..][..ROW]
    }

    /// A record of a resolver that is not bad: its level is one.
    fn record(&self, index: usize) -> Option<Record> {
        let [start, prefix_len, value_len, level] = self.row(index);
        Some(Record {
            start,
            prefix_len,
            value_len,
            level: level.try_into().ok()?,
        })
    }

    /// The crate's resolver of the same content. `None` where the text is no UTF-8, or a record's part
    /// is none.
    pub fn theirs(&self) -> Option<NamespaceResolver> {
        let text = std::str::from_utf8(self.text.get(..self.head[0])?).ok()?;
        let records: Option<Vec<_>> = (0..self.head[1]).map(|index| self.record(index)).collect();
        scopes::from_parts(
            text,
            &records?,
            u16::try_from(self.head[2]).ok()?,
            self.head[3],
        )
    }

    /// Document 01's 20: any resolver not of this form. The first two records and text are the
    /// built-ins at level 0; each record's text starts where the previous ends, from 0; the last ends
    /// at text used; levels never fall along the table nor exceed the nesting level; counts are within
    /// capacity; every unused record and text byte is zero. A level is at most 65,535.
    pub fn is_bad(&self) -> bool {
        let [used, count, level, _] = [0, 1, 2, 3].map(|index| self.head[index]);
        if !(BUILT_IN_TEXT..=TEXT).contains(&used)
            || !(BUILT_IN..=RECORDS).contains(&count)
            || level > DEEPEST.into()
        {
            return true;
        }
        let fresh = Scope::of(&NamespaceResolver::default());
        let built_in = (0..BUILT_IN).all(|index| self.row(index) == fresh.row(index))
            && self.text[..BUILT_IN_TEXT] == fresh.text[..BUILT_IN_TEXT];
        let (mut end, mut lowest, mut chained) = (0u128, 0, true);
        for [start, prefix_len, value_len, level] in (0..count).map(|index| self.row(index)) {
            chained &= start as u128 == end && level >= lowest;
            end += prefix_len as u128 + value_len as u128;
            lowest = level;
        }
        let unused = |index| self.row(index) == [0; ROW];
        let zeros = self.text[used..].iter().all(|&b| b == 0) && (count..RECORDS).all(unused);
        !(built_in && chained && end == used as u128 && lowest <= level && zeros)
    }

    /// The first thing in which two of them differ.
    pub fn difference(&self, wanted: &Scope) -> Option<String> {
        for (index, what) in ["text used", "record count", "level", "limit"]
            .iter()
            .enumerate()
        {
            if self.head[index] != wanted.head[index] {
                let (ours, due) = (self.head[index], wanted.head[index]);
                return Some(format!("{what}: ours {ours}, wanted {due}"));
            }
        }
        first_other("text byte", &self.text, &wanted.text)
            .or_else(|| first_other("number of the records", &self.records, &wanted.records))
    }
}

fn first_other<T: Copy + PartialEq + std::fmt::Display>(
    what: &str,
    ours: &[T],
    wanted: &[T],
) -> Option<String> {
    if ours == wanted {
        return None;
    }
    let other = ours.iter().zip(wanted).position(|(a, b)| a != b);
    Some(other.map_or(format!("{what}: another length"), |index| {
        format!(
            "{what} {index}: ours {}, wanted {}",
            ours[index], wanted[index]
        )
    }))
}
