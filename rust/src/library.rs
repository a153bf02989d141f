//! The functions of the static library, as `include/mezzulidda.h` has them; what each does is said there.
//!
//! Rust declares them here and nowhere else: the crate, the comparisons and the benchmark all take this
//! file. A slice is a pointer and a length, two parameters; `head`, `state`, `reader` and `detail` are pointers alone. A
//! truth value that comes back is taken as a byte, so that whatever a library answers is a value of the type.

// whoever takes the file calls some of them
#![allow(dead_code)]

/// How many keys of a tag can be recorded: elements of each key table, at most.
pub const KEYS: usize = 1_024;

/// How many bytes of a tag that arrives in pieces can be held.
pub const HOLD: usize = 65_536;

unsafe extern "C" {
    pub safe fn mz_layout(what: usize) -> usize;

    pub fn mz_split(name: *const u8, name_len: usize) -> usize;
    pub fn mz_declares(name: *const u8, name_len: usize) -> usize;
    pub fn mz_is_xml(prefix: *const u8, prefix_len: usize) -> u8;
    pub fn mz_is_xmlns(prefix: *const u8, prefix_len: usize) -> u8;
    pub fn mz_verdict(
        name: *const u8,
        name_len: usize,
        value: *const u8,
        value_len: usize,
    ) -> usize;

    pub fn mz_as_bool(value: *const u8, value_len: usize) -> usize;
    #[allow(clippy::too_many_arguments)]
    pub fn mz_read_batch(
        tag: *const u8,
        tag_len: usize,
        starts: *mut usize,
        starts_len: usize,
        ends: *mut usize,
        ends_len: usize,
        hashes: *mut u32,
        hashes_len: usize,
        state: *mut usize,
        html: bool,
        checks: bool,
        out: *mut usize,
        out_len: usize,
    ) -> usize;

    pub fn mz_piece(
        text: *mut u8,
        text_len: usize,
        reader: *mut usize,
        piece: *const u8,
        piece_len: usize,
    ) -> usize;
    pub fn mz_finish(reader: *mut usize) -> usize;
    #[allow(clippy::too_many_arguments)]
    pub fn mz_take(
        text: *const u8,
        text_len: usize,
        starts: *mut usize,
        starts_len: usize,
        ends: *mut usize,
        ends_len: usize,
        hashes: *mut u32,
        hashes_len: usize,
        reader: *mut usize,
        html: bool,
        checks: bool,
        out: *mut usize,
        out_len: usize,
    ) -> usize;
}

// Text and records of a resolver with their lengths, and its head; what else the call takes comes after them.
macro_rules! on_a_resolver {
    ($array:tt: $($name:ident($($more:ident: $kind:ty),*);)*) => {
        unsafe extern "C" { $(
            #[allow(clippy::too_many_arguments)]
            pub fn $name(
                text: *$array u8,
                text_len: usize,
                records: *$array usize,
                records_len: usize,
                head: *$array usize,
                $($more: $kind),*
            ) -> usize;
        )* }
    };
}
on_a_resolver! { mut:
    mz_fresh();
    mz_add(named: bool, prefix: *const u8, prefix_len: usize, value: *const u8, value_len: usize,
        detail: *mut usize);
    mz_push(tag: *const u8, tag_len: usize, at: usize, detail: *mut usize);
    mz_pop();
    mz_set_level(level: u16);
}
on_a_resolver! { const:
    mz_resolve(name: *const u8, name_len: usize, use_default: bool, detail: *mut usize);
    mz_resolve_all(tag: *const u8, tag_len: usize, from: *const usize, from_len: usize,
        to: *const usize, to_len: usize, elements: usize, kinds: *mut usize, kinds_len: usize,
        begins: *mut usize, begins_len: usize, ends: *mut usize, ends_len: usize);
    mz_binding(place: usize, detail: *mut usize);
    mz_binding_of(level: u16, place: usize, detail: *mut usize);
    mz_has_nil(tag: *const u8, tag_len: usize, key_starts: *mut usize, key_starts_len: usize,
        key_ends: *mut usize, key_ends_len: usize, key_hashes: *mut u32, key_hashes_len: usize,
        state: *mut usize, html: bool, checks: bool);
}
