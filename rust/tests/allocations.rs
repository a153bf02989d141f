//! What allocates: a resolver with memory of its own, when it is made and when it grows, a tag of more than
//! 32 attributes, and the bytes of a tag that arrives in pieces. The allocator here counts. Beside that it is the
//! text alone that quick-xml's types hold, that of an unknown prefix and of a refused declaration.

use mezzulidda::events::BytesStart;
use mezzulidda::events::attributes::{Attributes, Pieces, Tables};
use mezzulidda::name::{Memory, NamespaceResolver, ResolveResult};
use std::alloc::{GlobalAlloc, Layout, System};
use std::cell::Cell;

struct Counting;

thread_local! {
    // other threads of the test program have their own
    static COUNT: Cell<usize> = const { Cell::new(0) };
    /// The largest of them.
    static LARGEST: Cell<usize> = const { Cell::new(0) };
}

/// One allocation more, of so many bytes.
fn count(size: usize) {
    COUNT.set(COUNT.get() + 1);
    LARGEST.set(LARGEST.get().max(size));
}

// SAFETY: the system's allocator does all the work; counting neither allocates nor touches its memory.
unsafe impl GlobalAlloc for Counting {
    unsafe fn alloc(&self, layout: Layout) -> *mut u8 {
        count(layout.size());
        // SAFETY: handed on as it came.
        unsafe { System.alloc(layout) }
    }

    unsafe fn realloc(&self, place: *mut u8, layout: Layout, size: usize) -> *mut u8 {
        count(size);
        // SAFETY: handed on as it came.
        unsafe { System.realloc(place, layout, size) }
    }

    unsafe fn dealloc(&self, place: *mut u8, layout: Layout) {
        // SAFETY: handed on as it came.
        unsafe { System.dealloc(place, layout) }
    }
}

#[global_allocator]
static ALLOCATOR: Counting = Counting;

/// How often memory is allocated in a call.
fn allocations(call: impl FnOnce()) -> usize {
    let before = COUNT.get();
    call();
    COUNT.get() - before
}

const TAG: &str = "p:chunk xmlns='urn:a' xmlns:p='urn:p' id=\"c-17\" p:offset='0' id='' bare";

#[test]
fn the_allocator_counts() {
    assert_eq!(allocations(|| drop(NamespaceResolver::default())), 2);
    let tag: String = (0..14).map(|n| format!(" xmlns:p{n}=''")).collect();
    let [tag, more] = [tag.clone(), tag + " xmlns=''"].map(|tag| BytesStart::from_content(tag, 0));
    let mut resolver = NamespaceResolver::default();
    assert_eq!(allocations(|| resolver.push(&tag).unwrap()), 0);
    resolver.pop();
    // more text and more records, once
    assert_eq!(allocations(|| resolver.push(&more).unwrap()), 2);
    resolver.pop();
    assert_eq!(allocations(|| resolver.push(&more).unwrap()), 0);
}

#[test]
fn attributes() {
    let mut tables = Tables::new();
    let mut read = 0;
    let count = allocations(|| {
        for _ in 0..1_000 {
            read += Attributes::new(TAG, 7).count();
            read += Attributes::html(TAG, 7).count();
            read += Attributes::with_tables(TAG, 7, &mut tables).count();
        }
    });
    assert_eq!((read, count), (18_000, 0));
}

#[test]
fn many_attributes() {
    let mut tables = Tables::new();
    // places for 64 keys, and twice as many each time that there are too few for the next batch
    let wanted = [
        (31, 0),
        (32, 0),
        (33, 1),
        (46, 1),
        (49, 2),
        (78, 2),
        (81, 3),
        (256, 4),
        (700, 5),
        (Tables::KEYS, 5),
    ];
    for (attributes, wanted) in wanted {
        let tag: String = (0..attributes).map(|n| format!(" k{n}=''")).collect();
        let mut read = 0;
        let own = allocations(|| read += Attributes::new(&tag, 0).count());
        let lent = allocations(|| read += Attributes::with_tables(&tag, 0, &mut tables).count());
        assert_eq!((read, own, lent), (2 * attributes, wanted, 0));
        // a key that came before needs no place, nor does any where none is recorded
        let again = tag + " k0=''";
        let count = allocations(|| read += Attributes::new(&again, 0).count());
        assert_eq!(count, wanted);
        let mut unchecked = Attributes::new(&again, 0);
        unchecked.with_checks(false);
        assert_eq!(allocations(|| read += unchecked.count()), 0);
    }
}

/// How often memory is allocated for a tag in pieces of this size, and how much at once.
fn for_pieces(tag: &str, size: usize) -> [usize; 2] {
    LARGEST.set(0);
    let mut read = 0;
    let count = allocations(|| {
        let mut reader = Pieces::new(0);
        for piece in tag.as_bytes().chunks(size) {
            reader.piece(piece).unwrap();
            while reader.next().is_some() {
                read += 1;
            }
        }
        reader.finish().unwrap();
        while reader.next().is_some() {
            read += 1;
        }
    });
    assert_eq!(read, Attributes::new(tag, 0).count());
    [count, LARGEST.get()]
}

#[test]
fn pieces() {
    // the bytes of a short tag, and twice as many each time that these are full
    for (length, wanted) in [
        (1, [1, 256]),
        (256, [1, 256]),
        (257, [2, 512]),
        (4_000, [5, 4_096]),
        (40_000, [9, 65_536]),
        (Pieces::MOST, [9, 65_536]),
    ] {
        let tag = &format!("a='{}", "x".repeat(length))[..length];
        assert_eq!(for_pieces(tag, 1), wanted);
        assert_eq!(for_pieces(tag, length), [1, length.max(256)]);
    }
    assert_eq!(for_pieces(TAG, 5), [1, 256]);
    // places for more than 32 keys, as `Attributes` has them
    let tag: String = (0..33).map(|n| format!(" k{n}=''")).collect();
    let [count, largest] = for_pieces(&tag, 40);
    assert!(count == 2 && largest < 3_000, "{count}, {largest}");
    // lent, there is none
    let (mut tables, mut text) = (Tables::new(), [0; 1_000]);
    let mut read = 0;
    let count = allocations(|| {
        for _ in 0..100 {
            let mut reader = Pieces::with_tables(0, &mut tables, &mut text);
            for piece in tag.as_bytes().chunks(7) {
                reader.piece(piece).unwrap();
                while reader.next().is_some() {
                    read += 1;
                }
            }
        }
    });
    assert_eq!((read, count), (3_300, 0));
}

#[test]
fn scopes() {
    let tag = BytesStart::from_content(TAG, 7);
    let keys: Vec<_> = tag.attributes().flatten().map(|a| a.key).collect();
    let mut memory = Memory::<120, 5>::zeros();
    let mut bound = 0;
    let count = allocations(|| {
        let mut resolver = NamespaceResolver::new_in(&mut memory);
        for _ in 0..100 {
            resolver.push(&tag).unwrap();
            bound += resolver.bindings().count();
            let names = resolver.resolve_all(&tag, &keys);
            bound += names
                .filter(|name| matches!(name.0, ResolveResult::Bound(_)))
                .count();
            let name = resolver.resolve_element(tag.name()).0;
            bound += usize::from(matches!(name, ResolveResult::Bound(_)));
            resolver.pop();
        }
        let resumed = NamespaceResolver::resume_in(&mut memory).unwrap();
        bound += resumed.bindings_of(0).count();
    });
    assert_eq!((bound, count), (602, 0));
}
