//! Memory that is lent: where it stands, how large it is, and any content of it.

use mezzulidda::LentError;
use mezzulidda::events::BytesStart;
use mezzulidda::events::attributes::{Attributes, ByteAttributes, Tables};
use mezzulidda::name::{
    Holder, Lent, Memory, Namespace, NamespaceError, NamespaceResolver, PrefixDeclaration, QName,
    ResolveResult, Room,
};
use std::mem::MaybeUninit;
use std::sync::Mutex;
use std::thread;

/// Bytes at an address that is a multiple of 8.
#[repr(align(8))]
struct Aligned<const N: usize>([u8; N]);

impl<const N: usize> Aligned<N> {
    fn zeros() -> Box<Self> {
        Box::new(Aligned([0; N]))
    }
}

/// The capacities, and the text of the built-in bindings.
const TEXT: usize = 65_536;
const RECORDS: usize = 1_026;
const BUILT_IN: &[u8] =
    b"xmlhttp://www.w3.org/XML/1998/namespacexmlnshttp://www.w3.org/2000/xmlns/";

/// Bytes that are lent: first four numbers for the head, then four for each record, then text.
#[derive(Clone, Copy)]
struct Parts<'b> {
    bytes: &'b [u8],
    room: Room,
}

impl<'b> Parts<'b> {
    fn number(self, index: usize) -> usize {
        let from = 8 * index;
        usize::from_ne_bytes(self.bytes[from..from + 8].try_into().unwrap())
    }

    fn record(self, index: usize) -> [usize; 4] {
        match index < self.room.bindings {
            true => [0, 1, 2, 3].map(|part| self.number(4 + 4 * index + part)),
            false => [0; 4],
        }
    }

    fn text(self) -> &'b [u8] {
        &self.bytes[32 + 32 * self.room.bindings..][..self.room.text]
    }

    /// Rule 20, sentence by sentence; what isn't lent is unused and zero.
    fn is_resolver(self) -> bool {
        let [used, count, nesting] = [0, 1, 2].map(|index| self.number(index));
        if used > TEXT || !(2..=RECORDS).contains(&count) || nesting > 65_535 {
            return false;
        }
        let built_in = self.text().starts_with(BUILT_IN)
            && self.record(0) == [0, 3, 36, 0]
            && self.record(1) == [39, 5, 29, 0];
        let (mut end, mut before) = (0, 0);
        for index in 0..count {
            let [start, prefix, value, level] = self.record(index);
            let (Some(next), true) = (prefix.checked_add(value), start == end) else {
                return false;
            };
            if level < before || level > nesting || next > TEXT - end {
                return false;
            }
            (end, before) = (end + next, level);
        }
        built_in
            && end == used
            && self.text().iter().skip(used).all(|byte| *byte == 0)
            && (count..self.room.bindings).all(|index| self.record(index) == [0; 4])
    }

    /// Whether less is lent than its head says is in use, which still could be a resolver's.
    fn is_cut(self) -> bool {
        let [used, count] = [0, 1].map(|index| self.number(index));
        used <= TEXT && count <= RECORDS && (used > self.room.text || count > self.room.bindings)
    }
}

/// Numbers of a fixed sequence.
struct Drawn(u64);

impl Drawn {
    fn below(&mut self, end: usize) -> usize {
        self.0 = self
            .0
            .wrapping_mul(6_364_136_223_846_793_005)
            .wrapping_add(1_442_695_040_888_963_407);
        (self.0 >> 33) as usize % end
    }
}

/// Declarations, a scope and lookups, and what they give.
fn used<M: Holder>(resolver: &mut NamespaceResolver<M>) -> String {
    let tag = BytesStart::from_content("a xmlns='urn:a' xmlns:p='urn:p' p:k='' q:k=''", 1);
    let mut shown = format!("{:?}", resolver.push(&tag));
    for name in ["a", "p:a", "q:a", "xml:a", ":a", ""] {
        shown += &format!("{:?}", resolver.resolve_element(QName(name)));
        shown += &format!("{:?}", resolver.resolve_attribute(QName(name)));
    }
    let added = resolver.add(PrefixDeclaration::Named("q"), Namespace("urn:q"));
    shown += &format!("{added:?} {resolver:?}");
    resolver.pop();
    shown + &format!("{resolver:?}")
}

/// What `used` needs: three bindings beyond the built-in ones, `urn:a`, `purn:p` and `qurn:q`.
const NEEDED: Room = Room {
    text: 73 + 5 + 6 + 6,
    bindings: 5,
};

#[test]
fn the_same_on_the_heap_in_a_static_on_the_stack_and_in_bytes() {
    static MEMORY: Mutex<Memory> = Mutex::new(Memory::new());
    static SMALL: Mutex<Memory<{ NEEDED.text }, { NEEDED.bindings }>> = Mutex::new(Memory::zeros());
    let wanted = used(&mut NamespaceResolver::default());
    let mut memory = MEMORY.lock().unwrap();
    assert_eq!(used(&mut NamespaceResolver::new_in(&mut *memory)), wanted);
    let mut memory = SMALL.lock().unwrap();
    assert_eq!(used(&mut NamespaceResolver::new_in(&mut *memory)), wanted);
    let mut memory = Memory::<200, 7>::zeros();
    assert_eq!(used(&mut NamespaceResolver::new_in(&mut memory)), wanted);
    assert_eq!(used(&mut NamespaceResolver::new_in(&mut memory)), wanted);
    for given in [640, 1_024, 4_096, Lent::MOST, Lent::MOST + 8] {
        let mut bytes = Aligned::<{ Lent::MOST + 8 }>::zeros();
        bytes.0.fill(0x5a);
        let memory = Lent::from_bytes(&mut bytes.0[..given]).unwrap();
        let room = memory.room();
        assert_eq!(used(&mut NamespaceResolver::new_in(memory)), wanted);
        let parts = Parts {
            bytes: &bytes.0,
            room,
        };
        assert!(parts.is_resolver());
        assert!(bytes.0[given.min(Lent::MOST)..].iter().all(|b| *b == 0x5a));
    }
}

#[test]
fn bytes_have_room_for_text_and_bindings() {
    let mut bytes = Aligned::<{ Lent::MOST + 8 }>::zeros();
    let mut room = |given| Lent::from_bytes(&mut bytes.0[..given]).unwrap().room();
    assert_eq!(room(Lent::LEAST), Room::LEAST);
    assert_eq!(room(Lent::MOST), Room::MOST);
    assert_eq!(room(Lent::MOST + 8), Room::MOST);
    let (text, bindings) = (640, 11);
    assert_eq!(room(1_024), Room { text, bindings });
    let mut before = Room::LEAST;
    for given in Lent::LEAST..=Lent::MOST {
        let room = room(given);
        // nothing is left over, and more bytes are never less room for bindings
        assert_eq!(32 + 32 * room.bindings + room.text, given);
        assert!(room.bindings >= before.bindings);
        before = room;
    }
}

#[test]
fn a_copy_and_a_resumed_one_are_the_same() {
    let mut resolver = NamespaceResolver::default();
    let tag = BytesStart::from_content("a xmlns='urn:a' xmlns:p='urn:p'", 1);
    resolver.push(&tag).unwrap();
    resolver.set_max_namespace_bindings(7);
    let shown = format!("{resolver:?}");
    let mut other = Memory::<84, 4>::zeros();
    let copy = resolver.copy_in(&mut other).unwrap();
    assert_eq!(format!("{copy:?}"), shown);
    let resumed = NamespaceResolver::resume_in(&mut other).unwrap();
    assert_eq!(format!("{resumed:?}"), shown);
    let resumed = NamespaceResolver::resume_in(resumed.into_memory()).unwrap();
    assert_eq!(format!("{resumed:?}"), shown);
    // a copy is apart
    let mut larger = Memory::<300, 5>::zeros();
    let mut copy = NamespaceResolver::new_in(&mut larger);
    used(&mut copy);
    let mut copy = resumed.copy_in(copy.into_memory()).unwrap();
    let cloned = resumed.copied();
    copy.pop();
    assert_eq!(copy.bindings().count(), 0);
    assert_eq!(format!("{resumed:?}"), shown);
    assert_eq!(format!("{cloned:?}"), shown);
    // no room for it
    let wanted = Room {
        text: 84,
        bindings: 4,
    };
    for (text, bindings) in [(83, 4), (84, 3)] {
        let mut bytes = Aligned::<{ Lent::LEAST }>::zeros();
        let given = Room { text, bindings };
        let refused = match text {
            83 => {
                let mut memory = Memory::<83, 4>::zeros();
                resumed.copy_in(&mut memory).err()
            }
            _ => {
                let mut memory = Memory::<84, 3>::zeros();
                resumed.copy_in(&mut memory).err()
            }
        };
        assert_eq!(refused, Some(LentError::Room { wanted, given }));
        let given = Room::LEAST;
        let refused = resumed.copy_in(Lent::from_bytes(&mut bytes.0).unwrap());
        assert_eq!(refused.err(), Some(LentError::Room { wanted, given }));
    }
}

#[test]
fn a_copy_leaves_nothing_of_what_was_there() {
    let mut resolver = NamespaceResolver::default();
    let tag = BytesStart::from_content("a xmlns:p='urn:p'", 1);
    resolver.push(&tag).unwrap();
    let mut fresh = Aligned::<1_024>::zeros();
    let memory = Lent::from_bytes(&mut fresh.0).unwrap();
    resolver.copy_in(memory).unwrap();
    // more bindings, and then more text in no more of them
    for (count, length) in [(5, 1), (1, 100)] {
        let mut bytes = Aligned::<1_024>::zeros();
        let memory = Lent::from_bytes(&mut bytes.0).unwrap();
        let mut before = NamespaceResolver::new_in(memory);
        for _ in 0..count {
            let value = "u".repeat(length);
            let named = PrefixDeclaration::Named("before");
            before.add(named, Namespace(&value)).unwrap();
        }
        let copy = resolver.copy_in(before.into_memory()).unwrap();
        assert_eq!(format!("{copy:?}"), format!("{resolver:?}"));
        let memory = copy.into_memory();
        let resumed = NamespaceResolver::resume_in(memory).unwrap();
        let found = resumed.resolve_element(QName("p:a")).0;
        assert_eq!(found, ResolveResult::Bound(Namespace("urn:p")));
        assert!(bytes.0 == fresh.0, "{count} bindings were there");
    }
}

/// What `used` gives in memory of so much room, which it says is too little or enough.
fn used_within<const T: usize, const B: usize>() -> (String, bool) {
    let mut memory = Memory::<T, B>::zeros();
    let mut resolver = NamespaceResolver::new_in(&mut memory);
    let shown = used(&mut resolver);
    let enough = !shown.contains("LentMemoryFull");
    (shown, enough)
}

#[test]
fn memory_that_is_one_byte_or_one_binding_short() {
    let wanted = used(&mut NamespaceResolver::default());
    const T: usize = NEEDED.text;
    const B: usize = NEEDED.bindings;
    assert_eq!(used_within::<T, B>(), (wanted.clone(), true));
    assert_eq!(used_within::<{ T + 1 }, { B + 1 }>(), (wanted, true));
    assert!(!used_within::<{ T - 1 }, B>().1);
    assert!(!used_within::<T, { B - 1 }>().1);

    // a push that has room for its first declaration alone changes nothing, and says what it wants
    let mut memory = Memory::<{ T - 7 }, B>::zeros();
    let mut resolver = NamespaceResolver::new_in(&mut memory);
    let tag = BytesStart::from_content("a xmlns='urn:a' xmlns:p='urn:p'", 1);
    let wanted = Room {
        text: T - 6,
        bindings: 4,
    };
    let given = Room {
        text: T - 7,
        bindings: B,
    };
    let refused = NamespaceError::LentMemoryFull { wanted, given };
    assert_eq!(resolver.push(&tag), Err(refused.clone()));
    assert_eq!((resolver.level(), resolver.bindings().count()), (0, 0));
    assert_eq!(
        refused.to_string(),
        "room for 84 bytes of text and 4 bindings is needed, and for 83 bytes of text and 5 bindings is lent"
    );
    let named = PrefixDeclaration::Named("p");
    let text = "u".repeat(10);
    assert_eq!(
        resolver.add(named, Namespace(&text)),
        Err(NamespaceError::LentMemoryFull {
            wanted: Room {
                text: 84,
                bindings: 3
            },
            given,
        })
    );
    assert_eq!(resolver.add(named, Namespace(&text[1..])), Ok(()));
    // what is refused whatever the memory is comes first
    let long = "u".repeat(TEXT);
    assert_eq!(
        resolver.add(named, Namespace(&long)),
        Err(NamespaceError::TextFull)
    );
    resolver.set_max_namespace_bindings(1);
    assert_eq!(
        resolver.add(named, Namespace(&text)),
        Err(NamespaceError::TooManyBindings(1))
    );
}

#[test]
fn too_few_bytes() {
    let mut bytes = Aligned::<{ Lent::LEAST }>::zeros();
    for given in [0, 1, 8, Lent::LEAST - 8, Lent::LEAST - 1] {
        let refused = Lent::from_bytes(&mut bytes.0[..given]).err();
        let wanted = Lent::LEAST;
        assert_eq!(refused, Some(LentError::Size { wanted, given }));
    }
    assert!(Lent::from_bytes(&mut bytes.0).is_ok());
    let mut room = [MaybeUninit::uninit(); Tables::SIZE + 1];
    for given in [0, 1, Tables::SIZE - 1, Tables::SIZE + 1] {
        let refused = Tables::from_bytes(&mut room[..given]).err();
        let wanted = Tables::SIZE;
        assert_eq!(refused, Some(LentError::Size { wanted, given }));
    }
    let refused = LentError::Size {
        wanted: 169,
        given: 0,
    };
    assert_eq!(Lent::from_bytes(&mut []).err(), Some(refused));
    assert_eq!(
        refused.to_string(),
        "169 bytes of memory are needed, and 0 are lent"
    );
}

#[test]
fn another_alignment() {
    let mut bytes = Aligned::<{ Lent::LEAST + 8 }>::zeros();
    for (from, given) in [(1, 1), (2, 2), (3, 1), (4, 4), (5, 1), (6, 2), (7, 1)] {
        let refused = Lent::from_bytes(&mut bytes.0[from..from + Lent::LEAST]).err();
        assert_eq!(refused, Some(LentError::Alignment { wanted: 8, given }));
    }
    assert!(Lent::from_bytes(&mut bytes.0[8..]).is_ok());
    let mut room = [MaybeUninit::uninit(); Tables::SIZE + 8];
    let from = room.as_ptr().align_offset(8);
    for more in 1..8 {
        // seven of eight places are refused, whichever the first is
        let at = (from + more) % 8;
        let refused = Tables::from_bytes(&mut room[at..][..Tables::SIZE]).err();
        let given = 1 << more.trailing_zeros();
        assert_eq!(refused, Some(LentError::Alignment { wanted: 8, given }));
    }
    assert!(Tables::from_bytes(&mut room[from..][..Tables::SIZE]).is_ok());
    assert_eq!(
        LentError::Alignment {
            wanted: 8,
            given: 2
        }
        .to_string(),
        "the memory has to begin at a multiple of 8 bytes, and begins at one of 2"
    );
}

/// Lends memory as it is. What is refused is no resolver by rule 20, cut off or no text, and is left alone; what
/// is kept can be used. The answer is whether it was kept.
fn lend(bytes: &mut [u8]) -> bool {
    let before = bytes.to_vec();
    let memory = Lent::from_bytes(bytes).unwrap();
    let parts = Parts {
        bytes: &before,
        room: memory.room(),
    };
    let kept = match NamespaceResolver::resume_in(memory) {
        Err(LentError::NoResolver) => {
            assert!(!parts.is_resolver() && !parts.is_cut());
            false
        }
        Err(LentError::Room { .. }) => {
            assert!(parts.is_cut());
            false
        }
        Err(LentError::NoText(_)) => {
            assert!(parts.is_resolver() && !parts.text().is_ascii());
            false
        }
        Err(refused) => panic!("{refused}"),
        Ok(resolver) => {
            assert!(parts.is_resolver() && !parts.is_cut());
            used(&mut resolver.copied());
            true
        }
    };
    assert!(bytes == before, "looking at memory leaves it as it was");
    kept
}

#[test]
fn memory_of_any_content() {
    let mut drawn = Drawn(42_006);
    let mut bytes = Aligned::<{ Lent::MOST }>::zeros();
    for given in [Lent::LEAST, 1_024, Lent::MOST] {
        let bytes = &mut bytes.0[..given];
        bytes.fill(0);
        assert!(!lend(bytes));
        for fill in [0x01, 0x5a, 0x7f, 0x80, 0xff] {
            bytes.fill(fill);
            assert!(!lend(bytes));
        }
        for _ in 0..20 {
            bytes.fill_with(|| drawn.below(256) as u8);
            assert!(!lend(bytes));
        }
    }
}

/// A resolver with three tags pushed.
fn of_three_tags(bytes: &mut [u8]) {
    let memory = Lent::from_bytes(bytes).unwrap();
    let mut resolver = NamespaceResolver::new_in(memory);
    for content in [
        "a xmlns='urn:a' xmlns:p='urn:p'",
        "b",
        "c xmlns='' xmlns:q='urn:q'",
    ] {
        let tag = BytesStart::from_content(content, 1);
        resolver.push(&tag).unwrap();
    }
}

#[test]
fn memory_of_a_resolver_with_a_byte_or_two_changed() {
    let mut drawn = Drawn(42_007);
    let mut bytes = Aligned::<{ Lent::MOST }>::zeros();
    for given in [549, 1_000, 4_096, Lent::MOST] {
        let bytes = &mut bytes.0[..given];
        of_three_tags(bytes);
        let good = bytes.to_vec();
        assert!(lend(bytes));
        // most of the changes are made where memory is in use, or right behind it
        let rows = Lent::from_bytes(bytes).unwrap().room().bindings;
        let parts = [0, 32, 64, 128, 32 + 32 * rows, 80 + 32 * rows, given - 96];
        let mut kept = 0;
        for round in 0..600 {
            bytes.copy_from_slice(&good);
            for _ in 0..=round % 2 {
                let at = (parts[drawn.below(parts.len())] + drawn.below(96)).min(given - 1);
                bytes[at] = match round % 3 {
                    0 => drawn.below(256) as u8,
                    _ => bytes[at] ^ (1 << drawn.below(8)),
                };
            }
            kept += usize::from(lend(bytes));
        }
        // some of both: another limit, a deeper level or other text still is a resolver
        assert!((10..400).contains(&kept), "{kept} kept of {given} bytes");
    }
}

#[test]
fn a_resolver_that_is_cut_off() {
    let mut bytes = Aligned::<1_024>::zeros();
    of_three_tags(&mut bytes.0);
    let mut memory = Memory::<512, 6>::zeros();
    let resolver = NamespaceResolver::resume_in(Lent::from_bytes(&mut bytes.0).unwrap()).unwrap();
    let copy = resolver.copy_in(&mut memory).unwrap();
    assert_eq!(format!("{copy:?}"), format!("{resolver:?}"));
    // fewer bytes have their text elsewhere, and fewer records than are in use
    let refused =
        NamespaceResolver::resume_in(Lent::from_bytes(&mut bytes.0[..360]).unwrap()).err();
    let (wanted, given) = match refused {
        Some(LentError::Room { wanted, given }) => (wanted, given),
        other => panic!("{other:?}"),
    };
    assert_eq!((wanted.text, wanted.bindings), (90, 6));
    assert_eq!((given.text, given.bindings), (200, 4));
    assert_eq!(
        refused.unwrap().to_string(),
        "room for 90 bytes of text and 6 bindings is needed, and for 200 bytes of text and 4 bindings is lent"
    );
}

#[test]
fn a_resolver_whose_binding_is_no_text() {
    let mut bytes = Aligned::<{ Lent::MOST }>::zeros();
    let memory = Lent::from_bytes(&mut bytes.0).unwrap();
    let room = memory.room();
    let mut resolver = NamespaceResolver::new_in(memory);
    resolver
        .add(PrefixDeclaration::Named("p"), Namespace("é"))
        .unwrap();
    // the prefix takes the first byte of the character: record 2, its second and third number
    bytes.0[32 + 64 + 8] += 1;
    bytes.0[32 + 64 + 16] -= 1;
    let parts = Parts {
        bytes: &bytes.0,
        room,
    };
    assert!(parts.is_resolver());
    let memory = Lent::from_bytes(&mut bytes.0).unwrap();
    let refused = NamespaceResolver::resume_in(memory).err();
    assert_eq!(refused, Some(LentError::NoText(2)));
    assert_eq!(
        refused.unwrap().to_string(),
        "the memory is that of a resolver, and its binding 2 is not UTF-8"
    );
    assert_eq!(
        LentError::NoResolver.to_string(),
        "the memory is not that of a resolver"
    );
}

#[test]
fn a_prefix_or_a_namespace_alone_is_no_text() {
    let mut bytes = Aligned::<2_000>::zeros();
    let memory = Lent::from_bytes(&mut bytes.0).unwrap();
    let text = 32 + 32 * memory.room().bindings;
    let mut resolver = NamespaceResolver::new_in(memory);
    for (prefix, value) in [("p", "u"), ("q", "v")] {
        resolver
            .add(PrefixDeclaration::Named(prefix), Namespace(value))
            .unwrap();
    }
    // behind the 73 bytes of the built-in bindings stand `puqv`
    for (at, binding) in [(73, 2), (74, 2), (75, 3), (76, 3)] {
        let byte = std::mem::replace(&mut bytes.0[text + at], 0xff);
        let memory = Lent::from_bytes(&mut bytes.0).unwrap();
        assert_eq!(
            NamespaceResolver::resume_in(memory).err(),
            Some(LentError::NoText(binding)),
            "byte {at}"
        );
        bytes.0[text + at] = byte;
    }
    let memory = Lent::from_bytes(&mut bytes.0).unwrap();
    let resumed = NamespaceResolver::resume_in(memory).unwrap();
    assert_eq!(resumed.bindings().count(), 2);
}

#[test]
fn memory_on_the_heap_does_not_pass_the_stack() {
    // half of what the memory has, and no program's own stack
    let small = thread::Builder::new().stack_size(48 << 10);
    let room = small.spawn(|| {
        let mut memory = Memory::<TEXT, RECORDS>::boxed();
        let mut resolver = NamespaceResolver::new_in(&mut *memory);
        (resolver.room(), used(&mut resolver))
    });
    let (room, told) = room.unwrap().join().unwrap();
    assert_eq!(room, Room::MOST);
    assert_eq!(told, used(&mut NamespaceResolver::default()));
    let mut memory = Memory::<73, 2>::boxed();
    assert_eq!(
        format!("{memory:?}"),
        format!("{:?}", Memory::<73, 2>::zeros())
    );
    assert_eq!(NamespaceResolver::new_in(&mut *memory).room(), Room::LEAST);
}

#[test]
fn tables_of_any_content() {
    let mut room = Box::new([MaybeUninit::new(0xff); Tables::SIZE + Tables::ALIGNMENT]);
    let from = room.as_ptr().align_offset(Tables::ALIGNMENT);
    let tag = "chunk id='c-17' offset=0 id='c-18' last";
    for fill in [0, 0x5a, 0xff] {
        room.fill(MaybeUninit::new(fill));
        let tables = Tables::from_bytes(&mut room[from..][..Tables::SIZE]).unwrap();
        let start = BytesStart::from_content(tag, 5);
        let own: Vec<_> = start.attributes().collect();
        assert_eq!(
            start.attributes_with_tables(tables).collect::<Vec<_>>(),
            own
        );
        let own: Vec<_> = start.html_attributes().collect();
        assert_eq!(
            start
                .html_attributes_with_tables(tables)
                .collect::<Vec<_>>(),
            own
        );
        let bytes = tag.as_bytes();
        let own: Vec<_> = ByteAttributes::html(bytes, 5).collect();
        assert_eq!(
            ByteAttributes::html_with_tables(bytes, 5, tables).collect::<Vec<_>>(),
            own
        );
    }
}

#[test]
fn positions_far_behind() {
    let tag = "t a='1' xmlns:p='u'";
    let mut tables = Tables::new();
    let mut resolver = NamespaceResolver::default();
    for pos in (0..70)
        .map(|back| usize::MAX - back)
        .chain([1 << 63, 1 << 32, 20])
    {
        assert_eq!(Attributes::new(tag, pos).next(), None);
        assert_eq!(Attributes::html(tag, pos).next(), None);
        assert_eq!(Attributes::with_tables(tag, pos, &mut tables).next(), None);
        assert_eq!(ByteAttributes::new(tag.as_bytes(), pos).next(), None);
        assert!(!Attributes::new(tag, pos).has_nil(&resolver));
        // a name as long as that can't be asked for, but its attributes can
        let start = BytesStart::from_content(tag, pos);
        assert_eq!(start.attributes().next(), None);
        assert_eq!(start.try_get_attribute("a"), Ok(None));
        assert_eq!(resolver.push(&start), Ok(()));
        assert_eq!(resolver.bindings().count(), 0);
    }
    assert_eq!(resolver.level(), 73);
}

#[test]
fn nothing_at_all_everywhere() {
    let mut tables = Tables::new();
    for pos in [0, 1, usize::MAX] {
        assert_eq!(Attributes::new("", pos).next(), None);
        assert_eq!(Attributes::html("", pos).next(), None);
        assert_eq!(Attributes::with_tables("", pos, &mut tables).next(), None);
        assert_eq!(ByteAttributes::new(&[], pos).next(), None);
        assert_eq!(
            ByteAttributes::html_with_tables(&[], pos, &mut tables).next(),
            None
        );
    }
    let name = QName("");
    assert_eq!((name.prefix(), name.local_name().into_inner()), (None, ""));
    assert_eq!(
        (name.as_namespace_binding(), name.verdict("")),
        (None, None)
    );
    assert!(!QName(":").prefix().unwrap().is_xml() && !QName(":").prefix().unwrap().is_xmlns());
    let mut memory = Memory::<73, 4>::zeros();
    let mut resolver = NamespaceResolver::new_in(&mut memory);
    let empty = BytesStart::new("");
    resolver.push(&empty).unwrap();
    resolver
        .add(PrefixDeclaration::Default, Namespace(""))
        .unwrap();
    resolver
        .add(PrefixDeclaration::Named(""), Namespace(""))
        .unwrap();
    assert_eq!(resolver.resolve_element(name).0, ResolveResult::Unbound);
    assert_eq!(resolver.resolve_prefix(None, true), ResolveResult::Unbound);
    let all: Vec<_> = resolver.resolve_all(&empty, &[]).collect();
    assert_eq!(all, [resolver.resolve_element(name)]);
    assert_eq!((resolver.bindings().count(), resolver.level()), (0, 1));
}

#[test]
fn all_names_of_a_tag() {
    let declared = "p:a xmlns='urn:a' xmlns:p='urn:p' xmlns:q='' xmlns:w='urn:w'";
    let mut resolver = NamespaceResolver::default();
    resolver
        .push(&BytesStart::from_content(declared, 3))
        .unwrap();
    // each with a prefix, and without: the default is for the tag's own name alone
    let [others, owns] = [["w:elsewhere", "elsewhere"], ["p:a", "a"]];
    for (own, other) in [(0, 0), (0, 1), (1, 0), (1, 1)] {
        let (own, other) = (owns[own], others[other].to_string());
        for count in [0, 1, 2, 14, 15, 16, 17, 31, 32, 33, 200] {
            let names = ["k", "p:k", "q:k", "r:k", "xml:k", ":k", "xmlns:k", "p:"];
            let content: String = (0..count)
                .map(|n| format!(" {}{n}=''", names[n % 8]))
                .collect();
            let tag = BytesStart::from_content(format!("{own}{content}"), own.len());
            let mut keys: Vec<_> = tag.attributes().map(|a| a.unwrap().key).collect();
            assert_eq!(keys.len(), count);
            for outside in [None, Some(0), Some(count / 2), Some(count)] {
                if let Some(at) = outside {
                    keys.insert(at, QName(&other));
                }
                let mut wanted = vec![resolver.resolve_element(tag.name())];
                wanted.extend(keys.iter().map(|key| resolver.resolve_attribute(*key)));
                let all = resolver.resolve_all(&tag, &keys);
                assert_eq!(all.len(), wanted.len());
                assert_eq!(all.collect::<Vec<_>>(), wanted);
            }
        }
    }
}
