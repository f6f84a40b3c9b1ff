//! Every refusal of configure, of the transfers and of open, with numbers on both sides of its boundary, and the order in
//! which refusals are tested.

use super::*;
use crate::cases::repeated_layout;
use crate::model::{Layout, COPY_MASK_GIVEN, MEMORY_LIMIT};

pub fn cases() -> Vec<Case> {
    [configure_cases(), transfer_cases()].concat()
}

fn configure_cases() -> Vec<Case> {
    vec![
        signatures("1, wire", domains().into_iter().map(|domain| signature(unsigned(), domain))),
        signatures("1, memory", domains().into_iter().map(|domain| signature(domain, unsigned()))),
        signatures("1, attribute flags", attribute_flags()),
        signatures("2", escape_tags()),
        signatures("3 and 4", side_pairs()),
        layouts("5", 0x4000, malformed_layouts()),
        layouts("6", 0x40, outside_layouts()),
        layouts("6, memory of one byte less", 0x3F, outside_layouts()),
        layouts("6, no memory", 0, vec![list_layout(&[entry(0, 1, 0)])]),
        layouts("7", 0x40, overlapping_layouts()),
        configure_order(),
        kept_configuration(),
    ]
}

/// Configures with each signature in turn, and makes a transfer that shows which of them the key has in the end.
fn signatures(name: &str, signatures: impl IntoIterator<Item = Signature>) -> Case {
    let layout = list_layout(&[entry(0, 0x2000, 0)]);
    let configured = signatures.into_iter().map(|signature| configure(0x2000, Configuration { layout, signature }));
    Case::named(name)
        .then_all(configured)
        .then_all([Call::Send { memory: 0x2000, wire: 0x3000, offset: 0, data_length: 0x1040 }, Call::Check])
}

fn domains() -> Vec<Domain> {
    let kinds = [0, 2, 0xFFFF_FFFF].map(|kind| Domain { kind, block_size: 12, guard_type: 9, flags: 99, ..dif() });
    let kinds_alone = [2, 0x100, 0xFFFF_FFFF].map(|kind| Domain { kind, ..dif() });
    let sizes = [0, 7, 8, 9, 12, 16, 4_152, 4_156, 4_160, 4_161, 4_168, 0x1_0008, 0xFFFF_FFF8];
    let sizes = sizes.map(|block_size| Domain { block_size, ..dif() });
    let guards = [0, 1, 2, 0x100, 0xFFFF_FFFF].map(|guard_type| Domain { guard_type, ..dif() });
    let seeds = [0, 1, 0xFF, 0xFF00, 0xFFFE, 0xFFFF].map(|seed| Domain { seed, ..dif() });
    let flags = [0, 1, 2, 3, 4, 5, 6, 7, 8, 0x101, 0xFFFF_FFFF].map(|flags| Domain { flags, ..dif() });
    [&kinds[..], &kinds_alone, &sizes, &guards, &seeds, &flags].concat()
}

fn attribute_flags() -> Vec<Signature> {
    let with = |attribute_flags| Signature { attribute_flags, ..signature(dif(), dif()) };
    [0, 1, 2, 3, 0x100, 0xFFFF_FFFF].map(with).to_vec()
}

/// Application tags 0xFFFF and 0xFFFE with all valid flags, on the memory side, on the wire side, and on unsigned sides.
fn escape_tags() -> Vec<Signature> {
    let mut signatures = Vec::new();
    for flags in 0..6 {
        for application_tag in [0xFFFE, 0xFFFF] {
            let domain = Domain { flags, application_tag, ..dif() };
            let ignored = Domain { kind: 0, ..domain };
            signatures.extend([signature(domain, dif()), signature(dif(), domain), signature(ignored, ignored)]);
        }
    }
    signatures
}

/// Signed and unsigned sides with equal and different block sizes, with and without a given copy mask.
fn side_pairs() -> Vec<Signature> {
    let mut signatures = Vec::new();
    for attribute_flags in [0, COPY_MASK_GIVEN] {
        for (memory, wire) in [(0, 0), (0, 1), (1, 0), (1, 1)] {
            for block_size in [8, 16] {
                let memory = Domain { kind: memory, block_size, ..dif() };
                let wire = Domain { kind: wire, ..dif() };
                signatures.push(Signature { attribute_flags, copy_mask: 0xA5, ..signature(memory, wire) });
            }
        }
    }
    signatures
}

/// Configures with each layout in turn, and receives a byte with the layout that the key has in the end.
fn layouts(name: &str, memory: u64, layouts: Vec<Layout>) -> Case {
    let mut case = Case::named(name);
    for layout in layouts {
        let signature = signature(unsigned(), unsigned());
        case = case.then(configure(memory, Configuration { layout, signature }));
    }
    let last = Call::Receive { memory, wire: 1, offset: 0, data_length: 1 };
    case.then(last)
}

fn malformed_layouts() -> Vec<Layout> {
    let mut entries = [entry(0, 1, 0); 16];
    for (at, entry) in entries.iter_mut().enumerate() {
        entry.start = at as u64 * 0x80;
    }
    let with = |used: u32, repeat: u32| Layout { used, repeat, ..list_layout(&entries) };
    let without_count = |at: usize| {
        let mut layout = with(4, 2);
        layout.entries[at].count = 0;
        layout
    };
    let used = [0, 1, 16, 17, 0x100, 0xFFFF_FFFF].map(|used| with(used, 1));
    let repeats = [0, 1, 2, 0xFFFF_FFFF].map(|repeat| with(2, repeat));
    let counts = [0, 3, 4].map(without_count);
    let products = [(1, 1_024), (1, 1_025), (16, 64), (16, 65), (5, 204), (5, 205), (3, 341), (2, 513)];
    let products = products.map(|(used, repeat)| with(used, repeat));
    let wrapping = [(16, 0x1000_0000), (16, 0x1000_0040), (2, 0x8000_0000), (4, 0x4000_0100)];
    let wrapping = wrapping.map(|(used, repeat)| with(used, repeat));
    [&used[..], &repeats, &counts, &products, &wrapping].concat()
}

/// Layouts whose pieces end before, at and beyond byte 0x40.
fn outside_layouts() -> Vec<Layout> {
    let ends = [(0, 0x3F), (0, 0x40), (0, 0x41), (0x38, 8), (0x39, 8), (0x3F, 1), (0x40, 1), (0, u32::MAX)];
    let top = u64::MAX;
    let near_limit = [(top, 1), (top, 2), (top - 7, 8), (top - 7, 0x10), (1 << 63, 1), (1 << 32, 1)];
    let alone = |&(start, count): &(u64, u32)| list_layout(&[entry(start, count, 0)]);
    let in_a_list = |count: u32| list_layout(&[entry(0, 8, 0), entry(8, 8, 0), entry(0x38, count, 0)]);
    let lists = ends.iter().chain(&near_limit).map(alone);
    lists.chain([7, 8, 9].map(in_a_list)).chain(outside_repeats()).collect()
}

fn outside_repeats() -> Vec<Layout> {
    let repeats = [(0, 8, 8, 4), (8, 8, 8, 4), (9, 8, 8, 4), (0, 1, 0, 63), (0, 1, 0, 64), (0, 1, 0, 65)];
    // The last skip needs no memory. In each of these, count + skip is 2^32.
    let wide_skips = [(0, 1, u32::MAX, 1), (0, 1, u32::MAX, 2), (0, 8, u32::MAX - 7, 2), (0, 8, u32::MAX - 7, 3)];
    let all = repeats.iter().chain(&wide_skips);
    all.map(|&(start, count, skip, repeat)| repeated_layout(&[entry(start, count, skip)], repeat)).collect()
}

fn overlapping_layouts() -> Vec<Layout> {
    let pairs: [[(u64, u32); 2]; 9] = [
        [(0, 8), (8, 8)],
        [(0, 8), (7, 8)],
        [(8, 8), (0, 8)],
        [(8, 8), (0, 9)],
        [(0, 8), (0, 8)],
        [(0, 16), (4, 4)],
        [(4, 4), (0, 16)],
        [(0, 16), (15, 1)],
        [(0, 16), (16, 1)],
    ];
    let pairs = pairs.map(|pair| list_layout(&pair.map(|(start, count)| entry(start, count, 0))));
    let three = |start: u64| list_layout(&[entry(0, 4, 0), entry(0x20, 4, 0), entry(start, 4, 0)]);
    let threes = [0x1C, 0x1D, 0x20, 0x23, 0x24].map(three);
    let woven = [(4, 4, 4), (3, 4, 4), (4, 5, 3), (20, 1, 3), (20, 1, 7), (0x1C, 4, 0)];
    let woven = woven.map(|(start, count, skip)| repeated_layout(&[entry(0, 4, 4), entry(start, count, skip)], 4));
    let alone = [(8, 8), (1, 64)].map(|(count, repeat)| repeated_layout(&[entry(0, count, 0)], repeat));
    [&pairs[..], &threes, &woven, &alone].concat()
}

/// Configurations to which two refusals apply, each answer with the next: the first is returned.
fn configure_order() -> Case {
    let signatures = refused_signatures().map(|signature| (signature, Layout::default()));
    let without_count_and_outside = list_layout(&[entry(0x100, 8, 0), entry(0, 0, 0)]);
    let outside_and_overlapping = list_layout(&[entry(0, 8, 0), entry(0, 8, 0), entry(0x40, 1, 0)]);
    let good = signature(dif(), dif());
    let layouts = [(good, without_count_and_outside), (good, outside_and_overlapping)];
    let all = signatures.into_iter().chain(layouts);
    Case::named("order of configure's answers")
        .then_all(all.map(|(signature, layout)| configure(0x40, Configuration { layout, signature })))
}

/// Signatures to which two of the answers 1 to 4 apply, or one of them and one for the layout.
fn refused_signatures() -> [Signature; 9] {
    let kind_2 = Domain { kind: 2, ..dif() };
    let escape = Domain { flags: 2, application_tag: 0xFFFF, ..dif() };
    let wide = Domain { block_size: 16, ..dif() };
    let wide_escape = Domain { block_size: 16, ..escape };
    let with = |attribute_flags: u32, signature: Signature| Signature { attribute_flags, ..signature };
    [
        signature(escape, kind_2),
        signature(kind_2, escape),
        with(2, signature(escape, unsigned())),
        with(COPY_MASK_GIVEN, signature(unsigned(), escape)),
        with(COPY_MASK_GIVEN, signature(dif(), wide_escape)),
        with(COPY_MASK_GIVEN, signature(dif(), wide)),
        with(COPY_MASK_GIVEN, signature(unsigned(), dif())),
        signature(dif(), wide),
        signature(dif(), dif()),
    ]
}

/// "a refused call leaves key": after a refused configure, the key still has its old configuration, or none.
fn kept_configuration() -> Case {
    let good = plan(signature(unsigned(), dif()), 16);
    let bad = configure(0x20, Configuration::default());
    let shorter = plan(signature(dif(), dif()), 8);
    Case::named("configuration kept and replaced")
        .then_all([bad.clone(), good.send(), good.configure(), bad, good.send()])
        .then_all([shorter.configure(), good.send(), shorter.send(), Call::Check])
}

fn transfer_cases() -> Vec<Case> {
    let sides = [(unsigned(), unsigned()), (unsigned(), dif()), (dif(), unsigned()), (dif(), dif())];
    let mut cases: Vec<Case> = sides.into_iter().map(|(memory, wire)| boundaries(signature(memory, wire))).collect();
    cases.push(boundaries(signature(unsigned(), Domain { block_size: 24, ..dif() })));
    cases.extend([huge_lengths(), never_configured(), transfer_order()]);
    cases
}

/// Send, receive and open with the same numbers, and an abandon for the case that open is accepted.
fn all_three(memory: u64, wire: u64, offset: u64, data_length: u64) -> [Call; 4] {
    [
        Call::Send { memory, wire, offset, data_length },
        Call::Receive { memory, wire, offset, data_length },
        Call::Open { memory, offset, data_length },
        Call::Abandon,
    ]
}

/// Answers 8 to 11 around an accepted transfer that ends where the layout does.
fn boundaries(signature: Signature) -> Case {
    let mut plan = plan(signature, 48);
    let (total, wire) = (plan.memory, plan.wire_stream());
    plan.memory += 3;
    let lent = plan.memory;
    let memory_lengths = [lent, lent - 1, lent + 1, 0].map(|memory| all_three(memory, wire, 0, 48));
    let lengths = [47, 49, 40, 56, 24, 72, 1, 0].map(|data_length| all_three(lent, 0x100, 0, data_length));
    let offsets = [1, 8, total, total + 1, u64::MAX].map(|offset| all_three(lent, 0x100, offset, 48));
    let empty = [0, total - 1, total, total + 1, u64::MAX].map(|offset| all_three(lent, 0, offset, 0));
    let wires = [wire, wire - 1, wire + 1, 0].map(|wire| all_three(lent, wire, 0, 48));
    Case::named("answers 8 to 11")
        .then(plan.configure())
        .then_all([&memory_lengths[..], &lengths, &offsets, &empty, &wires].concat().concat())
        .then(Call::Check)
}

/// Data lengths at which a sum in 64 bits would wrap, so that the transfer would be accepted.
fn huge_lengths() -> Case {
    let mut case = Case::named("huge lengths");
    for block_size in [8, 16, 24, 4_160] {
        let unit = u64::from(block_size) + 8;
        // The smallest number of blocks whose stream with fields has 2^64 bytes or more.
        let wrapping = (u64::MAX / unit + 1) * u64::from(block_size);
        let most = u64::MAX / u64::from(block_size) * u64::from(block_size);
        for (memory, wire) in [(1, 0), (0, 1), (1, 1)] {
            let domain = |kind: u32| Domain { kind, block_size, ..dif() };
            let plan = plan(signature(domain(memory), domain(wire)), block_size.into());
            case = case.then(plan.configure());
            for data_length in [wrapping, most, u64::MAX] {
                case = case.then_all(all_three(plan.memory, 0x3000, 0, data_length));
            }
            case = case.then_all(all_three(plan.memory, 0x3000, u64::MAX - 7, 2 * u64::from(block_size)));
        }
    }
    let bare = plan(signature(unsigned(), unsigned()), 0x10);
    let wrapping_ends = [(u64::MAX, 1), (1, u64::MAX), (u64::MAX, u64::MAX), (1 << 63, 1 << 63), (0, u64::MAX)];
    let calls = wrapping_ends.map(|(offset, data_length)| all_three(0x10, 0x3000, offset, data_length));
    case.then(bare.configure()).then_all(calls.concat())
}

fn never_configured() -> Case {
    Case::named("14")
        .then_all(all_three(0x10, 0x10, 0, 8))
        .then_all(all_three(0, 0, 0, 0))
        .then_all([configure(0x10, Configuration::default()), Call::Check])
        .then_all(all_three(0x10, 0x10, 0, 8))
        .then_all(all_three(0, 0, u64::MAX, u64::MAX))
}

/// Transfers to which two refusals apply: the first is returned.
fn transfer_order() -> Case {
    let plan = plan(signature(dif(), dif()), 16);
    let right = plan.memory;
    let calls = [
        all_three(right + 1, 0, u64::MAX, u64::MAX),
        all_three(right, 0, u64::MAX, u64::MAX),
        all_three(right, 0, u64::MAX, u64::MAX - 7),
        all_three(right, 0, 1, 16),
        all_three(right, 0, 0, 16),
    ];
    Case::named("order of a transfer's answers").then(plan.configure()).then_all(calls.concat())
}

/// Memory at the limit and one byte longer, which README.md's buffer has no room for.
pub fn large_memory() -> Case {
    let mut plan = plan(signature(unsigned(), dif()), 24);
    plan.configuration.layout = list_layout(&[entry(MEMORY_LIMIT - 0x20, 0x20, 0)]);
    (plan.memory, plan.offset) = (MEMORY_LIMIT, 8);
    let beyond = Plan { memory: MEMORY_LIMIT + 1, ..plan.clone() };
    let beyond_and_bad = configure(MEMORY_LIMIT + 1, Configuration::default());
    let configured = [beyond.configure(), beyond_and_bad, plan.send(), plan.configure()];
    let transferred = [plan.send(), beyond.send(), Call::FillMemory { pattern: 3 }, beyond.receive(), plan.receive()];
    let packets = [beyond.packet(0, 7), plan.packet(0, 7), plan.packet(7, 41)];
    let case = Case::named("memory at its limit")
        .then_all(configured)
        .then_all(transferred)
        .then_all([Call::Check, beyond.open(), plan.open()])
        .then_all(packets)
        .then_all([Call::Finish, Call::Check]);
    Case { buffers: Buffers { memory: MEMORY_LIMIT as usize + 1, ..Buffers::REPLAY }, ..case }
}
