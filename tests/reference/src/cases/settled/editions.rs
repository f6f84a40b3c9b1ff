//! Reference tags of both editions: the tags that are generated and checked, where they wrap, which of them are copied,
//! and answer 20 on both sides of its boundaries and in its place among configure's answers.

use super::*;
use crate::model::{Layout, APPLICATION_ESCAPE, BOTH_ESCAPE, COPY_MASK_GIVEN, EDITION_1, EDITION_2, MEMORY_LIMIT};

/// The flags of a domain without remap, and with it.
const REMAP_OR_NOT: [u32; 2] = [0, REMAP];

/// All pairs of editions.
const PAIRS: [(u32, u32); 4] =
    [(EDITION_1, EDITION_1), (EDITION_1, EDITION_2), (EDITION_2, EDITION_1), (EDITION_2, EDITION_2)];

/// What is written over the application tag and the reference tag of a block.
const WRONG_TAGS: [u8; 6] = [0x7A, 0x7B, 0x7C, 0x7D, 0x7E, 0x7F];

const COPY_MASKS: [u8; 5] = [0xFF, 0x0F, 0x0A, 0xF0, 0x00];

pub fn cases() -> Vec<Case> {
    let mut cases = answer_cases();
    for sequence in SEQUENCES {
        cases.extend([tags_of_wire(&sequence), tags_of_memory(&sequence)]);
    }
    cases.extend(REMAP_OR_NOT.map(other_edition_of_packets));
    for direction in DIRECTIONS {
        cases.extend(PAIRS.map(|(input, output)| unlike_sides(direction, input, output)));
        cases.extend([EDITION_1, EDITION_2].map(|edition| read_by_the_other(direction, edition)));
        cases.extend([layout_offset(direction), damaged_tags(direction), given_copy_mask(direction)]);
        for block_size in [512, 1_024] {
            cases.extend(REMAP_OR_NOT.map(|flags| automatic_copying(direction, block_size, flags)));
        }
        cases.extend([APPLICATION_ESCAPE, BOTH_ESCAPE].map(|flag| escaped_block(direction, flag)));
    }
    cases
}

/// Case A's domain with this block size and edition.
fn dif_of(block_size: u32, edition: u32) -> Domain {
    Domain { block_size, edition, ..dif() }
}

/// Returns a transfer of blocks of the size that the signed sides have.
fn blocks(signature: Signature, count: u64) -> Plan {
    let signed = if signature.memory.signed() { signature.memory } else { signature.wire };
    plan(signature, count * u64::from(signed.block_size))
}

/// Receives in packets, into memory filled anew. They end after all but two bytes of the first unit, which is in the
/// reference tag if the wire is signed, after one byte of the second, and after one byte of the third.
fn by_packets(plan: &Plan) -> Vec<Call> {
    let unit = plan.wire_stream() / (plan.data_length / plan.block_size().expect("a side is signed") as u64);
    let packets = packets(plan, &[unit - 2, 3, unit, plan.wire_stream() - 2 * unit - 1]);
    [vec![Call::FillMemory { pattern: 5 }, plan.open()], packets, vec![Call::Finish, Call::Check]].concat()
}

// Answer 20

fn answer_cases() -> Vec<Case> {
    vec![
        configured("20, wire", domains().into_iter().map(|domain| signature(unsigned(), domain))),
        configured("20, memory", domains().into_iter().map(|domain| signature(domain, unsigned()))),
        configured("20, one side of two", one_side_of_two()),
        configured("editions of unsigned sides", ignored_editions()),
        order_of_answers(),
        refused_configure(),
    ]
}

/// Configures with each signature in turn, and makes a transfer that shows which of them the key has in the end.
fn configured(name: &str, signatures: impl IntoIterator<Item = Signature>) -> Case {
    let layout = list_layout(&[entry(0, 0x2000, 0)]);
    let configured = signatures.into_iter().map(|signature| configure(0x2000, Configuration { layout, signature }));
    Case::named(name)
        .then_all(configured)
        .then_all([Call::Send { memory: 0x2000, wire: 0x3000, offset: 0, data_length: 0x1000 }, Call::Check])
}

/// Numbers around both editions, with sizes around multiples of 512, with remap and without. The last two are an
/// edition that is accepted and one that is refused.
fn domains() -> Vec<Domain> {
    let editions = [0, 1, 2, 3, 4, 0x100, 0x101, 0x102, 0x1_0002, 0x8000_0001, 0xFFFF_FFFF];
    let editions = editions.map(|edition| dif_of(1_024, edition));
    let of_edition_1 = [504, 512, 520, 4_160].map(|block_size| dif_of(block_size, EDITION_1));
    let sizes = [8, 16, 64, 256, 504, 512, 520, 768, 1_024, 1_280, 1_536, 2_560, 3_584, 4_088, 4_096, 4_104, 4_160];
    let of_edition_2 = sizes.map(|block_size| dif_of(block_size, EDITION_2));
    let without_remap = [(512, 0), (8, 1), (8, 2), (512, 2), (520, 2), (4_096, 2), (4_160, 2), (512, 3)];
    let without_remap = without_remap.map(|(block_size, edition)| Domain { flags: 0, ..dif_of(block_size, edition) });
    let last = [dif_of(2_048, EDITION_2), dif_of(512, 3)];
    [&editions[..], &of_edition_1, &of_edition_2, &without_remap, &last].concat()
}

/// Both sides are signed, and one of them has a bad edition.
fn one_side_of_two() -> Vec<Signature> {
    let good = dif_of(512, EDITION_2);
    let bad = [0, 3].map(|edition| dif_of(512, edition));
    bad.iter().flat_map(|&bad| [signature(good, good), signature(bad, good), signature(good, bad)]).collect()
}

/// "In a domain of kind 0 all other numbers are ignored": also editions to which 20 would apply.
fn ignored_editions() -> Vec<Signature> {
    let signed = dif_of(1_024, EDITION_2);
    let ignored = [(512, 0), (512, 3), (520, 2), (12, 0xFFFF_FFFF)];
    let ignored = ignored.map(|(block_size, edition)| Domain { kind: 0, ..dif_of(block_size, edition) });
    let either_side =
        |&ignored: &Domain| [signature(ignored, ignored), signature(signed, ignored), signature(ignored, signed)];
    ignored.iter().flat_map(either_side).collect()
}

/// Configurations to which 20 and another answer apply, and some to which the other applies alone: 20 comes after 1 and
/// before all others. That 8 comes before it is seen in `large_memory`.
fn order_of_answers() -> Case {
    let good_layout = list_layout(&[entry(0, 8, 0)]);
    let signatures = [before_20(), after_20()].concat();
    let with_good_layout = signatures.into_iter().map(|signature| (signature, good_layout));
    let malformed = Layout::default();
    let outside = list_layout(&[entry(0x40, 1, 0)]);
    let overlapping = list_layout(&[entry(0, 8, 0), entry(7, 8, 0)]);
    let (good, bad) = (signature(unsigned(), dif()), signature(unsigned(), Domain { edition: 3, ..dif() }));
    let layouts = [malformed, outside, overlapping].map(|layout| [(bad, layout), (good, layout)]).concat();
    let all = with_good_layout.chain(layouts);
    Case::named("order of answer 20")
        .then_all(all.map(|(signature, layout)| configure(0x40, Configuration { layout, signature })))
}

/// Signatures to which 1 and 20 apply: in one domain, in two, and 1 by the attribute flags.
fn before_20() -> Vec<Signature> {
    let bad = Domain { edition: 3, ..dif() };
    let kind_2 = Domain { kind: 2, ..dif() };
    let in_one_domain = [
        Domain { kind: 2, ..bad },
        Domain { guard_type: 2, ..bad },
        Domain { seed: 1, ..bad },
        Domain { flags: 6, ..bad },
        dif_of(12, EDITION_2),
        dif_of(4_608, EDITION_2),
    ];
    let in_one_domain = in_one_domain.map(|domain| signature(unsigned(), domain));
    let in_two = [signature(bad, kind_2), signature(kind_2, bad)];
    let by_flags = [signature(bad, unsigned()), signature(unsigned(), bad), signature(dif(), dif())];
    let by_flags = by_flags.map(|signature| Signature { attribute_flags: 2, ..signature });
    [&in_one_domain[..], &in_two, &by_flags].concat()
}

/// Signatures to which 20 and one of 2, 3 and 4 apply, and each of these alone.
fn after_20() -> Vec<Signature> {
    let bad = Domain { edition: 3, ..dif() };
    let escape = Domain { flags: APPLICATION_ESCAPE, application_tag: 0xFFFF, ..dif() };
    let escapes = [
        signature(unsigned(), Domain { edition: 3, ..escape }),
        signature(bad, escape),
        signature(escape, bad),
        signature(dif(), escape),
    ];
    let copy_masks = [
        signature(unsigned(), bad),
        signature(bad, unsigned()),
        signature(dif_of(512, EDITION_1), dif_of(520, EDITION_2)),
        signature(dif_of(512, EDITION_2), dif_of(1_024, EDITION_2)),
    ];
    let copy_masks = copy_masks.map(|signature| Signature { attribute_flags: COPY_MASK_GIVEN, ..signature });
    let block_sizes = [
        signature(dif_of(512, EDITION_1), dif_of(520, EDITION_2)),
        signature(dif_of(520, EDITION_2), dif_of(512, EDITION_2)),
        signature(dif_of(512, EDITION_2), dif_of(520, EDITION_1)),
        signature(dif_of(512, EDITION_2), dif_of(1_024, EDITION_2)),
    ];
    [escapes, copy_masks, block_sizes].concat()
}

/// A configure that is refused with 20 leaves the key as it was: never configured at first, then with its old
/// configuration and its error. A session in progress goes on too.
fn refused_configure() -> Case {
    let plan = blocks(signature(unsigned(), dif_of(1_024, EDITION_2)), 3);
    let refused = [dif_of(8, EDITION_2), Domain { reference_tag: 7, ..dif_of(1_024, 3) }]
        .map(|wire| self::plan(signature(unsigned(), wire), 0x40).configure());
    Case::named("a configure refused with 20")
        .then_all(refused.clone())
        .then_all([plan.send(), Call::Check, plan.configure(), plan.send()])
        .then_all([plan.set_input(Direction::Receive, 2 * 1_032 - 1, 0x66), plan.receive()])
        .then_all(refused.clone())
        .then_all([plan.receive(), plan.send(), Call::Check, plan.receive(), Call::Check])
        .then_all([plan.open(), plan.packet(0, 1_100), Call::Reseal])
        .then_all(refused)
        .then_all([plan.send(), plan.packet(1_100, plan.wire_stream() - 1_100), Call::Finish, plan.send(), Call::Check])
}

/// Memory that is too long, with editions to which 20 applies: 8 comes first. README.md's buffer has no room for it.
pub fn large_memory() -> Case {
    let domains = [dif_of(8, EDITION_2), dif_of(8, 0), dif_of(512, EDITION_2)];
    let configured = domains.map(|wire| {
        let Plan { configuration, .. } = plan(signature(unsigned(), wire), 8);
        [MEMORY_LIMIT + 1, MEMORY_LIMIT].map(|memory| configure(memory, configuration))
    });
    let case = Case::named("8 before 20").then_all(configured.concat());
    Case { buffers: Buffers { memory: MEMORY_LIMIT as usize + 1, ..Buffers::REPLAY }, ..case }
}

// Tags

/// Blocks of edition 2 and the tags that they get, worked out by hand: each is the one before plus block size / 512,
/// modulo 2^32, or the same without remap.
struct Sequence {
    block_size: u32,
    flags: u32,
    tags: &'static [u32],
}

const SEQUENCES: [Sequence; 13] = [
    Sequence { block_size: 512, flags: REMAP, tags: &[0xFFFF_FFFE, 0xFFFF_FFFF, 0, 1] },
    Sequence { block_size: 1_024, flags: REMAP, tags: &[0, 2, 4, 6] },
    Sequence { block_size: 1_024, flags: REMAP, tags: &[0xFFFF_FFFD, 0xFFFF_FFFF, 1, 3] },
    Sequence { block_size: 1_024, flags: REMAP, tags: &[0xFFFF_FFFE, 0, 2, 4] },
    Sequence { block_size: 1_024, flags: REMAP, tags: &[0x00FF_FFFF, 0x0100_0001, 0x0100_0003, 0x0100_0005] },
    Sequence { block_size: 1_536, flags: REMAP, tags: &[0xFFFF_FFFE, 1, 4, 7] },
    Sequence { block_size: 2_048, flags: REMAP, tags: &[0x7FFF_FFFE, 0x8000_0002, 0x8000_0006, 0x8000_000A] },
    Sequence { block_size: 3_584, flags: REMAP, tags: &[0x0000_FFFB, 0x0001_0002, 0x0001_0009] },
    Sequence { block_size: 4_096, flags: REMAP, tags: &[0xFFFF_FFFC, 4, 12] },
    Sequence { block_size: 4_096, flags: REMAP, tags: &[0xFFFF_FFF8, 0, 8] },
    Sequence { block_size: 512, flags: 0, tags: &[0xFFFF_FFFF; 3] },
    Sequence { block_size: 1_024, flags: 0, tags: &[0x0102_0304; 3] },
    Sequence { block_size: 4_096, flags: BOTH_ESCAPE, tags: &[0xFFFF_FFFC; 3] },
];

impl Sequence {
    fn domain(&self) -> Domain {
        Domain { reference_tag: self.tags[0], flags: self.flags, ..dif_of(self.block_size, EDITION_2) }
    }

    fn plan(&self, signature: Signature) -> Plan {
        blocks(signature, self.tags.len() as u64)
    }
}

/// Sends blocks to a signed wire, and receives them by one call and in packets: the tags are those that are wanted.
fn tags_of_wire(sequence: &Sequence) -> Case {
    let plan = sequence.plan(signature(unsigned(), sequence.domain()));
    Case::named("tags of edition 2 on the wire")
        .then_all([plan.configure(), plan.send(), Call::FillMemory { pattern: 3 }, plan.receive(), Call::Check])
        .then_all(by_packets(&plan))
}

/// Receives blocks into a signed memory, by one call and in packets, and sends them.
fn tags_of_memory(sequence: &Sequence) -> Case {
    let plan = sequence.plan(signature(sequence.domain(), unsigned()));
    Case::named("tags of edition 2 in memory")
        .then_all([plan.configure(), plan.receive(), Call::FillWire { pattern: 4 }, plan.send(), Call::Check])
        .then_all(by_packets(&plan))
        .then_all([plan.send(), Call::Check])
}

/// Transfers between two sides with unlike tags, so that every field is checked by the input's edition and generated by
/// the output's.
fn unlike_sides(direction: Direction, input: u32, output: u32) -> Case {
    let output = Domain { reference_tag: 0xFFFF_FFFB, application_tag: 0xABCD, seed: 0xFFFF, ..dif_of(1_536, output) };
    let plan = blocks(directed(direction, dif_of(1_536, input), output), 3);
    let case = Case::named("two sides with their own editions").then_all(plan.prepare(direction)).then_all([
        plan.configure(),
        plan.transfer(direction),
        Call::Check,
    ]);
    if direction == Direction::Receive {
        return case.then_all(by_packets(&plan));
    }
    case
}

/// The blocks are counted from 0 in each transfer: the layout offset, which is a multiple of 512 here, doesn't enter.
fn layout_offset(direction: Direction) -> Case {
    let mut plan = blocks(directed(direction, dif_of(1_024, EDITION_2), unsigned()), 2);
    let stream = plan.memory as u32;
    plan.configuration.layout = list_layout(&[entry(0x1000, 1_500, 0), entry(3, stream, 0)]);
    (plan.memory, plan.offset) = (0x1800, 1_024);
    Case::named("layout offset under edition 2")
        .then_all(plan.prepare(direction))
        .then_all([plan.configure(), plan.transfer(direction), Call::Check])
        .then_all([plan.set_input(direction, 2 * 1_032 - 1, 0x66), plan.transfer(direction), Call::Check])
}

/// Damages the reference tags of three blocks, the last block first. The right tags are 0xFFFFFFFE, 0 and 2.
fn damaged_tags(direction: Direction) -> Case {
    let input = Domain { reference_tag: 0xFFFF_FFFE, ..dif_of(1_024, EDITION_2) };
    let plan = blocks(directed(direction, input, unsigned()), 3);
    let mut case = Case::named("damaged tags of edition 2").then_all(plan.prepare(direction)).then(plan.configure());
    for (block, byte_of_field, byte) in [(2, 7, 0x03), (2, 5, 0xFF), (1, 4, 0xFF), (0, 7, 0xFF)] {
        let damage = plan.set_input(direction, block * 1_032 + 1_024 + byte_of_field, byte);
        case = case.then_all([damage, plan.transfer(direction), Call::Check]);
        if direction == Direction::Receive {
            case = case.then_all(by_packets(&plan));
        }
    }
    case
}

/// Sends and receives 300 blocks of 1,024 bytes, for which README.md's buffers have no room. Their fields have 2,400
/// bytes, more than four sectors, and these are not counted. At last the tag of the last block is damaged.
pub fn long_stream() -> Case {
    let plan = blocks(signature(unsigned(), Domain { reference_tag: 0xFFFF_FF00, ..dif_of(1_024, EDITION_2) }), 300);
    let (stream, cut) = (plan.wire_stream(), 200_000);
    let by_packets = [plan.open(), plan.packet(0, cut), plan.packet(cut, stream - cut), Call::Finish, Call::Check];
    let damage = plan.set_input(Direction::Receive, stream - 1, 0x57);
    let case = Case::named("300 blocks of edition 2")
        .then_all([plan.configure(), plan.send(), Call::FillMemory { pattern: 3 }, plan.receive(), Call::Check])
        .then_all(by_packets.clone())
        .then_all([damage, plan.receive(), Call::Check])
        .then_all(by_packets);
    Case { buffers: Buffers { memory: plan.memory as usize, wire: stream as usize }, ..case }
}

/// Makes blocks by one edition and reads them by the other. The second block is the first wrong one, except without
/// remap, at size 512 and in a transfer of one block.
fn read_by_the_other(direction: Direction, edition: u32) -> Case {
    let mut case = Case::named("blocks read by the other edition");
    for (block_size, flags, count) in
        [(1_024, REMAP, 3), (4_096, REMAP, 2), (1_024, 0, 3), (512, REMAP, 3), (1_024, REMAP, 1)]
    {
        let made = Domain { reference_tag: 0x0102_03FE, flags, ..dif_of(block_size, edition) };
        let read = Domain { edition: EDITION_1 + EDITION_2 - edition, ..made };
        let [making, reading] = [made, read].map(|input| blocks(directed(direction, input, unsigned()), count));
        case = case.then_all(making.prepare(direction)).then_all([
            reading.configure(),
            reading.transfer(direction),
            Call::Check,
        ]);
    }
    case
}

/// Receives in packets what was made by the other edition.
fn other_edition_of_packets(flags: u32) -> Case {
    let mut case = Case::named("packets read by the other edition");
    for (made, read) in PAIRS {
        let [making, reading] = [made, read].map(|edition| {
            let wire = Domain { flags, ..dif_of(1_536, edition) };
            blocks(signature(Domain { reference_tag: 9, ..wire }, wire), 3)
        });
        case =
            case.then_all(making.prepare(Direction::Receive)).then(reading.configure()).then_all(by_packets(&reading));
    }
    case
}

// Copying

/// Calls that damage the second block of 1,024 or 512 bytes: its data, its application tag and its reference tag. What
/// is copied then differs from what is generated.
fn damaged_second_block(plan: &Plan, direction: Direction) -> Vec<Call> {
    let size = plan.block_size().expect("a side is signed") as u64;
    let unit = size + 8;
    let tags = WRONG_TAGS.iter().zip(unit + size + 2..).map(|(&byte, at)| plan.set_input(direction, at, byte));
    [vec![plan.set_input(direction, unit + 5, 0x5A)], tags.collect()].concat()
}

/// Transfers between sides that agree in all but perhaps the edition. With unlike editions the reference tag is
/// generated, also without remap and at size 512, and the rest is copied.
fn automatic_copying(direction: Direction, block_size: u32, flags: u32) -> Case {
    let mut case = Case::named("automatic copying by edition");
    for (input, output) in PAIRS {
        let [input, output] = [input, output].map(|edition| Domain { flags, ..dif_of(block_size, edition) });
        let plan = blocks(directed(direction, input, output), 3);
        case = case.then_all(plan.prepare(direction)).then_all(damaged_second_block(&plan, direction)).then_all([
            plan.configure(),
            plan.transfer(direction),
            Call::Check,
        ]);
        if direction == Direction::Receive {
            case = case.then_all(by_packets(&plan));
        }
    }
    case
}

/// A given copy mask copies its bytes, whatever the editions are.
fn given_copy_mask(direction: Direction) -> Case {
    let [input, output] = [EDITION_1, EDITION_2].map(|edition| dif_of(1_024, edition));
    let plan = blocks(directed(direction, input, output), 2);
    let mut case = Case::named("copy mask given with unlike editions")
        .then_all(plan.prepare(direction))
        .then_all(damaged_second_block(&plan, direction));
    for copy_mask in COPY_MASKS {
        let mut plan = plan.clone();
        plan.configuration.signature.attribute_flags = COPY_MASK_GIVEN;
        plan.configuration.signature.copy_mask = copy_mask;
        case = case.then_all([plan.configure(), plan.transfer(direction)]);
    }
    case.then(Call::Check)
}

/// Transfers four blocks. All bytes of the second block's field are FF, so it is an escape, and the count goes on after
/// it: by edition 2 the four tags are 0xFFFFFFFD, 0xFFFFFFFF, 1 and 3. Then the third block gets 0xFFFFFFFF, its tag by
/// edition 1. At last the second block is no longer an escape.
fn escaped_block(direction: Direction, flag: u32) -> Case {
    let input = Domain { reference_tag: 0xFFFF_FFFD, flags: REMAP | flag, ..dif_of(1_024, EDITION_2) };
    let plan = blocks(directed(direction, input, unsigned()), 4);
    let transferred = [plan.transfer(direction), Call::Check];
    let [second, third] = [1, 2].map(|block| block * 1_032 + 1_024);
    Case::named("escaped block under edition 2")
        .then_all(plan.prepare(direction))
        .then_all(input_bytes(direction, second, &[0xFF; 8]))
        .then(plan.configure())
        .then_all(transferred.clone())
        .then_all(input_bytes(direction, third + 4, &[0xFF; 4]))
        .then_all(transferred.clone())
        .then_all(input_bytes(direction, second + 3, &[0xFE]))
        .then_all(transferred)
}

#[cfg(test)]
mod tests;
