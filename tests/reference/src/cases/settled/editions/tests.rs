//! What the cases of this file return by the model, compared with numbers worked out by hand.

use super::*;
use crate::model::{crc_guard, FIELD_SIZE, REFERENCE};
use crate::script::Machine;

/// Makes the first `count` calls of a case. Returns what those with this letter return, and the state after them.
fn run(case: &Case, count: usize, letter: char) -> (Vec<Vec<u64>>, Machine) {
    let mut machine = Machine::new(case.buffers.memory, case.buffers.wire);
    let mut replies = Vec::new();
    for call in &case.calls[..count] {
        let reply = machine.run(call);
        replies.extend(reply.filter(|_| call.letter() == letter));
    }
    (replies, machine)
}

/// Returns what all calls of a case with this letter return.
fn replies(case: &Case, letter: char) -> Vec<Vec<u64>> {
    run(case, case.calls.len(), letter).0
}

/// Returns the answer of each call of a case with this letter.
fn answers(case: &Case, letter: char) -> Vec<u64> {
    replies(case, letter).into_iter().map(|numbers| numbers[0]).collect()
}

/// Returns the five numbers of each check of a case.
fn checks(case: &Case) -> Vec<Vec<u64>> {
    replies(case, 'K').into_iter().map(|numbers| numbers[1..].to_vec()).collect()
}

/// Returns the buffer that transfers in this direction write, as it is after each such transfer of a case.
fn outputs(case: &Case, direction: Direction) -> Vec<Vec<u8>> {
    let letter = if direction == Direction::Send { 'S' } else { 'R' };
    let transfers = (0..case.calls.len()).filter(|&at| case.calls[at].letter() == letter);
    let after = |at: usize| {
        let Machine { memory, wire, .. } = run(case, at + 1, letter).1;
        if direction == Direction::Send {
            wire
        } else {
            memory
        }
    };
    transfers.map(after).collect()
}

/// Returns the field after this block.
fn field(stream: &[u8], block: usize, block_size: u32) -> [u8; FIELD_SIZE] {
    let start = block * (block_size as usize + FIELD_SIZE) + block_size as usize;
    std::array::from_fn(|at| stream[start + at])
}

fn reference_tags(stream: &[u8], sequence: &Sequence) -> Vec<u32> {
    let tag = |block: usize| field(stream, block, sequence.block_size)[REFERENCE].iter().fold(0, be_number);
    (0..sequence.tags.len()).map(tag).collect()
}

fn be_number(high: u32, byte: &u8) -> u32 {
    high * 256 + u32::from(*byte)
}

/// Both kinds of cases generate the tags of the table, and checks find them right.
#[test]
fn tags_are_those_of_the_table() {
    for sequence in SEQUENCES {
        let (sent, received) = (tags_of_wire(&sequence), tags_of_memory(&sequence));
        assert_eq!(reference_tags(&outputs(&sent, Direction::Send)[0], &sequence), sequence.tags);
        assert_eq!(reference_tags(&outputs(&received, Direction::Receive)[0], &sequence), sequence.tags);
        let after_packets = run(&received, received.calls.len(), 'K').1.memory;
        assert_eq!(reference_tags(&after_packets, &sequence), sequence.tags);
        for case in [sent, received] {
            assert!(checks(&case).iter().all(|numbers| numbers == &[0; 5]), "{}", case.text());
        }
    }
}

#[test]
fn answer_20_has_these_boundaries() {
    let editions = [20, 0, 0, 20, 20, 20, 20, 20, 20, 20, 20];
    let of_edition_1 = [0; 4];
    let of_edition_2 = [20, 20, 20, 20, 20, 0, 20, 20, 0, 20, 0, 0, 0, 20, 0, 20, 20];
    let without_remap = [20, 0, 20, 0, 20, 0, 20, 20];
    let wanted = [&editions[..], &of_edition_1, &of_edition_2, &without_remap, &[0, 20]].concat();
    let cases = answer_cases();
    assert_eq!(answers(&cases[0], 'C'), wanted, "wire");
    assert_eq!(answers(&cases[1], 'C'), wanted, "memory");
    assert_eq!(answers(&cases[2], 'C'), [0, 20, 20, 0, 20, 20], "one side of two");
    assert_eq!(answers(&cases[3], 'C'), [0; 12], "unsigned sides");
}

#[test]
fn answer_20_comes_after_1_and_before_all_others() {
    let escapes = [20, 20, 20, 2];
    let copy_masks = [20, 20, 20, 3];
    let block_sizes = [20, 20, 4, 4];
    let layouts = [20, 5, 20, 6, 20, 7];
    let wanted = [&[1; 11][..], &escapes, &copy_masks, &block_sizes, &layouts].concat();
    assert_eq!(answers(&order_of_answers(), 'C'), wanted);
    assert_eq!(answers(&large_memory(), 'C'), [8, 20, 8, 20, 8, 0]);
}

/// The damaged tag is that of the second block: 1 by rule, after 0xFFFFFFFF, and 0x66 in its last byte.
#[test]
fn a_refused_configure_leaves_the_key() {
    let case = refused_configure();
    assert_eq!(answers(&case, 'C'), [20, 20, 0, 20, 20, 20, 20]);
    assert_eq!(answers(&case, 'S'), [14, 0, 0, 0, 0]);
    let damaged = [2, 1, 0x66, 1_032, 1];
    assert_eq!(checks(&case), [[0; 5], damaged, [0; 5], [0; 5]]);
}

#[test]
fn damaged_tags_are_reported_with_these_numbers() {
    let reports = [
        [2, 2, 3, 2_064, 0x01],
        [2, 2, 0x00FF_0003, 2_064, 0x05],
        [2, 0, 0xFF00_0000, 1_032, 0x08],
        [2, 0xFFFF_FFFE, 0xFFFF_FFFF, 0, 0x01],
    ];
    assert_eq!(checks(&damaged_tags(Direction::Send)), reports);
    let twice: Vec<[u64; 5]> = reports.iter().flat_map(|&report| [report, report]).collect();
    assert_eq!(checks(&damaged_tags(Direction::Receive)), twice);
}

/// The last of the 300 tags is 0xFFFFFF00 + 299 × 2 - 2^32, which is 342 or 0x156.
#[test]
fn a_long_stream_counts_to_its_last_block() {
    let damaged = [2, 0x156, 0x157, 299 * 1_032, 1];
    assert_eq!(checks(&long_stream()), [[0; 5], [0; 5], damaged, damaged]);
}

/// From 0x010203FE on, the second block has 0x010203FF by edition 1, 0x01020400 by edition 2 at size 1,024, and
/// 0x01020406 at size 4,096. Each two of these differ in the last two bytes.
#[test]
fn the_other_edition_finds_the_second_block() {
    let none = [0; 5];
    let (first, second, of_4096) = (0x0102_03FF, 0x0102_0400, 0x0102_0406);
    for direction in DIRECTIONS {
        let by_2 = [[2, second, first, 1_032, 3], [2, of_4096, first, 4_104, 3], none, none, none];
        assert_eq!(checks(&read_by_the_other(direction, EDITION_1)), by_2);
        let by_1 = [[2, first, second, 1_032, 3], [2, first, of_4096, 4_104, 3], none, none, none];
        assert_eq!(checks(&read_by_the_other(direction, EDITION_2)), by_1);
    }
    // From 0xFFFFFFFF on, the second block of 1,536 bytes has 0 by edition 1, and 2 by edition 2.
    let packets = [none, [2, 2, 0, 1_544, 1], [2, 0, 2, 1_544, 1], none];
    assert_eq!(checks(&other_edition_of_packets(REMAP)), packets);
    assert_eq!(checks(&other_edition_of_packets(0)), [none; 4]);
}

/// By its own edition each side is right, and the layout offset is not counted. The damaged tag is 1 by rule.
#[test]
fn each_side_counts_by_its_own_edition() {
    for direction in DIRECTIONS {
        for (input, output) in PAIRS {
            let case = unlike_sides(direction, input, output);
            assert!(checks(&case).iter().all(|numbers| numbers == &[0; 5]), "{}", case.text());
            let stream = outputs(&case, direction).pop().expect("the case has a transfer");
            let third = field(&stream, 2, 1_536)[REFERENCE].iter().fold(0, be_number);
            // 0xFFFFFFFB + 2 × 1, and 0xFFFFFFFB + 2 × 3 - 2^32.
            assert_eq!(third, if output == EDITION_1 { 0xFFFF_FFFD } else { 1 });
        }
        assert_eq!(checks(&layout_offset(direction)), [[0; 5], [2, 1, 0x66, 1_032, 1]]);
    }
}

/// The second block's field after a transfer: its reference tag is generated if the editions differ, and else copied.
/// From 0xFFFFFFFF on it is 0xFFFFFFFF without remap, 0 by edition 1 and at size 512, and 1 by edition 2 at 1,024.
#[test]
fn unlike_editions_copy_all_but_the_reference_tag() {
    let copied = [0x7C, 0x7D, 0x7E, 0x7F];
    for (block_size, flags, by_1, by_2) in [
        (512, 0, [0xFF; 4], [0xFF; 4]),
        (512, 1, [0; 4], [0; 4]),
        (1_024, 0, [0xFF; 4], [0xFF; 4]),
        (1_024, 1, [0; 4], [0, 0, 0, 1]),
    ] {
        for direction in DIRECTIONS {
            let outputs = outputs(&automatic_copying(direction, block_size, flags), direction);
            let fields: Vec<[u8; FIELD_SIZE]> = outputs.iter().map(|output| field(output, 1, block_size)).collect();
            let tags: Vec<&[u8]> = fields.iter().map(|field| &field[REFERENCE]).collect();
            assert_eq!(tags, [copied, by_2, by_1, copied], "{direction:?}, {block_size}, flags {flags}");
            for (output, field) in outputs.iter().zip(&fields) {
                let (unit, size) = (block_size as usize + FIELD_SIZE, block_size as usize);
                // The data is damaged, so that a generated guard would be another.
                assert_ne!(field[..2], crc_guard(0, &output[unit..unit + size]).to_be_bytes());
                assert_eq!(field[2..4], [0x7A, 0x7B]);
            }
        }
    }
}

/// The mask decides which bytes are copied. By edition 2 the second block's tag is 1.
#[test]
fn a_given_mask_copies_its_bytes() {
    for direction in DIRECTIONS {
        let outputs = outputs(&given_copy_mask(direction), direction);
        let tags: Vec<[u8; 6]> =
            outputs.iter().map(|output| field(output, 1, 1_024)[2..].try_into().expect("six bytes")).collect();
        let wanted = [
            [0x7A, 0x7B, 0x7C, 0x7D, 0x7E, 0x7F],
            [0x12, 0x34, 0x7C, 0x7D, 0x7E, 0x7F],
            [0x12, 0x34, 0x7C, 0x00, 0x7E, 0x01],
            [0x7A, 0x7B, 0x00, 0x00, 0x00, 0x01],
            [0x12, 0x34, 0x00, 0x00, 0x00, 0x01],
        ];
        assert_eq!(tags, wanted);
    }
}

/// The third block's tag is 1 by rule and 0xFFFFFFFF in the stream. Once the second block is not escaped, its guard is
/// the first error: FF FF was found, and what is computed depends on the pattern.
#[test]
fn an_escaped_block_is_skipped_and_counted() {
    for direction in DIRECTIONS {
        for flag in [APPLICATION_ESCAPE, BOTH_ESCAPE] {
            let checks = checks(&escaped_block(direction, flag));
            assert_eq!(checks[..2], [[0; 5], [2, 1, 0xFFFF_FFFF, 2_064, 0x0F]]);
            assert_eq!((checks[2][0], checks[2][2], checks[2][3]), (1, 0xFFFF, 1_032));
            assert_eq!(checks.len(), 3);
        }
    }
}
