//! Case A of the customer's rule book, which the tests vary.

use garoalva::*;

pub const DATA: [u8; 16] = [0, 0, 0, 0, 0, 0, 0, 1, 0, 0, 0, 0, 0, 0, 0, 0];

pub const WIRE: [u8; 32] = [
    0, 0, 0, 0, 0, 0, 0, 1, 0x8B, 0xB7, 0x12, 0x34, 0xFF, 0xFF, 0xFF, 0xFF, //
    0, 0, 0, 0, 0, 0, 0, 0, 0x00, 0x00, 0x12, 0x34, 0x00, 0x00, 0x00, 0x00,
];

pub const START: LayoutOffset = LayoutOffset(0);

pub fn signed() -> T10Dif {
    T10Dif {
        block_size: 8,
        guard: Guard::Crc,
        seed: Seed::Zero,
        application_tag: 0x1234,
        reference_tag: 0xFFFF_FFFF,
        remap: true,
        edition: Edition::First,
        escape: Escape::Never,
    }
}

pub fn configuration(layout: Layout, memory: Domain, wire: Domain) -> Configuration {
    Configuration {
        layout,
        signature: Signature {
            memory,
            wire,
            check: Mask::ALL,
            copy: Copying::Automatic,
        },
    }
}

pub fn case_a() -> Configuration {
    configuration(Layout::contiguous(16), Domain::None, signed().into())
}

pub fn configured(memory: &[u8], configuration: &Configuration) -> Key {
    let mut key = Key::new();
    key.configure(memory, configuration).unwrap();
    key
}

pub fn totals(taken: u64, written: u64) -> Result<Totals, Refusal> {
    Ok(Totals { taken, written })
}
