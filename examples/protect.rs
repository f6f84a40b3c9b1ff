//! Protects a buffer, sends it, receives it by packets, damages one bit on the wire, receives it again, and prints what
//! `check` returns each time.

use garoalva::*;
use std::error::Error;

const BLOCK: usize = 512;
const UNIT: usize = BLOCK + 8;
const BLOCKS: usize = 8;
const DATA: usize = BLOCKS * BLOCK;
const PACKET: usize = 1500;
const START: LayoutOffset = LayoutOffset(0);

fn configuration() -> Configuration {
    let wire = T10Dif {
        block_size: BLOCK as u32,
        guard: Guard::Crc,
        seed: Seed::Ones,
        application_tag: 0x1234,
        reference_tag: 1000,
        remap: true,
        edition: Edition::First,
        escape: Escape::Never,
    };
    Configuration {
        layout: Layout::contiguous(DATA as u32),
        signature: Signature {
            memory: Domain::None,
            wire: Domain::T10Dif(wire),
            check: Mask::ALL,
            copy: Copying::Automatic,
        },
    }
}

fn receive_by_packets(key: Key, memory: &mut [u8], wire: &[u8]) -> Result<Key, Box<dyn Error>> {
    let mut session = key.open(memory, START, DATA as u64)?;
    for packet in wire.chunks(PACKET) {
        let Totals { taken, written } = session.packet(memory, packet)?;
        println!("packet of {} bytes: {taken} taken, {written} written", packet.len());
    }
    Ok(session.finish()?)
}

fn print_check(key: &mut Key) -> Result<(), Refusal> {
    match key.check()? {
        None => println!("check: no error"),
        Some(error) => println!("check: {error}"),
    }
    Ok(())
}

fn main() -> Result<(), Box<dyn Error>> {
    let mut memory: Vec<u8> = (0..DATA).map(|i| (i * 7) as u8).collect();
    let mut wire = vec![0; BLOCKS * UNIT];
    let mut key = Key::new();
    key.configure(&memory, &configuration())?;
    let Totals { taken, written } = key.send(&memory, &mut wire, START, DATA as u64)?;
    println!("sent: {taken} taken, {written} written");
    let mut key = receive_by_packets(key, &mut memory, &wire)?;
    print_check(&mut key)?;
    wire[3 * UNIT + 100] ^= 1;
    println!("damaged: one bit of block 3");
    let mut key = receive_by_packets(key, &mut memory, &wire)?;
    print_check(&mut key)?;
    Ok(())
}
