//! Tests which changes of a block a CRC guard is sure to find. If data bits of a received block are changed, at least
//! one and all within 16 consecutive bits, then the library must report the block's guard as bad. In small blocks every
//! such burst is tried, in large ones random bursts. One burst of 17 bits must not be found at any place, so that 16 is
//! the limit.

mod burst;
mod stage;
mod transfer;

use super::{child, fault_of_end};
use crate::rng::Rng;
use stage::{Bursts, Stage};
use std::io::PipeWriter;

const GUARD_SEEDS: [u16; 2] = [0, 0xFFFF];

/// Runs all stages, with `count` random bursts for each large size and guard seed.
pub fn bursts(count: u64, seed: u64) -> Result<(), String> {
    let random = Bursts::Random { count };
    let small = [stages(Bursts::Every, &[8, 16]), stages(Bursts::EveryInPackets, &[8])];
    let stages = [small.concat(), stages(random, &[512, 4_160]), stages(Bursts::Generator, &[8, 16])].concat();
    let tried = run_in_child(&stages, seed)
        .map_err(|report| format!("bursts: {report}\nagain with: reference bursts {count} {seed}"))?;
    let total = |bursts: Bursts| {
        let of_bursts = stages.iter().zip(&tried).filter(|(stage, _)| stage.bursts == bursts);
        of_bursts.map(|(_, tried)| tried).sum::<u64>()
    };
    println!(
        "bursts: all {} in blocks of 8 and 16 bytes, {} of them also in packets, and {} random ones of seed {seed} in \
         blocks of 512 and 4160 bytes are found; {} of 17 bits are not",
        total(Bursts::Every),
        total(Bursts::EveryInPackets),
        total(random),
        total(Bursts::Generator)
    );
    Ok(())
}

/// Returns a stage for each of the sizes with each guard seed.
fn stages(bursts: Bursts, sizes: &[u32]) -> Vec<Stage> {
    let of_size = |&block_size| GUARD_SEEDS.map(|guard_seed| Stage { bursts, block_size, guard_seed });
    sizes.iter().flat_map(of_size).collect()
}

/// Runs the stages in one child, up to the first fault. Returns how many bursts each stage tried, or a report.
fn run_in_child(stages: &[Stage], seed: u64) -> Result<Vec<u64>, String> {
    let (mut tried, mut said) = (Vec::new(), Vec::new());
    let work = |parent: &mut PipeWriter| {
        for (number, stage) in stages.iter().enumerate() {
            match stage.run(&mut Rng::of_case(seed, number as u64)) {
                Ok(tried) => child::say(&tried.to_string(), parent),
                Err(report) => return child::say(&report, parent),
            }
        }
    };
    let end = child::run(work, |line| match line.parse::<u64>() {
        Ok(number) => tried.push(number),
        Err(_) => said.push(line),
    });
    if !said.is_empty() {
        return Err(said.join("\n"));
    }
    if end.success() && tried.len() == stages.len() {
        return Ok(tried);
    }
    let at = stages.get(tried.len()).map_or("after the last stage".to_string(), Stage::text);
    Err(format!("{at}: {}", fault_of_end(end).words))
}
