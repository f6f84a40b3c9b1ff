//! Random cases. Most start from a valid configuration and a valid input stream, and only then do something wrong, so
//! that few of them end at the first refusal.

mod damage;
mod layouts;
pub mod plans;

use super::{Buffers, Case, Direction, Plan};
use crate::rng::Rng;
use crate::script::{Call, Machine, BUFFER_SIZE};

/// Returns the case of this seed and number.
pub fn case(seed: u64, number: u64) -> Case {
    let mut draft = Draft::new(Rng::of_case(seed, number));
    for _ in 0..draft.rng.between(1, 3) {
        match draft.rng.below(100) {
            0..=39 => draft.transfer(),
            40..=79 => draft.packets(),
            80..=89 => draft.configurations(),
            _ => draft.boundary_transfers(),
        }
    }
    Case { name: format!("random case {number} of seed {seed}"), buffers: Buffers::REPLAY, calls: draft.calls }
}

/// A case to which calls are still added, and the model's state after its calls.
struct Draft {
    rng: Rng,
    machine: Machine,
    calls: Vec<Call>,
}

impl Draft {
    fn new(mut rng: Rng) -> Draft {
        let (memory, wire) = (rng.below(1 << 32), rng.below(1 << 32));
        let mut draft = Draft { rng, machine: Machine::new(BUFFER_SIZE, BUFFER_SIZE), calls: Vec::new() };
        draft.make(Call::New);
        draft.make(Call::FillMemory { pattern: memory });
        draft.make(Call::FillWire { pattern: wire });
        draft
    }

    /// Adds a call, unless it needs bytes outside the buffers or breaks the premise of demand 3.
    fn make(&mut self, call: Call) {
        if self.machine.fits(&call) && self.machine.keeps_premise(&call) {
            self.machine.run(&call);
            self.calls.push(call);
        }
    }

    fn make_all(&mut self, calls: impl IntoIterator<Item = Call>) {
        for call in calls {
            self.make(call);
        }
    }

    fn make_sometimes(&mut self, chance: u64, call: Call) {
        if self.rng.percent(chance) {
            self.make(call);
        }
    }

    fn direction(&mut self) -> Direction {
        self.rng.pick(&[Direction::Send, Direction::Receive])
    }

    /// Makes a plan, puts its input in place, valid or damaged, and configures the key with it.
    fn prepared(&mut self, direction: Direction) -> Plan {
        let plan = plans::plan(&mut self.rng);
        self.make_all(plan.prepare(direction));
        self.make(plan.configure());
        if self.rng.percent(75) {
            let damage = damage::damage(&mut self.rng, &plan, direction);
            self.make_all(damage);
        }
        plan
    }

    /// Makes one or two whole transfers, the second after more damage and in any direction.
    fn transfer(&mut self) {
        let direction = self.direction();
        let plan = self.prepared(direction);
        self.make(plan.transfer(direction));
        self.make_sometimes(60, Call::Check);
        if self.rng.percent(30) {
            let damage = damage::damage(&mut self.rng, &plan, direction);
            self.make_all(damage);
            let again = self.direction();
            self.make(plan.transfer(again));
        }
        self.make_sometimes(80, Call::Check);
    }

    /// Makes a receive by packets, with refused calls between them.
    fn packets(&mut self) {
        let plan = self.prepared(Direction::Receive);
        let mut at = 0;
        self.make(plan.open());
        for count in plans::packets(&mut self.rng, &plan) {
            if self.rng.percent(12) {
                self.refused_packet(&plan);
            }
            if self.rng.percent(5) {
                self.call_beside_session(&plan);
            }
            self.make_sometimes(4, Call::Finish);
            self.make(plan.packet(at, count));
            at += count;
            // Bytes that were accepted are not read again.
            let byte = self.rng.byte();
            self.make_sometimes(3, Call::SetWire { at: 0, count: at, byte });
            if self.rng.percent(3) {
                break;
            }
        }
        self.end_session(&plan);
    }

    /// Makes a packet that is too long, or is lent a memory of another length, or both.
    fn refused_packet(&mut self, plan: &Plan) {
        let left = self.machine.session.as_ref().map_or(0, |session| session.bytes_to_come() as u64);
        let long = left + self.rng.pick(&[1, 1, 2, 8, 100]);
        let other = self.rng.pick(&[0, plan.memory.saturating_sub(1), plan.memory + 1, BUFFER_SIZE as u64]);
        let at = self.rng.below(8);
        let (memory, count) = match self.rng.below(3) {
            0 => (plan.memory, long),
            1 => (other, self.rng.below(left + 1)),
            _ => (other, long),
        };
        self.make(Call::Packet { memory, at, count });
    }

    /// Makes a call with the key that open returned, which has no seal, or sometimes with a copy from before.
    fn call_beside_session(&mut self, plan: &Plan) {
        self.make_sometimes(30, Call::Reseal);
        let at = self.rng.pick(&[0, 1, 2, 3, 4]);
        self.make(plan.calls_on_key()[at].clone());
    }

    fn end_session(&mut self, plan: &Plan) {
        if self.rng.percent(15) {
            self.refused_packet(plan);
        }
        let end = if self.rng.percent(75) { Call::Finish } else { Call::Abandon };
        self.make(end);
        // Finish is refused if packets were left out. Then abandon ends the session.
        if self.machine.session.is_some() || self.rng.percent(10) {
            self.make(Call::Abandon);
        }
        self.make_sometimes(5, plan.packet(0, 1));
        self.make_sometimes(5, Call::Finish);
        self.make_sometimes(80, Call::Check);
    }

    /// Configures several times, with valid, wrong and boundary numbers, and makes a transfer with the resulting key.
    fn configurations(&mut self) {
        let plan = plans::plan(&mut self.rng);
        for _ in 0..self.rng.between(1, 6) {
            let changed = plans::damaged(&mut self.rng, &plan);
            self.make(changed.configure());
            self.make_sometimes(20, Plan { memory: changed.memory, ..plan.clone() }.send());
        }
        let direction = self.direction();
        self.make(plan.transfer(direction));
        self.make(Call::Check);
    }

    /// Makes transfers and opens at and around the boundaries of their refusals.
    fn boundary_transfers(&mut self) {
        let direction = self.direction();
        let plan = self.prepared(direction);
        for _ in 0..self.rng.between(2, 8) {
            let call = plans::boundary_call(&mut self.rng, &plan);
            let opens = matches!(call, Call::Open { .. });
            self.make(call);
            if opens {
                self.make_sometimes(50, plan.packet(0, 3));
                self.make(Call::Abandon);
            }
        }
        self.make_sometimes(70, Call::Check);
    }
}

#[cfg(test)]
mod tests {
    use super::*;
    use crate::model::{answer, Domain, Rule, Signature, COPY_MASK_GIVEN, EDITION_2, REMAP, SECTOR_SIZE};
    use std::collections::BTreeMap;

    /// The numbers of times that the calls returned each answer, and the checks each error type and set of bytes.
    struct Outcomes {
        answers: BTreeMap<u64, usize>,
        types: [usize; 4],
        sets: BTreeMap<u64, usize>,
    }

    fn outcomes(cases: u64) -> Outcomes {
        let (mut answers, mut types, mut sets) = (BTreeMap::new(), [0; 4], BTreeMap::new());
        for number in 0..cases {
            let mut machine = Machine::new(BUFFER_SIZE, BUFFER_SIZE);
            for call in case(1, number).calls {
                match machine.run(&call) {
                    Some(numbers) if call == Call::Check && numbers[0] == answer::DONE => {
                        types[numbers[1] as usize] += 1;
                        *sets.entry(numbers[5]).or_default() += 1;
                    }
                    Some(numbers) => *answers.entry(numbers[0]).or_default() += 1,
                    None => {}
                }
            }
        }
        Outcomes { answers, types, sets }
    }

    #[test]
    fn most_random_cases_are_interesting() {
        let Outcomes { answers, types, .. } = outcomes(1_000);
        let others = [answer::EDITION, answer::NOT_A_KEY, answer::NOT_A_SESSION];
        let wanted = (answer::DONE..=answer::NOT_CONFIGURED).chain(others);
        assert_eq!(answers.keys().copied().collect::<Vec<_>>(), wanted.collect::<Vec<_>>());
        assert!(answers[&answer::DONE] > answers.values().sum::<usize>() / 2, "{answers:?}");
        assert!(types.iter().all(|&checks| checks > 50), "{types:?}");
    }

    /// Returns the signature and the number of blocks of each accepted transfer of two blocks or more with a signed
    /// side.
    fn transfers(cases: u64) -> Vec<(Signature, u64)> {
        let mut transfers = Vec::new();
        for number in 0..cases {
            let mut machine = Machine::new(BUFFER_SIZE, BUFFER_SIZE);
            for call in case(1, number).calls {
                let signature = machine.key.configured.map(|configured| configured.signature);
                let done = machine.run(&call).is_some_and(|numbers| numbers[0] == answer::DONE);
                let (Call::Send { data_length, .. } | Call::Receive { data_length, .. }, true) = (call, done) else {
                    continue;
                };
                let signature = signature.expect("the key of an accepted transfer is configured");
                let blocks = Rule::send(&signature).block_size().map_or(0, |size| data_length / size as u64);
                transfers.extend((blocks > 1).then_some((signature, blocks)));
            }
        }
        transfers
    }

    /// Whether a domain counts in steps of more than 1.
    fn counts_faster(domain: &Domain) -> bool {
        domain.signed() && domain.edition == EDITION_2 && domain.flags & REMAP != 0 && domain.block_size > SECTOR_SIZE
    }

    /// Both editions occur on either side, alone and with the other, near the wrap, and without remap.
    #[test]
    fn random_cases_count_by_both_editions() {
        let transfers = transfers(4_000);
        let times = |holds: &dyn Fn(&Signature, u64) -> bool| {
            transfers.iter().filter(|(signature, blocks)| holds(signature, *blocks)).count()
        };
        let wraps = |domain: &Domain, blocks: u64| {
            let last = (blocks - 1) * u64::from(domain.block_size / SECTOR_SIZE);
            counts_faster(domain) && u64::from(domain.reference_tag) + last > u64::from(u32::MAX)
        };
        let mixed = |signature: &Signature| {
            let Signature { memory, wire, .. } = signature;
            memory.signed() && wire.signed() && memory.edition != wire.edition
        };
        let without_remap =
            |domain: &Domain| domain.signed() && domain.edition == EDITION_2 && domain.flags & REMAP == 0;
        let found = [
            times(&|signature, _| counts_faster(&signature.memory)),
            times(&|signature, _| counts_faster(&signature.wire)),
            times(&|signature, blocks| wraps(&signature.memory, blocks) || wraps(&signature.wire, blocks)),
            times(&|signature, _| mixed(signature) && signature.attribute_flags == 0),
            times(&|signature, _| mixed(signature) && signature.attribute_flags == COPY_MASK_GIVEN),
            times(&|signature, _| without_remap(&signature.memory) || without_remap(&signature.wire)),
        ];
        assert!(found.iter().all(|&times| times > 20), "{found:?} of {}", transfers.len());
    }

    /// The checks report each set of differing bytes: 3 of the guard, 3 of the application tag, 15 of the reference
    /// tag.
    #[test]
    fn random_cases_report_every_set_of_differing_bytes() {
        let Outcomes { sets, .. } = outcomes(4_000);
        let wanted = (0..=15).chain([0x10, 0x20, 0x30, 0x40, 0x80, 0xC0]);
        assert_eq!(sets.keys().copied().collect::<Vec<_>>(), wanted.collect::<Vec<_>>());
        assert!(sets.values().all(|&checks| checks >= 5), "{sets:?}");
    }
}
