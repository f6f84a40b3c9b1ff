//! The case file that the program `replay` reads, and the text that it must print.

use crate::cases::{random, settled, Case};
use crate::model::answer;
use crate::script::{digest, Machine, BUFFER_SIZE};
use std::collections::BTreeMap;
use std::fmt::Write;

const RANDOM_CASES: usize = 200;
/// The most bytes that the case file may have. This limit is our own: the file is kept in the repository, and should
/// not grow unseen. It was 200,000 until request 11, with which a domain has one number more, and the cases of
/// settled/editions.rs came.
const CASE_FILE_LIMIT: usize = 256_000;
/// The longest text of a random case. Longer cases are left to the live runs.
const RANDOM_CASE_LIMIT: usize = 700;

pub struct Replay {
    pub case_file: String,
    pub answer_file: String,
    pub cases: usize,
    /// The number of times that each answer occurs.
    pub answers: BTreeMap<u64, usize>,
}

/// Makes a case file of all settled cases and of random cases of this seed.
pub fn replay(seed: u64) -> Replay {
    let random = (0..).map(|number| random::case(seed, number));
    let short = random.filter(|case| case.text().len() <= RANDOM_CASE_LIMIT).take(RANDOM_CASES);
    let cases: Vec<Case> = settled::cases().into_iter().chain(short).collect();
    let case_file = cases.iter().map(Case::text).collect();
    let mut replay = Replay { case_file, answer_file: String::new(), cases: cases.len(), answers: BTreeMap::new() };
    let mut machine = Machine::new(BUFFER_SIZE, BUFFER_SIZE);
    for case in &cases {
        replay.run(&mut machine, case);
    }
    replay
}

impl Replay {
    fn run(&mut self, machine: &mut Machine, case: &Case) {
        for call in &case.calls {
            assert!(machine.fits(call), "{}: {} needs bytes outside the buffers", case.name, call.text());
            assert!(machine.keeps_premise(call), "{}: memory was written before {}", case.name, call.text());
            if let Some(numbers) = machine.run(call) {
                *self.answers.entry(numbers[0]).or_default() += 1;
                self.print(call.letter(), &numbers, machine);
            }
        }
    }

    fn print(&mut self, letter: char, numbers: &[u64], machine: &Machine) {
        self.answer_file.push(letter);
        for number in numbers.iter().copied().chain([digest(&machine.memory), digest(&machine.wire)]) {
            write!(self.answer_file, " {number}").expect("a write to a string succeeds");
        }
        self.answer_file.push('\n');
    }

    /// Returns what is wrong with the files.
    pub fn faults(&self) -> Vec<String> {
        let others = [answer::EDITION, answer::NOT_A_KEY, answer::NOT_A_SESSION];
        let wanted = (answer::DONE..=answer::NOT_CONFIGURED).chain(others);
        let missing = wanted.filter(|number| !self.answers.contains_key(number));
        let mut faults: Vec<String> = missing.map(|number| format!("answer {number} doesn't occur")).collect();
        if self.case_file.len() > CASE_FILE_LIMIT {
            faults.push(format!("the case file has {} bytes", self.case_file.len()));
        }
        faults
    }
}

#[cfg(test)]
mod tests {
    use super::*;

    #[test]
    fn a_replay_has_every_answer_and_fits() {
        for seed in [1, 2] {
            assert_eq!(replay(seed).faults(), Vec::<String>::new());
        }
    }

    #[test]
    fn a_printed_line_ends_in_both_digests() {
        let replay = replay(1);
        let first = replay.answer_file.lines().next().map(|line| line.split(' ').count());
        assert_eq!(first, Some(4), "configure prints its letter, its answer and two digests");
        let checks: Vec<&str> = replay.answer_file.lines().filter(|line| line.starts_with('K')).collect();
        assert!(checks.len() > 1_000, "{}", checks.len());
        let mut numbers = checks.iter().map(|line| line.split(' ').count() - 1);
        assert!(numbers.all(|count| count == 8), "check prints its answer, five numbers and two digests");
    }
}
