//! Compares the library with the model: settled and random cases, call by call, and cases with structs that no call ever
//! made. All calls are made in child processes, so that the program survives a crash of the library and can make the case
//! small. `bursts` tests which changes of a block the library is sure to find.

pub mod bursts;
mod child;
mod compared;
mod guarded;
mod hostile;
mod library;
mod state;
mod trial;

use crate::cases::{random, settled, Case};
use guarded::Lending;
use hostile::HostileCase;
use std::io::{stderr, IsTerminal, PipeWriter, Write};
use std::os::unix::process::ExitStatusExt;
use std::process::ExitStatus;
use trial::{Fault, Trial};

/// One in this many random cases is a case with hostile structs.
const HOSTILE_EVERY: u64 = 8;

/// A case that doesn't return is run many times to make it small, each time with its limit divided by this.
const SHORT: u32 = 50;

/// The fault of a call that doesn't return.
const HANGS: &str = "a call doesn't return";

/// Which cases are run, and how.
pub struct Run {
    pub count: u64,
    pub seed: u64,
    /// The number of the first random case; before number 0 come the settled ones.
    pub from: u64,
    /// Each call is lent heap blocks of exactly the size, for valgrind.
    pub exact: bool,
}

/// Cases in a row.
struct Row<'a> {
    count: u64,
    trial: &'a dyn Fn(u64) -> Trial,
    /// The arguments of `reference live` that run such a case again.
    again: &'a dyn Fn(u64) -> String,
}

pub fn live(run: &Run) -> Result<(), String> {
    let &Run { count, seed, from, .. } = run;
    let settled = if from == 0 { settled_trials() } else { Vec::new() };
    let settled_row =
        Row { count: settled.len() as u64, trial: &|at| settled[at as usize].clone(), again: &|_| format!("0 {seed}") };
    let random_row = Row {
        count,
        trial: &|at| random_trial(seed, from + at),
        again: &|at| format!("1 {seed} --from {}", from + at),
    };
    let mut progress = Progress::new(count);
    let calls = run.run_row(&settled_row, || {})? + run.run_row(&random_row, || progress.step())?;
    println!("live: {} settled and {count} random cases of seed {seed}, {calls} calls: no difference", settled.len());
    Ok(())
}

fn settled_trials() -> Vec<Trial> {
    let hostile = |cases: Vec<HostileCase>| cases.into_iter().map(Trial::Hostile).collect::<Vec<_>>();
    let compared = |cases: Vec<Case>| cases.into_iter().map(Trial::Compared).collect::<Vec<_>>();
    let hand_made = [HostileCase::hand_made_sets(), HostileCase::hand_made_editions()].concat();
    let (wrong_seals, hand_made) = (hostile(HostileCase::wrong_seals()), hostile(hand_made));
    [wrong_seals, compared(settled::cases()), hand_made, compared(settled::large_cases())].concat()
}

fn random_trial(seed: u64, number: u64) -> Trial {
    if number % HOSTILE_EVERY == HOSTILE_EVERY - 1 {
        Trial::Hostile(HostileCase::random(seed, number))
    } else {
        Trial::Compared(random::case(seed, number))
    }
}

impl Run {
    fn lending(&self) -> Lending {
        if self.exact {
            Lending::Exact
        } else {
            Lending::InPlace
        }
    }

    /// Returns the number of calls made, or a report of the case that went wrong.
    fn run_row(&self, row: &Row, step: impl FnMut()) -> Result<u64, String> {
        let Heard { cases, calls, fault } = self.run_in_child(row.count, row.trial, 1, step);
        match fault {
            None => Ok(calls),
            Some(fault) if cases == row.count => Err(format!("after the last case: {}", fault.words)),
            Some(fault) => {
                let report = self.report(&(row.trial)(cases), &fault);
                let flag = if self.exact { " --exact" } else { "" };
                Err(format!("{report}\nagain with: reference live {}{flag}", (row.again)(cases)))
            }
        }
    }

    /// Runs `count` cases in one child, up to the first fault. The time limit of each is divided by `part`.
    fn run_in_child(&self, count: u64, trial: &dyn Fn(u64) -> Trial, part: u32, mut step: impl FnMut()) -> Heard {
        let (mut cases, mut calls, mut said) = (0, 0, Vec::new());
        let work = |parent: &mut PipeWriter| {
            for at in 0..count {
                let trial = trial(at);
                child::limit(trial.limit() / part);
                match trial.run(self.lending()) {
                    Ok(calls) => child::say(&calls.to_string(), parent),
                    Err(fault) => return child::say(&format!("{}\n{}", fault.words, fault.more), parent),
                }
            }
        };
        let end = child::run(work, |line| match line.parse::<u64>() {
            Ok(made) => {
                (cases, calls) = (cases + 1, calls + made);
                step();
            }
            Err(_) => said.push(line),
        });
        let fault = match said.split_first() {
            Some((words, more)) => Some(Fault { words: words.clone(), more: more.join("\n") }),
            None if end.success() && cases == count => None,
            None => Some(fault_of_end(end)),
        };
        Heard { cases, calls, fault }
    }

    /// Returns a report with the fault and the case, made small.
    fn report(&self, trial: &Trial, fault: &Fault) -> String {
        let again = |trial: &Trial, part: u32| {
            let found = self.run_in_child(1, &|_| trial.clone(), part, || {}).fault;
            found.filter(|found| found.words == fault.words)
        };
        let part = if fault.words == HANGS { SHORT } else { 1 };
        let small = trial.shrunk(self.lending(), |smaller| again(smaller, part).is_some());
        let (how, trial, more) = match again(&small, 1) {
            Some(found) => ("Made small", small, found.more),
            None => ("Not seen again, so not made small", trial.shrunk(self.lending(), |_| false), fault.more.clone()),
        };
        let lines: String = trial.text().lines().map(|line| format!("  {line}\n")).collect();
        format!("{}: {}. {how}:\n{lines}{more}", trial.name(), fault.words)
    }
}

/// What a child said: the number of cases without a fault, the number of their calls, and the fault of the next case.
struct Heard {
    cases: u64,
    calls: u64,
    fault: Option<Fault>,
}

/// Returns the fault of a child that ended without naming one.
fn fault_of_end(end: ExitStatus) -> Fault {
    let hangs = end.signal() == Some(child::ALARM);
    let words = if hangs { HANGS.to_string() } else { format!("the process ends with {end}") };
    Fault { words, more: "expected: each call returns".to_string() }
}

/// Prints the progress: on a terminal in one line that is overwritten, else in a line for each tenth.
struct Progress {
    total: u64,
    done: u64,
    on_terminal: bool,
}

impl Progress {
    fn new(total: u64) -> Progress {
        Progress { total, done: 0, on_terminal: stderr().is_terminal() }
    }

    fn step(&mut self) {
        self.done += 1;
        let steps = if self.on_terminal { 100 } else { 10 };
        let reached = |done: u64| u128::from(done) * steps / u128::from(self.total);
        if reached(self.done) == reached(self.done - 1) {
            return;
        }
        let percent = u128::from(self.done) * 100 / u128::from(self.total);
        if self.on_terminal {
            let end = if self.done == self.total { "\n" } else { "" };
            eprint!("\rlive: {percent} %{end}");
            // If the progress can't be printed, the run goes on.
            let _ = stderr().flush();
        } else {
            eprintln!("live: {percent} %");
        }
    }
}
