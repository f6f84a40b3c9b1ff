//! A case of either kind, compared or hostile: how it is run, made small and printed.

use super::compared;
use super::guarded::Lending;
use super::hostile::HostileCase;
use crate::cases::{Buffers, Case};
use crate::script::Call;
use crate::shrink::shrink;
use std::time::Duration;

/// A fault: one line that says what kind it is, and lines with more about it.
pub struct Fault {
    pub words: String,
    pub more: String,
}

#[derive(Clone)]
pub enum Trial {
    Compared(Case),
    Hostile(HostileCase),
}

impl Trial {
    /// Returns the number of calls made, or what went wrong.
    pub fn run(&self, lending: Lending) -> Result<usize, Fault> {
        match self {
            Trial::Compared(case) => compared::run(case, lending),
            Trial::Hostile(case) => case.run(lending),
        }
    }

    /// The time limit: far more than a case takes, also under valgrind and on a busy machine.
    pub fn limit(&self) -> Duration {
        match self {
            Trial::Compared(case) if case.buffers != Buffers::REPLAY => Duration::from_secs(600),
            _ => Duration::from_secs(10),
        }
    }

    /// Returns the case made as small as possible while it still shows its fault.
    pub fn shrunk(&self, lending: Lending, shows: impl Fn(&Trial) -> bool) -> Trial {
        match self {
            Trial::Compared(case) => {
                let of = |calls: &[Call]| Trial::Compared(Case { calls: calls.to_vec(), ..case.clone() });
                of(&shrink(&case.calls, |calls| shows(&of(calls))))
            }
            Trial::Hostile(case) => {
                Trial::Hostile(case.shrunk(lending, |smaller| shows(&Trial::Hostile(smaller.clone()))))
            }
        }
    }

    pub fn name(&self) -> &str {
        match self {
            Trial::Compared(case) => &case.name,
            Trial::Hostile(case) => &case.name,
        }
    }

    pub fn text(&self) -> String {
        match self {
            Trial::Compared(case) => case.text(),
            Trial::Hostile(case) => case.text(),
        }
    }
}
