//! Makes a failing case small: drops calls and lowers numbers as long as the case still fails.

use crate::script::Call;
use std::time::{Duration, Instant};

/// The time limit. A large case is left as small as it is by then.
const TIME: Duration = Duration::from_secs(20);

pub fn shrink(calls: &[Call], fails: impl Fn(&[Call]) -> bool) -> Vec<Call> {
    let mut shrinking = Shrinking { calls: calls.to_vec(), fails, end: Instant::now() + TIME };
    while shrinking.drop_calls() | shrinking.shrink_together() | shrinking.shrink_numbers() {}
    shrinking.calls
}

/// Drops runs of items, long runs first, as long as the rest still fails.
pub fn drop_runs<T: Clone>(items: &[T], fails: impl Fn(&[T]) -> bool) -> Vec<T> {
    let mut items = items.to_vec();
    let mut run = items.len().next_power_of_two();
    while run > 0 {
        let mut at = 0;
        while at < items.len() {
            let end = (at + run).min(items.len());
            let fewer = [&items[..at], &items[end..]].concat();
            if fails(&fewer) {
                items = fewer;
            } else {
                at += run;
            }
        }
        run /= 2;
    }
    items
}

struct Shrinking<F> {
    calls: Vec<Call>,
    fails: F,
    end: Instant,
}

impl<F: Fn(&[Call]) -> bool> Shrinking<F> {
    fn fails(&self, calls: &[Call]) -> bool {
        Instant::now() < self.end && (self.fails)(calls)
    }

    /// Keeps the smaller case if it still fails.
    fn accept(&mut self, smaller: Vec<Call>) -> bool {
        let accepted = self.fails(&smaller);
        if accepted {
            self.calls = smaller;
        }
        accepted
    }

    fn drop_calls(&mut self) -> bool {
        let before = self.calls.len();
        self.calls = drop_runs(&self.calls, |calls| self.fails(calls));
        self.calls.len() < before
    }

    /// Lowers equal numbers together, wherever they are: a memory's length, for example, is the same in all calls.
    fn shrink_together(&mut self) -> bool {
        let mut numbers: Vec<u64> = self.calls.iter().flat_map(Call::numbers).collect();
        numbers.sort_unstable();
        numbers.dedup();
        let mut shrunk = false;
        for number in numbers.into_iter().rev() {
            shrunk |= smaller_numbers(number).any(|smaller| {
                let calls: Option<Vec<Call>> = self.calls.iter().map(|call| replaced(call, number, smaller)).collect();
                calls.is_some_and(|calls| calls != self.calls && self.accept(calls))
            });
        }
        shrunk
    }

    fn shrink_numbers(&mut self) -> bool {
        let mut shrunk = false;
        for at in 0..self.calls.len() {
            for place in 0..self.calls[at].numbers().len() {
                shrunk |= self.shrink_number(at, place);
            }
        }
        shrunk
    }

    /// Lowers one number as far as the case still fails.
    fn shrink_number(&mut self, at: usize, place: usize) -> bool {
        let mut shrunk = false;
        while let Some(&number) = self.calls[at].numbers().get(place) {
            let accepted = smaller_numbers(number).any(|smaller| {
                let changed = with_number(&self.calls[at], place, smaller);
                changed.is_some_and(|call| self.accept_call(at, call))
            });
            if !accepted {
                break;
            }
            shrunk = true;
        }
        shrunk
    }

    fn accept_call(&mut self, at: usize, call: Call) -> bool {
        let mut smaller = self.calls.clone();
        smaller[at] = call;
        self.accept(smaller)
    }
}

/// Returns smaller numbers to try: 0 first, then ever smaller steps down. One step is 512, as block sizes of edition 2
/// are multiples of it.
fn smaller_numbers(number: u64) -> impl Iterator<Item = u64> {
    let steps_down = [512, 8, 1].map(|step| number.saturating_sub(step));
    [0, 1, number / 2].into_iter().chain(steps_down).filter(move |&smaller| smaller < number)
}

fn replaced(call: &Call, number: u64, by: u64) -> Option<Call> {
    let numbers: Vec<u64> = call.numbers().iter().map(|&n| if n == number { by } else { n }).collect();
    Call::from_numbers(call.letter(), &numbers)
}

fn with_number(call: &Call, place: usize, number: u64) -> Option<Call> {
    let mut numbers = call.numbers();
    numbers[place] = number;
    Call::from_numbers(call.letter(), &numbers)
}

#[cfg(test)]
mod tests {
    use super::*;
    use crate::cases::random;

    /// A made-up fault: a send of 5 bytes or more with a check somewhere after it.
    fn fails(calls: &[Call]) -> bool {
        let sends = |call: &Call| matches!(call, Call::Send { data_length: 5.., .. });
        let sent = calls.iter().position(sends);
        sent.is_some_and(|at| calls[at..].contains(&Call::Check))
    }

    #[test]
    fn only_the_cause_is_left() {
        let cases = (0..200).map(|number| random::case(1, number).calls);
        let failing: Vec<Vec<Call>> = cases.filter(|calls| fails(calls)).collect();
        assert!(failing.len() > 20);
        for calls in failing {
            let least = [Call::Send { memory: 0, wire: 0, offset: 0, data_length: 5 }, Call::Check];
            assert_eq!(shrink(&calls, fails), least);
        }
    }
}
