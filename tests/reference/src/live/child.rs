//! Runs work in a child process, so that a library that crashes or doesn't return ends the child alone.
#![allow(unsafe_code)]

use std::ffi::c_long;
use std::io::{pipe, BufRead, BufReader, PipeWriter, Write};
use std::os::unix::process::ExitStatusExt;
use std::panic::{catch_unwind, AssertUnwindSafe};
use std::process::{exit, ExitStatus};
use std::ptr::null_mut;
use std::time::Duration;

/// The signal with which a time limit ends a child, as Linux numbers it.
pub const ALARM: i32 = 14;

extern "C" {
    fn fork() -> i32;
    fn waitpid(child: i32, status: *mut i32, options: i32) -> i32;
    fn setitimer(which: i32, timer: *const [c_long; 4], old_timer: *mut [c_long; 4]) -> i32;
}

/// Runs the work in a child, passes each line that the child says to `hear`, and returns the child's exit status.
pub fn run(work: impl FnOnce(&mut PipeWriter), mut hear: impl FnMut(String)) -> ExitStatus {
    let (reader, mut writer) = pipe().expect("a pipe can be made");
    // SAFETY: this program has one thread, so the child is a whole copy of it.
    let child = unsafe { fork() };
    assert!(child >= 0, "a process can be made");
    if child == 0 {
        drop(reader);
        let returned = catch_unwind(AssertUnwindSafe(|| work(&mut writer)));
        exit(if returned.is_ok() { 0 } else { 101 });
    }
    drop(writer);
    for line in BufReader::new(reader).lines() {
        hear(line.expect("a child says lines of text"));
    }
    let mut status = 0;
    // SAFETY: the child is our own, and its status is written to a local number.
    let waited = unsafe { waitpid(child, &mut status, 0) };
    assert_eq!(waited, child, "a child can be waited for");
    ExitStatus::from_raw(status)
}

/// Says lines in one write, so that the parent hears all of them or none.
pub fn say(lines: &str, to: &mut PipeWriter) {
    to.write_all(format!("{lines}\n").as_bytes()).expect("the parent hears");
}

/// Ends this process after this time, unless another limit is set before.
pub fn limit(time: Duration) {
    let (seconds, microseconds) = (time.as_secs() as c_long, c_long::from(time.subsec_micros()));
    // SAFETY: timer 0 counts real time. The array has its interval and its time, each in seconds and microseconds, and
    // nothing is written.
    unsafe { setitimer(0, &[0, 0, seconds, microseconds], null_mut()) };
}

#[cfg(test)]
mod tests {
    use super::*;
    use std::process::abort;

    #[test]
    fn a_child_is_heard_and_its_end_is_known() {
        let mut heard = Vec::new();
        let end =
            run(|parent| ["one", "two\nthree"].iter().for_each(|lines| say(lines, parent)), |line| heard.push(line));
        assert_eq!((end.code(), heard), (Some(0), ["one", "two", "three"].map(String::from).to_vec()));
        assert_eq!(run(|_| exit(9), |_| {}).code(), Some(9));
        assert_eq!(run(|_| abort(), |_| {}).signal(), Some(6));
    }

    #[test]
    fn a_limit_ends_a_child() {
        let work = |_: &mut PipeWriter| {
            limit(Duration::from_millis(50));
            std::thread::sleep(Duration::from_secs(60));
        };
        assert_eq!(run(work, |_| {}).signal(), Some(ALARM));
    }
}
