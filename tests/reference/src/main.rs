//! The commands of the independent test program.

#[cfg(feature = "live")]
use reference::live::{self, bursts};
use reference::{paper, replay};
use std::process::ExitCode;

const USAGE: &str = "usage: reference paper
       reference replay SEED CASEFILE ANSWERFILE
       reference live COUNT SEED [--from NUMBER] [--exact]
       reference bursts COUNT SEED";

fn main() -> ExitCode {
    let arguments: Vec<String> = std::env::args().skip(1).collect();
    let arguments: Vec<&str> = arguments.iter().map(String::as_str).collect();
    let outcome = match arguments[..] {
        ["paper"] => run_paper(),
        ["replay", seed, case_file, answer_file] => run_replay(seed, case_file, answer_file),
        ["live", count, seed, ref options @ ..] => run_live(count, seed, options),
        ["bursts", count, seed] => run_bursts(count, seed),
        _ => Err(USAGE.to_string()),
    };
    match outcome {
        Ok(()) => ExitCode::SUCCESS,
        Err(message) => {
            eprintln!("{message}");
            ExitCode::FAILURE
        }
    }
}

fn number(text: &str) -> Result<u64, String> {
    text.parse().map_err(|_| format!("{text} is not a number\n{USAGE}"))
}

fn run_paper() -> Result<(), String> {
    let findings = paper::findings();
    println!("paper: {} numbers compared with the model, {} differ", findings.compared, findings.differences.len());
    if findings.differences.is_empty() {
        Ok(())
    } else {
        Err(findings.differences.join("\n"))
    }
}

fn run_replay(seed: &str, case_file: &str, answer_file: &str) -> Result<(), String> {
    let replay = replay::replay(number(seed)?);
    for (path, text) in [(case_file, &replay.case_file), (answer_file, &replay.answer_file)] {
        std::fs::write(path, text).map_err(|error| format!("{path}: {error}"))?;
    }
    println!(
        "replay: {} cases, {} bytes, {} answers:",
        replay.cases,
        replay.case_file.len(),
        replay.answers.values().sum::<usize>()
    );
    for (answer, times) in &replay.answers {
        println!("  answer {answer}: {times} times");
    }
    let faults = replay.faults();
    if faults.is_empty() {
        Ok(())
    } else {
        Err(faults.join("\n"))
    }
}

#[cfg(feature = "live")]
fn run_live(count: &str, seed: &str, options: &[&str]) -> Result<(), String> {
    let run = live::Run { count: number(count)?, seed: number(seed)?, from: 0, exact: false };
    live::live(&with_options(run, options)?)
}

#[cfg(feature = "live")]
fn with_options(run: live::Run, options: &[&str]) -> Result<live::Run, String> {
    match options {
        [] => Ok(run),
        ["--from", from, rest @ ..] => with_options(live::Run { from: number(from)?, ..run }, rest),
        ["--exact", rest @ ..] => with_options(live::Run { exact: true, ..run }, rest),
        _ => Err(USAGE.to_string()),
    }
}

#[cfg(feature = "live")]
fn run_bursts(count: &str, seed: &str) -> Result<(), String> {
    bursts::bursts(number(count)?, number(seed)?)
}

#[cfg(not(feature = "live"))]
const WITHOUT_LIBRARY: &str = "this program was built without the library: build it with --features live";

#[cfg(not(feature = "live"))]
fn run_live(_: &str, _: &str, _: &[&str]) -> Result<(), String> {
    Err(WITHOUT_LIBRARY.to_string())
}

#[cfg(not(feature = "live"))]
fn run_bursts(_: &str, _: &str) -> Result<(), String> {
    Err(WITHOUT_LIBRARY.to_string())
}
