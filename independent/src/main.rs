//! compare [SUBJECT..] [--seed N] [--count N] [--calls N] [--file PATH] [--fault NAME] [--damage]
//! Compares the proved core with the independent program. The last line is `N passed, M failed`.
//! compare list --file PATH [--seed N] [--calls N]
//! Writes calls, and what the independent relay makes of them, for hosts in other languages.

use haskumye_independent::compare::{answered, listed, Options, Subject, Tally, SUBJECTS};
use haskumye_independent::faults::{named, Fault};
use std::path::PathBuf;
use std::process::ExitCode;

/// The subjects that take their calls from a file.
const OF_CALLS: [&str; 2] = ["relay", "faults"];

/// What is asked for.
enum Task {
    Compare(Vec<Subject>),
    List(PathBuf),
}

fn main() -> ExitCode {
    let done = read_arguments(std::env::args().skip(1)).and_then(|(options, task)| match task {
        Task::Compare(subjects) => Ok(compare(&options, &subjects)),
        Task::List(path) => answered::write(&options, &path).map(|calls| {
            println!("{calls} calls listed, seed {}", options.seed);
            ExitCode::SUCCESS
        }),
    });
    done.unwrap_or_else(|problem| {
        eprintln!("compare: {problem}");
        ExitCode::from(2)
    })
}

fn compare(options: &Options, subjects: &[Subject]) -> ExitCode {
    let mut tally = Tally::default();
    for (name, run) in subjects {
        let before = tally.passed + tally.failed;
        run(options, &mut tally);
        println!("{name}: {} comparisons, seed {}", tally.passed + tally.failed - before, options.seed);
    }
    println!("{} passed, {} failed", tally.passed, tally.failed);
    if tally.failed == 0 && tally.passed > 0 {
        ExitCode::SUCCESS
    } else {
        ExitCode::FAILURE
    }
}

fn read_arguments(mut words: impl Iterator<Item = String>) -> Result<(Options, Task), String> {
    let mut options = Options::default();
    let (mut names, mut file) = (Vec::new(), None);
    while let Some(word) = words.next() {
        match word.as_str() {
            "--seed" => options.seed = number(&word, words.next())?,
            "--count" => options.count = number(&word, words.next())? as usize,
            "--calls" => options.calls = number(&word, words.next())? as usize,
            "--file" => file = Some(words.next().map(PathBuf::from).ok_or("--file wants a path")?),
            "--fault" => options.fault = Some(fault(words.next())?),
            "--damage" => options.damage = true,
            _ => names.push(word),
        }
    }
    if names == ["list"] {
        return Ok((options, Task::List(file.ok_or("list wants --file")?)));
    }
    if let Some(path) = file {
        if names.is_empty() || names.iter().any(|name| !OF_CALLS.contains(&name.as_str())) {
            return Err(format!("--file goes with {} alone", OF_CALLS.join(" and ")));
        }
        options.list = Some(listed::read(&path)?);
    }
    Ok((options, Task::Compare(subjects(&names)?)))
}

/// The subjects of these names, or all.
fn subjects(names: &[String]) -> Result<Vec<Subject>, String> {
    if names.is_empty() {
        return Ok(SUBJECTS.to_vec());
    }
    let subject = |name: &String| SUBJECTS.iter().find(|subject| subject.0 == name).copied();
    names.iter().map(|name| subject(name).ok_or(format!("no subject or option is called {name}"))).collect()
}

fn number(option: &str, word: Option<String>) -> Result<u64, String> {
    word.and_then(|w| w.parse().ok()).ok_or(format!("{option} wants a number"))
}

fn fault(word: Option<String>) -> Result<Fault, String> {
    word.and_then(|name| named(&name)).ok_or("--fault wants a fault's name".to_string())
}
