//! Runs the proved programs and the independent marker on the same seeded inputs and compares what they print, byte for byte.
//!
//! Usage: `compare COUNT SEED SECONDS MARKER PROGRAMS KEEP`, where MARKER is the built `marker.rs`, PROGRAMS the folder of the proved
//! programs and KEEP a folder for work files and for the first inputs that differ. `compare show SEED INDEX FOLDER` writes one input.

mod generate;

use generate::Input;
use std::collections::BTreeMap;
use std::fs::{self, File};
use std::io;
use std::path::{Path, PathBuf};
use std::process::{Command, ExitCode, Stdio};
use std::sync::atomic::{AtomicU64, Ordering};
use std::sync::Mutex;
use std::thread;
use std::time::{Duration, Instant};

const MOST_KEPT: usize = 5;

struct Settings {
    count: u64,
    seed: u64,
    deadline: Instant,
    marker: PathBuf,
    programs: PathBuf,
    keep: PathBuf,
}

/// What was compared so far.
#[derive(Default)]
struct Account {
    inputs: u64,
    outputs: u64,
    calls: u64,
    /// Those among the calls that belong to the few sittings past 65,535 calls.
    calls_of_longest: u64,
    /// Inputs by their kind, refusals of inputs by layer and number, calls with the answer.
    kinds: BTreeMap<&'static str, u64>,
    refusals: BTreeMap<String, u64>,
    answers: BTreeMap<String, u64>,
    differences: Vec<String>,
}

/// What one program did with one input.
#[derive(PartialEq, Eq)]
struct Outcome {
    printed: Vec<u8>,
    succeeded: bool,
}

fn input_seed(seed: u64, index: u64) -> u64 {
    seed.wrapping_mul(0x0001_0000_0001).wrapping_add(index)
}

fn run(program: &Path, arguments: &[&str], input: &Path) -> io::Result<Outcome> {
    let output = Command::new(program).args(arguments).stdin(File::open(input)?).stderr(Stdio::null()).output()?;
    Ok(Outcome { printed: output.stdout, succeeded: output.status.success() })
}

/// The class under which a call and its answer are counted.
fn answer_class(call: &[u8], answer: &str) -> String {
    let words: Vec<&str> = answer.split(' ').collect();
    let said = match words.as_slice() {
        ["malformed", _] => return "malformed".to_string(),
        ["refused", number, _] => number,
        [_, _, "dead", "end"] => "dead end",
        [number] => number,
        _ => "",
    };
    let call = String::from_utf8_lossy(call);
    let command = call.split([' ', '\r']).find(|word| !word.is_empty()).unwrap_or("");
    let said = if command == "tally" { "" } else { said };
    format!("{command} {said}").trim_end().to_string()
}

/// Runs both sides on one input; work files carry the worker's number.
fn compare_one(settings: &Settings, worker: usize, index: u64, account: &Mutex<Account>) -> io::Result<()> {
    let input = generate::input(input_seed(settings.seed, index));
    let form = if input.sheet { "sheet" } else { "paper" };
    let bytes_path = settings.keep.join(format!("work{worker}.{form}"));
    let calls_path = settings.keep.join(format!("work{worker}.calls"));
    fs::write(&bytes_path, &input.bytes)?;
    fs::write(&calls_path, &input.calls)?;
    let paper = bytes_path.to_string_lossy();

    let mut runs: Vec<(String, Vec<&str>, Vec<&str>, &Path)> = vec![
        (format!("{form}_levels"), vec![], vec!["levels", form], &bytes_path),
        (format!("print_{form}_key"), vec![], vec!["key", form], &bytes_path),
    ];
    if !input.sheet {
        runs.push(("sit".to_string(), vec![&paper], vec!["sit", &paper], &calls_path));
    }
    for (program, proved_arguments, marker_arguments, stdin) in runs {
        let proved = run(&settings.programs.join(&program), &proved_arguments, stdin)?;
        let marker = run(&settings.marker, &marker_arguments, stdin)?;
        let mut account = account.lock().unwrap_or_else(|poisoned| poisoned.into_inner());
        account.outputs += 1;
        if proved == marker && proved.succeeded {
            count(&mut account, &program, &input, &proved.printed);
        } else {
            let difference = format!("input {index} ({}), {program}: {}", input.kind, first_difference(&proved, &marker));
            account.differences.push(difference);
            if account.differences.len() <= MOST_KEPT {
                keep(settings, index, &program, &input, &proved, &marker)?;
            }
        }
    }
    let mut account = account.lock().unwrap_or_else(|poisoned| poisoned.into_inner());
    account.inputs += 1;
    *account.kinds.entry(input.kind).or_default() += 1;
    Ok(())
}

fn count(account: &mut Account, program: &str, input: &Input, printed: &[u8]) {
    let text = String::from_utf8_lossy(printed);
    if let Some(refusal) = text.strip_prefix("E ") {
        if program.ends_with("_key") {
            let class = refusal.split(' ').take(2).collect::<Vec<&str>>().join(" ");
            *account.refusals.entry(class).or_default() += 1;
        }
    } else if program == "sit" {
        for (call, answer) in input.calls.split(|&byte| byte == b'\n').zip(text.lines()) {
            account.calls += 1;
            account.calls_of_longest += u64::from(input.kind == "longest");
            *account.answers.entry(answer_class(call, answer)).or_default() += 1;
        }
    }
}

fn first_difference(proved: &Outcome, marker: &Outcome) -> String {
    if !proved.succeeded || !marker.succeeded {
        return format!("ended well: proved {}, marker {}", proved.succeeded, marker.succeeded);
    }
    let lines = |outcome: &Outcome| -> Vec<String> {
        outcome.printed.split_inclusive(|&byte| byte == b'\n').map(|line| String::from_utf8_lossy(line).into_owned()).collect()
    };
    let (proved, marker) = (lines(proved), lines(marker));
    let place = (0..).find(|&place| proved.get(place) != marker.get(place)).unwrap_or(0);
    format!("line {}: proved {:?}, marker {:?}", place + 1, proved.get(place), marker.get(place))
}

fn keep(settings: &Settings, index: u64, program: &str, input: &Input, proved: &Outcome, marker: &Outcome) -> io::Result<()> {
    write_input(&settings.keep, index, input)?;
    fs::write(settings.keep.join(format!("{index}.{program}.proved")), &proved.printed)?;
    fs::write(settings.keep.join(format!("{index}.{program}.marker")), &marker.printed)
}

fn write_input(folder: &Path, index: u64, input: &Input) -> io::Result<()> {
    let form = if input.sheet { "sheet" } else { "paper" };
    fs::write(folder.join(format!("{index}.{form}")), &input.bytes)?;
    fs::write(folder.join(format!("{index}.calls")), &input.calls)
}

fn listed<K: std::fmt::Display>(counts: &BTreeMap<K, u64>) -> String {
    counts.iter().map(|(class, count)| format!("{class}: {count}")).collect::<Vec<String>>().join("; ")
}

fn compare(settings: &Settings) -> io::Result<bool> {
    let began = Instant::now();
    let account = Mutex::new(Account::default());
    let next = AtomicU64::new(0);
    let workers = thread::available_parallelism().map_or(1, |count| count.get());
    let work = |worker: usize| -> io::Result<()> {
        while Instant::now() < settings.deadline {
            let index = next.fetch_add(1, Ordering::Relaxed);
            if index >= settings.count {
                break;
            }
            compare_one(settings, worker, index, &account)?;
        }
        Ok(())
    };
    let work = &work;
    let worked: io::Result<()> = thread::scope(|scope| {
        let handles: Vec<_> = (0..workers).map(|worker| scope.spawn(move || work(worker))).collect();
        handles.into_iter().try_for_each(|handle| handle.join().unwrap_or_else(|_| Err(io::Error::other("a worker failed"))))
    });
    worked?;
    let account = account.into_inner().unwrap_or_else(|poisoned| poisoned.into_inner());
    println!(
        "seed {}: {} of {} inputs, {} outputs and {} calls ({} of them in the longest sittings) compared in {} s; {} differences",
        settings.seed,
        account.inputs,
        settings.count,
        account.outputs,
        account.calls,
        account.calls_of_longest,
        began.elapsed().as_secs(),
        account.differences.len()
    );
    println!("inputs by kind: {}", listed(&account.kinds));
    println!("refused by layer and number: {}", listed(&account.refusals));
    println!("calls by answer: {}", listed(&account.answers));
    for difference in account.differences.iter().take(20) {
        println!("difference: {difference}");
    }
    if !account.differences.is_empty() {
        println!("the first differing inputs are kept in {}", settings.keep.display());
    }
    if account.inputs < settings.count {
        println!("the time ran out before all inputs were compared");
    }
    Ok(account.differences.is_empty() && account.inputs > 0)
}

fn started(arguments: &[String]) -> Result<bool, Box<dyn std::error::Error>> {
    match arguments {
        [show, seed, index, folder] if show == "show" => {
            let index = index.parse()?;
            write_input(Path::new(folder), index, &generate::input(input_seed(seed.parse()?, index)))?;
            Ok(true)
        }
        [count, seed, seconds, marker, programs, keep] => Ok(compare(&Settings {
            count: count.parse()?,
            seed: seed.parse()?,
            deadline: Instant::now() + Duration::from_secs(seconds.parse()?),
            marker: marker.into(),
            programs: programs.into(),
            keep: keep.into(),
        })?),
        _ => Err("usage: compare COUNT SEED SECONDS MARKER PROGRAMS KEEP, compare show SEED INDEX FOLDER".into()),
    }
}

fn main() -> ExitCode {
    let arguments: Vec<String> = std::env::args().skip(1).collect();
    match started(&arguments) {
        Ok(true) => ExitCode::SUCCESS,
        Ok(false) => ExitCode::from(1),
        Err(error) => {
            eprintln!("compare: {error}");
            ExitCode::from(2)
        }
    }
}
