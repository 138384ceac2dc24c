//! The replay program beside a process that replays by the model, and the records program and the
//! totals program beside it.

use std::fs::{self, File};
use std::io::{self, Read, Write};
use std::ops::RangeInclusive;
use std::path::{Path, PathBuf};
use std::process::{Command, ExitCode, Stdio};
use std::time::Instant;

use super::areas::{self, REGISTRY};
use super::mix;
use super::rounds::{figures, Figures};
use model::*;

/// After so many segments there is a clock record.
const TICK: usize = 20;

/// Octets that the replay program reads at a time: the model's process does the same.
const BLOCK: usize = 65_536;

/// `bench --replay-model`.
pub fn child() -> ExitCode {
    match replay(io::stdin().lock(), io::stdout().lock()) {
        Ok(()) => ExitCode::SUCCESS,
        Err(error) => {
            eprintln!("bench: {error}");
            ExitCode::FAILURE
        }
    }
}

/// Block by block: what is left of one, the front of a record, moves to the front of the next.
fn replay(mut input: impl Read, mut output: impl Write) -> io::Result<()> {
    let mut replay = Replay::new(Unbroken::PLAIN, Output::Lines);
    let (mut block, mut text) = (vec![0; BLOCK], String::with_capacity(BLOCK));
    let mut have = 0;
    loop {
        let read = input.read(&mut block[have..])?;
        have += read;
        let used = replay.block(&block[..have], &mut text);
        if read == 0 {
            replay.end(have - used, &mut text);
        }
        output.write_all(text.as_bytes())?;
        if read == 0 || text.ends_with("stop\n") {
            return Ok(());
        }
        text.clear();
        block.copy_within(used..have, 0);
        have -= used;
    }
}

/// The files of a measurement, gone with it.
struct Folder(PathBuf);

impl Folder {
    fn new() -> io::Result<Self> {
        let path = std::env::temp_dir().join(format!("egrynnol-bench-{}", std::process::id()));
        fs::create_dir(&path)?;
        Ok(Folder(path))
    }
}

impl Drop for Folder {
    fn drop(&mut self) {
        // Nothing can be done where this fails.
        fs::remove_dir_all(&self.0).ok();
    }
}

/// The replay program beside the model: from the start of a process to its end, with a file as its
/// input and another as its output.
pub fn measure(program: &Path, segments: usize, quick: bool) -> Result<Figures, String> {
    there(program)?;
    let own = std::env::current_exe().map_err(|error| error.to_string())?;
    let model = || {
        let mut command = Command::new(&own);
        command.arg("--replay-model");
        command
    };
    let same = |left: &[u8], right: &[u8]| left == right;
    timed([&|| Command::new(program), &model], segments, quick, same)
        .map_err(|error| error.to_string())
}

/// The records program beside the replay program, on the same trace.
pub fn measure_records(
    [records, replay]: [&Path; 2],
    segments: usize,
    quick: bool,
) -> Result<Figures, String> {
    there(records)?;
    there(replay)?;
    timed([&|| Command::new(records), &|| Command::new(replay)], segments, quick, begins_with)
        .map_err(|error| error.to_string())
}

/// The totals program beside the replay program, on the same trace.
pub fn measure_totals(
    [totals, replay]: [&Path; 2],
    segments: usize,
    quick: bool,
) -> Result<Figures, String> {
    there(totals)?;
    there(replay)?;
    timed([&|| Command::new(totals), &|| Command::new(replay)], segments, quick, adds_up)
        .map_err(|error| error.to_string())
}

fn there(program: &Path) -> Result<(), String> {
    match program.is_file() {
        true => Ok(()),
        false => Err(format!("there is no program at {}", program.display())),
    }
}

/// Whether the lines of the events begin with the replay program's.
fn begins_with(records: &[u8], replay: &[u8]) -> bool {
    let [records, replay] = [records, replay].map(String::from_utf8_lossy);
    let names = ["open", "segment", "clock", "release"];
    let events = records.lines().filter(|line| names.iter().any(|name| line.starts_with(name)));
    let fields = |line: &str| if line.starts_with("segment") { 6 } else { 5 };
    let fronts = events.map(|line| line.split(' ').take(fields(line)).collect::<Vec<_>>());
    fronts.eq(replay.lines().map(|line| line.split(' ').collect::<Vec<_>>()))
}

/// Whether the rows have the octets delivered and lost that the replay program's lines have.
fn adds_up(totals: &[u8], replay: &[u8]) -> bool {
    let sums = |text: &[u8], words: RangeInclusive<usize>, columns: [usize; 2]| {
        let text = String::from_utf8_lossy(text);
        let lines: Vec<Vec<&str>> = text.lines().map(|line| line.split(' ').collect()).collect();
        let lines = lines.iter().filter(|line| words.contains(&line.len()));
        columns.map(|at| lines.clone().map(|line| line[at].parse().unwrap_or(0)).sum::<u64>())
    };
    // A segment's line has the position too.
    sums(totals, 7..=7, [4, 6]) == sums(replay, 5..=6, [3, 4])
}

fn timed(
    commands: [&dyn Fn() -> Command; 2],
    segments: usize,
    quick: bool,
    alike: impl Fn(&[u8], &[u8]) -> bool,
) -> io::Result<Figures> {
    let folder = Folder::new()?;
    let input = folder.0.join("trace");
    let outputs = [folder.0.join("left"), folder.0.join("right")];
    fs::write(&input, trace(segments))?;
    let run = |which: usize| run(&mut commands[which](), &input, &outputs[which]);
    run(0)?;
    run(1)?;
    let alike = alike(&fs::read(&outputs[0])?, &fs::read(&outputs[1])?);
    assert!(alike, "the two processes print differently");
    let mut times = Vec::new();
    for round in 0..if quick { 5 } else { 15 } {
        let first = run(round % 2)?;
        let second = run(1 - round % 2)?;
        times.push(if round % 2 == 0 { (first, second) } else { (second, first) });
    }
    Ok(figures(&times))
}

/// Nanoseconds.
fn run(command: &mut Command, input: &Path, output: &Path) -> io::Result<f64> {
    let (input, output) = (File::open(input)?, File::create(output)?);
    let begun = Instant::now();
    let status = command.stdin(input).stdout(output).stderr(Stdio::inherit()).status()?;
    let time = begun.elapsed().as_nanos() as f64;
    match status.success() {
        true => Ok(time),
        false => Err(io::Error::other(format!("the replay process ended with {status}"))),
    }
}

/// The mix again and again, as a trace.
fn trace(segments: usize) -> Vec<u8> {
    let mix = mix::segments();
    let mix: Vec<(u16, &[u8])> = mix.iter().collect();
    let mut trace = Vec::with_capacity(segments * 264);
    trace.extend(REGISTRY);
    trace.push(32);
    trace.extend(areas::TIMER.to_be_bytes());
    trace.extend(0_u32.to_be_bytes());
    for (k, (association, parameter)) in mix.iter().cycle().take(segments).enumerate() {
        let time = ((k / TICK) as u32).to_be_bytes();
        if k % TICK == 0 {
            trace.push(34);
            trace.extend(time);
        }
        trace.push(33);
        trace.extend(time);
        trace.extend(association.to_be_bytes());
        trace.push(parameter.len() as u8);
        trace.extend(*parameter);
        trace.resize(trace.len() + PARAMETER - parameter.len(), 0);
    }
    trace
}
