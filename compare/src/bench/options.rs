//! The command line.

use std::path::PathBuf;

pub const HELP: &str = "\
bench: the proved library beside the model, measured in one run on the same calls

  bench [OPTIONS]

  --quick            a few seconds in all, and less steady figures
  --rounds N         rounds of each row (default 2001; with --quick 101)
  --only TEXT        of the calls, only the rows whose name has TEXT in it, and nothing else
  --replay PATH      the replay program (default ../target/bin/replay beside this crate)
  --records PATH     the records program (default ../target/bin/records beside this crate): its time
                     is over the replay program's
  --totals PATH      the totals program (default ../target/bin/totals beside this crate): likewise
  --replay-model     replays standard input to standard output by the model, and no more:
                     the process that the replay program is measured beside
  --help             this text

It prints tables in Markdown. A ratio is the library's time over the model's: below 1 the library
is the faster one. In each round both sides do the same calls, in turn the one and the other first;
the ratio is the median of the rounds' ratios, and half of them lie in the middle half. Times are a
remark: they are of this machine.

It is not a test: slow or fast, the exit status is 0. It ends with another one only if the command
line is wrong (2) or the two sides answer differently (101), which the comparison would tell too.
";

const REPLAY: &str = concat!(env!("CARGO_MANIFEST_DIR"), "/../target/bin/replay");
const RECORDS: &str = concat!(env!("CARGO_MANIFEST_DIR"), "/../target/bin/records");
const TOTALS: &str = concat!(env!("CARGO_MANIFEST_DIR"), "/../target/bin/totals");

pub enum Task {
    Help,
    Measure,
    ReplayModel,
}

pub struct Options {
    pub task: Task,
    pub quick: bool,
    pub rounds: usize,
    pub only: Option<String>,
    pub replay: PathBuf,
    pub records: PathBuf,
    pub totals: PathBuf,
}

impl Options {
    pub fn read(mut words: impl Iterator<Item = String>) -> Result<Options, String> {
        let (mut task, mut quick, mut rounds) = (Task::Measure, false, None);
        let (mut replay, mut records, mut totals) = (REPLAY.into(), RECORDS.into(), TOTALS.into());
        let mut only = None;
        while let Some(word) = words.next() {
            let mut value = || words.next().ok_or(format!("{word} needs a value"));
            match word.as_str() {
                "--quick" => quick = true,
                "--rounds" => rounds = Some(number(&value()?)?),
                "--only" => only = Some(value()?),
                "--replay" => replay = value()?.into(),
                "--records" => records = value()?.into(),
                "--totals" => totals = value()?.into(),
                "--replay-model" => task = Task::ReplayModel,
                "--help" | "-h" => task = Task::Help,
                _ => return Err(format!("unknown option {word}")),
            }
        }
        let rounds = rounds.unwrap_or(if quick { 101 } else { 2_001 });
        Ok(Options { task, quick, rounds, only, replay, records, totals })
    }
}

fn number(text: &str) -> Result<usize, String> {
    text.parse().ok().filter(|n| *n > 0).ok_or(format!("{text} is not a number from 1 on"))
}
