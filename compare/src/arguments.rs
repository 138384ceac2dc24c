//! The command line.

use std::path::PathBuf;

use model::Fault;

pub const HELP: &str = "\
compare: the proved library against a second implementation of its documents, call by call

  compare [OPTIONS]

  --seed N           seed of the generator (default 1)
  --calls N          calls to compare (default 1000000); traces and round trips go along with them,
                     and from 100000 on some short ranges are gone through from end to end
  --replay PATH      the replay program (default ../target/bin/replay beside this crate)
  --records PATH     the records program (default ../target/bin/records beside this crate)
  --totals PATH      the totals program (default ../target/bin/totals beside this crate)
  --show N           prints the input of call N before it is made
  --calls-only       no traces
  --traces-only      traces alone, as many as --calls would give
  --against WHAT     library, or model: a plain model in place of library and programs
  --break NAME       breaks the model in one way: a difference has to be found
  --breaks           breaks it in every way, one after the other, and says when each is found
  --list-breaks      the names for --break
  --help             this text

Exit status 0: no difference (with --breaks: every one was found), and all that has to be met was
met often enough; 1: otherwise; 2: the command line is wrong.
";

const REPLAY: &str = concat!(env!("CARGO_MANIFEST_DIR"), "/../target/bin/replay");
const RECORDS: &str = concat!(env!("CARGO_MANIFEST_DIR"), "/../target/bin/records");
const TOTALS: &str = concat!(env!("CARGO_MANIFEST_DIR"), "/../target/bin/totals");

pub enum Task {
    Help,
    ListBreaks,
    Compare(Option<Fault>),
    Breaks,
}

pub struct Arguments {
    pub task: Task,
    pub seed: u64,
    pub calls: u64,
    pub show: Option<u64>,
    pub replay: PathBuf,
    pub records: PathBuf,
    pub totals: PathBuf,
    pub against: String,
    pub only_calls: bool,
    pub only_traces: bool,
}

impl Arguments {
    pub fn read(mut words: impl Iterator<Item = String>) -> Result<Arguments, String> {
        let mut arguments = Arguments {
            task: Task::Compare(None),
            seed: 1,
            calls: 1_000_000,
            show: None,
            replay: REPLAY.into(),
            records: RECORDS.into(),
            totals: TOTALS.into(),
            against: "library".into(),
            only_calls: false,
            only_traces: false,
        };
        while let Some(word) = words.next() {
            let mut value = || words.next().ok_or(format!("{word} needs a value"));
            match word.as_str() {
                "--seed" => arguments.seed = number(&value()?)?,
                "--calls" => arguments.calls = number(&value()?)?,
                "--show" => arguments.show = Some(number(&value()?)?),
                "--replay" => arguments.replay = value()?.into(),
                "--records" => arguments.records = value()?.into(),
                "--totals" => arguments.totals = value()?.into(),
                "--against" => arguments.against = value()?,
                "--calls-only" => arguments.only_calls = true,
                "--traces-only" => arguments.only_traces = true,
                "--break" => arguments.task = Task::Compare(Some(fault(&value()?)?)),
                "--breaks" => arguments.task = Task::Breaks,
                "--list-breaks" => arguments.task = Task::ListBreaks,
                "--help" | "-h" => arguments.task = Task::Help,
                _ => return Err(format!("unknown option {word}")),
            }
        }
        arguments.check()?;
        Ok(arguments)
    }

    fn check(&self) -> Result<(), String> {
        let compares = matches!(self.task, Task::Compare(_) | Task::Breaks);
        match self.against.as_str() {
            "model" | "library" if !compares => Ok(()),
            "model" => Ok(()),
            "library" if !cfg!(feature = "library") => {
                Err("built without the library: only --against model is possible".into())
            }
            "library" if self.only_calls => Ok(()),
            "library" => self.check_programs(),
            other => Err(format!("--against {other}: it is library or model")),
        }?;
        match self.only_calls && self.only_traces {
            true => Err("--calls-only and --traces-only leave nothing".into()),
            false => Ok(()),
        }
    }
}

impl Arguments {
    /// The programs that traces are given to.
    pub fn programs(&self) -> [PathBuf; 3] {
        [&self.replay, &self.records, &self.totals].map(PathBuf::clone)
    }

    fn check_programs(&self) -> Result<(), String> {
        for (name, path) in ["replay", "records", "totals"].into_iter().zip(self.programs()) {
            if !path.is_file() {
                let path = path.display();
                return Err(format!("no {name} program at {path}: give --{name}, or --calls-only"));
            }
        }
        Ok(())
    }
}

fn number(text: &str) -> Result<u64, String> {
    text.parse().map_err(|_| format!("{text} is not a number"))
}

fn fault(name: &str) -> Result<Fault, String> {
    let fault = Fault::ALL.iter().find(|fault| fault.name() == name);
    fault.copied().ok_or(format!("no break is named {name}: see --list-breaks"))
}

#[cfg(test)]
mod tests {
    use super::*;

    fn read(line: &str) -> Result<Arguments, String> {
        Arguments::read(line.split_whitespace().map(String::from))
    }

    #[test]
    fn options() {
        let arguments = read("--against model --seed 5 --calls 7 --break release-all").unwrap();
        assert_eq!((arguments.seed, arguments.calls), (5, 7));
        assert!(matches!(arguments.task, Task::Compare(Some(Fault::ReleaseAll))));
        assert!(matches!(read("--help").unwrap().task, Task::Help));
    }

    #[test]
    fn errors() {
        for line in ["--sede 5", "--seed", "--seed x", "--break nothing", "--against nobody"] {
            assert!(read(line).is_err(), "{line}");
        }
        assert!(read("--against model --calls-only --traces-only").is_err());
    }

    #[test]
    fn names_of_breaks_differ() {
        let mut names: Vec<&str> = Fault::ALL.iter().map(|fault| fault.name()).collect();
        names.sort();
        names.dedup();
        assert_eq!(names.len(), Fault::ALL.len());
    }
}
