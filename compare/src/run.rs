//! A run: calls, traces and round trips in turn, up to the first difference.

use crate::arguments::Arguments;
use crate::cases::World;
use crate::coverage::Coverage;
use crate::exhaustive::Exhaustive;
#[cfg(feature = "library")]
use crate::library::Library;
use crate::pair::Pair;
use crate::random::Random;
use crate::side::Side;
use crate::traces::{self, Replayer};
use crate::trips::Ends;
use model::{Model, STRETCH};

/// For every so many calls there is one trace and a few round trips.
const ROUND: u64 = 1_000;
const TRIPS: u64 = 5;
/// A run of so many calls goes through the short ranges too.
const LONG: u64 = 100_000;

pub struct Run<'a> {
    arguments: &'a Arguments,
    model: Model,
    other: &'static dyn Side,
    replayer: Replayer,
    pub coverage: Coverage,
}

/// The first difference, what showed it, and what had gone before.
pub struct Found {
    pub by: String,
    pub difference: String,
}

#[cfg(feature = "library")]
fn library() -> &'static dyn Side {
    &Library
}

#[cfg(not(feature = "library"))]
fn library() -> &'static dyn Side {
    unreachable!("the command line was checked")
}

impl<'a> Run<'a> {
    pub fn new(arguments: &'a Arguments, model: Model) -> Run<'a> {
        let (other, replayer) = match arguments.against.as_str() {
            "model" => (&Model::PLAIN as &dyn Side, Replayer::Model(Model::PLAIN)),
            _ => (library(), Replayer::Programs(arguments.programs())),
        };
        Run { arguments, model, other, replayer, coverage: Coverage::new() }
    }

    pub fn go(&mut self) -> Result<(), Found> {
        let model = self.model;
        let Arguments { seed, calls, only_traces, only_calls, .. } = *self.arguments;
        let mut noise = Random::new(!seed);
        let mut world = World::new(Random::new(seed));
        let mut traces = Random::new(seed ^ 0x7261_6365);
        let mut pair = Pair::new([&model, self.other], &mut noise);
        for round in 0..calls.div_ceil(ROUND) {
            if !only_traces {
                for _ in 0..ROUND.min(calls - round * ROUND) {
                    let called = self.call(&mut pair, &mut world, &mut noise);
                    called.map_err(|text| self.found("call", self.coverage.calls(), text))?;
                }
                for number in round * TRIPS..(round + 1) * TRIPS {
                    let made = self.trip(&pair, &mut noise, number);
                    made.map_err(|text| self.found("round trip", number, text))?;
                }
            }
            if !only_calls {
                let replayed = self.trace(&mut traces);
                replayed.map_err(|text| self.found("trace", self.coverage.traces(), text))?;
            }
        }
        if !only_traces && calls >= LONG {
            let mut exhaustive = Exhaustive::new(&mut pair, &mut noise);
            let done = exhaustive.go();
            let Exhaustive { calls, refusals, blames, .. } = exhaustive;
            self.coverage.count_exhaustive(calls, &refusals, &blames);
            done.map_err(|text| self.found("call from end to end", calls - 1, text))?;
        }
        Ok(())
    }

    fn found(&self, what: &str, before: u64, difference: String) -> Found {
        let by = match what {
            "call" => format!("call {}", before + 1),
            _ => format!("{what} {}, after {} calls", before + 1, self.coverage.calls()),
        };
        Found { by, difference }
    }

    /// What was met too seldom: in a million calls, fewer than 100 times.
    pub fn missing(&self) -> Vec<String> {
        self.coverage.missing((self.arguments.calls / 10_000).min(100))
    }

    fn call(
        &mut self,
        pair: &mut Pair,
        world: &mut World,
        noise: &mut Random,
    ) -> Result<(), String> {
        let case = world.case();
        if self.arguments.show == Some(self.coverage.calls() + 1) {
            println!("{}", case.input);
        }
        let answer = pair.run(&case.input, noise)?;
        if !case.expects(answer.refusal()) {
            let (held, number) = (&case.held, answer.refusal());
            return Err(format!("{}made for {held:?}, but both answer {number}\n", case.input));
        }
        pair.judge(&case.input, &answer)?;
        self.coverage.count(&case, &answer, pair.summary(), pair.report());
        world.absorb(&case, &answer, pair.summary());
        Ok(())
    }

    /// Every length of data comes up in a million calls, each way.
    fn trip(&mut self, pair: &Pair, random: &mut Random, number: u64) -> Result<(), String> {
        let [model, other] = pair.sides;
        let direction = (number % 2) as usize;
        let (sender, receiver) = if direction == 0 { (model, other) } else { (other, model) };
        let length = number as usize / 2 % (STRETCH + 1);
        let made = Ends { sender, receiver }.go(random, length)?;
        self.coverage.count_trip(direction, &made);
        Ok(())
    }

    fn trace(&mut self, random: &mut Random) -> Result<(), String> {
        let trace = traces::trace(random);
        let texts = traces::compare(&self.model, &self.replayer, &trace.octets)?;
        self.coverage.count_trace(&texts, trace.unknown);
        Ok(())
    }
}

#[cfg(test)]
mod tests {
    use super::*;
    use model::Fault;

    /// A plain model on the other side, so that nothing is compared with the library here. One
    /// trace in twelve has a registry record after its first open: so many calls have some.
    fn arguments() -> Arguments {
        let words = ["--against", "model", "--calls", "90000", "--seed", "7"];
        Arguments::read(words.map(String::from).into_iter()).expect("a good command line")
    }

    #[test]
    fn every_break_is_found() {
        let arguments = arguments();
        for fault in Fault::ALL {
            assert!(Run::new(&arguments, Model::with(*fault)).go().is_err(), "{}", fault.name());
        }
    }

    /// What A1 asks of the rows, A2 of the contexts, A3 of the destinations, A5 of the positions and
    /// A6 of the arrivals is asked of both sides, so that a break they share is found too.
    #[test]
    fn shared_breaks_of_the_requests_are_found() {
        let mut arguments = arguments();
        arguments.only_calls = true;
        let first = Fault::ALL.iter().position(|fault| *fault == Fault::RefusedCounted);
        let last = Fault::ALL.iter().position(|fault| *fault == Fault::SweepReport);
        for fault in &Fault::ALL[first.unwrap_or(0)..=last.unwrap_or(0)] {
            let other: &'static Model = Box::leak(Box::new(Model::with(*fault)));
            let mut run = Run { other, ..Run::new(&arguments, *other) };
            assert!(run.go().is_err(), "{}", fault.name());
        }
    }

    /// What A5 and A6 ask of the programs' lines is asked of both sides too.
    #[test]
    fn shared_breaks_of_the_lines_are_found() {
        let mut arguments = arguments();
        arguments.only_traces = true;
        let first = Fault::ALL.iter().position(|fault| *fault == Fault::TimeoutsUntold);
        let last = Fault::ALL.iter().position(|fault| *fault == Fault::PositionLast);
        for fault in &Fault::ALL[first.unwrap_or(0)..=last.unwrap_or(0)] {
            let model = Model::with(*fault);
            let replayer = Replayer::Model(model);
            let mut run = Run { replayer, ..Run::new(&arguments, model) };
            assert!(run.go().is_err(), "{}", fault.name());
        }
    }

    #[test]
    fn nothing_else_is_found() {
        let mut arguments = arguments();
        arguments.calls = 5_000;
        let mut run = Run::new(&arguments, Model::PLAIN);
        assert!(run.go().is_ok_and(|()| run.coverage.calls() == 5_000));
    }
}
