//! `differ [--seed N] [--inputs N] [--broken NAME]`: asks the library and the model of the documents the same, through every call of
//! the header, over random and damaged inputs, and compares what they answer with all the memory that was lent.
//!
//! Prints the first difference of each call, then a line for each call with the inputs that were tried, how many differ and which
//! answers came. Exits with 1 on a difference and with 2 where it is asked for something else. With `--broken` the model breaks a
//! rule on purpose, and the run ends once that is noticed; `differ --mistakes` prints the names.
mod calls;
mod fields;
mod inputs;
mod random;

use calls::{Answers, Call, CALLS};
use random::Random;
use std::{env, process::ExitCode};
use tailsprig::{
    model::{Mistake, Model},
    text,
};

/// What is asked for.
struct Run {
    seed: u64,
    inputs: u64,
    broken: Option<Mistake>,
}

fn run_asked_for(mut words: impl Iterator<Item = String>) -> Result<Run, String> {
    let mut run = Run { seed: 1, inputs: 200_000, broken: None };
    while let Some(option) = words.next() {
        let value = words.next().ok_or(format!("'{option}' has no value"))?;
        match option.as_str() {
            "--seed" => run.seed = text::number(&value)?,
            "--inputs" => run.inputs = text::number(&value)?,
            "--broken" => {
                let named = Mistake::ALL.iter().find(|(name, _)| *name == value);
                run.broken = Some(named.ok_or(format!("'{value}' is no mistake"))?.1);
            }
            _ => return Err(format!("'{option}' is no option")),
        }
    }
    Ok(run)
}

/// The place in `CALLS` of the call that an input of the run belongs to. The calls take turns, each as often as its share says.
fn call_of(input: u64) -> usize {
    let round: u64 = CALLS.iter().map(|call| call.share).sum();
    let mut turn = input % round;
    for (at, Call { share, .. }) in CALLS.iter().enumerate() {
        match turn.checked_sub(*share) {
            None => return at,
            Some(left) => turn = left,
        }
    }
    unreachable!("a turn is within the round");
}

#[derive(Default)]
struct Tally {
    tried: u64,
    differ: u64,
    answers: Answers,
}

impl Tally {
    fn print(&self, name: &str) {
        let answers: Vec<String> = self.answers.iter().map(|answer| answer.to_string()).collect();
        println!("{name:<20} {:>10} inputs, {} differ; answers {}", self.tried, self.differ, answers.join(" "));
    }
}

/// Tries the inputs and answers how many differ.
fn compare(run: &Run) -> u64 {
    let model = run.broken.map_or(Model::default(), Model::broken);
    let mut tallies: [Tally; CALLS.len()] = Default::default();
    for input in 0..run.inputs {
        let at = call_of(input);
        let (call, tally) = (&CALLS[at], &mut tallies[at]);
        tally.tried += 1;
        if let Err(difference) = (call.check)(&model, &mut Random::new(run.seed, input), &mut tally.answers) {
            tally.differ += 1;
            if tally.differ == 1 {
                println!("{} differs at input {} of seed {}", call.name, input + 1, run.seed);
                println!("  input    {}", difference.input);
                println!("  library  {}", difference.library);
                println!("  model    {}", difference.model);
            }
            if run.broken.is_some() {
                break;
            }
        }
    }
    for (call, tally) in CALLS.iter().zip(&tallies) {
        tally.print(call.name);
    }
    let tried: u64 = tallies.iter().map(|tally| tally.tried).sum();
    let differ = tallies.iter().map(|tally| tally.differ).sum();
    println!("{:<20} {tried:>10} inputs, {differ} differ", "all");
    differ
}

fn main() -> ExitCode {
    let words: Vec<String> = env::args().skip(1).collect();
    if words == ["--mistakes"] {
        Mistake::ALL.iter().for_each(|(name, _)| println!("{name}"));
        return ExitCode::SUCCESS;
    }
    let run = match run_asked_for(words.into_iter()) {
        Ok(run) if run.inputs > 0 => run,
        Ok(_) => {
            eprintln!("no inputs");
            return ExitCode::from(2);
        }
        Err(why) => {
            eprintln!("{why}");
            return ExitCode::from(2);
        }
    };
    match compare(&run) {
        0 => ExitCode::SUCCESS,
        _ => ExitCode::from(1),
    }
}
