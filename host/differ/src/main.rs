//! Does the differential runs: all of them, or those that are named.
//!
//!     differ                  every run
//!     differ first_field      this one
//!     differ --list           their names
//!     differ --whole quantise this one over its whole range; no part of the
//!                             others, since it takes minutes
//!     differ --whole detector a hundred million frames, likewise
//!
//! Prints the seed, then a line for each run. Ends with 1 at the first
//! difference, after the smallest input that shows it and both answers; with 2
//! where it is called wrongly.

use std::env;
use std::process::ExitCode;

use differ::case::{Failure, Tally};
use differ::random::{self, Random, SEED_VARIABLE};
use differ::runs::{RUNS, Run, WHOLE, Whole};

fn main() -> ExitCode {
    let mut names: Vec<String> = env::args().skip(1).collect();
    if names == ["--list"] {
        for run in RUNS {
            println!("{}: {}", run.name, run.about);
        }
        for run in WHOLE {
            println!("--whole {}: {}", run.name, run.about);
        }
        return ExitCode::SUCCESS;
    }
    let whole = names.first().is_some_and(|name| name == "--whole");
    let list: Vec<Named> = if whole {
        names.remove(0);
        let named = |run: &Whole| (run.name, Box::new(run.run) as Done);
        WHOLE.iter().map(named).collect()
    } else {
        let named = |run: &'static Run| {
            (
                run.name,
                Box::new(|random: &mut Random| run.tally(random)) as Done,
            )
        };
        RUNS.iter().map(named).collect()
    };
    let (seed, runs) = match random::seed().and_then(|seed| Ok((seed, chosen(list, &names)?))) {
        Ok(chosen) => chosen,
        Err(complaint) => {
            eprintln!("differ: {complaint}");
            return ExitCode::from(2);
        }
    };
    println!("seed {seed} (another by {SEED_VARIABLE})");
    for (name, run) in runs {
        match run(&mut Random::for_run(seed, name)) {
            Ok(tally) => println!("{tally}"),
            Err(failure) => {
                println!("{failure}");
                return ExitCode::from(1);
            }
        }
    }
    ExitCode::SUCCESS
}

type Done = Box<dyn Fn(&mut Random) -> Result<Tally, Failure>>;

/// A run's name, and the run.
type Named = (&'static str, Done);

/// The runs of these names, in the order of the list; all of them for no name.
fn chosen(list: Vec<Named>, names: &[String]) -> Result<Vec<Named>, String> {
    for name in names {
        if list.iter().all(|(known, _)| known != name) {
            let known: Vec<_> = list.iter().map(|(name, _)| *name).collect();
            return Err(format!(
                "there is no run `{name}`; expected --list, --whole, or names of: {}",
                known.join(", ")
            ));
        }
    }
    let wanted = |(known, _): &Named| names.is_empty() || names.iter().any(|name| name == known);
    Ok(list.into_iter().filter(wanted).collect())
}
