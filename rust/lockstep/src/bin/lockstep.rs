//! Runs the library and the model side by side.
//!
//! lockstep [--seed S] [--steps N] [--hostile N] [--long]
//!          [--only-cluster I] [--only-hostile I] [--trace] [--no-model]
//!
//! --steps and --hostile count compared calls, a cluster's message read to its end as one.
//! --no-model runs the library alone, with the checks of the demands only (to try these
//! checks on wrong libraries).

use ssaldorip_tests::case::Failure;
use ssaldorip_tests::cluster::{Cluster, Runner};
use ssaldorip_tests::random::Random;
use ssaldorip_tests::tally::Tally;
use ssaldorip_tests::{hostile, library};
use std::process::ExitCode;
use std::time::Instant;

const STEPS: u64 = 200_000;
const HOSTILE: u64 = 200_000;
const LONG: u64 = 1_000_000;
/// A run of at least this many must have seen everything listed for them.
const FULL: u64 = 200_000;

struct Arguments {
    seed: u64,
    steps: u64,
    hostile: u64,
    only_cluster: Option<u64>,
    only_hostile: Option<u64>,
    trace: bool,
    model: bool,
}

fn arguments() -> Result<Arguments, String> {
    let mut a = Arguments {
        seed: 1,
        steps: STEPS,
        hostile: HOSTILE,
        only_cluster: None,
        only_hostile: None,
        trace: false,
        model: true,
    };
    let mut given = std::env::args().skip(1);
    while let Some(name) = given.next() {
        let mut number = || {
            let value = given.next().ok_or(format!("{name} needs a number"))?;
            value.replace(['_', ','], "").parse::<u64>().map_err(|_| format!("{name}: {value} is not a number"))
        };
        match name.as_str() {
            "--seed" => a.seed = number()?,
            "--steps" => a.steps = number()?,
            "--hostile" => a.hostile = number()?,
            "--long" => (a.steps, a.hostile) = (LONG, LONG),
            "--only-cluster" => a.only_cluster = Some(number()?),
            "--only-hostile" => a.only_hostile = Some(number()?),
            "--trace" => a.trace = true,
            "--no-model" => a.model = false,
            _ => return Err(format!("unknown argument {name}")),
        }
    }
    Ok(a)
}

fn clusters(a: &Arguments, run: &mut Runner) -> Result<(), Failure> {
    if a.only_hostile.is_some() {
        return Ok(());
    }
    let began = Instant::now();
    let mut index = a.only_cluster.unwrap_or(0);
    while run.tally.cases < a.steps {
        if a.trace {
            eprintln!("cluster {index}");
        }
        let first = run.tally.cases;
        let mut cluster = Cluster::new(run, Random::derive(a.seed, 1, index))
            .map_err(|f| Failure(format!("seed {} cluster {index}\n{f}", a.seed)))?;
        let outcome = cluster.go(a.steps);
        let like = cluster.describe();
        outcome.map_err(|f| {
            let step = run.tally.cases - first;
            Failure(format!("seed {} cluster {index} ({like}) step {step}\n{f}", a.seed))
        })?;
        index += 1;
        if a.only_cluster.is_some() {
            break;
        }
    }
    println!("clusters: {index}, calls: {}, {:.1} s", run.tally.cases, began.elapsed().as_secs_f64());
    Ok(())
}

fn hostiles(a: &Arguments, run: &mut Runner) -> Result<(), Failure> {
    if a.only_cluster.is_some() {
        return Ok(());
    }
    let (before, began) = (run.tally.cases, Instant::now());
    let cases = match a.only_hostile {
        Some(index) => index..index + 1,
        None => 0..a.hostile,
    };
    for index in cases {
        if a.trace {
            eprintln!("hostile {index}");
        }
        let (call, mut lents) = hostile::case(&mut Random::derive(a.seed, 2, index));
        run.hostile_call(call, &mut lents)
            .map_err(|f| Failure(format!("seed {} hostile case {index}\n{f}", a.seed)))?;
    }
    println!("hostile cases: {}, {:.1} s", run.tally.cases - before, began.elapsed().as_secs_f64());
    Ok(())
}

/// Names what a part of the run was to see and did not; how many of these are failures.
fn never_seen(a: &Arguments, cases: u64, missing: Vec<String>) -> usize {
    let only = a.only_cluster.is_some() || a.only_hostile.is_some();
    if only || !a.model || cases == 0 {
        return 0;
    }
    let full = cases >= FULL;
    for never in &missing {
        println!("{}: {never}", if full { "NEVER SEEN" } else { "not seen in this short run" });
    }
    if full {
        missing.len()
    } else {
        0
    }
}

fn main() -> ExitCode {
    let a = match arguments() {
        Ok(a) => a,
        Err(wrong) => {
            eprintln!("{wrong}");
            return ExitCode::from(2);
        }
    };
    let library = library::library();
    println!("library: {}", library.name());
    println!("seed {} steps {} hostile {}", a.seed, a.steps, a.hostile);
    let mut run = Runner { library, model: a.model, tally: Tally::default() };
    let failed = match clusters(&a, &mut run).and_then(|()| hostiles(&a, &mut run)) {
        Err(Failure(what)) => {
            println!("DIFFERENCE\n{what}");
            1
        }
        Ok(()) => {
            print!("{}", run.tally.report());
            never_seen(&a, a.steps, run.tally.missing_in_clusters())
                + never_seen(&a, a.hostile, run.tally.missing_in_hostile_cases())
        }
    };
    println!("{} passed, {failed} failed", run.tally.cases);
    if failed == 0 {
        ExitCode::SUCCESS
    } else {
        ExitCode::FAILURE
    }
}
