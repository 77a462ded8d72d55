//! Plays random scripts through the proved port and the Rust test copy, and compares all that both show.
//!
//! versus run SEED BATCHES          compares at least as many accepted batches
//! versus kind NAME SEED BATCHES    the same with scripts of one kind
//! versus record SEED               writes the Rust's answers for some scripts, as rows of crate `cases`
//! versus speed                     the time of a batch and of a cube on both sides, and of the port's calls by themselves, also by kind of touching

mod alone;
mod compare;
mod counts;
mod cubes;
mod offer;
mod paths;
mod plain;
mod questions;
mod record;
mod rng;
mod rust_side;
mod scripts;
mod shrink;
mod speed;
mod state_words;

use compare::Sides;
use counts::Counts;
use offer::Script;
use rng::Rng;
use scripts::{Kind, Plan};
use std::process::ExitCode;
use std::time::Instant;

fn main() -> ExitCode {
    let args: Vec<String> = std::env::args().skip(1).collect();
    let words: Vec<&str> = args.iter().map(String::as_str).collect();
    match words[..] {
        ["run", seed, batches] => run(number(seed), number(batches), Plan::any),
        ["kind", name, seed, batches] => match Kind::named(name) {
            Some(kind) => run(number(seed), number(batches), |rng| Plan::of(kind, rng)),
            None => usage(),
        },
        ["speed"] => {
            speed::speed();
            speed::kinds();
            alone::alone();
            cubes::cubes();
            ExitCode::SUCCESS
        }
        ["record", seed] => {
            print!("{}", record::record(number(seed)));
            ExitCode::SUCCESS
        }
        _ => usage(),
    }
}

fn usage() -> ExitCode {
    eprintln!("versus run SEED BATCHES");
    eprintln!("versus record SEED");
    eprintln!("versus speed");
    eprintln!("versus kind NAME SEED BATCHES, NAME one of {}", Kind::ALL.map(Kind::name).join(", "));
    ExitCode::FAILURE
}

fn number(text: &str) -> u64 {
    text.parse().unwrap_or_else(|_| panic!("{text} is no number"))
}

/// Scripts until enough batches are compared.
fn run(seed: u64, batches: u64, plan_of: impl Fn(&mut Rng) -> Plan) -> ExitCode {
    let mut rng = Rng::new(seed);
    let mut counts = Counts::default();
    let started = Instant::now();
    let mut told = 0;
    while counts.accepted < batches {
        let plan = plan_of(&mut rng);
        if let Err((script, why)) = one(&plan, &mut rng, &mut counts) {
            let (small, why) = shrink::smallest(&script, why);
            println!("DIFFERENCE: {why}\nseed {seed}, {plan:?}\nthe smallest script found:\n{small}");
            return ExitCode::FAILURE;
        }
        if counts.accepted >= told + 1000 {
            told = counts.accepted;
            eprintln!("{told} batches after {} s", started.elapsed().as_secs());
        }
    }
    print!("seed {seed}\n{counts}");
    println!("no difference");
    ExitCode::SUCCESS
}

/// One script, made as it is played.
fn one(plan: &Plan, rng: &mut Rng, counts: &mut Counts) -> Result<(), (Script, String)> {
    let mut script = Script { first_id: plan.first_id, walk: rng.next(), offers: Vec::new() };
    let mut sides = Sides::new(script.first_id, script.walk);
    for k in 0..plan.batches {
        let offer = plan.offer(k, &sides.rust, rng);
        script.offers.push(offer.clone());
        sides.offer(&offer, plan.asking(), rng, counts).map_err(|why| (script.clone(), why))?;
    }
    *counts.scripts.entry(plan.kind.name()).or_default() += 1;
    Ok(())
}
