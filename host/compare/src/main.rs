//! Compares the published Rust and the proved library through C with the
//! simple reader of document 01, on generated and damaged inputs and on real
//! maps, and keeps the fixed list of answers. Built without the published Rust
//! (feature `published`) and the proved library (feature `proved`), it holds
//! the simple reader against the fixed list, its own properties and the maps.
//! Exit status 1 where a difference is not explained.

mod args;
#[cfg_attr(not(feature = "proved"), path = "without_proved.rs")]
mod by_c;
mod by_hand;
#[cfg_attr(not(feature = "published"), path = "without_published.rs")]
mod by_published;
mod by_reader;
mod first_met;
mod judge;
mod known;
mod list;
mod maps;
mod opl;
mod outside;
mod pairs;
mod question;
mod samples;
mod sides;
mod sweep;
mod tally;
mod text;
mod tried;

use std::process::ExitCode;
use std::time::Instant;

use args::Args;
use judge::Judge;

fn main() -> ExitCode {
    let Some(args) = args::parse(std::env::args().skip(1)) else {
        eprintln!("{}", args::USAGE);
        return ExitCode::from(2);
    };
    match run(&args) {
        Ok(true) => ExitCode::SUCCESS,
        Ok(false) => ExitCode::FAILURE,
        Err(how) => {
            eprintln!("{how}");
            ExitCode::FAILURE
        }
    }
}

/// Whether nothing unexplained was found.
fn run(args: &Args) -> Result<bool, String> {
    if let Some(path) = &args.write_list {
        return list::write(path).map(|()| true);
    }
    if let Some(path) = args.check_list.as_ref().or(args.list.as_ref()) {
        println!("fixed list: {}", list::check(path)?);
    }
    if args.check_list.is_some() {
        return Ok(true);
    }
    compare(args)
}

fn compare(args: &Args) -> Result<bool, String> {
    let started = Instant::now();
    let mut judge = Judge::default();
    sweep::fixed(&mut judge);
    let maps = match &args.maps {
        Some(folder) => maps::judge(folder, &mut judge)?,
        None => Vec::new(),
    };
    let rounds = sweep::random(args, &maps, &mut judge);
    println!(
        "seed {}, {rounds} rounds in {} seconds; pairs of accepted blocks: {}",
        args.seed,
        started.elapsed().as_secs(),
        judge.pairs.count()
    );
    if by_published::COMMIT.is_some() {
        judge.tally.close();
    }
    judge.tally.print();
    println!("{}", sides::told(args.list.is_some(), args.maps.is_some()));
    Ok(judge.tally.unexplained_count() == 0)
}
