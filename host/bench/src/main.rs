//! Times the proved library, through C: scan and check beside those of the
//! simple reader, and plain walks beside the published Rust and the reader. In
//! one run, on the same blocks of real maps, which are inflated before, and on
//! blocks that are made up to the longest that is read. Nothing is asserted
//! about time; but all sides must accept every block, their tables and records
//! must be the same, and so must be the sums of all that their walks read.

mod prepared;
mod side;
mod table;
#[cfg_attr(not(feature = "proved"), path = "without_proved.rs")]
mod through_c;
mod timing;
mod walk;

use std::fs;
use std::process::ExitCode;

use prepared::Prepared;
use side::BySimpleReader;
use timing::Pass;

fn main() -> ExitCode {
    let maps: Vec<String> = std::env::args().skip(1).collect();
    if maps.is_empty() {
        eprintln!("usage: bench MAP..");
        return ExitCode::from(2);
    }
    match run(&maps) {
        Ok(()) => ExitCode::SUCCESS,
        Err(how) => {
            eprintln!("{how}");
            ExitCode::FAILURE
        }
    }
}

/// Scan and check on the first map, walks on all of them and on made blocks.
fn run(maps: &[String]) -> Result<(), String> {
    scan_and_check(&blocks_of(&maps[0])?)?;
    for map in maps {
        let blocks = blocks_of(map)?;
        walk::print_times(&blocks).map_err(|how| format!("{map}: {how}"))?;
    }
    walk::print_growth()
}

/// The blocks of a map, which is told by its name.
fn blocks_of(path: &str) -> Result<Vec<Vec<u8>>, String> {
    let file = fs::read(path).map_err(|how| format!("{path}: {how}"))?;
    let blocks = generate::primitive_blocks(&file).map_err(|how| format!("{path}: {how}"))?;
    let bytes: usize = blocks.iter().map(Vec::len).sum();
    println!("{path}: {} blocks, {bytes} bytes", blocks.len());
    Ok(blocks)
}

fn scan_and_check(blocks: &[Vec<u8>]) -> Result<(), String> {
    let bytes: usize = blocks.iter().map(Vec::len).sum();
    let mut by_reader = Prepared::<BySimpleReader>::new(blocks)?;
    let mut through_c = through_c::prepared(blocks, &by_reader)?;
    let mut sides: Vec<(&str, &mut dyn Pass)> = Vec::new();
    if let Some(side) = &mut through_c {
        println!("both sides accept them, with the same records and tables");
        sides.push(("library", side.as_mut()));
    }
    sides.push(("reader", &mut by_reader));
    table::print(&timing::best(&mut sides)?, bytes);
    Ok(())
}
