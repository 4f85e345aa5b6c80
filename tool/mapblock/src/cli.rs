//! The command line: what may be typed, and the help that teaches it.

use std::io::{self, Write};
use std::path::PathBuf;

use clap::error::ErrorKind;
use clap::{CommandFactory, Parser, Subcommand};
use clap_complete::{Shell, generate};

use crate::output::Status;

const AFTER: &str = "\
A FILE is a whole .osm.pbf or one block, the raw bytes of a PrimitiveBlock as
`mapblock blocks` writes them. Its first byte tells which: an .osm.pbf begins
with 00, the top byte of a length, and no block that is accepted does.

Blocks, groups and elements are counted from 0, as the library counts them.

Examples:

  mapblock check map.osm.pbf                  is it all right? if not, where?
  mapblock blocks map.osm.pbf -o parts        take a map apart
  mapblock list parts/block-00003.bin         what is in one of its blocks?
  mapblock compare before.bin after.bin       do both say the same?
  mapblock report map.osm.pbf -o ticket.html  a page to attach to a ticket";

#[derive(Parser)]
#[command(
    name = "mapblock",
    version,
    about = "Checks, lists, compares and draws OSM PBF map blocks as a camera reads them",
    after_help = AFTER,
    arg_required_else_help = true
)]
pub struct Cli {
    #[command(subcommand)]
    pub command: Command,
}

const CHECK: &str = "\
Exit status: 0 all accepted, 1 some refused, 2 a file is missing or is no PBF.

Examples:

  mapblock check map.osm.pbf
  mapblock check parts/*.bin
  mapblock check --json map.osm.pbf | jq '.files[].refused[].number'";

const LIST: &str = "\
The first line of a block has its granularity, its offsets and how many groups
it has. Each other line is an element: its group, its kind and id, then its
position as stored and in degrees, its tags, its nodes or its members. Two
blocks that list the same give the same lines.

Exit status: 0 all listed, 1 some blocks refused, 2 the file is missing or is
no PBF.

Examples:

  mapblock list map.osm.pbf | grep '\"waterway\"'
  mapblock list --full block-00000.bin
  diff <(mapblock list a.bin) <(mapblock list b.bin)";

const COMPARE: &str = "\
Metadata, strings that nothing shows, unknown fields and longer spellings of a
number make no difference. Whole maps are compared block by block.

Exit status: 0 the same, 1 different, 2 either is refused, missing or no PBF.

Examples:

  mapblock compare before.bin after.bin
  mapblock compare card.osm.pbf office.osm.pbf && echo the card is up to date";

const DRAW: &str = "\
Roads and paths (highway), fences and walls (barrier), streams, rivers and
lakes (waterway, natural=water), names of places, with a legend and a scale
bar. Blocks that are refused are left out, and told on standard error.

Exit status: 0 all drawn, 1 some blocks refused, 2 the file is missing or is no
PBF, or the picture can't be written.

Example:

  mapblock draw map.osm.pbf -o map.svg";

const REPORT: &str = "\
One HTML page with nothing outside it: what was checked, each block's outcome
in plain words, what the accepted blocks hold in all, and the drawing, which
can be moved and enlarged and tells the tags of what is pointed at.

Exit status: 0 all accepted, 1 some blocks refused, 2 the file is missing or is
no PBF, or the page can't be written. The page is written in the first two
cases, and where a map is damaged.

Example:

  mapblock report map.osm.pbf -o report.html";

const BLOCKS: &str = "\
The files are block-00000.bin, block-00001.bin and so on, the raw bytes of each
PrimitiveBlock, accepted or not.

Exit status: 0 all written, 2 the file is missing or damaged, or nothing can be
written.

Example:

  mapblock blocks map.osm.pbf -o parts && mapblock check parts/*.bin";

#[derive(Subcommand)]
pub enum Command {
    /// Says whether a camera accepts the blocks, or what is wrong and where
    #[command(after_help = CHECK)]
    Check {
        /// Whole maps (.osm.pbf) or single blocks
        #[arg(value_name = "FILE", required = true)]
        files: Vec<PathBuf>,
        /// Prints one JSON object for scripts
        #[arg(long)]
        json: bool,
    },
    /// Prints what the blocks hold, a line an element
    #[command(after_help = LIST)]
    List {
        /// A whole map (.osm.pbf) or a single block
        #[arg(value_name = "FILE")]
        file: PathBuf,
        /// Adds the metadata: version, timestamp, changeset, user, visible
        #[arg(long)]
        full: bool,
    },
    /// Says whether two files list the same, or the first difference
    #[command(after_help = COMPARE)]
    Compare {
        /// A whole map (.osm.pbf) or a single block
        #[arg(value_name = "A")]
        first: PathBuf,
        /// The one that it is compared with
        #[arg(value_name = "B")]
        second: PathBuf,
    },
    /// Draws paths, fences and waters as a picture, SVG
    #[command(after_help = DRAW)]
    Draw {
        /// A whole map (.osm.pbf) or a single block
        #[arg(value_name = "FILE")]
        file: PathBuf,
        /// The picture's file
        #[arg(short, long, value_name = "map.svg")]
        output: PathBuf,
    },
    /// Writes one page for a ticket: outcomes, totals and the drawing, HTML
    #[command(after_help = REPORT)]
    Report {
        /// A whole map (.osm.pbf) or a single block
        #[arg(value_name = "FILE")]
        file: PathBuf,
        /// The page's file
        #[arg(short, long, value_name = "report.html")]
        output: PathBuf,
    },
    /// Takes a map apart: writes each of its blocks into a file of its own
    #[command(after_help = BLOCKS)]
    Blocks {
        /// A whole map (.osm.pbf)
        #[arg(value_name = "FILE.osm.pbf")]
        file: PathBuf,
        /// The folder for the blocks, which is made where it is missing
        #[arg(short, long, value_name = "DIR")]
        output: PathBuf,
    },
    /// Prints the completion for bash: source <(mapblock completion)
    Completion,
}

/// What was typed; where that is no command, prints the help that was asked
/// for, or says in one line what was not understood.
pub fn parse() -> Result<Command, Status> {
    let how = match Cli::try_parse() {
        Ok(cli) => return Ok(cli.command),
        Err(how) => how,
    };
    let is_help = how.kind() == ErrorKind::DisplayHelpOnMissingArgumentOrSubcommand;
    if is_help || !how.use_stderr() {
        // Where the output is closed, nobody is left to teach.
        let _ = how.print();
    } else {
        let why = one_line(&how.to_string());
        let _ = writeln!(
            io::stderr(),
            "mapblock: {why}; mapblock --help says what there is"
        );
    }
    let status = if how.use_stderr() {
        Status::Unread
    } else {
        Status::Fine
    };
    Err(status)
}

/// The first paragraph of a complaint, and the one that has a suggestion.
fn one_line(complaint: &str) -> String {
    let line = |paragraph: &str| paragraph.split_whitespace().collect::<Vec<_>>().join(" ");
    let mut paragraphs = complaint.split("\n\n");
    let first = line(paragraphs.next().unwrap_or_default());
    let first = first.strip_prefix("error: ").unwrap_or(&first);
    match paragraphs.find(|words| words.contains("Did you mean")) {
        Some(suggestion) => format!("{first} ({})", line(suggestion)),
        None => first.to_string(),
    }
}

/// Prints what bash needs to complete the command line.
pub fn completion(out: &mut dyn Write) -> io::Result<Status> {
    // Into memory first: the generator panics where its output is closed.
    let mut script = Vec::new();
    generate(Shell::Bash, &mut Cli::command(), "mapblock", &mut script);
    out.write_all(&script)?;
    Ok(Status::Fine)
}
