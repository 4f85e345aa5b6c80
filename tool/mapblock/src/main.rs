use std::io::{self, BufWriter, Write};
use std::process::ExitCode;

use mapblock::cli::{self, Command};
use mapblock::output::Status;
use mapblock::{blocks, check, compare, draw, list, report};

fn main() -> ExitCode {
    let command = match cli::parse() {
        Ok(command) => command,
        Err(status) => return ExitCode::from(status as u8),
    };
    let mut out = BufWriter::new(io::stdout().lock());
    let ended = run(command, &mut out).and_then(|status| {
        out.flush()?;
        Ok(status)
    });
    let status = ended.unwrap_or_else(|how| match how.kind() {
        // Whoever read the pipe has seen enough.
        io::ErrorKind::BrokenPipe => Status::Fine,
        _ => {
            let _ = writeln!(io::stderr(), "mapblock: the output can't be written: {how}");
            Status::Unread
        }
    });
    ExitCode::from(status as u8)
}

fn run(command: Command, out: &mut dyn Write) -> io::Result<Status> {
    match command {
        Command::Check { files, json } => check::run(&files, json, out),
        Command::List { file, full } => list::run(&file, full, out),
        Command::Compare { first, second } => compare::run(&first, &second, out),
        Command::Draw { file, output } => draw::run(&file, &output, out),
        Command::Report { file, output } => report::run(&file, &output, out),
        Command::Blocks { file, output } => blocks::run(&file, &output, out),
        Command::Completion => cli::completion(out),
    }
}
