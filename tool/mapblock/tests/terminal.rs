//! What comes with the tool: the page of the manual, the completion for bash,
//! and the bar that only a terminal sees.

mod common;

use std::process::Command;

use clap::CommandFactory;
use common::{file, folder, mapblock, pbf, ran, run};
use generate::encode::len_field;
use mapblock::cli::Cli;
use mapblock::words;

const MANUAL: &str = include_str!("../../mapblock.1");
const COMPLETION: &str = include_str!("../../mapblock.bash");

#[test]
fn the_manual_has_every_command_and_option() {
    let plain = MANUAL.replace("\\-", "-");
    for command in Cli::command().get_subcommands() {
        assert!(plain.contains(&format!("mapblock {}", command.get_name())));
        for long in command
            .get_arguments()
            .filter_map(|option| option.get_long())
        {
            assert!(plain.contains(&format!("--{long}")), "--{long}");
        }
    }
    assert!(plain.contains(env!("CARGO_PKG_VERSION")));
}

#[test]
fn the_manual_has_the_words_of_every_number_of_a_block() {
    for number in 1..=12 {
        let means = words::of(number).means;
        let entry = format!(".TP\n.B {number}\n{means}\n");
        assert!(MANUAL.contains(&entry), "{number}");
    }
}

#[test]
fn the_completion_is_what_the_tool_prints() {
    let printed = run(&folder("completion"), &["completion"]);
    assert_eq!((printed.status, printed.err.as_str()), (0, ""));
    assert!(
        printed.out == COMPLETION,
        "make it again: tool/run completion > tool/mapblock.bash"
    );
}

#[test]
fn bash_completes_commands_and_options() {
    let folder = folder("bash");
    file(&folder, "mapblock.bash", COMPLETION.as_bytes());
    for (typed, completed) in [("co", "compare completion"), ("che", "check")] {
        let script = format!(
            "source ./mapblock.bash; COMP_WORDS=(mapblock {typed}); COMP_CWORD=1; \
             _mapblock mapblock {typed} mapblock; echo \"${{COMPREPLY[*]}}\""
        );
        let output = Command::new("bash")
            .current_dir(&folder)
            .args(["-c", &script])
            .output()
            .expect("bash runs");
        assert_eq!(ran(output).out, format!("{completed}\n"));
    }
}

/// Runs a check under a terminal that `script` makes, and gives what a person
/// would see of it; none where there is no `script`.
fn at_a_terminal(folder: &std::path::Path, name: &str) -> Option<String> {
    let tool = mapblock().get_program().to_string_lossy().to_string();
    let output = Command::new("script")
        .current_dir(folder)
        .env("TERM", "xterm")
        .args(["-qec", &format!("'{tool}' check {name}"), "/dev/null"])
        .output()
        .ok()?;
    Some(String::from_utf8_lossy(&output.stdout).to_string())
}

#[test]
fn a_bar_is_shown_of_a_long_file_at_a_terminal_alone() {
    let folder = folder("bar");
    let block = len_field(15, &vec![0; 1 << 20]);
    file(&folder, "long.osm.pbf", &pbf(&[&block[..]; 40]));
    file(&folder, "short.osm.pbf", &pbf(&[b""]));
    let told = "long.osm.pbf: 40 blocks, all accepted";
    let piped = run(&folder, &["check", "long.osm.pbf"]);
    assert_eq!((piped.out, piped.err.as_str()), (format!("{told}\n"), ""));
    let Some(long) = at_a_terminal(&folder, "long.osm.pbf") else {
        println!("script is not at hand");
        return;
    };
    assert!(long.contains("to go") && long.contains(told), "{long:?}");
    let short = at_a_terminal(&folder, "short.osm.pbf").expect("script runs again");
    assert!(!short.contains("to go"), "{short:?}");
}
