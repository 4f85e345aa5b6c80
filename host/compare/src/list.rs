//! The fixed list: questions with their answers, one a line, as
//! vectors/README.md describes. It is written from what the published Rust
//! answers where the simple reader agrees (`p`), and from the simple reader
//! where the Rust has no answer (`r`); and it is checked against both again,
//! and against the proved library where that is linked and has an answer.
//! The walks stand in a file of their own beside the other questions, since a
//! program of its own replays them, and a program is run on its own files.

use std::fs;
use std::path::{Path, PathBuf};

use crate::by_c;
use crate::by_published;
use crate::by_reader;
use crate::question::Ask;
use crate::samples::{self, Question};
use crate::text::{Words, parse_bytes};

/// The file of the walks, beside that of the other questions.
fn walks_beside(path: &str) -> PathBuf {
    Path::new(path).with_file_name("walks.txt")
}

/// Writes the list; an error where the two sides differ.
pub fn write(path: &str) -> Result<(), String> {
    let (walks, others): (Vec<_>, Vec<_>) = samples::questions()
        .into_iter()
        .partition(|(ask, _)| ask.is_walk());
    write_file(Path::new(path), &others)?;
    write_file(&walks_beside(path), &walks)
}

fn write_file(path: &Path, questions: &[Question]) -> Result<(), String> {
    let commit = by_published::COMMIT.ok_or("the published Rust is not at hand")?;
    let mut text = format!(
        "# Answers to small questions, as vectors/README.md describes. Made by `host/run write-list`\n\
         # from folknor/pbfhogg {commit} (p) and the simple reader in host/reader (r).\n"
    );
    for (ask, bytes) in questions {
        text.push_str(&line(*ask, bytes)?);
        text.push('\n');
    }
    fs::write(path, text).map_err(|e| format!("{}: {e}", path.display()))?;
    println!("{}: {} lines written", path.display(), questions.len());
    Ok(())
}

fn line(ask: Ask, bytes: &[u8]) -> Result<String, String> {
    let reader = by_reader::answer(ask, bytes);
    let by = match by_published::answer(ask, bytes) {
        Some(published) if published == reader => 'p',
        Some(published) => return Err(format!("{ask:?}: {reader} or {published}")),
        None => 'r',
    };
    let mut out = Words::new();
    out.put(ask.name()).put(by).bytes(bytes);
    for number in ask.numbers() {
        out.put(number);
    }
    out.put('=').put(reader);
    Ok(out.done())
}

/// Checks every line; how many hold, or the first one that differs.
pub fn check(path: &str) -> Result<String, String> {
    let others = check_file(Path::new(path))?;
    let walks = check_file(&walks_beside(path))?;
    let (count, through_c) = (others.0 + walks.0, others.1 + walks.1);
    let mut text = format!("{count} answers hold by the simple reader");
    if by_published::COMMIT.is_some() {
        text.push_str(", and by the published Rust where it has one");
    }
    if by_c::ARCHIVE.is_some() {
        text.push_str(&format!(", and {through_c} of them through C"));
    }
    Ok(text)
}

/// How many lines a file has, and how many of them were asked through C too.
fn check_file(path: &Path) -> Result<(u64, u64), String> {
    let name = path.display();
    let text = fs::read_to_string(path).map_err(|e| format!("{name}: {e}"))?;
    let (mut count, mut through_c) = (0, 0);
    for (number, line) in text.lines().enumerate() {
        if !line.starts_with('#') {
            let asked = check_line(line).map_err(|how| format!("{name}:{}: {how}", number + 1))?;
            count += 1;
            through_c += u64::from(asked);
        }
    }
    Ok((count, through_c))
}

/// Whether the line was asked through C too.
fn check_line(line: &str) -> Result<bool, String> {
    let (ask, bytes, by, expected) = parse(line).ok_or("the line is not understood")?;
    let reader = by_reader::answer(ask, &bytes);
    if reader != expected {
        return Err(format!("the simple reader says {reader}"));
    }
    check_published(ask, &bytes, by, expected)?;
    check_through_c(ask, &bytes, expected)
}

/// The letter must be right too, where the published Rust is at hand.
fn check_published(ask: Ask, bytes: &[u8], by: &str, expected: &str) -> Result<(), String> {
    if by_published::COMMIT.is_none() {
        return Ok(());
    }
    match by_published::answer(ask, bytes) {
        Some(answer) if answer == expected && by == "p" => Ok(()),
        None if by == "r" => Ok(()),
        answer => Err(format!("the published Rust says {answer:?}")),
    }
}

fn check_through_c(ask: Ask, bytes: &[u8], expected: &str) -> Result<bool, String> {
    match by_c::answer(ask, bytes) {
        Some(answer) if answer != expected => Err(format!("through C it is {answer}")),
        answer => Ok(answer.is_some()),
    }
}

/// Question, bytes, by whom, answer.
fn parse(line: &str) -> Option<(Ask, Vec<u8>, &str, &str)> {
    let (question, answer) = line.split_once(" = ")?;
    let mut words = question.split(' ');
    let (name, by) = (words.next()?, words.next()?);
    let bytes = parse_bytes(words.next()?)?;
    let numbers: Vec<u64> = words.map(|word| word.parse().ok()).collect::<Option<_>>()?;
    Some((Ask::parse(name, &numbers)?, bytes, by, answer))
}
