//! Takes the published Rust (folknor/pbfhogg) at build time and lays it into
//! OUT_DIR: wire.rs, dense.rs, elements.rs and wire_schema.rs whole, and of
//! block.rs the items that document 01 ports. Two things change in the text:
//! every item and field becomes public, so that the comparison can read it,
//! and one macro loses its crate path, since the modules are included. No
//! published file is kept in this repository.

use std::path::{Path, PathBuf};
use std::{env, fs};

const REPOSITORY: &str = "folknor/pbfhogg";
const COMMIT: &str = "3f8ed0ece3";

/// Modules taken whole; `elements` first, since it defines a macro that
/// `dense` uses.
const WHOLE: [&str; 4] = ["elements", "dense", "wire", "wire_schema"];

/// The items of block.rs that document 01 ports, by their first line without
/// its visibility.
const BLOCK_ITEMS: [&str; 27] = [
    "enum BlockType",
    "fn classify_group(",
    "fn packed_varint_count(",
    "fn packed_varint_count_exact(",
    "fn overlong_varint_err(",
    "fn packed_uint32_count(",
    "trait GroupProjection",
    "struct NoProjection;",
    "impl GroupProjection for NoProjection",
    "fn validate_groups<",
    "fn validate_tag_arrays(",
    "fn validate_dense_keys_vals(",
    "fn validate_dense_info_arrays<",
    "fn validate_way_geometry_arrays(",
    "fn validate_relation_member_arrays(",
    "fn validate_info(",
    "fn validated<",
    "fn construction_invariant_broken(",
    "fn arrays_end_together(",
    "fn parallel_arrays_differ(",
    "fn validated_dense<",
    "struct BlockElementsIter<",
    "enum ElementsIterState",
    "impl<'a> BlockElementsIter<",
    "impl<'a> Iterator for BlockElementsIter<",
    "fn str_from_stringtable<",
    "fn get_stringtable_key_value<",
];

/// The part of block.rs's own imports that those items need.
const BLOCK_IMPORTS: &str = "\
use super::dense::DenseNodeIter;
use super::elements::{Element, Node, Relation, Way};
use super::wire::{
    WireBlock, WireDenseInfo, WireDenseNodes, WireGroup, WireMessageIter, WireNode, WireRelation,
    WireWay,
};
use crate::error::{Result, new_stringtable_index_out_of_bounds, new_wire_error};

";

fn main() {
    println!("cargo::rerun-if-changed=build.rs");
    println!("cargo::rerun-if-env-changed=PBFHOGG_SRC");
    if let Err(sentence) = build() {
        println!("cargo::error={sentence}");
    }
}

fn build() -> Result<(), String> {
    let read = source().join("src/read");
    let out = PathBuf::from(env::var("OUT_DIR").map_err(|e| e.to_string())?);
    let mut modules = String::new();
    for name in WHOLE {
        let text = published(&read, name)?;
        write(&out, name, &make_public(&text), &mut modules)?;
    }
    let items = pick(&published(&read, "block")?)?;
    let block = format!("{BLOCK_IMPORTS}{}", make_public(&items));
    write(&out, "block", &block, &mut modules)?;
    save(&out.join("read.rs"), &modules)?;
    println!("cargo::rustc-env=PBFHOGG_COMMIT={COMMIT}");
    Ok(())
}

/// `PBFHOGG_SRC`, or shared/docs/src beside the repository.
fn source() -> PathBuf {
    match env::var_os("PBFHOGG_SRC") {
        Some(path) => PathBuf::from(path),
        None => Path::new(&env::var_os("CARGO_MANIFEST_DIR").unwrap_or_default())
            .join("../../../shared/docs/src"),
    }
}

fn published(read: &Path, name: &str) -> Result<String, String> {
    let path = read.join(format!("{name}.rs"));
    println!("cargo::rerun-if-changed={}", path.display());
    fs::read_to_string(&path).map_err(|_| {
        format!(
            "the published Rust is missing: fetch repository {REPOSITORY} at commit {COMMIT} and \
             put it into shared/docs/src beside the repository, or name its place in PBFHOGG_SRC"
        )
    })
}

fn write(out: &Path, name: &str, text: &str, modules: &mut String) -> Result<(), String> {
    let path = out.join(format!("{name}.rs"));
    save(&path, text)?;
    modules.push_str(&format!(
        "#[macro_use]\n#[allow(dead_code, unused_macros, clippy::all)]\n#[path = {path:?}]\npub mod {name};\n"
    ));
    Ok(())
}

fn save(path: &Path, text: &str) -> Result<(), String> {
    fs::write(path, text).map_err(|e| format!("cannot write {}: {e}", path.display()))
}

/// The wanted items of block.rs, each with the comments and attributes over
/// it. An item ends at the first line that is a lone closing brace.
fn pick(text: &str) -> Result<String, String> {
    let mut found = [false; BLOCK_ITEMS.len()];
    let mut picked = String::new();
    let mut lead = String::new();
    let mut lines = text.lines();
    while let Some(line) = lines.next() {
        if line.starts_with("///") || line.starts_with("#[") {
            push_line(&mut lead, line);
            continue;
        }
        let bare = line
            .trim_start_matches("pub(crate) ")
            .trim_start_matches("pub(super) ")
            .trim_start_matches("pub ");
        if let Some(at) = BLOCK_ITEMS.iter().position(|item| bare.starts_with(item)) {
            found[at] = true;
            picked.push_str(&lead);
            push_line(&mut picked, line);
            if !line.ends_with(';') && !line.ends_with("{}") {
                take_body(&mut lines, &mut picked);
            }
            picked.push('\n');
        }
        lead.clear();
    }
    match found.iter().position(|&yes| !yes) {
        None => Ok(picked),
        Some(at) => Err(format!("block.rs has no item `{}`", BLOCK_ITEMS[at])),
    }
}

fn take_body<'a>(lines: &mut impl Iterator<Item = &'a str>, picked: &mut String) {
    for line in lines {
        push_line(picked, line);
        if line == "}" {
            return;
        }
    }
}

/// Where a line stands, as far as its visibility depends on it.
#[derive(Clone, Copy)]
enum Place {
    Top,
    Fields,
    Methods,
    Elsewhere,
}

/// The text with every item, field and method public, and every enum open to
/// a whole match.
fn make_public(text: &str) -> String {
    let mut out = String::new();
    let mut place = Place::Top;
    for line in text.lines().filter(|&line| line != "#[non_exhaustive]") {
        let line = line
            .replace("pub(crate) ", "pub ")
            .replace("pub(super) ", "pub ")
            .replace(
                "crate::impl_coordinate_conversions!",
                "impl_coordinate_conversions!",
            );
        push_line(&mut out, &public_line(&line, place));
        place = place_after(&line, place);
    }
    out
}

fn public_line(line: &str, place: Place) -> String {
    let indent = line.len() - line.trim_start().len();
    let rest = &line[indent..];
    let starts = |words: &[&str]| words.iter().any(|word| rest.starts_with(word));
    let private = match place {
        Place::Top => indent == 0 && starts(&["fn ", "struct ", "enum ", "trait ", "const "]),
        Place::Fields => {
            indent == 4
                && rest.starts_with(|c: char| c == '_' || c.is_ascii_lowercase())
                && !starts(&["pub "])
        }
        Place::Methods => indent == 4 && starts(&["fn ", "const "]),
        Place::Elsewhere => false,
    };
    if private {
        format!("{}pub {rest}", &line[..indent])
    } else {
        line.to_string()
    }
}

fn place_after(line: &str, place: Place) -> Place {
    if line == "}" {
        return Place::Top;
    }
    if line.starts_with([' ', '/', '#']) || !line.ends_with('{') {
        return place;
    }
    let bare = line.trim_start_matches("pub ");
    if bare.starts_with("struct ") {
        Place::Fields
    } else if bare.starts_with("impl") && !bare.contains(" for ") {
        Place::Methods
    } else {
        Place::Elsewhere
    }
}

fn push_line(out: &mut String, line: &str) {
    out.push_str(line);
    out.push('\n');
}
