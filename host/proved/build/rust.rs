//! The Rust of a header: its constants without their prefix, codes as `u32`
//! and all others as `usize`; its functions; and for each a safe one without
//! the prefix, which takes a pointer and its length as one slice.

use crate::header::{Argument, Constant, Function, Header};

pub fn text(header: &Header) -> String {
    let constants: String = header.constants.iter().map(constant).collect();
    let declared: String = header.functions.iter().map(declaration).collect();
    let safe: String = header.functions.iter().map(safe).collect();
    format!("{constants}unsafe extern \"C\" {{\n{declared}}}\n{safe}")
}

fn constant(constant: &Constant) -> String {
    let kind = if constant.is_code { "u32" } else { "usize" };
    let Constant { name, value, .. } = constant;
    format!("/// `NUORPYTS_{name}`.\npub const {name}: {kind} = {value};\n")
}

fn declaration(function: &Function) -> String {
    let arguments = list(function, |argument| match argument {
        Argument::Read(name) => format!("{name}: *const u8, {name}_len: usize"),
        Argument::Written(name) => format!("{name}: *mut u8, {name}_len: usize"),
        Argument::Size(name) => format!("{name}: usize"),
        Argument::Number32(name) => format!("{name}: u32"),
    });
    format!("fn nuorpyts_{}({arguments}) -> u32;\n", function.name)
}

/// Bytes that are only read are taken by `&mut` too, as `src/lib.rs` explains.
fn safe(function: &Function) -> String {
    let taken = list(function, |argument| match argument {
        Argument::Read(name) | Argument::Written(name) => format!("{name}: &mut [u8]"),
        Argument::Size(name) => format!("{name}: usize"),
        Argument::Number32(name) => format!("{name}: u32"),
    });
    let passed = list(function, |argument| match argument {
        Argument::Read(name) | Argument::Written(name) => {
            format!("{name}.as_mut_ptr(), {name}.len()")
        }
        Argument::Size(name) | Argument::Number32(name) => name.clone(),
    });
    let name = &function.name;
    // `ref` is a word of Rust.
    let word = if name == "ref" { "r#" } else { "" };
    format!(
        "/// `nuorpyts_{name}`.\n#[inline]\npub fn {word}{name}({taken}) -> u32 {{\n\
         unsafe {{ nuorpyts_{name}({passed}) }}\n}}\n"
    )
}

fn list(function: &Function, each: fn(&Argument) -> String) -> String {
    let words: Vec<String> = function.arguments.iter().map(each).collect();
    words.join(", ")
}
