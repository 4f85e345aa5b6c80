//! What the C header says: its numbers, and the functions that are linked.
//! Whatever else stands where one of them would is an error, so that nothing
//! of the header is passed over in silence.

pub struct Header {
    pub constants: Vec<Constant>,
    pub functions: Vec<Function>,
}

/// `#define NUORPYTS_NAME 8u`.
pub struct Constant {
    pub name: String,
    pub value: u64,
    /// Whether it is a code: `nuorpyts_text` has a case for each.
    pub is_code: bool,
}

/// `uint32_t nuorpyts_name(..);`, which returns a code.
pub struct Function {
    pub name: String,
    pub arguments: Vec<Argument>,
}

pub enum Argument {
    /// `const uint8_t *name, size_t name_len`: bytes that are read.
    Read(String),
    /// The same without `const`: bytes that may be written.
    Written(String),
    /// `size_t name`.
    Size(String),
    /// `uint32_t name`.
    Number32(String),
}

pub fn read(text: &str) -> Result<Header, String> {
    let mut header = Header {
        constants: Vec::new(),
        functions: Vec::new(),
    };
    for (number, line) in text.lines().enumerate() {
        let at = |how: String| format!("line {}: {how}", number + 1);
        if let Some(define) = line.strip_prefix("#define NUORPYTS_") {
            header.constants.extend(constant(define, text).map_err(at)?);
        } else if is_declaration(line) {
            header.functions.push(function(line).map_err(at)?);
        }
    }
    Ok(header)
}

/// The constant that a line defines; none where it is the header's guard, a
/// macro with arguments or a text.
fn constant(define: &str, text: &str) -> Result<Option<Constant>, String> {
    let mut words = define.split_whitespace();
    let (name, value) = (words.next().unwrap_or(""), words.next());
    let Some(value) = value.filter(|value| !name.contains('(') && !value.starts_with('"')) else {
        return Ok(None);
    };
    let digits = value
        .strip_suffix('u')
        .and_then(|digits| digits.parse().ok());
    let value = digits.ok_or(format!("NUORPYTS_{name} is no number with a u behind it"))?;
    Ok(Some(Constant {
        name: name.to_string(),
        value,
        is_code: text.contains(&format!("case NUORPYTS_{name}:")),
    }))
}

/// A line that names a function at its start, and does not define it.
fn is_declaration(line: &str) -> bool {
    let starts = line.starts_with(|first: char| first.is_ascii_alphabetic());
    starts && line.contains("nuorpyts_") && !line.starts_with("static inline ")
}

fn function(line: &str) -> Result<Function, String> {
    let parts = line.strip_prefix("uint32_t nuorpyts_");
    let parts = parts.and_then(|line| line.strip_suffix(");")?.split_once('('));
    let (name, list) = parts.ok_or("a function is `uint32_t nuorpyts_name(..);` in one line")?;
    let mut words = list.split(", ");
    let mut arguments = Vec::new();
    while let Some(word) = words.next() {
        arguments.push(argument(word, &mut words)?);
    }
    Ok(Function {
        name: name.to_string(),
        arguments,
    })
}

/// An argument; that of a pointer takes the length behind it too.
fn argument<'a>(word: &str, rest: &mut impl Iterator<Item = &'a str>) -> Result<Argument, String> {
    let named = |kind: &str| word.strip_prefix(kind).map(str::to_string);
    let (pointer, made): (String, fn(String) -> Argument) =
        match (named("const uint8_t *"), named("uint8_t *")) {
            (Some(name), _) => (name, Argument::Read),
            (_, Some(name)) => (name, Argument::Written),
            _ => {
                let size = named("size_t ").map(Argument::Size);
                let number = size.or(named("uint32_t ").map(Argument::Number32));
                return number.ok_or(format!("`{word}` is no argument that Rust can pass"));
            }
        };
    if rest.next() != Some(&format!("size_t {pointer}_len")) {
        return Err(format!("behind `{word}` there is no size_t {pointer}_len"));
    }
    Ok(made(pointer))
}
