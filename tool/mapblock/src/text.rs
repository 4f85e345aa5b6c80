//! Elements in words and texts in quotes, the same in every command.

use crate::elements::{Element, Member, MemberKind};

/// A text in quotes, on one line. Bytes that are not UTF-8 stand as `\xNN`,
/// control characters as `\u{N}`.
pub fn quoted(text: &[u8]) -> String {
    let mut out = String::from("\"");
    for chunk in text.utf8_chunks() {
        for letter in chunk.valid().chars() {
            match letter {
                '"' | '\\' => out.extend(['\\', letter]),
                '\n' => out.push_str("\\n"),
                letter if letter.is_control() => out.extend(letter.escape_unicode()),
                letter => out.push(letter),
            }
        }
        for byte in chunk.invalid() {
            out.push_str(&format!("\\x{byte:02X}"));
        }
    }
    out.push('"');
    out
}

/// `1 block`, `7 blocks`.
pub fn counted(count: usize, what: &str) -> String {
    let plural = if count == 1 { "" } else { "s" };
    format!("{count} {what}{plural}")
}

/// `"highway"="path"`.
pub fn tag((key, value): &(Vec<u8>, Vec<u8>)) -> String {
    format!("{}={}", quoted(key), quoted(value))
}

/// `way 17`.
pub fn name(element: &Element) -> String {
    format!("{} {}", element.kind.name(), element.id)
}

/// `way 17 "outer"`.
pub fn member(member: &Member) -> String {
    let kind = match member.kind {
        MemberKind::Node => "node".to_string(),
        MemberKind::Way => "way".to_string(),
        MemberKind::Relation => "relation".to_string(),
        MemberKind::Unknown(number) => format!("type {number}"),
    };
    let role = member.role.as_deref().map(quoted);
    let role = role.unwrap_or("without a role text".to_string());
    format!("{kind} {} {role}", member.id)
}

/// Nanodegrees as degrees, exact.
pub fn degrees(nanodegrees: i64) -> String {
    let sign = if nanodegrees < 0 { "-" } else { "" };
    let digits = nanodegrees.unsigned_abs();
    format!(
        "{sign}{}.{:09}",
        digits / 1_000_000_000,
        digits % 1_000_000_000
    )
}

#[cfg(test)]
mod tests {
    use super::{degrees, quoted};

    #[test]
    fn texts_stay_on_one_line() {
        assert_eq!(quoted(b"a\"b\\c\nd"), r#""a\"b\\c\nd""#);
        assert_eq!(quoted("Säntis".as_bytes()), "\"Säntis\"");
        assert_eq!(quoted(b"\xFFx\x01"), r#""\xFFx\u{1}""#);
    }

    #[test]
    fn degrees_are_exact_at_both_ends() {
        assert_eq!(degrees(-1), "-0.000000001");
        assert_eq!(degrees(47_123_456_700), "47.123456700");
        assert_eq!(degrees(i64::MIN), "-9223372036.854775808");
    }
}
