//! What a trusted reader sees: a line of `osmium cat -f opl,add_metadata=false`
//! read back, and the same from an element of the plain listing. An OPL line
//! is the kind and id, then `T` tags, `x` and `y` position, `N` references,
//! `M` members; text has `%` code point `%` for what would be mistaken.

use reader::MemberId;
use reader::listing::{Kind, Listed, Listing};
use reader::walk::nanodegrees;

/// An element as OPL tells it. A position is in units of 1e-7 degrees.
#[derive(Debug, Default, PartialEq, Eq)]
pub struct OplElement {
    pub kind: char,
    pub id: i64,
    pub position: Option<(i64, i64)>,
    pub tags: Vec<(Vec<u8>, Vec<u8>)>,
    pub refs: Vec<i64>,
    pub members: Vec<(char, i64, Vec<u8>)>,
}

/// The element of a listing, as OPL would tell it.
pub fn of_listed(listing: &Listing<'_>, element: &Listed<'_>) -> OplElement {
    let degrees = |offset, raw| nanodegrees(offset, listing.granularity, raw) / 100;
    OplElement {
        kind: match element.kind {
            Kind::DenseNode | Kind::Node => 'n',
            Kind::Way => 'w',
            Kind::Relation => 'r',
        },
        id: element.id,
        position: element.position.map(|(lat, lon)| {
            (
                degrees(listing.lat_offset, lat),
                degrees(listing.lon_offset, lon),
            )
        }),
        tags: element
            .tags
            .iter()
            .map(|(k, v)| (k.to_vec(), v.to_vec()))
            .collect(),
        refs: element.refs.clone(),
        members: element
            .members
            .iter()
            .map(|m| {
                let (kind, id) = member(m.id);
                (kind, id, m.role.unwrap_or(b"(no text)").to_vec())
            })
            .collect(),
    }
}

fn member(id: MemberId) -> (char, i64) {
    match id {
        MemberId::Node(id) => ('n', id),
        MemberId::Way(id) => ('w', id),
        MemberId::Relation(id) => ('r', id),
        MemberId::Unknown(_, id) => ('?', id),
    }
}

/// The element of a line; none where the line is not read.
pub fn of_line(line: &str) -> Option<OplElement> {
    let mut words = line.split(' ');
    let (kind, id) = kind_and_id(words.next()?)?;
    let mut element = OplElement {
        kind,
        id,
        ..OplElement::default()
    };
    let (mut x, mut y) = (None, None);
    for word in words {
        let (what, value) = word.split_at_checked(1)?;
        let items = value.split(',').filter(|item| !item.is_empty());
        match what {
            "T" => element.tags = items.map(tag).collect::<Option<_>>()?,
            "x" => x = degrees(value),
            "y" => y = degrees(value),
            "N" => element.refs = items.map(reference).collect::<Option<_>>()?,
            "M" => element.members = items.map(role_and_member).collect::<Option<_>>()?,
            _ => return None,
        }
    }
    element.position = y.zip(x);
    Some(element)
}

fn kind_and_id(word: &str) -> Option<(char, i64)> {
    let kind = word.chars().next()?;
    Some((kind, word.get(1..)?.parse().ok()?))
}

fn tag(item: &str) -> Option<(Vec<u8>, Vec<u8>)> {
    let (key, value) = item.split_once('=')?;
    Some((text(key)?, text(value)?))
}

/// `n17`, or `n17x9.5y47.1` where the way holds positions.
fn reference(item: &str) -> Option<i64> {
    let id = item.strip_prefix('n')?;
    id.split('x').next()?.parse().ok()
}

fn role_and_member(item: &str) -> Option<(char, i64, Vec<u8>)> {
    let (member, role) = item.split_once('@')?;
    let (kind, id) = kind_and_id(member)?;
    Some((kind, id, text(role)?))
}

/// A decimal number of degrees in units of 1e-7; it has at most 7 decimals.
fn degrees(value: &str) -> Option<i64> {
    let (sign, digits) = match value.strip_prefix('-') {
        Some(digits) => (-1, digits),
        None => (1, value),
    };
    let (whole, decimals) = digits.split_once('.').unwrap_or((digits, ""));
    if decimals.len() > 7 {
        return None;
    }
    let units: i64 = format!("{whole}{decimals:0<7}").parse().ok()?;
    Some(sign * units)
}

/// Text with each `%` code point `%` put back.
fn text(value: &str) -> Option<Vec<u8>> {
    let mut out = String::new();
    for (i, piece) in value.split('%').enumerate() {
        if i % 2 == 0 {
            out.push_str(piece);
        } else {
            out.push(char::from_u32(u32::from_str_radix(piece, 16).ok()?)?);
        }
    }
    Some(out.into_bytes())
}

#[cfg(test)]
mod tests {
    use super::{OplElement, degrees, of_line, text};

    #[test]
    fn degrees_have_a_sign_and_up_to_seven_decimals() {
        assert_eq!(degrees("-0.0000001"), Some(-1));
        assert_eq!(degrees("9.5"), Some(95_000_000));
        assert_eq!(degrees("-180"), Some(-1_800_000_000));
        assert_eq!(degrees("0.00000001"), None);
    }

    #[test]
    fn code_points_are_put_back() {
        assert_eq!(
            text("a%20%b%2013%").as_deref(),
            Some("a b\u{2013}".as_bytes())
        );
        assert_eq!(text("%zz%"), None);
    }

    #[test]
    fn a_relation_is_read() {
        let line = "r7 Ttype=route Mn1@,w-2@out%20%er,r3@x";
        let element = OplElement {
            kind: 'r',
            id: 7,
            tags: vec![(b"type".to_vec(), b"route".to_vec())],
            members: vec![
                ('n', 1, b"".to_vec()),
                ('w', -2, b"out er".to_vec()),
                ('r', 3, b"x".to_vec()),
            ],
            ..OplElement::default()
        };
        assert_eq!(of_line(line), Some(element));
    }
}
