//! Outcomes as lines of text: what was found on standard output, what keeps a
//! file from being read on standard error.

use std::io::{self, Write};
use std::path::Path;

use super::Checked;
use crate::outcomes::Refusal;
use crate::output::complain;
use crate::text::counted;
use crate::words;

/// Says what came of a file.
pub fn tell(path: &Path, checked: &Result<Checked, String>, out: &mut dyn Write) -> io::Result<()> {
    let checked = match checked {
        Ok(checked) => checked,
        Err(why) => {
            complain(path, why);
            return Ok(());
        }
    };
    let name = path.display();
    for refusal in &checked.refused {
        tell_refusal(path, checked.is_pbf, refusal, out)?;
    }
    // What was found stands before the complaints where both go to one place.
    out.flush()?;
    for damage in &checked.damaged {
        complain(path, damage);
    }
    let blocks = counted(checked.blocks(), "block");
    match (checked.is_pbf, checked.accepted, checked.refused.len()) {
        (false, 1, _) => writeln!(out, "{name}: accepted"),
        (false, ..) => Ok(()),
        (true, 0, 0) if !checked.damaged.is_empty() => Ok(()),
        (true, 0, 0) => writeln!(out, "{name}: no blocks"),
        (true, _, 0) => writeln!(out, "{name}: {blocks}, all accepted"),
        (true, accepted, refused) => {
            writeln!(
                out,
                "{name}: {blocks}, {accepted} accepted, {refused} refused"
            )
        }
    }
}

fn tell_refusal(
    path: &Path,
    is_pbf: bool,
    refusal: &Refusal,
    out: &mut dyn Write,
) -> io::Result<()> {
    let Refusal {
        block,
        at,
        number,
        place,
    } = refusal;
    let words = words::of(*number);
    let which = if is_pbf {
        format!("block {block}, whose blob is at byte {at} of the file, is refused")
    } else {
        "refused".to_string()
    };
    writeln!(out, "{}: {which} with number {number}", path.display())?;
    writeln!(out, "    means  {}", words.means)?;
    if let Some(place) = place {
        writeln!(out, "    where  {place}")?;
    }
    writeln!(out, "    mend   {}", words.mend)
}
