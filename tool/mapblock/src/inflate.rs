//! zlib data inflated up to a limit, so that a few bytes that stand for
//! gigabytes cost no more memory than the longest block.

use flate2::{Decompress, FlushDecompress, Status};

/// How much room is made at first and whenever it is used up.
const STEP: usize = 1 << 18;

/// The content of a whole zlib stream of at most `limit` bytes, or what is
/// wrong in words.
pub fn inflate(data: &[u8], limit: usize) -> Result<Vec<u8>, String> {
    let mut stream = Decompress::new(true);
    let mut content = Vec::with_capacity(STEP);
    loop {
        // Never more than the data's length, which is in memory.
        let taken = stream.total_in() as usize;
        let before = content.len();
        let status = stream
            .decompress_vec(&data[taken..], &mut content, FlushDecompress::None)
            .map_err(|_| "its zlib data are damaged".to_string())?;
        if content.len() > limit {
            return Err(format!(
                "its zlib data inflate past {limit} bytes, the longest block that is read"
            ));
        }
        if status == Status::StreamEnd {
            return Ok(content);
        }
        if content.len() < content.capacity()
            && stream.total_in() as usize == taken
            && content.len() == before
        {
            return Err("its zlib data are cut".to_string());
        }
        content.reserve(STEP);
    }
}

#[cfg(test)]
mod tests {
    use std::io::Write;

    use flate2::Compression;
    use flate2::write::ZlibEncoder;

    use super::inflate;

    fn deflate(content: &[u8]) -> Vec<u8> {
        let mut encoder = ZlibEncoder::new(Vec::new(), Compression::default());
        encoder.write_all(content).expect("memory takes all");
        encoder.finish().expect("memory takes all")
    }

    #[test]
    fn what_was_deflated_comes_back() {
        for len in [0, 1, 1 << 18, (1 << 18) + 1, 1 << 20] {
            let content = vec![7; len];
            assert_eq!(inflate(&deflate(&content), len), Ok(content));
        }
    }

    #[test]
    fn a_bomb_a_cut_and_damage_are_told() {
        let bomb = inflate(&deflate(&vec![0; 1000]), 999);
        assert!(bomb.is_err_and(|how| how.contains("inflate past 999 bytes")));
        let whole = deflate(b"some words to be cut");
        for len in 0..whole.len() {
            let cut = inflate(&whole[..len], 100);
            assert_eq!(cut, Err("its zlib data are cut".to_string()), "{len}");
        }
        let mut damaged = whole;
        damaged[0] = 0;
        assert_eq!(
            inflate(&damaged, 100),
            Err("its zlib data are damaged".to_string())
        );
    }
}
