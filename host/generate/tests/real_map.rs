//! Inflate on fixed streams, and the real map in the folder shared/data beside
//! the repository (or where MAP_FILE says), where it is at hand.

use std::path::PathBuf;

use generate::inflate::inflate_zlib;
use generate::primitive_blocks;
use reader::listing::Kind;
use reader::{check, content, listing, scan, walked};

#[test]
fn stored_fixed_and_dynamic_blocks() {
    let text = b"maps maps maps maps of reserves";
    let mut stored = vec![0x78, 0x01, 0x01, 0x1F, 0x00, 0xE0, 0xFF];
    stored.extend(text);
    stored.extend([0xB7, 0xBB, 0x0B, 0xA9]);
    assert_eq!(inflate_zlib(&stored).as_deref(), Ok(&text[..]));
    let fixed = [
        0x78, 0x01, 0xCB, 0x4D, 0x2C, 0x28, 0x56, 0xC8, 0x45, 0x25, 0xF2, 0xD3, 0x14, 0x8A, 0x52,
        0x8B, 0x53, 0x8B, 0xCA, 0x52, 0x8B, 0x01, 0xB7, 0xBB, 0x0B, 0xA9,
    ];
    assert_eq!(inflate_zlib(&fixed).as_deref(), Ok(&text[..]));
    let squares: String = (0..60).map(|i| format!("{},", i * i)).collect();
    assert_eq!(inflate_zlib(&DYNAMIC).as_deref(), Ok(squares.as_bytes()));
}

#[test]
fn cut_streams_are_refused() {
    for len in 0..DYNAMIC.len() {
        assert!(inflate_zlib(&DYNAMIC[..len]).is_err());
    }
    let mut changed = DYNAMIC;
    changed[DYNAMIC.len() - 1] ^= 1;
    assert_eq!(inflate_zlib(&changed), Err("zlib checksum differs"));
}

/// The squares of 0 to 59 in decimal, compressed with codes of their own.
#[rustfmt::skip]
const DYNAMIC: [u8; 136] = [
    0x78, 0xDA, 0x15, 0x8E, 0xC1, 0x01, 0xC0, 0x30, 0x08, 0x02, 0x17, 0xE2, 0xA1, 0xC6, 0x9A,
    0xB8, 0xFF, 0x62, 0x3D, 0x5E, 0x24, 0x0A, 0x78, 0xA1, 0x54, 0x6B, 0x95, 0xA3, 0xFA, 0x74,
    0x46, 0xBD, 0x9A, 0xD6, 0x4B, 0x65, 0x84, 0xB2, 0xD0, 0x6E, 0xB6, 0x38, 0x16, 0x0B, 0x9E,
    0xFA, 0xD0, 0xB7, 0x3A, 0xD5, 0xF8, 0x49, 0xE3, 0xEB, 0x46, 0x5F, 0xEB, 0xAB, 0xD5, 0x77,
    0x47, 0x83, 0x6F, 0xD0, 0xCB, 0xFF, 0x32, 0x7F, 0xEC, 0x17, 0xDF, 0x8E, 0x7B, 0x09, 0x66,
    0xD0, 0x90, 0x49, 0x55, 0xBA, 0x33, 0x8B, 0xF2, 0x3C, 0xBE, 0xD2, 0x3E, 0xF7, 0xF9, 0xEE,
    0x18, 0x60, 0x4C, 0x72, 0x21, 0xCA, 0xD7, 0x66, 0x80, 0xB0, 0xC2, 0x14, 0x69, 0xE2, 0x8A,
    0x55, 0x9D, 0x68, 0x55, 0x47, 0x42, 0x46, 0xA2, 0xC6, 0xAF, 0xEB, 0xD9, 0xF3, 0x76, 0xF1,
    0x1D, 0x27, 0x0E, 0xFD, 0x86, 0x86, 0xFC, 0xD0, 0x77, 0x9A, 0xE6, 0x1F, 0xA1, 0x01, 0x31,
    0x82,
];

#[test]
fn the_real_map_is_read_whole() {
    let beside = concat!(
        env!("CARGO_MANIFEST_DIR"),
        "/../../../shared/data/liechtenstein.osm.pbf"
    );
    let path = std::env::var_os("MAP_FILE").map_or_else(|| PathBuf::from(beside), PathBuf::from);
    let Ok(file) = std::fs::read(&path) else {
        println!("no map at {}: not tested", path.display());
        return;
    };
    let blocks = primitive_blocks(&file).expect("the map splits into blocks");
    let mut kinds = [0; 3];
    for block in &blocks {
        let mut buffer = block.clone();
        buffer.resize(block.len() * 2 + 1_000_000, 0);
        let record = scan(&mut buffer, block.len() as u64).expect("scanned");
        assert_eq!(check(&buffer, &record), Ok(()));
        let listing = listing(block).expect("listed");
        assert_eq!(walked(&buffer, &record).as_ref(), Ok(&listing));
        assert!(content(block).is_ok());
        for element in &listing.elements {
            kinds[match element.kind {
                Kind::DenseNode | Kind::Node => 0,
                Kind::Way => 1,
                Kind::Relation => 2,
            }] += 1;
        }
    }
    println!("{} blocks, nodes, ways, relations {kinds:?}", blocks.len());
    if std::env::var_os("MAP_FILE").is_none() {
        assert_eq!((blocks.len(), kinds), (11, [65_733, 7_121, 113]));
    }
}
