//! Pool files: docs/POOL-FILE.md.
use crate::pool::Pool;
use std::fmt;
use std::io::{self, Read, Write};

pub const MAGIC: [u8; 8] = *b"TILUPOOL";
/// With eight counts in a pool's head.
pub const VERSION: u32 = 2;
/// With seven, before pools had notation rows.
const WITHOUT_NOTATION: u32 = 1;
/// Magic, version, a word that is 0, and the two lengths.
pub const HEAD: usize = 32;
/// No pool within the limits comes near it; it keeps a wrong file from filling the memory.
pub const MOST_BYTES: u64 = 1 << 28;

/// Why a file is no pool file.
#[derive(Debug)]
pub enum Fault {
    Read(io::Error),
    TooLong,
    NoMagic,
    ShortHead(usize),
    Version(u32),
    Reserved(u32),
    Lengths { bytes: u64, words: u64, there: usize },
}

impl fmt::Display for Fault {
    fn fmt(&self, f: &mut fmt::Formatter<'_>) -> fmt::Result {
        match self {
            Fault::Read(error) => write!(f, "cannot be read: {error}"),
            Fault::TooLong => write!(f, "is longer than {MOST_BYTES} bytes, which no pool is"),
            Fault::NoMagic => write!(f, "is no pool file: it does not begin with TILUPOOL (a text form has to be packed first)"),
            Fault::ShortHead(there) => write!(f, "ends within its head: {there} of {HEAD} bytes are there"),
            Fault::Version(WITHOUT_NOTATION) => {
                write!(f, "is a pool file of version 1, made before pools had a notation table: make it again with `tilusorgu pack`")
            }
            Fault::Version(version) => write!(f, "has format version {version}; this program reads version {VERSION}"),
            Fault::Reserved(word) => write!(f, "has {word} in the head's word that must be 0"),
            Fault::Lengths { bytes, words, there } => {
                write!(f, "says that {bytes} bytes and {words} words follow its head, but {there} bytes follow (a word has 4)")
            }
        }
    }
}

impl std::error::Error for Fault {}

/// The pool of a file's bytes. Whether the pool is accepted is for `check` to say.
pub fn decode(file: &[u8]) -> Result<Pool, Fault> {
    if !file.starts_with(&MAGIC) {
        return Err(Fault::NoMagic);
    }
    if file.len() < HEAD {
        return Err(Fault::ShortHead(file.len()));
    }
    let (head, body) = file.split_at(HEAD);
    let word = |at: usize| u32::from_le_bytes(head[at..at + 4].try_into().expect("four bytes"));
    let long = |at: usize| u64::from_le_bytes(head[at..at + 8].try_into().expect("eight bytes"));
    if word(8) != VERSION {
        return Err(Fault::Version(word(8)));
    }
    if word(12) != 0 {
        return Err(Fault::Reserved(word(12)));
    }
    let (bytes, words) = (long(16), long(24));
    // both lengths are held against what is there before anything is made of them
    if words.checked_mul(4).and_then(|w| w.checked_add(bytes)) != Some(body.len() as u64) {
        return Err(Fault::Lengths { bytes, words, there: body.len() });
    }
    let (area, rest) = body.split_at(bytes as usize);
    let words = rest.chunks_exact(4).map(|w| u32::from_le_bytes(w.try_into().expect("four bytes"))).collect();
    Ok(Pool { bytes: area.to_vec(), words })
}

/// Reads a whole pool file.
pub fn read(from: impl Read) -> Result<Pool, Fault> {
    let mut file = Vec::new();
    from.take(MOST_BYTES + 1).read_to_end(&mut file).map_err(Fault::Read)?;
    if file.len() as u64 > MOST_BYTES {
        return Err(Fault::TooLong);
    }
    decode(&file)
}

/// The bytes of a pool's file.
pub fn encode(pool: &Pool) -> Vec<u8> {
    let mut file = MAGIC.to_vec();
    file.extend(VERSION.to_le_bytes());
    file.extend(0u32.to_le_bytes());
    file.extend((pool.bytes.len() as u64).to_le_bytes());
    file.extend((pool.words.len() as u64).to_le_bytes());
    file.extend(&pool.bytes);
    file.extend(pool.words.iter().flat_map(|w| w.to_le_bytes()));
    file
}

pub fn write(pool: &Pool, mut to: impl Write) -> io::Result<()> {
    to.write_all(&encode(pool))?;
    to.flush()
}

#[cfg(test)]
mod tests {
    use super::*;

    fn pool() -> Pool {
        Pool { bytes: b"abc".to_vec(), words: vec![1, 2, 0xffff_ffff] }
    }

    #[test]
    fn comes_back() {
        assert_eq!(decode(&encode(&pool())).unwrap(), pool());
        assert_eq!(read(&encode(&Pool::default())[..]).unwrap(), Pool::default());
    }

    #[test]
    fn every_prefix_is_refused() {
        let file = encode(&pool());
        for end in 0..file.len() {
            assert!(decode(&file[..end]).is_err(), "{end} bytes");
        }
        assert!(matches!(decode(&[&file[..], &[0]].concat()), Err(Fault::Lengths { there: 16, .. })));
    }

    #[test]
    fn other_versions() {
        let said = |version: u32| {
            let mut file = encode(&pool());
            file[8..12].copy_from_slice(&version.to_le_bytes());
            decode(&file).map(|_| ()).map_err(|fault| fault.to_string())
        };
        assert_eq!(said(2), Ok(()));
        let old = "is a pool file of version 1, made before pools had a notation table: make it again with `tilusorgu pack`";
        assert_eq!(said(1), Err(old.to_string()));
        for version in [0, 3, 257, u32::MAX] {
            assert_eq!(said(version), Err(format!("has format version {version}; this program reads version 2")));
        }
    }

    #[test]
    fn hostile_heads() {
        let with = |at: usize, bytes: &[u8]| {
            let mut file = encode(&pool());
            file[at..at + bytes.len()].copy_from_slice(bytes);
            decode(&file)
        };
        assert!(matches!(with(0, b"X"), Err(Fault::NoMagic)));
        assert!(matches!(with(8, &[3]), Err(Fault::Version(3))));
        assert!(matches!(with(12, &[1]), Err(Fault::Reserved(1))));
        assert!(matches!(with(16, &[0xff; 8]), Err(Fault::Lengths { .. })));
        assert!(matches!(with(24, &[0xff; 8]), Err(Fault::Lengths { .. })));
        // a word count whose bytes pass 64 bits
        assert!(matches!(with(24, &[0, 0, 0, 0, 0, 0, 0, 0x40]), Err(Fault::Lengths { .. })));
    }
}
