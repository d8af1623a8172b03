//! The recorded corpus: prints of the published Rust (differential/README.md has the file's format).
use std::path::Path;
use tilusorgu::{Counts, Pool, Root, Sizes};

pub struct Recorded {
    pub pool: Pool,
    pub prints: Vec<Print>,
}

pub struct Print {
    pub root: Root,
    pub sizes: Sizes,
    pub counts: Counts,
    #[allow(dead_code)] // damaged inputs have other listings, so their program does not read it
    pub listing: Vec<u8>,
    /// Rows and text, of some prints.
    pub document: Option<(Vec<u32>, Vec<u8>)>,
}

const HEAD: usize = 16;

/// The words of the file, taken from the front.
struct Words<'a>(&'a [u32]);

impl<'a> Words<'a> {
    fn take(&mut self, count: usize) -> &'a [u32] {
        let (first, rest) = self.0.split_at(count);
        self.0 = rest;
        first
    }

    /// A run of bytes, padded to whole words.
    fn bytes(&mut self, count: usize) -> Vec<u8> {
        let mut bytes: Vec<u8> = self.take(count.div_ceil(4)).iter().flat_map(|w| w.to_le_bytes()).collect();
        bytes.truncate(count);
        bytes
    }

    fn recorded(&mut self) -> Recorded {
        let head = self.take(HEAD);
        assert_eq!(head[0], 1, "a pool's record");
        let pool = Pool { bytes: self.bytes(head[2] as usize), words: self.take(head[3] as usize).to_vec() };
        Recorded { pool, prints: (0..head[4]).map(|_| self.print()).collect() }
    }

    fn print(&mut self) -> Print {
        let head = self.take(HEAD);
        assert_eq!(head[0], 2, "a print's record");
        let [document_rows, text_bytes, listing_length, lines, longest_row, fit_tests] = [6, 7, 8, 9, 10, 11].map(|i| u64::from(head[i]));
        let listing = self.bytes(listing_length as usize);
        let document = (head[12] == 1).then(|| (self.take(7 * document_rows as usize).to_vec(), self.bytes(text_bytes as usize)));
        Print {
            root: if head[2] == 0 { Root::Expr(head[3]) } else { Root::Declar(head[3]) },
            sizes: Sizes { indent: head[4], width: head[5] },
            counts: Counts { document_rows, text_bytes, listing_length, lines, longest_row, fit_tests },
            listing,
            document,
        }
    }
}

pub fn read() -> Vec<Recorded> {
    let top = Path::new(env!("CARGO_MANIFEST_DIR")).parent().expect("the crate stands in the repository");
    let file = std::fs::read(top.join("differential/corpus/prints.bin")).expect("the recorded corpus");
    let words: Vec<u32> = file.chunks_exact(4).map(|w| u32::from_le_bytes(w.try_into().expect("four bytes"))).collect();
    let mut words = Words(&words);
    let head = words.take(HEAD);
    assert_eq!((head[0], head[1]), (u32::from_le_bytes(*b"TIL1"), 1), "the corpus has another format");
    (0..head[2]).map(|_| words.recorded()).collect()
}
