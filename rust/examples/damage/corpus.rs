//! What is damaged: the recorded corpus, the samples, and pools at the limits.
use crate::limits;
use crate::recorded::{self, Recorded};
use std::path::Path;
use tilusorgu::text::{pack, Sharing};
use tilusorgu::{Areas, Counts, Pool, Root, Sizes, Table};

/// A print that succeeds, and how long its areas have to be.
#[derive(Clone, Copy)]
pub struct Ask {
    pub root: Root,
    pub sizes: Sizes,
    pub lengths: [usize; 3],
}

pub struct Entry {
    pub pool: Pool,
    pub asks: Vec<Ask>,
}

pub struct Document {
    pub rows: Vec<u32>,
    pub text: Vec<u8>,
    pub width: u32,
}

#[derive(Default)]
pub struct Stock {
    pub pools: Vec<Entry>,
    pub documents: Vec<Document>,
}

/// How long the areas of a print with these counts have to be.
fn lengths(counts: &Counts) -> [usize; 3] {
    [7 * counts.document_rows, counts.text_bytes, counts.listing_length].map(|n| n as usize)
}

impl Stock {
    pub fn read() -> Stock {
        let top = Path::new(env!("CARGO_MANIFEST_DIR")).parent().expect("the crate stands in the repository");
        let mut stock = Stock::default();
        recorded::read().into_iter().for_each(|r| stock.recorded(r));
        stock.samples(&top.join("samples"));
        stock.limits();
        stock
    }

    fn recorded(&mut self, recorded: Recorded) {
        let mut asks = Vec::new();
        for print in recorded.prints {
            asks.push(Ask { root: print.root, sizes: print.sizes, lengths: lengths(&print.counts) });
            if let Some((rows, text)) = print.document {
                self.documents.push(Document { rows, text, width: print.sizes.width });
            }
        }
        self.pools.push(Entry { pool: recorded.pool, asks });
    }

    fn samples(&mut self, folder: &Path) {
        let files = std::fs::read_dir(folder).expect("the samples").map(|f| f.expect("a sample").path());
        let mut texts: Vec<_> = files.filter(|p| p.extension().is_some_and(|e| e == "txt")).collect();
        // the order of a folder is not fixed, and inputs are to be made again from their numbers
        texts.sort();
        for path in texts {
            let text = std::fs::read_to_string(&path).expect("a sample's text");
            for sharing in [Sharing::Shared, Sharing::Apart] {
                self.sample(pack(&text, sharing).expect("samples are well formed").pool);
            }
        }
    }

    /// Its declarations at some width; the documents of those that print are kept too.
    fn sample(&mut self, pool: Pool) {
        let (mut areas, mut asks) = (Areas::default(), Vec::new());
        for row in 0..pool.count(Table::Declars) {
            let (root, sizes) = (Root::Declar(row), Sizes { indent: 2, width: 20 + 10 * row });
            if let Ok(counts) = areas.print(&pool, root, sizes) {
                asks.push(Ask { root, sizes, lengths: lengths(&counts) });
                let document = areas.document(&counts);
                self.documents.push(Document { rows: document.rows.to_vec(), text: document.text.to_vec(), width: sizes.width });
            }
        }
        self.pools.push(Entry { pool, asks });
    }

    /// What is refused 2, 7 and 8, which damage seldom leads to.
    fn limits(&mut self) {
        self.pools.push(Entry { pool: limits::too_many_list_words(), asks: Vec::new() });
        for text in [limits::nested_chains(&[255, 254, 253, 252, 11]), limits::doubled(), limits::long_literal()] {
            let pool = pack(&text, Sharing::Shared).expect("texts at the limits are well formed").pool;
            let root = Root::Expr(pool.count(Table::Exprs) - 1);
            self.pools.push(Entry { pool, asks: vec![Ask { root, sizes: Sizes::default(), lengths: [7 * 16_384, 65_536, 9_000] }] });
        }
    }
}
