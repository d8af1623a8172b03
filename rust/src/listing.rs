//! Listings with areas of their own on the heap, as long as they need to be.
use crate::calls::{print, Comparison, Counts, Given, Lent, Root, Sizes, MOST_ROW_WORDS, MOST_TEXT_BYTES, ROW_WORDS};
use crate::pool::Pool;
use crate::refusal::Refusal;

/// A listing and its counts.
#[derive(Clone, Debug, PartialEq, Eq)]
pub struct Listing {
    pub text: String,
    pub counts: Counts,
}

/// The areas of prints, to be used again from print to print. Rows and texts are never full; the listing area grows as it has to.
pub struct Areas {
    rows: Vec<u32>,
    text: Vec<u8>,
    listing: Vec<u8>,
    /// Of the last print.
    width: u32,
}

impl Default for Areas {
    fn default() -> Areas {
        Areas { rows: vec![0; MOST_ROW_WORDS], text: vec![0; MOST_TEXT_BYTES], listing: vec![0; 1 << 16], width: 0 }
    }
}

impl Areas {
    /// Prints a root of a pool; the listing is the first bytes of the listing area. 20 and 21 cannot come, and 22 only when no
    /// memory is left.
    pub fn print(&mut self, pool: &Pool, root: Root, sizes: Sizes) -> Result<Counts, Refusal> {
        self.width = sizes.width;
        loop {
            let lent = Lent { rows: &mut self.rows, text: &mut self.text, listing: &mut self.listing };
            match print(&pool.bytes, &pool.words, root, sizes, lent) {
                Err(refusal) if refusal.number == 22 && self.grow() => {}
                answer => return answer,
            }
        }
    }

    /// A listing area four times as long; false if there is no memory for it.
    fn grow(&mut self) -> bool {
        let more = 3 * self.listing.len();
        let had = self.listing.try_reserve_exact(more).is_ok();
        if had {
            self.listing.resize(self.listing.len() + more, 0);
        }
        had
    }

    /// The listing that the last print left, with these counts.
    pub fn listing(&self, counts: &Counts) -> &[u8] {
        &self.listing[..counts.listing_length as usize]
    }

    /// Where the rows of that listing start. A row may hold newlines of the pool's own texts: only this tells them from its end.
    pub fn row_starts(&self, counts: &Counts) -> Vec<usize> {
        crate::rows::row_starts(self.document(counts), self.width, counts.listing_length as usize)
    }

    /// The document that a print with these counts left, to be laid out at another width.
    pub fn document(&self, counts: &Counts) -> Given<'_> {
        let rows = &self.rows[..ROW_WORDS * counts.document_rows as usize];
        let text = &self.text[..counts.text_bytes as usize];
        Given { rows, row_count: counts.document_rows, text, text_count: counts.text_bytes }
    }
}

impl Pool {
    /// Is the pool accepted? Refuses 1 to 4 and 31.
    pub fn check(&self) -> Result<(), Refusal> {
        crate::calls::check(&self.bytes, &self.words)
    }

    /// Compares the trees of two expression rows. Refuses 1 to 4, 31 and 5.
    pub fn compare(&self, first: u32, second: u32) -> Result<Comparison, Refusal> {
        crate::calls::compare(&self.bytes, &self.words, first, second)
    }

    /// Lists the expression in this row. Refuses 1 to 4, 31 and 5 to 8.
    pub fn list_expr(&self, row: u32, sizes: Sizes) -> Result<Listing, Refusal> {
        self.list(Root::Expr(row), sizes)
    }

    /// Lists the declaration in this row. Refuses 1 to 4, 31 and 5 to 8.
    pub fn list_declar(&self, row: u32, sizes: Sizes) -> Result<Listing, Refusal> {
        self.list(Root::Declar(row), sizes)
    }

    fn list(&self, root: Root, sizes: Sizes) -> Result<Listing, Refusal> {
        let mut areas = Areas::default();
        let counts = areas.print(self, root, sizes)?;
        // An accepted pool's strings are UTF-8, and so are the fixed words round them.
        let text = String::from_utf8_lossy(areas.listing(&counts)).into_owned();
        Ok(Listing { text, counts })
    }
}
