//! Pools made row by row, among them some whose trees are far larger than their rows.
use tilusorgu::Pool;

/// Rows of a pool's tables, appended by hand: names 0 is anonymous, then x, C, c; the list 0 is empty; every row has its depth and its loose
/// word.
#[derive(Default)]
pub struct Rows {
    pub levels: Vec<[u32; 3]>,
    /// The lists after the empty one, and the list words.
    pub lists: Vec<[u32; 2]>,
    pub entries: Vec<u32>,
    pub exprs: Vec<[u32; 8]>,
}

pub const X: u32 = 1;

/// Of a row of a layer, and of how many it has: the two rows of the layer below that it is over.
pub type Below = fn(usize, usize) -> (usize, usize);

impl Rows {
    pub fn row(&mut self, kind: u32, fields: [u32; 5], parts: &[u32], body: Option<u32>, least: u32) -> u32 {
        let of = |r: u32, k: usize| self.exprs[r as usize][k];
        let all = parts.iter().copied().chain(body);
        let depth = all.map(|r| of(r, 6) + 1).max().unwrap_or(1);
        let loose = parts.iter().map(|&r| of(r, 7)).chain(body.map(|r| of(r, 7).saturating_sub(1))).max().unwrap_or(0).max(least);
        let [a, b, c, d, e] = fields;
        self.exprs.push([kind, a, b, c, d, e, depth, loose]);
        self.exprs.len() as u32 - 1
    }

    pub fn var(&mut self, index: u32) -> u32 {
        self.row(0, [index, 0, 0, 0, 0], &[], None, index + 1)
    }

    pub fn constant(&mut self, name: u32) -> u32 {
        self.row(2, [name, 0, 0, 0, 0], &[], None, 0)
    }

    pub fn sort(&mut self, level: u32) -> u32 {
        self.row(1, [level, 0, 0, 0, 0], &[], None, 0)
    }

    pub fn app(&mut self, f: u32, a: u32) -> u32 {
        self.row(3, [f, a, 0, 0, 0], &[f, a], None, 0)
    }

    /// A pi (4) or a lambda (5).
    pub fn binder(&mut self, kind: u32, of: u32, body: u32) -> u32 {
        self.row(kind, [X, 0, of, body, 0], &[of], Some(body), 0)
    }

    /// Layers of rows over variables, each over two of the layer below; `below` says which two.
    pub fn layers(&mut self, count: usize, wide: usize, leaf: u32, kind: u32, below: Below) -> Vec<u32> {
        let leaves = (0..wide as u32).map(|i| self.var(leaf + i)).collect();
        self.layers_over(leaves, count, kind, below)
    }

    /// The same over these rows.
    pub fn layers_over(&mut self, mut rows: Vec<u32>, count: usize, kind: u32, below: Below) -> Vec<u32> {
        for _ in 0..count {
            rows = (0..rows.len())
                .map(|i| {
                    let (a, b) = below(i, rows.len());
                    if kind == 3 {
                        self.app(rows[a], rows[b])
                    } else {
                        self.binder(kind, rows[a], rows[b])
                    }
                })
                .collect();
        }
        rows
    }

    /// `max` of levels in layers: parameters at the bottom.
    pub fn level_layers(&mut self, count: usize, wide: usize, below: Below) -> u32 {
        let mut rows: Vec<u32> = (0..wide as u32).map(|i| self.level([4, 1 + i % 3, 0])).collect();
        for _ in 0..count {
            rows = (0..wide).map(|i| self.level([2, rows[below(i, wide).0], rows[below(i, wide).1]])).collect();
        }
        rows[0]
    }

    pub fn level(&mut self, row: [u32; 3]) -> u32 {
        self.levels.push(row);
        self.levels.len() as u32 - 1
    }

    /// Two constants with lists of 65,000 levels, equal or different in the last one, in rows of their own; the rows before them are of no use.
    pub fn long_lists(different: bool) -> (Rows, [u32; 2]) {
        let mut rows = Rows { levels: vec![[0, 0, 0]; 60_000], ..Rows::default() };
        let tops = [(); 2].map(|()| rows.level_layers(62, 2, doubled));
        let last = rows.level([1, tops[0], 0]);
        rows.entries = (0..65_001).map(|i| tops[i % 2]).collect();
        rows.lists = vec![[0, 65_000], [1, 65_000]];
        if different {
            rows.entries[65_000] = last;
        }
        let constants = [1, 2].map(|list| rows.row(2, [2, list, 0, 0, 0], &[], None, 0));
        (rows, constants)
    }

    pub fn pool(self) -> Pool {
        let (strings, names) = ([[0, 1], [1, 1], [2, 1]], [[0, 0, 0, 0], [1, 0, 0, 0], [1, 0, 1, 0], [1, 0, 2, 0]]);
        let counts = [self.levels.len(), 1 + self.lists.len(), self.entries.len(), self.exprs.len()].map(|n| n as u32);
        let mut words = vec![3, 4, counts[0], counts[1], counts[2], counts[3], 0, 0];
        words.extend(strings.iter().flatten());
        words.extend(names.iter().flatten());
        words.extend(self.levels.iter().flatten());
        words.extend([0, 0]);
        words.extend(self.lists.iter().flatten());
        words.extend(self.entries);
        words.extend(self.exprs.iter().flatten());
        Pool { bytes: b"xCc".to_vec(), words }
    }
}

pub fn neighbours(i: usize, wide: usize) -> (usize, usize) {
    (i, (i + 1).min(wide - 1))
}

pub fn doubled(i: usize, wide: usize) -> (usize, usize) {
    (2 * i % wide, (2 * i + 1) % wide)
}
