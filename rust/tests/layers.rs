//! Pools whose trees are far larger than their rows: whether a variable occurs, and whether two types are equal, is answered in time, and rightly where few steps
//! do not tell.
#[path = "common/exprs.rs"]
mod exprs;

use exprs::{doubled, neighbours, Below, Rows};
use std::sync::mpsc::channel;
use std::time::Duration;
use tilusorgu::{Pool, Sizes};

impl Rows {
    /// `count` types, each the one before lifted by one: `fun (x x : T) => c` over the type below, a loose variable at the bottom. The second
    /// of two equal types is not shown, so that the tree doubles and the listing does not.
    fn doubling_types(&mut self, doublings: u32, count: u32) -> Vec<u32> {
        let c = self.constant(3);
        let mut rows: Vec<u32> = (0..doublings + count).map(|i| self.var(300 + i)).collect();
        for _ in 0..doublings {
            rows = (1..rows.len())
                .map(|i| {
                    let inner = self.binder(5, rows[i], c);
                    self.binder(5, rows[i - 1], inner)
                })
                .collect();
        }
        rows
    }

    /// fun (x : first) (x : second) => c
    fn two_lambdas(mut self, first: u32, second: u32) -> Pool {
        let c = self.constant(3);
        let inner = self.binder(5, second, c);
        self.binder(5, first, inner);
        self.pool()
    }

    fn under_a_pi(mut self, body: u32) -> Pool {
        let c = self.constant(2);
        self.binder(4, c, body);
        self.pool()
    }
}

/// The listing of the last row, or the number of the refusal; within ten seconds.
fn printed(pool: Pool) -> Result<String, u32> {
    let (said, heard) = channel();
    std::thread::spawn(move || {
        let root = pool.words[5] - 1;
        said.send(pool.list_expr(root, Sizes { indent: 2, width: 80 }).map(|l| l.text).map_err(|r| r.number))
    });
    heard.recv_timeout(Duration::from_secs(10)).expect("an answer in ten seconds")
}

#[test]
fn lambdas_in_layers_under_a_pi() {
    for (wide, below) in [(2, neighbours as Below), (16, neighbours), (250, neighbours), (2, doubled), (16, doubled), (250, doubled)] {
        let mut rows = Rows::default();
        let top = rows.layers(250, wide, 300, 5, below)[0];
        assert_eq!(printed(rows.under_a_pi(top)), Err(7), "{wide}");
    }
}

#[test]
fn lambdas_in_layers_as_two_types() {
    for (wide, below) in [(2, neighbours as Below), (16, neighbours), (125, neighbours), (2, doubled), (16, doubled), (125, doubled)] {
        let mut rows = Rows::default();
        let first = rows.layers(250, wide, 300, 5, below)[0];
        let second = rows.layers(250, wide, 301, 5, below)[0];
        assert_eq!(printed(rows.two_lambdas(first, second)), Err(7), "{wide}");
    }
}

#[test]
fn levels_in_layers() {
    for wide in [2, 16, 500] {
        let mut rows = Rows::default();
        let (first, second) = (rows.level_layers(62, wide, doubled), rows.level_layers(62, wide, doubled));
        let (first, second) = (rows.sort(first), rows.sort(second));
        assert_eq!(printed(rows.two_lambdas(first, second)), Err(8), "{wide}");
    }
}

/// Applications in layers of two, doubled: 2^9 leaves, which are more than the steps that are tried first; one row of the second copy may have another leaf.
fn types(other: bool, lifted: u32) -> Pool {
    let mut rows = Rows::default();
    let first = rows.layers(9, 2, 300, 3, doubled)[0];
    let mut second = rows.layers(8, 2, 300 + lifted, 3, doubled);
    if other {
        second[1] = rows.layers(8, 2, 301 + lifted, 3, doubled)[1];
    }
    let second = rows.app(second[0], second[1]);
    rows.two_lambdas(first, second)
}

#[test]
fn equal_types_are_one_group() {
    for (other, lifted, together) in [(false, 1, true), (false, 0, false), (true, 1, false)] {
        let listing = printed(types(other, lifted)).unwrap();
        assert_eq!(listing.starts_with("fun (x x :"), together, "{other} {lifted}");
    }
}

#[test]
fn a_variable_far_down_occurs() {
    for (leaf, arrow) in [(0, false), (5, true)] {
        let mut rows = Rows::default();
        let wide = rows.layers(9, 2, 7, 3, doubled)[0];
        let (var, c) = (rows.var(leaf + 1), rows.constant(2));
        let last = rows.binder(5, c, var);
        let body = rows.app(wide, last);
        let listing = printed(rows.under_a_pi(body)).unwrap();
        assert_eq!((listing.starts_with("@C →"), listing.starts_with("forall (x : @C),")), (arrow, !arrow), "{leaf}");
    }
}

/// Rows that nothing names stand below the others: what goes over all rows meets them too.
fn padded(count: usize) -> Rows {
    let mut rows = Rows::default();
    for _ in 0..count {
        rows.constant(2);
    }
    rows
}

#[test]
fn lambdas_without_names_over_doubling_types() {
    for (leaf, last) in [(0, "«»"), (300, "_")] {
        let mut rows = padded(50_000);
        let (c, mut row) = (rows.constant(3), rows.doubling_types(17, 1)[0]);
        // the variable of the last of them, or one of none
        let var = rows.var(leaf);
        row = rows.app(row, var);
        for _ in 0..200 {
            row = rows.row(5, [0, 0, c, row, 0], &[c], Some(row), 0);
        }
        let listing = printed(rows.pool()).unwrap();
        let names = listing.split_once(" :").unwrap().0.split_whitespace().collect::<Vec<_>>();
        assert_eq!((names.len(), names[0], names[1], names[200]), (201, "fun", "(_", last));
    }
}

#[test]
fn groups_of_doubling_types() {
    // all of one type; the last of another one
    for (doublings, count, other) in [(17, 200, false), (17, 200, true), (60, 125, false)] {
        let mut rows = padded(40_000);
        let types = rows.doubling_types(doublings, count + 1);
        let mut row = rows.constant(3);
        for k in (0..count as usize).rev() {
            let lifted = k + (other && k == count as usize - 1) as usize;
            row = rows.binder(5, types[lifted], row);
        }
        let listing = printed(rows.pool()).unwrap();
        let names = listing.split_once(" :").unwrap().0.split_whitespace().count() - 1;
        assert_eq!(names as u32, count - other as u32, "{doublings} {count} {other}");
    }
}

#[test]
fn long_lists_of_levels() {
    for (different, together) in [(false, true), (true, false)] {
        let (rows, [first, second]) = Rows::long_lists(different);
        let listing = printed(rows.two_lambdas(first, second)).unwrap();
        assert_eq!(listing, if together { "fun (x x : @C) => @c" } else { "fun (x : @C) (x : @C) => @c" });
    }
}
