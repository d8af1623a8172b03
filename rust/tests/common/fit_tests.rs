//! The fit tests of a document, found from its rows alone: the groups that are not inside a flat one (document 02, P6).

/// For each row the groups and nests whose subtree begins there, the outermost first.
fn openings(rows: &[&[u32]]) -> Vec<Vec<usize>> {
    let mut openings = vec![Vec::new(); rows.len()];
    for (i, row) in rows.iter().enumerate().rev().filter(|(_, row)| row[0] >= 3) {
        openings[i + 1 - row[3] as usize].push(i);
    }
    openings
}

/// For each row, and for the end, the bytes from there to the next break or to the end.
fn distances(rows: &[&[u32]]) -> Vec<u64> {
    let mut distances = vec![0; rows.len() + 1];
    for (i, row) in rows.iter().enumerate().rev() {
        distances[i] = match row[0] {
            0 => distances[i + 1] + u64::from(row[2]),
            2 => 0,
            _ => distances[i + 1],
        };
    }
    distances
}

/// Of the first so many rows, which are an accepted document, at a width.
pub fn fit_tests(words: &[u32], row_count: usize, width: u32) -> u64 {
    let rows: Vec<&[u32]> = words.chunks_exact(7).take(row_count).collect();
    let (openings, distances, width) = (openings(&rows), distances(&rows), u64::from(width));
    let (mut tests, mut position, mut end, mut nests) = (0, 0, width, Vec::new());
    // the row past the flat group that layout is in, or was in last
    let mut past_flat = 0;
    for (i, row) in rows.iter().enumerate() {
        nests.retain(|&nest| nest >= i);
        for &around in &openings[i] {
            if rows[around][0] == 3 {
                nests.push(around);
            } else if i >= past_flat {
                tests += 1;
                if position + u64::from(rows[around][4]) + distances[around + 1] <= end {
                    past_flat = around + 1;
                }
            }
        }
        match row[0] {
            0 => position += u64::from(row[2]),
            2 if i < past_flat => position += u64::from(row[1]),
            2 => {
                end = position + 1 + width;
                position += 1 + nests.iter().map(|&nest| u64::from(rows[nest][1])).sum::<u64>();
            }
            _ => {}
        }
    }
    tests
}
