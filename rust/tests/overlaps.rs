//! Strings that overlap: check answers as it does for each string alone, in a time that is linear in the bytes and words; and long strings are compared
//! to their ends.
use std::sync::mpsc;
use std::time::Duration;
use tilusorgu::calls::check;
use tilusorgu::{with_stack, Pool, Refusal, Sizes};

const AREA: u32 = 16_777_216;

type Pair = (u32, u32);

/// A pool of strings, and of a natural for each string row that is named.
fn words(strings: &[Pair], naturals: &[u32]) -> Vec<u32> {
    let mut words = vec![strings.len() as u32, 0, 0, 0, 0, naturals.len() as u32, 0, 0];
    words.extend(strings.iter().flat_map(|&(offset, length)| [offset, length]));
    words.extend(naturals.iter().flat_map(|&row| [8, row, 0, 0, 0, 0, 1, 0]));
    words
}

/// All pairs inside an area of so many bytes, and those that pass its end by one.
fn pairs(area: u32) -> Vec<Pair> {
    (0..=area).flat_map(|offset| (0..=area + 1 - offset).map(move |length| (offset, length))).collect()
}

fn part(bytes: &[u8], (offset, length): Pair) -> Option<&[u8]> {
    bytes.get(offset as usize..(offset + length) as usize)
}

/// What the rules of strings say, each string read alone.
fn strings_by_rule(bytes: &[u8], strings: &[Pair]) -> Result<(), Refusal> {
    let ok = |row: usize| {
        let rises = row == 0 || strings[row - 1].0 <= strings[row].0;
        rises && part(bytes, strings[row]).is_some_and(|s| std::str::from_utf8(s).is_ok())
    };
    match (0..strings.len()).find(|&row| !ok(row)) {
        Some(row) => Err(Refusal { number: 3, place: row as u64 }),
        None => Ok(()),
    }
}

fn is_natural(s: &[u8]) -> bool {
    s == b"0" || s.iter().all(u8::is_ascii_digit) && s.first().is_some_and(|&b| b != b'0')
}

#[test]
fn every_two_and_three_strings() {
    with_stack(|| {
        // characters of one to four bytes; a follower too many, one too few, a surrogate, a longer form than needed
        for area in ["aα→𝔸".as_bytes(), b"n\xce\xb1\xb1n", b"\xe2\x86\xce\xb1", b"n\xed\xa0\x80n", b"\xc0\xafnn"] {
            let pairs = pairs(area.len() as u32);
            for &a in &pairs {
                for &b in &pairs {
                    let two = [a, b];
                    assert_eq!(check(area, &words(&two, &[])), strings_by_rule(area, &two), "{area:?} {two:?}");
                    if area.len() > 5 {
                        continue;
                    }
                    for &c in &pairs {
                        let three = [a, b, c];
                        assert_eq!(check(area, &words(&three, &[])), strings_by_rule(area, &three), "{area:?} {three:?}");
                    }
                }
            }
        }
    });
}

#[test]
fn every_two_and_three_naturals() {
    with_stack(|| {
        for area in [b"10x07".as_slice(), b"00x1", b"7n80"] {
            let inside: Vec<Pair> = pairs(area.len() as u32).into_iter().filter(|&p| part(area, p).is_some()).collect();
            for &a in &inside {
                for &b in inside.iter().filter(|b| a.0 <= b.0) {
                    for &c in inside.iter().filter(|c| b.0 <= c.0) {
                        let (strings, rows) = ([a, b, c], [2, 0, 1, 2]);
                        let bad = rows.iter().position(|&row| !is_natural(part(area, strings[row as usize]).unwrap()));
                        let expected = bad.map_or(Ok(()), |row| Err(Refusal { number: 4, place: row as u64 }));
                        assert_eq!(check(area, &words(&strings, &rows)), expected, "{area:?} {strings:?}");
                    }
                }
            }
        }
    });
}

/// The answer of check, within ten seconds.
fn soon(bytes: Vec<u8>, words: Vec<u32>) -> Result<(), Refusal> {
    let (send, receive) = mpsc::channel();
    std::thread::spawn(move || send.send(check(&bytes, &words)));
    receive.recv_timeout(Duration::from_secs(10)).expect("an answer within ten seconds")
}

#[test]
fn strings_of_the_whole_area() {
    let area = || "𝔸".repeat(AREA as usize / 4).into_bytes();
    for count in [2_048, 65_536] {
        assert_eq!(soon(area(), words(&vec![(0, AREA); count], &[])), Ok(()));
    }
    // a string of the whole area, then short ones and long ones in turn; the last begins inside a character
    let mut strings: Vec<Pair> = (0..65_536).map(|i| (i / 2 * 4, if i % 2 == 0 { AREA - i / 2 * 4 } else { 4 })).collect();
    assert_eq!(soon(area(), words(&strings, &[])), Ok(()));
    strings[65_535] = (AREA - 3, 3);
    assert_eq!(soon(area(), words(&strings, &[])), Err(Refusal { number: 3, place: 65_535 }));
}

#[test]
fn naturals_of_the_whole_area() {
    let area = vec![b'7'; AREA as usize];
    assert_eq!(soon(area.clone(), words(&[(0, AREA)], &[0; 2_048])), Ok(()));
    // strings that each begin a byte later and end with the area, named from the last to the first
    let strings: Vec<Pair> = (0..65_536).map(|i| (i, AREA - i)).collect();
    let rows: Vec<u32> = (0..65_536).rev().collect();
    assert_eq!(soon(area.clone(), words(&strings, &rows)), Ok(()));
    let mut letter = area;
    letter[AREA as usize - 1] = b'n';
    assert_eq!(soon(letter, words(&strings, &rows)), Err(Refusal { number: 4, place: 0 }));
}

/// fun (x : first) (x : second) => "", the types two rows with these words, over strings (0 is empty) and names (0 is anonymous, 1 is x).
fn two_types(bytes: Vec<u8>, strings: &[Pair], names: &[[u32; 4]], types: [[u32; 8]; 2]) -> Pool {
    let mut words = vec![2 + strings.len() as u32, 2 + names.len() as u32, 0, 0, 0, 5, 0, 0, 0, 0, 0, 1];
    words.extend(strings.iter().flat_map(|&(offset, length)| [offset, length]));
    words.extend([0, 0, 0, 0, 1, 0, 1, 0]);
    words.extend(names.iter().flatten());
    words.extend([9, 0, 0, 0, 0, 0, 1, 0]);
    words.extend(types.iter().flatten());
    let depth = types[0][6].max(1);
    words.extend([5, 1, 0, 2, 0, 0, depth + 1, 0, 5, 1, 0, 1, 3, 0, depth + 2, 0]);
    Pool { bytes, words }
}

/// Are the two binders one group?
fn together(pool: &Pool) -> bool {
    let listing = pool.list_expr(4, Sizes { indent: 2, width: 80 }).unwrap().text;
    listing.starts_with("fun (x x :")
}

#[test]
fn strings_are_compared_to_their_ends() {
    with_stack(|| {
        for length in [0, 1, 63, 64, 65, 127, 128, 129, 200] {
            let literal = |row| [9, row, 0, 0, 0, 0, 1, 0];
            let pool = |bytes| two_types(bytes, &[(1, length), (1 + length, length)], &[], [literal(2), literal(3)]);
            let bytes = || [b"x".as_slice(), &"ab".repeat(100).as_bytes()[..length as usize].repeat(2)].concat();
            assert!(together(&pool(bytes())), "{length}");
            for at in 0..length as usize {
                let mut other = bytes();
                other[1 + length as usize + at] += 1;
                assert!(!together(&pool(other)), "{length} {at}");
            }
        }
    });
}

/// The name of a projection's type is not shown, so that no limit of the document bounds it.
#[test]
fn names_that_no_listing_shows() {
    with_stack(|| {
        for (changed, one_group) in [(None, true), (Some(AREA as usize - 1), false)] {
            let mut bytes = vec![b'x'; AREA as usize];
            changed.into_iter().for_each(|at: usize| bytes[at] = b'y');
            let components = |string: u32, first: u32| (0..8).map(move |i| [1, if i == 0 { 0 } else { first + i - 1 }, string, 0]);
            let names: Vec<[u32; 4]> = components(2, 2).chain(components(3, 10)).collect();
            let projection = |name| [7, name, 0, 0, 0, 0, 2, 0];
            let pool = two_types(bytes, &[(1, AREA - 2), (2, AREA - 2)], &names, [projection(9), projection(17)]);
            assert_eq!(together(&pool), one_group);
        }
    });
}

/// The answer of check to names of one component each, these strings in turn, and an operator of each name.
fn operators_of(bytes: Vec<u8>, strings: &[Pair]) -> Result<(), Refusal> {
    let (count, names) = (strings.len() as u32, strings.len() as u32 + 1);
    let mut words = vec![count, names, 0, 0, 0, 0, 0, names];
    words.extend(strings.iter().flat_map(|&(offset, length)| [offset, length]));
    words.extend([0; 4]);
    words.extend((0..count).flat_map(|row| [1, 0, row, 0]));
    words.extend((0..names).flat_map(|name| [name, name % 3, 1 + name % 1023, name % count]));
    soon(bytes, words)
}

const TWICE: Result<(), Refusal> = Err(Refusal { number: 31, place: 0 });
const LONG: u32 = 16_384;

/// Letters and digits in no order, so that parts from different places differ.
fn mixed(length: u32) -> Vec<u8> {
    let next = |state: &mut u32| {
        *state = state.wrapping_mul(1_664_525).wrapping_add(1_013_904_223);
        Some(b"abcdefghijklmnopqrstuvwxyz012345"[(*state >> 27) as usize])
    };
    (0..length).scan(1, |state, _| next(state)).collect()
}

/// 65,535 names whose strings begin a byte later each, and are 16,384 bytes long: a gigabyte in all.
#[test]
fn operators_of_long_parts() {
    let parts: Vec<Pair> = (0..65_535).map(|i| (i, LONG)).collect();
    assert_eq!(operators_of(mixed(AREA), &parts), Ok(()));
    // so many equal bytes at first that only the ends differ
    let late = || [vec![b'x'; LONG as usize - 1], mixed(AREA - LONG + 1)].concat();
    assert_eq!(operators_of(late(), &parts), Ok(()));
    // the last one is a copy of the first
    let mut again = late();
    again.copy_within(..LONG as usize, (AREA - LONG) as usize);
    let mut last = parts.clone();
    last[65_534] = (AREA - LONG, LONG);
    assert_eq!(operators_of(again.clone(), &last), TWICE);
    // but for its last byte
    again[AREA as usize - 1] = b'X';
    assert_eq!(operators_of(again, &last), Ok(()));
    // all are equal
    assert_eq!(operators_of(vec![b'x'; AREA as usize], &parts), TWICE);
}

/// The same with strings that are far longer: together they have half a terabyte.
#[test]
fn operators_of_longer_parts() {
    let parts: Vec<Pair> = (0..65_535).map(|i| (i, AREA / 2)).collect();
    assert_eq!(operators_of(mixed(AREA), &parts), Ok(()));
    assert_eq!(operators_of(vec![b'x'; AREA as usize], &parts), TWICE);
    // to the end of the area: each has another length
    let ends: Vec<Pair> = (0..65_535).map(|i| (i, AREA - i)).collect();
    assert_eq!(operators_of(mixed(AREA), &ends), Ok(()));
    assert_eq!(operators_of(vec![b'x'; AREA as usize], &ends), Ok(()));
}

/// Chains of 63 components, each the whole area but for a byte: one chain, and a second one of the same bytes or of others, from another
/// place.
#[test]
fn operators_of_long_names() {
    for (last, chains, answer) in [(b'x', 1, Ok(())), (b'x', 2, TWICE), (b'y', 2, Ok(()))] {
        let mut bytes = vec![b'x'; AREA as usize];
        bytes[AREA as usize - 1] = last;
        let chain = |string: u32, first: u32| (0..63).map(move |i| [1, if i == 0 { 0 } else { first + i - 1 }, string, 0]);
        let names: Vec<[u32; 4]> = [[0; 4]].into_iter().chain(chain(0, 1)).chain(chain(1, 64)).collect();
        let operators = 1 + 63 * chains;
        let mut words = vec![2, names.len() as u32, 0, 0, 0, 0, 0, operators, 0, AREA - 1, 1, AREA - 1];
        words.extend(names.iter().flatten());
        words.extend((0..operators).flat_map(|name| [name, 1, 65, 0]));
        assert_eq!(soon(bytes, words), answer, "{chains} ending in {last}");
    }
}

/// Which row it is that repeats a name is found by checking some dozens of pools of fewer rows.
#[test]
fn a_long_name_given_twice_in_words() {
    const LONG: u32 = 1_024;
    let count = 65_535;
    let mut words = vec![count, count + 1, 0, 0, 0, 0, 0, count + 1];
    words.extend((0..count).flat_map(|i| [if i == count - 1 { AREA - LONG } else { i }, LONG]));
    words.extend([0; 4]);
    words.extend((0..count).flat_map(|row| [1, 0, row, 0]));
    words.extend((0..=count).flat_map(|name| [name, 1, 65, 0]));
    let mut bytes = mixed(AREA);
    bytes.copy_within(..LONG as usize, (AREA - LONG) as usize);
    let pool = Pool { bytes, words };
    let (send, receive) = mpsc::channel();
    std::thread::spawn(move || send.send(pool.faulty_notation()));
    let found = receive.recv_timeout(Duration::from_secs(10)).expect("an answer within ten seconds");
    assert_eq!(found, Some((65_535, Some(1))));
}

/// f applied to 255 constants, their names 63 components of the whole area each: after the refusal no component is read.
#[test]
fn names_that_no_document_holds() {
    let mut words = vec![1, 64, 0, 1, 0, 256, 0, 0, 0, AREA, 0, 0, 0, 0];
    words.extend((0..63).flat_map(|prefix| [1, prefix, 0, 0]));
    words.extend([0, 0, 2, 63, 0, 0, 0, 0, 1, 0]);
    words.extend((1..256).flat_map(|row| [3, row - 1, 0, 0, 0, 0, row + 1, 0]));
    for (byte, mark) in [(b'x', "plain"), (b' ', "in marks")] {
        let (bytes, words) = (vec![byte; AREA as usize], words.clone());
        let (send, receive) = mpsc::channel();
        std::thread::spawn(move || send.send(Pool { bytes, words }.list_expr(255, Sizes::default()).map(|listing| listing.text)));
        let answer = receive.recv_timeout(Duration::from_secs(10)).expect("an answer within ten seconds");
        assert_eq!(answer, Err(Refusal { number: 8, place: 1 }), "{mark}");
    }
}
