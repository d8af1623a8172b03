//! Every recorded print of the published Rust, through the C calls: in areas just long enough the same listing, document and counts.
#[path = "common/recorded.rs"]
mod recorded;

use recorded::Print;
use tilusorgu::text::{pack, Sharing};
use tilusorgu::{calls, with_stack, Areas, Counts, Given, Lent, Pool, Root, Sizes};

/// Prints into areas of exactly the recorded lengths, and lays the document out again, by deep calls and with a pending area.
fn assert_print(pool: &Pool, print: &Print) {
    let c = print.counts;
    let (mut rows, mut text) = (vec![1; 7 * c.document_rows as usize], vec![1; c.text_bytes as usize]);
    let mut listing = vec![1; c.listing_length as usize];
    let lent = Lent { rows: &mut rows, text: &mut text, listing: &mut listing };
    assert_eq!(calls::print(&pool.bytes, &pool.words, print.root, print.sizes, lent), Ok(c), "{:?} {:?}", print.root, print.sizes);
    assert!(listing == print.listing, "{:?}: {}", print.root, String::from_utf8_lossy(&listing));
    if let Some((recorded_rows, recorded_text)) = &print.document {
        assert!(rows == *recorded_rows && text == *recorded_text, "{:?} {:?}: another document", print.root, print.sizes);
    }
    let given = Given { rows: &rows, row_count: c.document_rows, text: &text, text_count: c.text_bytes };
    listing.fill(1);
    assert_eq!(calls::layout_deep(given, print.sizes.width, &mut listing), Ok(c));
    assert!(listing == print.listing);
    let mut pending = vec![1; 3 * c.document_rows as usize];
    listing.fill(1);
    assert_eq!(calls::layout_pending(given, print.sizes.width, &mut pending, &mut listing), Ok(c));
    assert!(listing == print.listing && pending.iter().all(|&word| word == 0));
}

#[test]
fn replay() {
    let corpus = recorded::read();
    assert_eq!((corpus.len(), corpus.iter().map(|r| r.prints.len()).sum::<usize>()), (670, 4800));
    with_stack(|| {
        for recorded in &corpus {
            assert_eq!(recorded.pool.check(), Ok(()));
            recorded.prints.iter().for_each(|print| assert_print(&recorded.pool, print));
        }
    });
}

/// The rows of the listing that was printed last.
fn rows(areas: &Areas, counts: &Counts) -> Vec<String> {
    let (listing, starts) = (areas.listing(counts), areas.row_starts(counts));
    let ends = starts[1..].iter().map(|next| next - 1).chain([listing.len()]);
    assert!(starts[1..].iter().all(|&start| listing[start - 1] == b'\n'));
    starts.iter().zip(ends).map(|(&start, end)| String::from_utf8(listing[start..end].to_vec()).unwrap()).collect()
}

/// The rows found are as many as the print has lines, and the longest is as long as it says.
#[test]
fn rows_of_recorded_listings() {
    let (mut areas, mut held) = (Areas::default(), 0);
    with_stack(|| {
        for recorded in recorded::read() {
            for print in recorded.prints {
                let counts = areas.print(&recorded.pool, print.root, print.sizes).unwrap();
                let rows = rows(&areas, &counts);
                assert_eq!(rows.iter().map(String::len).max(), Some(counts.longest_row as usize));
                assert_eq!(rows.len() as u64, counts.lines);
                held += usize::from(rows.iter().any(|r| r.contains('\n')));
            }
        }
    });
    assert!(held > 100, "{held} listings have a newline within a row");
}

/// Texts that look like the rows round them.
#[test]
fn forged_rows() {
    let pool = pack("(axiom k (@f \"a\n    b\" \"\n\" \"\\\\n\" (@g @«\n  @x» \" \n\")))", Sharing::Shared).unwrap().pool;
    let mut areas = Areas::default();
    let counts = areas.print(&pool, Root::Declar(0), Sizes { indent: 2, width: 0 }).unwrap();
    let expected = ["axiom k :", "  @f", "    \"a\n    b\"", "    \"\n\"", "    \"\\n\"", "    (@g", "      @«\n  @x»", "      \" \n\")"];
    assert_eq!(rows(&areas, &counts), expected);
    assert_eq!(counts.lines, 8);
    let counts = areas.print(&pool, Root::Declar(0), Sizes { indent: 2, width: 200 }).unwrap();
    assert_eq!(rows(&areas, &counts).len(), 1);
    assert_eq!(counts.lines, 1);
}

/// Strings of operators that look like the rows round them: a place beside them may be broken, or it is not and has no blank.
#[test]
fn forged_rows_of_operators() {
    let operators = "(prefix neg 75 \"\n-\") (infix add 65 \"+\n\") (postfix fact 80 \"\n  !\") (postfix empty 80 \"\n\")";
    let pool = pack(&format!("{operators} (axiom k (@f (@add (@neg @a) (@fact @b)) (@empty (@empty @c))))"), Sharing::Shared).unwrap().pool;
    let mut areas = Areas::default();
    let counts = areas.print(&pool, Root::Declar(0), Sizes { indent: 2, width: 200 }).unwrap();
    assert_eq!(rows(&areas, &counts), ["axiom k : @f (\n-@a+\n@b\n  !) ((@c\n)\n)"]);
    assert_eq!(counts.lines, 1);
    let counts = areas.print(&pool, Root::Declar(0), Sizes { indent: 2, width: 0 }).unwrap();
    let expected = ["axiom k :", "  @f", "    (\n-", "      @a+\n", "      @b", "      \n  !)", "    ((@c", "    \n)", "    \n)"];
    assert_eq!(rows(&areas, &counts), expected);
    assert_eq!(counts.lines, 9);
    // without steps of indentation a broken place and a string's newline are the same bytes
    let pool = pack("(postfix empty 80 \"\n\") (define e (@empty (@empty @c)))", Sharing::Shared).unwrap().pool;
    for (width, expected) in [(4, &["(@c", "\n)", "\n"][..]), (5, &["(@c\n)", "\n"]), (6, &["(@c\n)\n"])] {
        let counts = areas.print(&pool, Root::Expr(3), Sizes { indent: 0, width }).unwrap();
        assert_eq!(rows(&areas, &counts), expected, "{width}");
    }
}
