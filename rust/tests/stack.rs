//! The deepest trees print in a thread with a stack of 4.5 MiB, where include/tilusorgu.h asks for 8. An overflow kills the test's process.
use tilusorgu::raw::tilusorgu_print_expr;
use tilusorgu::text::{pack, Sharing};
use tilusorgu::{Pool, Table};

/// Operators, for the shapes that have them: of each kind one, and two whose operands need no parentheses or always do.
const OPERATORS: &str = "(prefix neg 75 \"-\") (infix add 65 \"+\") (postfix fact 80 \"!\") (infix least 1 \"<\") (infix most 1023 \">\")
    (prefix empty 1023 \"\")";

/// The deepest term of a shape that is accepted: HERE is replaced by the shape, and so on, and by @c in the innermost.
fn deep(shape: &str) -> Pool {
    let (before, after) = shape.split_once("HERE").unwrap();
    let of = |n: usize| pack(&format!("{OPERATORS} (define e {}@c{})", before.repeat(n), after.repeat(n)), Sharing::Shared).unwrap().pool;
    (0..256).rev().map(of).find(|pool| pool.check().is_ok()).unwrap()
}

/// The number that printing the last row ends with.
fn printed(pool: &Pool) -> u32 {
    let (mut rows, mut text, mut listing, mut out) = (vec![0; 7 * 16_384], vec![0; 65_536], vec![0; 1 << 25], [0; 8]);
    unsafe {
        tilusorgu_print_expr(
            pool.bytes.as_ptr(),
            pool.bytes.len(),
            pool.words.as_ptr(),
            pool.words.len(),
            pool.count(Table::Exprs) - 1,
            2,
            40,
            rows.as_mut_ptr(),
            rows.len(),
            text.as_mut_ptr(),
            text.len(),
            listing.as_mut_ptr(),
            listing.len(),
            out.as_mut_ptr(),
            out.len(),
        )
    }
}

#[test]
fn four_and_a_half_megabytes() {
    for shape in [
        "(@f HERE)",
        "(HERE @a)",
        "(forall (x : HERE) @C)",
        "(forall {x : HERE} (@P x))",
        "(forall (x : @C) HERE)",
        "(fun (x y : @C) HERE)",
        "(fun [x : HERE] x)",
        "(-> HERE @C)",
        "(let (x : HERE := @v) @b)",
        "(let (x : @T := HERE) @b)",
        "(let (x : @T := @v) HERE)",
        "(proj S 0 HERE)",
        "(@f (fun (x : @A) HERE))",
        "(fun (x : (@f HERE)) x)",
        "(let (x : @T := (fun (y : @A) HERE)) @b)",
        "(@neg HERE)",
        "(@empty HERE)",
        "(@fact HERE)",
        "(@neg (@fact HERE))",
        "(@add HERE @a)",
        "(@add @a HERE)",
        "(@add (@neg HERE) @a)",
        "(@add @a (@fact HERE))",
        "(@add (@add @a HERE) @b)",
        "(@least (@most HERE @a) @b)",
        "(@most @a (@least @b HERE))",
        "(@f (@add @a HERE))",
        "(@neg (@f HERE))",
        "(@neg (fun (x : @A) HERE))",
        "(fun (x : (@add @a HERE)) x)",
        "(forall (x : (@neg HERE)) @C)",
        "(-> (@add HERE @a) @C)",
        "(-> @C (@neg HERE))",
        "(let (x : @T := (@add HERE @v)) @b)",
        "(@add @a (let (x : @T := @v) HERE))",
        "(proj S 0 (@fact HERE))",
    ] {
        let pool = deep(shape);
        let thread = std::thread::Builder::new().stack_size(4608 << 10).spawn(move || printed(&pool)).unwrap();
        assert_eq!(thread.join().unwrap(), 0, "{shape}");
    }
}
