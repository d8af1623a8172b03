//! The statement lister: safe calls over its static library, pool files, and the text form that pools can be typed in.
//!
//! ```
//! use tilusorgu::{text, Sizes};
//!
//! let packed = text::pack("(axiom k (forall (n : @Nat) (@P n)))", text::Sharing::Shared).unwrap();
//! let listing = packed.pool.list_declar(0, Sizes::default()).unwrap();
//! assert_eq!(listing.text, "axiom k (n : @Nat) : @P n");
//! ```
//!
//! A print leaves its document, which [`calls::layout`] lays out at other widths; that alone needs no thread with a deep stack ([`with_stack`]).
//!
//! ```
//! use tilusorgu::{calls, text, Areas, Root, Sizes};
//!
//! let packed = text::pack("(axiom k (forall (n : @Nat) (@P n)))", text::Sharing::Shared).unwrap();
//! let mut areas = Areas::default();
//! let counts = areas.print(&packed.pool, Root::Declar(0), Sizes::default()).unwrap();
//! let mut listing = [0; 99];
//! let narrow = calls::layout(areas.document(&counts), 20, &mut listing).unwrap();
//! assert_eq!(listing[..narrow.listing_length as usize], *b"axiom k (n : @Nat) :\n  @P n");
//! ```
//!
//! Two expressions of a pool are compared as trees, from the back ([`calls::compare`]).
//!
//! ```
//! use tilusorgu::{text, Comparison};
//!
//! let packed = text::pack("(define one (@P @a @b)) (define two (@P @c @d))", text::Sharing::Shared).unwrap();
//! let row_of = |name: &str| packed.defined.iter().find(|(defined, _)| defined == name).unwrap().1;
//! assert_eq!(packed.pool.compare(row_of("one"), row_of("one")), Ok(Comparison::Equal));
//! // @b and @d
//! assert_eq!(packed.pool.compare(row_of("one"), row_of("two")), Ok(Comparison::Differ(3, 7)));
//! ```
//!
//! A pool may list constants as operators.
//!
//! ```
//! use tilusorgu::{text, Sizes};
//!
//! let typed = "(infix add 65 \"+\") (prefix neg 75 \"-\") (axiom k (@P (@neg (@add 1 2)) @add))";
//! let packed = text::pack(typed, text::Sharing::Shared).unwrap();
//! assert_eq!(packed.pool.list_declar(0, Sizes::default()).unwrap().text, "axiom k : @P (-(1+2)) @add");
//! ```
pub mod calls;
mod declar_names;
mod fields;
mod listing;
mod pool;
pub mod pool_file;
pub mod raw;
mod refusal;
mod rows;
mod rules;
mod stack;
pub mod text;

pub use calls::{Comparison, Counts, Given, Lent, Root, Sizes};
pub use declar_names::DeclarNames;
pub use listing::{Areas, Listing};
pub use pool::{Pool, Table};
pub use refusal::Refusal;
pub use stack::{try_with_stack, with_stack, STACK};
