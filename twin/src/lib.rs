//! A second implementation of key making and ticket sealing, written from the pages in `docs/`
//! and from nothing of the product.
//!
//! `cargo test --lib` tries the twin alone. The tests in `tests/` and the
//! benchmark run it beside the product, whose static library they need, and two of
//! them the product's programs:
//!
//! ```text
//! tools/build                                      # in the repository
//! cargo test                                       # in twin/
//! cargo run --release --example bench              # in twin/
//! ```
//!
//! The library is looked for in `target/staticlib/` of the repository above this
//! package, or of the one that `RATTLE_REPO` names.

pub mod bits;
pub mod cases;
pub mod checks;
pub mod code;
pub mod fault;
pub mod field;
pub mod hash;
pub mod json;
pub mod level;
pub mod make;
pub mod matrix;
pub mod polynomial;
pub mod random;
pub mod seal;
pub mod sha2;
pub mod sha3;
pub mod shuffle;
