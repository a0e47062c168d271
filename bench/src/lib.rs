//! The exports of the crate `lin_host_c`, reached through `lin_host_rust`, compared
//! with the upstream Rust and with documents 01 and 02 in plain Rust. Trimming removes
//! byte order marks (document 02, N2), and upstream's leaves them: upstream is asked
//! only about texts without one. It has no finder: names are compared by the model
//! (document 02, N3).
//!
//! | module | what it holds |
//! |---|---|
//! | [`upstream`] | boards and records between upstream's form and the host's |
//! | [`model`] | documents 01 and 02 in plain Rust |
//! | [`expected`] | upstream's answer, which the model's must equal, or the model's alone where a byte order mark stands |
//! | [`log`] | document 01's plain book of appends |
//! | [`compare`] | the comparisons, each of which gives what differs |
//! | [`samples`] | random records, files, names, boards, PBN records and auctions, and hostile ones |
//! | [`differential`] | random cases of every kind, compared for a time that is given |
//! | [`clock`] | processor time |
//!
//! ```
//! use lin_bench::{compare, samples};
//! use oracle::random::Rng;
//!
//! let text = samples::file(&mut Rng::new(1), 12);
//! assert_eq!(compare::file(text.as_bytes()), Ok(()));
//! ```

#![deny(missing_docs)]
#![deny(rustdoc::broken_intra_doc_links)]

#[path = "../../host/tests/common/clock.rs"]
pub mod clock;
pub mod compare;
pub mod differential;
pub mod expected;
pub mod log;
pub mod model;
pub mod samples;
pub mod upstream;
