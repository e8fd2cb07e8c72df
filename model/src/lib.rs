//! An independent reference model of an SMC-R (RFC 7609) core.
//!
//! It was written from the documents alone, apart from the code it is compared
//! with. `smcr` holds the rules, `replay` the text format, and the rest makes,
//! counts, compares and draws lists of calls.

// The page's own words come before shorter ways to say the same.
#![allow(clippy::int_plus_one)]
#![allow(clippy::manual_is_multiple_of)]
#![allow(clippy::manual_range_contains)]
#![allow(clippy::nonminimal_bool)]
#![allow(clippy::needless_range_loop)]
#![allow(clippy::large_enum_variant)]

pub mod cast;
pub mod clc;
pub mod compare;
pub mod count;
pub mod failover;
pub mod gauge;
pub mod generate;
pub mod links;
pub mod llc;
pub mod pair;
pub mod pcap;
pub mod picture;
pub mod pool;
pub mod random;
pub mod replay;
pub mod setup;
pub mod smcr;
pub mod traces;
pub mod walk;
pub mod words;
