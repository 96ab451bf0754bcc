//! Change 12, put to the library.
#![cfg(feature = "ask")]

use judge::compare::run_ask;
use judge::gen::grants::grant;
use judge::gen::rng::case_seed;
use judge::gen::Case;
use library::ask;

include!("../../cases/grants.rs");
