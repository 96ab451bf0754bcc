//! Change 12, put to the judge.

use judge::ask;
use judge::compare::run_ask;
use judge::gen::grants::grant;
use judge::gen::rng::case_seed;
use judge::gen::Case;

include!("../../cases/grants.rs");
