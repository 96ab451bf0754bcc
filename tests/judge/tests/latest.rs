//! Change 9, put to the judge.

use judge::compare::{plain_case, run_ask, run_evaluate};
use judge::gen::rng::case_seed;
use judge::gen::turned::turned;
use judge::gen::{self, Case};
use judge::{ask, evaluate};

include!("../../cases/latest.rs");
