//! Change 2, put to the library.
#![cfg(feature = "ask")]

use judge::Outcome;
use library::{ask, evaluate};

include!("../../cases/no_value.rs");
