//! A plain and slow query engine over guarded relations, written from document 01 and the landed
//! changes of document 02 alone. It judges other implementations: clarity comes before speed everywhere.

pub mod book;
pub mod calls;
pub mod catalogue;
pub mod checks;
pub mod compare;
pub mod compare_books;
pub mod compare_texts;
pub mod conformance;
pub mod gen;
pub mod meaning;
pub mod permits;
pub mod program;
pub mod query;
pub mod rewrite;
pub mod text;
pub mod text_program;

pub use book::label_book;
pub use calls::{ask, evaluate, permitted_rows};
pub use compare::compare;
pub use text::{ask_text, read_text};

/// What a call returns. Number 0 is an accepted call.
#[derive(Clone, Copy, PartialEq, Eq, Debug)]
pub struct Outcome {
    pub number: u64,
    pub rows: u64,
    pub columns: u64,
    pub length: u64,
}

/// The refusals of the document, by number.
pub mod refusal {
    pub const CATALOGUE: u64 = 10;
    pub const VALUES: u64 = 11;
    pub const PERMIT_FORM: u64 = 20;
    pub const PERMIT_SIZE: u64 = 21;
    pub const PERMIT_NAMES: u64 = 22;
    pub const PERMIT_WORKSPACE: u64 = 23;
    pub const QUERY_FORM: u64 = 30;
    pub const QUERY_SIZE: u64 = 31;
    pub const QUERY_NAMES: u64 = 32;
    pub const NO_PERMIT: u64 = 33;
    pub const REWRITTEN_BUFFER: u64 = 40;
    pub const ANSWER_BUFFER: u64 = 41;
    pub const TEXT_FORM: u64 = 50;
    pub const TEXT_NAMES: u64 = 51;
    pub const RECORDS_BUFFER: u64 = 52;
    pub const LABEL_BOOK: u64 = 53;

    /// Those of ask.
    pub const ALL: [u64; 12] = [
        CATALOGUE,
        VALUES,
        PERMIT_FORM,
        PERMIT_SIZE,
        PERMIT_NAMES,
        PERMIT_WORKSPACE,
        QUERY_FORM,
        QUERY_SIZE,
        QUERY_NAMES,
        NO_PERMIT,
        REWRITTEN_BUFFER,
        ANSWER_BUFFER,
    ];
}
