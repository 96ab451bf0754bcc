// Examples of the label book. Included by the tests of the judge and of the library, with `label_book` of their own in scope.

const EARLIER: i64 = -77;
const EARLIER_BYTE: u8 = 99;

struct Book {
    outcome: Outcome,
    rewritten: Vec<u8>,
    answer: Vec<i64>,
    offers: Vec<i64>,
    display: Vec<u8>,
}

/// Label, offer and price of relation 0, all of it permitted.
const QUERY: [u8; 13] = [1, 0, 0, 33, 0, 0, 33, 0, 1, 33, 0, 2, 16];
const OPEN: [u8; 5] = [64, 0, 255, 255, 16];

fn book_of(rows: &[[i32; 3]], query: &[u8], cells: usize, lengths: [usize; 2]) -> Book {
    book_of_kind(48, rows, query, cells, lengths)
}

fn book_of_kind(
    kind: u8,
    rows: &[[i32; 3]],
    query: &[u8],
    cells: usize,
    lengths: [usize; 2],
) -> Book {
    let mut book = Book {
        outcome: Outcome {
            number: 0,
            rows: 0,
            columns: 0,
            length: 0,
        },
        rewritten: vec![EARLIER_BYTE; 40],
        answer: vec![EARLIER; cells],
        offers: vec![EARLIER; lengths[0]],
        display: vec![EARLIER_BYTE; lengths[1]],
    };
    book.outcome = label_book(
        &[kind, 3, rows.len() as u8, 0],
        &rows.concat(),
        &OPEN,
        query,
        &mut book.rewritten,
        &mut book.answer,
        &mut book.offers,
        &mut book.display,
    );
    book
}

fn booked(rows: &[[i32; 3]]) -> Book {
    book_of(rows, &QUERY, 64, [500, 3_500])
}

impl Book {
    fn entry(&self, label: usize) -> (i64, &str) {
        let shown = &self.display[7 * label..7 * label + 7];
        (self.offers[label], std::str::from_utf8(shown).unwrap())
    }

    fn is_unchanged(&self) -> bool {
        self.offers.iter().all(|offer| *offer == EARLIER)
            && self.display.iter().all(|byte| *byte == EARLIER_BYTE)
    }

    /// 53: zero counts, the book unchanged, both buffers as the accepted query left them.
    fn is_refused_53(&self, cells: &[i64]) -> bool {
        let counts = (self.outcome.rows, self.outcome.columns, self.outcome.length);
        (self.outcome.number, counts) == (53, (0, 0, 0))
            && self.is_unchanged()
            && self.answer[..cells.len()] == *cells
            && self.answer[cells.len()..]
                .iter()
                .all(|cell| *cell == EARLIER)
            && self.rewritten[0] == 1
    }
}

#[test]
fn a_book() {
    let book = booked(&[[7, 11, 199], [7, 12, 99], [0, 13, 0], [499, 0, 999_999]]);
    let outcome = Outcome {
        number: 0,
        rows: 4,
        columns: 3,
        length: 15,
    };
    assert_eq!(book.outcome, outcome);
    assert_eq!(
        book.answer[..12],
        [7, 11, 199, 7, 12, 99, 0, 13, 0, 499, 0, 999_999]
    );
    assert_eq!(book.entry(7), (11, "   1.99"));
    assert_eq!(book.entry(0), (13, "   0.00"));
    assert_eq!(book.entry(499), (0, "9999.99"));
    for label in (1..499).filter(|label| *label != 7) {
        assert_eq!(book.entry(label), (-1, "       "));
    }
}

#[test]
fn prices_as_they_are_shown() {
    for (price, shown) in [
        (0, "   0.00"),
        (5, "   0.05"),
        (10, "   0.10"),
        (99, "   0.99"),
        (100, "   1.00"),
        (1_005, "  10.05"),
        (99_990, " 999.90"),
        (100_000, "1000.00"),
        (123_456, "1234.56"),
        (999_999, "9999.99"),
    ] {
        assert_eq!(booked(&[[3, 1, price]]).entry(3), (1, shown));
    }
}

#[test]
fn values_outside_their_ranges() {
    let bad = [
        [-1, 1, 1],
        [500, 1, 1],
        [i32::MAX, 1, 1],
        [1, -1, 1],
        [1, i32::MIN, 1],
        [1, 1, -1],
        [1, 1, 1_000_000],
    ];
    for row in bad {
        let cells = row.map(i64::from);
        assert!(booked(&[row]).is_refused_53(&cells), "{row:?}");
        // A later row counts too, also where an earlier one names its label.
        let good = [1, 2, 3];
        let both = [good.map(i64::from), cells].concat();
        assert!(booked(&[good, row]).is_refused_53(&both), "{row:?}");
    }
    assert_eq!(booked(&[[499, i32::MAX, 0]]).entry(499).0, 2_147_483_647);
}

/// SUM makes an offer number of over 32 bits, which has no upper bound.
#[test]
fn an_offer_over_32_bits() {
    let query = [1, 0, 0, 33, 0, 0, 34, 2, 1, 0, 1, 16, 33, 0, 2, 16];
    let book = book_of(
        &[[1, i32::MAX, 5], [2, i32::MAX, 6]],
        &query,
        64,
        [500, 3_500],
    );
    assert_eq!(book.entry(2), (4_294_967_294, "   0.06"));
}

#[test]
fn another_number_of_targets() {
    let two = [1, 0, 0, 33, 0, 0, 33, 0, 1, 16];
    let four = [1, 0, 0, 33, 0, 0, 33, 0, 1, 33, 0, 2, 33, 0, 2, 16];
    let lengths = [500, 3_500];
    assert!(book_of(&[[1, 2, 3]], &two, 64, lengths).is_refused_53(&[1, 2]));
    assert!(book_of(&[[1, 2, 3]], &four, 64, lengths).is_refused_53(&[1, 2, 3, 3]));
    assert!(book_of(&[], &two, 64, lengths).is_refused_53(&[]));
    assert!(book_of(&[], &four, 64, lengths).is_refused_53(&[]));
    let none = booked(&[]);
    assert_eq!((none.outcome.number, none.outcome.columns), (0, 3));
    assert!((0..500).all(|label| none.entry(label) == (-1, "       ")));
}

#[test]
fn books_of_another_length() {
    for lengths in [
        [499, 3_500],
        [501, 3_500],
        [0, 3_500],
        [500, 3_499],
        [500, 3_501],
        [0, 0],
    ] {
        assert!(book_of(&[[1, 2, 3]], &QUERY, 64, lengths).is_refused_53(&[1, 2, 3]));
    }
}

/// The engine's own refusals come first, with what ask says of the buffers.
#[test]
fn refusals_of_the_engine() {
    let short = book_of(&[[1, 2, 3], [4, 5, 6], [-1, 2, 3]], &QUERY, 7, [499, 3_500]);
    let outcome = Outcome {
        number: 41,
        rows: 2,
        columns: 3,
        length: 15,
    };
    assert_eq!(short.outcome, outcome);
    assert!(short.is_unchanged());
    assert_eq!(short.answer, [1, 2, 3, 4, 5, 6, EARLIER]);
    for (query, number) in [(&[99][..], 30), (&[1, 0, 1, 33, 0, 0, 16], 32)] {
        let book = book_of(&[[1, 2, 3]], query, 64, [0, 0]);
        let outcome = Outcome {
            number,
            rows: 0,
            columns: 0,
            length: 0,
        };
        assert_eq!(book.outcome, outcome);
        assert!(book.is_unchanged());
        assert!(book.answer.iter().all(|cell| *cell == EARLIER));
        assert!(book.rewritten.iter().all(|byte| *byte == EARLIER_BYTE));
    }
}

/// Change 9: of the rows that name a label the last stored one is met first.
#[test]
fn the_latest_offer_is_shown() {
    let rows = [[3, 11, 249], [4, 12, 5], [3, 13, 199], [3, 11, 249]];
    let forward = book_of_kind(48, &rows, &QUERY, 64, [500, 3_500]);
    let latest = book_of_kind(50, &rows[..3], &QUERY, 64, [500, 3_500]);
    assert_eq!(forward.entry(3), (11, "   2.49"));
    assert_eq!(latest.entry(3), (13, "   1.99"));
    assert_eq!(latest.entry(4), (12, "   0.05"));
    // a correction taken back: the row appended last counts, though an equal one was there
    let back = book_of_kind(50, &rows, &QUERY, 64, [500, 3_500]);
    assert_eq!((back.outcome.rows, back.entry(3)), (3, (11, "   2.49")));
    // a row out of range is 53 wherever it stands
    let rows = [[3, 11, -1], [3, 13, 199]];
    let book = book_of_kind(50, &rows, &QUERY, 64, [500, 3_500]);
    assert!(book.is_refused_53(&[3, 13, 199, 3, 11, -1]));
    // 41 leaves the book, and the latest row stands in the answer
    let book = book_of_kind(50, &rows, &QUERY, 5, [500, 3_500]);
    assert_eq!((book.outcome.number, book.outcome.rows), (41, 1));
    assert_eq!(book.answer[..3], [3, 13, 199]);
    assert!(book.is_unchanged());
    assert_eq!(
        book_of_kind(51, &rows, &QUERY, 64, [500, 3_500])
            .outcome
            .number,
        10
    );
}

/// Change 2: a target without value leaves no row, so no label is named.
#[test]
fn an_offer_without_value_is_no_row() {
    let rows = [[3, 11, 249], [4, 12, 5]];
    let with_price = |aggregate: &[u8]| {
        let query = [&QUERY[..9], aggregate, &[16]].concat();
        book_of(&rows, &query, 64, [500, 3_500])
    };
    for function in 3..=5 {
        let book = with_price(&[34, function, 1, 0, 2, 17]);
        assert_eq!((book.outcome.number, book.outcome.rows), (0, 0));
        assert!((0..500).all(|label| book.entry(label) == (-1, "       ")));
    }
    let book = with_price(&[34, 2, 1, 0, 2, 17]);
    assert_eq!(book.entry(3), (11, "   0.00"));
    // with another number of targets it is 53, rows or none
    let query = [&QUERY[..6], &[34, 4, 1, 0, 2, 17, 16]].concat();
    assert!(book_of(&rows, &query, 64, [500, 3_500]).is_refused_53(&[]));
}
