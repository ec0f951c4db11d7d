//! Rows of cases as a whole.

use reference::answers::answer_row;
use reference::cases::{read_row, write_row};
use reference::making::census::Census;
use reference::making::demands::shortages;
use reference::making::row::row;

#[test]
fn the_stored_row_has_every_answer() {
    assert_eq!(shortages(&Census::of(&row(1))), Vec::<String>::new());
}

#[test]
fn rows_of_other_seeds_read_back() {
    for seed in [0, 2, u64::MAX] {
        let cases = row(seed);
        assert_eq!(read_row(&write_row(&cases)), Ok(cases.clone()));
        assert!(answer_row(&cases).ends_with(b"\n"));
    }
}
