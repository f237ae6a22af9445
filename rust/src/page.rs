//! The recovery page, in a buffer that has room for all of it.
use crate::ffi::{self, View};
use crate::recovered::ROW;
use crate::refusal::served;
use crate::{rows, Refusal};
use std::fmt;

/// The bytes of a line: 72 columns and a line feed.
const LINE: usize = 73;
/// The rows of a full page, between its heading and its foot.
const PAGE_ROWS: usize = 58;

/// A recovery page of a log that recovery refuses. [`Log::recovery_page`](crate::Log::recovery_page) says what others have.
#[derive(Clone, Debug, PartialEq, Eq)]
pub struct RefusedPage {
    /// Why.
    pub refusal: Refusal,
    /// All that such a page has: the line of the refusal's number, with its line feed.
    pub text: String,
}

impl fmt::Display for RefusedPage {
    fn fmt(&self, f: &mut fmt::Formatter<'_>) -> fmt::Result {
        self.refusal.fmt(f)
    }
}

impl std::error::Error for RefusedPage {
    fn source(&self) -> Option<&(dyn std::error::Error + 'static)> {
        Some(&self.refusal)
    }
}

/// The page of a recovery that is lent as many rows as the log needs.
pub(crate) fn sized(view: View, committee_size: u64, own: u64) -> Result<String, RefusedPage> {
    rows::sized(view, |rows| in_rows(view, committee_size, own, rows), |refused| refused.refusal)
}

fn in_rows(view: View, committee_size: u64, own: u64, rows: [usize; 4]) -> Result<String, RefusedPage> {
    let mut tables = rows.map(|n| vec![0; n * ROW]);
    let (mut out, mut length) = (vec![0; room(rows[0])], 0);
    let number = ffi::recovery_page(view, committee_size, own, &mut tables, &mut out, &mut length);
    out.truncate(length as usize);
    let text = String::from_utf8(out).expect("a page has blanks, letters, digits and line feeds alone");
    match served(number) {
        Ok(()) => Ok(text),
        Err(refusal) => Err(RefusedPage { refusal, text }),
    }
}

/// The bytes that the page has at most where this many rows are lent for what is pending: a line for each, and a heading and a foot for
/// each page, of which there is always one. The line of a refusal's number is shorter than any page.
fn room(rows: usize) -> usize {
    LINE * (rows + 2 * rows.div_ceil(PAGE_ROWS).max(1))
}

#[cfg(test)]
mod tests {
    use super::*;

    #[test]
    fn room_for_every_number_of_rows() {
        let lines = [0, 1, 57, 58, 59, 116, 117].map(|rows| room(rows) / 73);
        assert_eq!(lines, [2, 3, 59, 60, 63, 120, 123]);
    }

    #[test]
    fn the_header_has_the_same_numbers() {
        let header = std::fs::read_to_string(concat!(env!("CARGO_MANIFEST_DIR"), "/../include/kadzhomir.h")).unwrap();
        assert!(header.contains(&format!("    KADZHOMIR_PAGE_ROWS = {PAGE_ROWS},\n    KADZHOMIR_PAGE_LINE = {LINE}\n")));
    }
}
