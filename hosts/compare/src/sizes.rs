//! Most bytes that are ever drawn and lent as a book, a file or a month's table,
//! and the sizes of books about which more is drawn.

use second::{MOST_ENTRIES, MOST_FILE_BYTES};

pub const MOST_BOOK: usize = 4 * (3 + 5 * MOST_ENTRIES + 512);
/// A call on bytes reads a book into one of four arrays: each has the words of
/// so many entries and of one more, the last those of a full book.
pub const ARRAYS: [usize; 4] = [25, 127, 768, MOST_ENTRIES];
pub const MOST_FILE: usize = MOST_FILE_BYTES + 64;
pub const MOST_TABLE: usize = 4 * (750 * 66);
