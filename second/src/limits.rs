//! "How much fits": every limit of document 01, named once.

/// Bytes in the text of a guideline, or in one line of the sheet (refusal 1).
pub const TEXT_BYTES: usize = 16_384;
/// The largest byte that a text may hold (refusal 1).
pub const LARGEST_BYTE: u8 = 127;
/// Tokens in one text.
pub const TOKENS: usize = 4_096;
/// Round and square brackets open at once.
pub const OPEN_BRACKETS: usize = 24;
/// Tasks, the root among them.
pub const TASKS: usize = 32;
/// Data items.
pub const DATA_ITEMS: usize = 64;
/// Parts of all expressions together; parentheses are none.
pub const EXPRESSION_PARTS: usize = 1_024;
/// Depth of one expression, parentheses included.
pub const DEPTH: usize = 24;
/// Elements of one list.
pub const LIST_ELEMENTS: usize = 16;
/// Bytes of a name or text between its quotes.
pub const NAME_BYTES: usize = 48;
/// Assignments in all postconditions.
pub const ASSIGNMENTS: usize = 256;
/// Sources in the whole guideline.
pub const SOURCES: usize = 128;
/// The largest integer; the smallest is its negative.
pub const INTEGER: i64 = 2_000_000;
/// A real is a whole number of these parts of one.
pub const PARTS_OF_ONE: i64 = 1_000;
/// Digits after the point of a literal.
pub const DIGITS_AFTER_POINT: usize = 3;
/// The largest real, in thousandths; the smallest is its negative.
pub const REAL_THOUSANDTHS: i64 = 2_000_000_000;
/// Cycles in one run.
pub const CYCLES: u64 = 256;
/// The largest engine time, in seconds.
pub const ENGINE_TIME: u64 = 4_294_967_295;
/// The fewest rows of a Changes table that may be lent to a run.
pub const CHANGES_ROWS: u64 = 1_024;
