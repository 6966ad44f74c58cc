//! The tables that are lent to the calls, with their least lengths: docs/TABLES.md has their layout.

/// Cells of 32 bits, or bytes.
pub const ROWS: usize = 10_920;
pub const PARTS: usize = 4_096;
pub const PLAN: usize = 1_640;
pub const WAITS: usize = 1_024;
pub const TEXTS: usize = 65_536;
pub const STATE: usize = 2_952;
/// Rows of the Changes table.
pub const CHANGES: usize = 1_024;

/// The cells of the state that are no component's.
pub const FLAG: usize = 1;
pub const TIME: usize = 2;

/// A row of the Changes table: its component, its property, and the tag and number of its new value. The default is blank.
#[repr(C)]
#[derive(Clone, Copy, Debug, Default, PartialEq, Eq)]
pub struct Change {
    pub component: u32,
    pub property: u32,
    pub tag: u32,
    pub number: u32,
}

/// A guideline and its state. Blank tables hold an empty guideline.
#[derive(Clone, Debug)]
pub struct Tables {
    pub rows: Box<[u32]>,
    pub parts: Box<[u32]>,
    pub plan: Box<[u32]>,
    pub waits: Box<[u8; WAITS]>,
    pub texts: Box<[u8]>,
    pub state: Box<[u32]>,
    pub changes: Box<[Change]>,
}

impl Tables {
    pub fn blank() -> Tables {
        Tables {
            rows: cells(ROWS),
            parts: cells(PARTS),
            plan: cells(PLAN),
            waits: Box::new([0; WAITS]),
            texts: vec![0; TEXTS].into_boxed_slice(),
            state: cells(STATE),
            changes: vec![Change::default(); CHANGES].into_boxed_slice(),
        }
    }
}

fn cells(length: usize) -> Box<[u32]> {
    vec![0; length].into_boxed_slice()
}
