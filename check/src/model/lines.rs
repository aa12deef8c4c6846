//! The data lines and the instruction lines: rows of main flash as they were
//! when a line was filled, from which reads and fetches take their bytes.

pub const DATA_LINES: usize = 8;
pub const INSTRUCTION_LINES: usize = 64;
pub const ROW_LEN: usize = 16;

pub type Row = [u8; ROW_LEN];

#[derive(Clone)]
pub struct Lines {
    pub data: Side<DATA_LINES>,
    pub instructions: Side<INSTRUCTION_LINES>,
}

/// The lines of one side, each with the row that it holds, that row's bytes and
/// the moment of its latest use, counted in uses of the side.
#[derive(Clone)]
pub struct Side<const N: usize> {
    rows: [u32; N],
    bytes: [Row; N],
    used: [u32; N],
    uses: u32,
}

/// What a free line holds. Its moment is 0, before that of every use.
const NO_ROW: u32 = u32::MAX;

impl Lines {
    pub const EMPTY: Lines = Lines {
        data: Side::EMPTY,
        instructions: Side::EMPTY,
    };

    pub fn empty(&mut self) {
        self.data.empty();
        self.instructions.empty();
    }
}

impl<const N: usize> Side<N> {
    const EMPTY: Side<N> = Side {
        rows: [NO_ROW; N],
        bytes: [[0; ROW_LEN]; N],
        used: [0; N],
        uses: 0,
    };

    pub fn empty(&mut self) {
        if self.uses > 0 {
            self.rows = [NO_ROW; N];
            self.used = [0; N];
            self.uses = 0;
        }
    }

    /// Eight bytes from this offset in main flash on, of which an access has
    /// the first ones: those of its lower row, then those of its upper one.
    pub fn take(&mut self, main: &[u8], offset: usize, width: usize) -> [u8; 8] {
        let (row, start) = (offset / ROW_LEN, offset % ROW_LEN);
        let mut bytes = [0; 8];
        let lower = (ROW_LEN - start).min(width);
        bytes[..lower].copy_from_slice(&self.line(main, row)[start..][..lower]);
        if lower < width {
            let upper = &self.line(main, row + 1)[..width - lower];
            bytes[lower..width].copy_from_slice(upper);
        }
        bytes
    }

    /// Uses the line of this row. Where there is none, the one whose latest use
    /// is the longest ago is filled; that is a free one, if there is any.
    fn line(&mut self, main: &[u8], row: usize) -> &Row {
        let held = self.place(row as u32);
        let place = held.unwrap_or_else(|| self.oldest());
        if held.is_none() {
            self.rows[place] = row as u32;
            self.bytes[place].copy_from_slice(&main[row * ROW_LEN..][..ROW_LEN]);
        }
        self.uses += 1;
        self.used[place] = self.uses;
        &self.bytes[place]
    }

    /// The cells from this offset on, all in one row, have these values now.
    pub fn set(&mut self, offset: usize, cells: &[u8]) {
        if let Some(place) = self.place((offset / ROW_LEN) as u32) {
            self.bytes[place][offset % ROW_LEN..][..cells.len()].copy_from_slice(cells);
        }
    }

    fn place(&self, row: u32) -> Option<usize> {
        self.rows.iter().position(|&held| held == row)
    }

    fn oldest(&self) -> usize {
        let mut oldest = 0;
        for place in 1..N {
            if self.used[place] < self.used[oldest] {
                oldest = place;
            }
        }
        oldest
    }
}

/// What a side holds.
impl<const N: usize> Side<N> {
    pub fn rows(&self) -> impl Iterator<Item = u32> + '_ {
        self.rows.iter().copied().filter(|&row| row != NO_ROW)
    }

    pub fn is_full(&self) -> bool {
        self.rows().count() == N
    }

    pub fn bytes_of(&self, row: u32) -> Option<Row> {
        self.place(row).map(|place| self.bytes[place])
    }

    /// The row that is dropped by the next fill, if that drops one.
    pub fn next_out(&self) -> Option<u32> {
        self.is_full().then(|| self.rows[self.oldest()])
    }
}
