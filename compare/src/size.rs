//! Sizes of a stream and of the slices that are lent for it, as document 01 counts them.

/// Most numbers in a green plane: above this a stream is refused with number 3.
pub const MAX_PLANE: u64 = 134_217_728;

/// The two sizes in a stream's header.
#[derive(Debug, Clone, Copy, PartialEq, Eq)]
pub struct Size {
    pub width: usize,
    pub half: usize,
}

impl Size {
    /// Coded height H.
    pub fn height(self) -> usize {
        self.half * 2
    }

    /// H / 16 rounded up.
    pub fn n(self) -> usize {
        self.height().div_ceil(16)
    }

    pub fn guarded(self) -> bool {
        !self.height().is_multiple_of(16)
    }

    /// Rows R of each plane.
    pub fn rows(self) -> usize {
        8 * self.n() - if self.guarded() { 4 } else { 0 }
    }

    pub fn too_large(self) -> bool {
        self.rows() as u64 * self.width as u64 > MAX_PLANE
    }

    /// Numbers needed in green, red, blue and work.
    pub fn needed(self) -> [usize; 4] {
        let (r, w) = (self.rows(), self.width);
        [r * w, r * (w / 2), r * (w / 2), 16 * (self.n() + 1) * w]
    }

    /// The rows of a record of the group.
    pub fn shape(self, group: usize) -> Shape {
        Shape {
            kind: [1, 3, 3, 3, 1][group],
            m: [1, 1, 2, 4, 8][group],
            columns: self.width >> [4, 4, 3, 2, 1][group],
        }
    }
}

/// The rows of one record: `kind` components of `m` rows with `columns` numbers each.
#[derive(Debug, Clone, Copy, PartialEq, Eq)]
pub struct Shape {
    pub kind: usize,
    pub m: usize,
    pub columns: usize,
}

impl Shape {
    /// Rows of all components.
    pub fn rows(self) -> usize {
        self.kind * self.m
    }

    /// Numbers of all components.
    pub fn numbers(self) -> usize {
        self.rows() * self.columns
    }

    /// Groups of four in a row.
    pub fn groups(self) -> usize {
        self.columns.div_ceil(4)
    }
}
