//! Shim of the matrix view that `write_dense` writes to: column by column, without gaps.

/// A lent `rows x cols` matrix.
pub struct StridedMut<'a, S> {
    data: &'a mut [S],
    rows: usize,
    cols: usize,
}

impl<'a, S: Copy> StridedMut<'a, S> {
    /// The view of `data`, which holds exactly `rows * cols` entries.
    pub fn columns(data: &'a mut [S], rows: usize, cols: usize) -> Self {
        assert!(data.len() == rows * cols, "oracle: the list is not rows x cols long");
        Self { data, rows, cols }
    }

    #[inline]
    pub fn rows(&self) -> usize {
        self.rows
    }

    #[inline]
    pub fn cols(&self) -> usize {
        self.cols
    }

    #[inline]
    pub fn set(&mut self, r: usize, c: usize, v: S) {
        assert!(r < self.rows && c < self.cols, "oracle: an entry outside the view");
        self.data[c * self.rows + r] = v;
    }
}
