//! A grid with its bytes.

/// A grid on `pages` pages, kept as the bytes that the calls take.
#[derive(Clone, PartialEq, Eq, Debug)]
pub struct Grid {
    pages: usize,
    bytes: Vec<u8>,
}

impl Grid {
    /// The grid that holds nothing.
    ///
    /// ```
    /// assert_eq!(flow::Grid::new(65).bytes().len(), 65 * 16);
    /// ```
    pub fn new(pages: usize) -> Grid {
        Grid {
            pages,
            bytes: vec![0; pages * row_length(pages)],
        }
    }

    /// The grid that holds each page with itself, the least start.
    ///
    /// ```
    /// let grid = flow::Grid::diagonal(2);
    /// assert_eq!(grid.bytes(), [1, 0, 0, 0, 0, 0, 0, 0, 2, 0, 0, 0, 0, 0, 0, 0]);
    /// ```
    pub fn diagonal(pages: usize) -> Grid {
        let mut grid = Grid::new(pages);
        for p in 0..pages {
            grid.bytes[p * row_length(pages) + p / 8] |= 1 << (p % 8);
        }
        grid
    }

    /// Does the grid hold (p, q)? Panics where p or q is no page.
    pub fn holds(&self, p: usize, q: usize) -> bool {
        assert!(p < self.pages && q < self.pages, "no such page");
        self.bytes[p * row_length(self.pages) + q / 8] >> (q % 8) & 1 == 1
    }

    /// The bytes.
    pub fn bytes(&self) -> &[u8] {
        &self.bytes
    }

    /// The bytes, to be written by a call.
    pub fn bytes_mut(&mut self) -> &mut [u8] {
        &mut self.bytes
    }
}

/// The bytes of one row: whole 64-bit words, one bit a page.
fn row_length(pages: usize) -> usize {
    8 * pages.div_ceil(64)
}
