//! Document 02, Point 9: "The map viewers store grids by rows: add a rearrangement of one named grid's cells into row
//! order, and its inverse, every other cell unchanged." Neither runs the loop (9.5).

use crate::program::Program;
use crate::services::read_for;
use crate::Refusal;

/// Rows: into row order. Numbers 1 to 5, then "13, name not a grid, after 5" (9.1).
pub fn rows(text: &[u8], cells: &mut [i32], name: &[u8]) -> Result<(), Refusal> {
    read_for(text, cells.len())?.rows(cells, name)
}

/// Columns: from row order back into Fortran's element order. It refuses as Rows does.
pub fn columns(text: &[u8], cells: &mut [i32], name: &[u8]) -> Result<(), Refusal> {
    read_for(text, cells.len())?.columns(cells, name)
}

impl Program {
    /// Rows, on as many cells as there are.
    pub fn rows(&self, cells: &mut [i32], name: &[u8]) -> Result<(), Refusal> {
        let before = cells.to_vec();
        for (by_columns, by_rows) in self.places_of(name)? {
            cells[by_rows] = before[by_columns];
        }
        Ok(())
    }

    /// Columns, on as many cells as there are.
    pub fn columns(&self, cells: &mut [i32], name: &[u8]) -> Result<(), Refusal> {
        let before = cells.to_vec();
        for (by_columns, by_rows) in self.places_of(name)? {
            cells[by_columns] = before[by_rows];
        }
        Ok(())
    }

    /// For each cell of a grid the number it has in element order and the one in row order: "a(r, c), found at
    /// (r - 1) + (c - 1) x m, to (r - 1) x n + (c - 1)" (9.1). Number 13 unless the bytes, all of them and "upper case
    /// read as lower", spell a grid's name: not declared, v, no name at all, a single cell or an array (9.2, 9.3).
    fn places_of(&self, name: &[u8]) -> Result<Vec<(usize, usize)>, Refusal> {
        let grid = self
            .declared(name)
            .and_then(|declared| Some((declared.first_cell, declared.grid()?)));
        let (first, (rows, columns)) = grid.ok_or(Refusal::of_text(13, 0))?;
        let mut places = Vec::new();
        for row in 0..rows {
            for column in 0..columns {
                let by_columns = row + column * rows;
                let by_rows = row * columns + column;
                places.push((first + by_columns, first + by_rows));
            }
        }
        Ok(places)
    }
}
