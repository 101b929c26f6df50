//! Shared memory: the cells of a map or of a model and the cells written since.

#[derive(Clone, Copy, Debug, PartialEq, Eq)]
pub struct Cell {
    pub address: u16,
    pub value: u16,
}

/// The listed cells, by ascending address, and what the others hold: nothing that is known where they
/// are free, so that they cannot be read.
#[derive(Clone, Debug)]
pub struct Memory {
    cells: Vec<Cell>,
    others: Option<u16>,
}

impl Memory {
    /// First memory: what the map says. The map's addresses ascend.
    pub fn first(map: Vec<Cell>) -> Memory {
        Memory {
            cells: map,
            others: None,
        }
    }

    /// First memory of a model: "unlisted cells are 0". The cells' addresses ascend.
    pub fn full(cells: Vec<Cell>) -> Memory {
        Memory {
            cells,
            others: Some(0),
        }
    }

    /// The listed cells, by ascending address.
    pub fn cells(&self) -> &[Cell] {
        &self.cells
    }

    /// Whether the cell is listed, by the map or by a write.
    pub fn lists(&self, address: u16) -> bool {
        self.find(address).is_ok()
    }

    pub fn read(&self, address: u16) -> Option<u16> {
        match self.find(address) {
            Ok(index) => Some(self.cells[index].value),
            Err(_) => self.others,
        }
    }

    pub fn write(&mut self, cell: Cell) {
        match self.find(cell.address) {
            Ok(index) => self.cells[index] = cell,
            Err(index) => self.cells.insert(index, cell),
        }
    }

    /// The index of the cell, or the one where it would stand.
    fn find(&self, address: u16) -> Result<usize, usize> {
        self.cells
            .binary_search_by_key(&address, |cell| cell.address)
    }
}

#[cfg(test)]
mod tests {
    use super::*;

    #[test]
    fn a_write_makes_a_cell_known() {
        let mut memory = Memory::first(vec![Cell {
            address: 4,
            value: 9,
        }]);
        assert_eq!(memory.read(4), Some(9));
        assert_eq!(memory.read(0), None);
        for (address, value) in [(0, 1), (65_535, 2), (4, 10), (5, 0)] {
            memory.write(Cell { address, value });
            assert_eq!(memory.read(address), Some(value));
        }
        assert_eq!(memory.read(0), Some(1));
        assert_eq!(memory.read(6), None);
    }

    #[test]
    fn unlisted_cells_of_a_model_are_0() {
        let (address, value) = (4, 9);
        let mut memory = Memory::full(vec![Cell { address, value }]);
        assert_eq!([memory.read(4), memory.read(5)], [Some(9), Some(0)]);
        memory.write(Cell {
            address: 5,
            value: 1,
        });
        assert_eq!([memory.read(5), memory.read(6)], [Some(1), Some(0)]);
    }
}
