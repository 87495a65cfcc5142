//! Cells: eight bytes each, little-endian, two's complement.

pub const CELL: usize = 8;

pub fn to_bytes(cells: &[i64]) -> Vec<u8> {
    cells.iter().flat_map(|cell| cell.to_le_bytes()).collect()
}

/// The cell at `index`, if all its bytes are there.
pub fn cell_at(bytes: &[u8], index: usize) -> Option<i64> {
    let start = index.checked_mul(CELL)?;
    let cell = bytes.get(start..start.checked_add(CELL)?)?;
    Some(i64::from_le_bytes(cell.try_into().expect("eight bytes")))
}

/// All whole cells.
pub fn whole_cells(bytes: &[u8]) -> Vec<i64> {
    let cells = bytes.chunks_exact(CELL);
    cells.map(|cell| i64::from_le_bytes(cell.try_into().expect("eight bytes"))).collect()
}

/// The bytes behind the last whole cell.
pub fn torn_bytes(bytes: &[u8]) -> &[u8] {
    bytes.chunks_exact(CELL).remainder()
}
