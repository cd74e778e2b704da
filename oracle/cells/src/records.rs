//! Packed plans (`docs/records.md`): a record of 14 bytes for each cell.

use crate::{Cell, Fault, MAX_NUMBER};

/// How many bytes a record has.
pub const RECORD: usize = 14;

/// The refusal of bytes that are no records.
const PACKED: u8 = 1;

/// The record of a cell, or nothing where it has no room for one of the cell's numbers.
pub fn pack_cell(cell: &Cell) -> Option<[u8; RECORD]> {
    let extra = match cell.hint {
        Some(_) if cell.skip > 0 => return None,
        Some(hint) => hint,
        None => cell.skip,
    };
    let fetch = cell.fetch.unwrap_or(0);
    if cell.children > 63 || cell.parameter > 0x7fff || fetch > MAX_NUMBER || extra > MAX_NUMBER {
        return None;
    }
    let head = u32::from(cell.kind) << 24
        | u32::from(cell.children) << 18
        | u32::from(cell.parameter) << 3
        | u32::from(cell.mark) << 2
        | u32::from(cell.fetch.is_some()) << 1
        | u32::from(cell.hint.is_some());
    let mut record = [0; RECORD];
    record[..4].copy_from_slice(&head.to_be_bytes());
    record[4..9].copy_from_slice(&fetch.to_be_bytes()[3..]);
    record[9..].copy_from_slice(&extra.to_be_bytes()[3..]);
    Some(record)
}

/// The records of the cells, or the first cell that has none.
pub fn pack(cells: &[Cell]) -> Result<Vec<u8>, usize> {
    let mut bytes = Vec::with_capacity(cells.len() * RECORD);
    for (place, cell) in cells.iter().enumerate() {
        bytes.extend_from_slice(&pack_cell(cell).ok_or(place)?);
    }
    Ok(bytes)
}

/// The cells of the records, or why the bytes are refused.
pub fn unpack(bytes: &[u8]) -> Result<Vec<Cell>, Fault> {
    let records = bytes.chunks_exact(RECORD);
    if !records.remainder().is_empty() {
        return Err(Fault { number: PACKED, place: 0 });
    }
    let unpacked = records.enumerate().map(|(place, record)| unpack_cell(record).ok_or(Fault { number: PACKED, place }));
    unpacked.collect()
}

fn unpack_cell(record: &[u8]) -> Option<Cell> {
    let head = number(&record[..4]) as u32;
    let (fetch, extra) = (number(&record[4..9]), number(&record[9..]));
    let (has_fetch, has_hint) = (head & 2 != 0, head & 1 != 0);
    if !has_fetch && fetch != 0 {
        return None;
    }
    Some(Cell {
        kind: (head >> 24) as u8,
        children: (head >> 18 & 0x3f) as u8,
        parameter: (head >> 3 & 0x7fff) as u16,
        mark: head & 4 != 0,
        fetch: has_fetch.then_some(fetch),
        hint: has_hint.then_some(extra),
        skip: if has_hint { 0 } else { extra },
    })
}

fn number(bytes: &[u8]) -> u64 {
    bytes.iter().fold(0, |number, byte| number << 8 | u64::from(*byte))
}

#[cfg(test)]
mod tests {
    use super::*;

    #[test]
    fn the_example_of_the_document() {
        let cell = Cell { kind: 2, children: 1, mark: true, fetch: Some(5), skip: 2, ..Cell::default() };
        let record = [2, 4, 0, 6, 0, 0, 0, 0, 5, 0, 0, 0, 0, 2];
        assert_eq!(pack(&[cell]), Ok(record.to_vec()));
        assert_eq!(unpack(&record), Ok(vec![cell]));
    }
}
