//! The kinds that have a name.

pub const EMPTY: u8 = 0;
pub const PLACEHOLDER_ROW: u8 = 1;
pub const GLOBAL_LIMIT: u8 = 2;
pub const LOCAL_LIMIT: u8 = 3;
pub const PROJECTION: u8 = 4;
pub const COALESCE_PARTITIONS: u8 = 5;
pub const SORT_PRESERVING_MERGE: u8 = 6;
pub const SORT: u8 = 7;
pub const WINDOW: u8 = 8;
pub const AGGREGATE: u8 = 9;

/// From this kind on an operator set says what a kind is.
pub const FIRST_OF_SET: u8 = 16;

pub const SCAN: u8 = 16;
pub const FILTER: u8 = 17;
pub const UNION: u8 = 18;
pub const REPARTITION: u8 = 20;

const LETTERS: [(u8, char); 13] = [
    (EMPTY, 'E'),
    (PLACEHOLDER_ROW, 'R'),
    (GLOBAL_LIMIT, 'G'),
    (LOCAL_LIMIT, 'L'),
    (PROJECTION, 'P'),
    (COALESCE_PARTITIONS, 'C'),
    (SORT_PRESERVING_MERGE, 'M'),
    (SORT, 'S'),
    (WINDOW, 'W'),
    (AGGREGATE, 'A'),
    (SCAN, 'H'),
    (FILTER, 'F'),
    (UNION, 'U'),
];

pub fn letter(kind: u8) -> Option<char> {
    LETTERS.iter().find(|(of, _)| *of == kind).map(|(_, letter)| *letter)
}

pub fn of_letter(letter: char) -> Option<u8> {
    LETTERS.iter().find(|(_, of)| *of == letter).map(|(kind, _)| *kind)
}
