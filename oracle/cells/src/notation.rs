//! Plans as text (`docs/notation.md`).

use std::fmt::Write;

use crate::{Cell, kind};

/// The canonical text of the cells. Cells that are no tree are shown as far as they go.
pub fn write_plan(cells: &[Cell]) -> String {
    let mut text = String::new();
    // For each open node, how many of its children are to come, and whether they stand in parentheses.
    let mut open: Vec<(u8, bool)> = vec![(1, false)];
    for cell in cells {
        if open.is_empty() {
            text.push_str(" | ");
            open.push((1, false));
        }
        write_node(&mut text, cell);
        open.last_mut().expect("a node is due").0 -= 1;
        open.push((cell.children, cell.children > 1));
        match cell.children {
            0 => close(&mut text, &mut open),
            1 => text.push(' '),
            _ => text.push('('),
        }
    }
    if !open.is_empty() {
        text.push('?');
    }
    text
}

/// Takes the nodes that have all their children off, and writes what stands behind them.
fn close(text: &mut String, open: &mut Vec<(u8, bool)>) {
    while let Some((due, listed)) = open.last() {
        if *due > 0 {
            text.push_str(", ");
            return;
        }
        if *listed {
            text.push(')');
        }
        open.pop();
    }
}

fn write_node(text: &mut String, cell: &Cell) {
    match kind::letter(cell.kind) {
        Some(letter) => {
            text.push(letter);
            if cell.parameter > 0 {
                write!(text, "{}", cell.parameter).expect("a string takes all");
            }
        }
        None => write!(text, "{}:{}", cell.kind, cell.parameter).expect("a string takes all"),
    }
    text.push_str(&suffixes(cell));
}

fn suffixes(cell: &Cell) -> String {
    let fetch = cell.fetch.map_or("-".to_string(), |fetch| fetch.to_string());
    let mut text = match cell.kind {
        kind::GLOBAL_LIMIT => format!("({},{fetch})", cell.skip),
        kind::LOCAL_LIMIT => format!("({fetch})"),
        _ if cell.fetch.is_some() => format!("[{fetch}]"),
        _ => String::new(),
    };
    if let Some(hint) = cell.hint {
        text += &format!("{{{hint}}}");
    }
    if cell.skip > 0 && cell.kind != kind::GLOBAL_LIMIT {
        text += &format!("+{}", cell.skip);
    }
    if cell.mark {
        text.push('!');
    }
    text
}

/// The cells of a text, or the column where it cannot be read.
pub fn read_plan(text: &str) -> Result<Vec<Cell>, usize> {
    let mut reader = Reader { rest: text, length: text.len(), cells: Vec::new() };
    match reader.tree().filter(|()| reader.skip_blanks().is_empty()) {
        Some(()) => Ok(reader.cells),
        None => Err(reader.length - reader.rest.len() + 1),
    }
}

struct Reader<'a> {
    rest: &'a str,
    length: usize,
    cells: Vec<Cell>,
}

impl<'a> Reader<'a> {
    fn skip_blanks(&mut self) -> &'a str {
        self.rest = self.rest.trim_start_matches([' ', '\t']);
        self.rest
    }

    fn takes(&mut self, letter: char) -> bool {
        let rest = self.rest.strip_prefix(letter);
        self.rest = rest.unwrap_or(self.rest);
        rest.is_some()
    }

    fn expects(&mut self, letter: char) -> Option<()> {
        self.takes(letter).then_some(())
    }

    fn digits(&mut self) -> Option<u64> {
        let end = self.rest.find(|c: char| !c.is_ascii_digit()).unwrap_or(self.rest.len());
        let number = self.rest[..end].parse().ok()?;
        self.rest = &self.rest[end..];
        Some(number)
    }

    fn fetch(&mut self) -> Option<Option<u64>> {
        if self.takes('-') { Some(None) } else { self.digits().map(Some) }
    }

    fn tree(&mut self) -> Option<()> {
        self.skip_blanks();
        let place = self.cells.len();
        let cell = self.node()?;
        self.cells.push(cell);
        let rest = self.skip_blanks();
        if rest.is_empty() || rest.starts_with([',', ')']) {
            return Some(());
        }
        if !self.takes('(') {
            self.cells[place].children = 1;
            return self.tree();
        }
        loop {
            self.cells[place].children += 1;
            self.tree()?;
            self.skip_blanks();
            if !self.takes(',') {
                return self.expects(')');
            }
        }
    }

    fn node(&mut self) -> Option<Cell> {
        let mut cell = self.head()?;
        match cell.kind {
            kind::GLOBAL_LIMIT if self.takes('(') => {
                cell.skip = self.digits()?;
                self.expects(',')?;
                cell.fetch = self.fetch()?;
                self.expects(')')?;
            }
            kind::LOCAL_LIMIT if self.takes('(') => {
                cell.fetch = self.fetch()?;
                self.expects(')')?;
            }
            _ => {}
        }
        self.suffixes(cell)
    }

    fn head(&mut self) -> Option<Cell> {
        let first = self.rest.chars().next()?;
        let (kind, parameter) = if first.is_ascii_digit() {
            let kind = u8::try_from(self.digits()?).ok()?;
            self.expects(':')?;
            (kind, self.digits()?)
        } else {
            let kind = kind::of_letter(first)?;
            self.rest = &self.rest[1..];
            (kind, self.digits().unwrap_or(0))
        };
        Some(Cell { kind, parameter: u16::try_from(parameter).ok()?, ..Cell::default() })
    }

    fn suffixes(&mut self, mut cell: Cell) -> Option<Cell> {
        if self.takes('[') {
            cell.fetch = Some(self.digits()?);
            self.expects(']')?;
        }
        if self.takes('{') {
            cell.hint = Some(self.digits()?);
            self.expects('}')?;
        }
        if self.takes('+') {
            cell.skip = self.digits()?;
        }
        cell.mark = self.takes('!');
        Some(cell)
    }
}

#[cfg(test)]
mod tests {
    use super::*;

    #[test]
    fn what_is_read_is_written() {
        for text in
            ["G(2,5) P H1", "A{5} A2 H1[7]", "U(H1, P H2)", "L(3) 20:8 H4", "G(4,-)! U(U H1, C[3] U(H2!, E), R) ", "P+3 H1"]
        {
            let cells = read_plan(text).unwrap();
            assert_eq!(write_plan(&cells), text.trim_end());
        }
    }

    #[test]
    fn what_is_no_tree_is_shown() {
        let [union, scan] = [Cell::new(kind::UNION, 2), Cell { parameter: 1, ..Cell::new(kind::SCAN, 0) }];
        assert_eq!(write_plan(&[union, scan]), "U(H1, ?");
        assert_eq!(write_plan(&[Cell::new(kind::PROJECTION, 1)]), "P ?");
        assert_eq!(write_plan(&[scan, scan]), "H1 | H1");
        assert_eq!(write_plan(&[]), "?");
    }
}
