//! Rows of cells, as a person writes them and a spreadsheet exports them, and rows of words between blanks. Every cell knows its place.
use std::rc::Rc;
use std::str::FromStr;

use crate::{Error, Place};

/// A cell's text, without the blanks around it and without quotes.
#[derive(Debug, Clone)]
pub struct Cell {
    pub text: String,
    pub place: Place,
}

impl Cell {
    pub fn is_blank(&self) -> bool {
        self.text.is_empty()
    }

    /// The nearest float.
    pub fn float(&self) -> Result<f32, Error> {
        let advice = if self.text.contains(',') { ": decimals have a point" } else { "" };
        self.text.parse().map_err(|_| self.is_no(&format!("number{advice}")))
    }

    /// The whole number; `kind` says of what.
    pub fn whole<N: FromStr>(&self, kind: &str) -> Result<N, Error> {
        self.text.parse().map_err(|_| self.is_no(kind))
    }

    fn is_no(&self, kind: &str) -> Error {
        match self.is_blank() {
            true => self.blank(kind),
            false => Error::text(&self.place, format!("'{}' is no {kind}", self.text)),
        }
    }

    fn blank(&self, kind: &str) -> Error {
        Error::text(&self.place, format!("a blank cell in place of the {kind}"))
    }
}

/// A line's cells. Blank cells at its end are dropped, since a spreadsheet fills every row up to the longest.
#[derive(Debug, Clone)]
pub struct Row {
    pub cells: Vec<Cell>,
    pub place: Place,
}

impl Row {
    pub fn cell(&self, i: usize) -> Option<&Cell> {
        self.cells.get(i).filter(|cell| !cell.is_blank())
    }

    /// The cell that has to be there; where it is not, the row's own place is the wrong one.
    pub fn needed(&self, i: usize, kind: &str) -> Result<&Cell, Error> {
        match self.cells.get(i) {
            Some(cell) if cell.is_blank() => Err(cell.blank(kind)),
            Some(cell) => Ok(cell),
            None => Err(Error::text(&self.place, format!("the row ends before its {kind}"))),
        }
    }

    /// The row has no more cells than these.
    pub fn at_most(&self, count: usize) -> Result<(), Error> {
        match self.cells.get(count..).and_then(|more| more.iter().find(|cell| !cell.is_blank())) {
            Some(cell) => Err(Error::text(&cell.place, format!("'{}' is one cell too many", cell.text))),
            None => Ok(()),
        }
    }
}

/// The text of a file's bytes, without the mark that some programs put first.
pub fn text_of_bytes(file: &str, bytes: Vec<u8>) -> Result<String, Error> {
    let text = String::from_utf8(bytes).map_err(|error| {
        let good = String::from_utf8_lossy(&error.as_bytes()[..error.utf8_error().valid_up_to()]).into_owned();
        let line = good.matches('\n').count() + 1;
        let column = good.chars().rev().take_while(|&c| c != '\n').count() + 1;
        Error::text(&Place { file: file.into(), line, column }, "no UTF-8 text: export it as CSV in UTF-8")
    })?;
    Ok(text.strip_prefix('\u{FEFF}').map(str::to_string).unwrap_or(text))
}

/// The rows of a text whose cells are set apart by commas, semicolons or tabs, as its first row has them. A cell in double quotes may have
/// a comma or a semicolon in it, and a quote as two. Empty rows are left out, and lines with `#` first where it marks a comment.
pub fn cell_rows(file: &str, text: &str, comments: bool) -> Result<Vec<Row>, Error> {
    let file: Rc<str> = file.into();
    // A spreadsheet puts a comment with a comma in quotes.
    let is_comment = |line: &str| comments && line.trim_start_matches(|c: char| c.is_whitespace() || c == '"').starts_with('#');
    let kept = || text.lines().enumerate().filter(|(_, line)| !is_comment(line));
    let separator = kept().find_map(|(_, line)| separator(line)).unwrap_or(',');
    let mut rows = Vec::new();
    for (i, line) in kept() {
        let mut cells = line_cells(&file, i + 1, line, separator)?;
        while cells.last().map_or(false, Cell::is_blank) {
            cells.pop();
        }
        if let Some(first) = cells.first() {
            rows.push(Row { place: first.place.clone(), cells });
        }
    }
    Ok(rows)
}

/// What sets apart the cells of a line: its first row decides for a text. A tab or a semicolon is rarely part of a cell, a comma may be.
fn separator(line: &str) -> Option<char> {
    let mut quoted = false;
    let bare: String = line
        .chars()
        .filter(|&c| {
            quoted ^= c == '"';
            !quoted
        })
        .collect();
    ['\t', ';', ','].into_iter().find(|&c| bare.trim().contains(c))
}

fn line_cells(file: &Rc<str>, line: usize, text: &str, separator: char) -> Result<Vec<Cell>, Error> {
    let place = |column: usize| Place { file: file.clone(), line, column };
    let characters: Vec<char> = text.chars().collect();
    let is_wrong = |c: char| c.is_control() || matches!(c, '\u{FFFE}' | '\u{FFFF}');
    let is_blank = |c: char| c.is_whitespace() && c != separator;
    let mut cells = Vec::new();
    let mut at = 0;
    loop {
        at += characters[at..].iter().take_while(|&&c| is_blank(c)).count();
        let start = at;
        let content = if characters.get(at) == Some(&'"') {
            let (content, end) = quoted_cell(&characters, at).ok_or_else(|| Error::text(&place(start + 1), "a quote that does not end"))?;
            at = end + characters[end..].iter().take_while(|&&c| is_blank(c)).count();
            content
        } else {
            at += characters[at..].iter().take_while(|&&c| c != separator).count();
            characters[start..at].iter().collect()
        };
        let cell = Cell { text: content.trim().to_string(), place: place(start + 1) };
        if cell.text.contains(is_wrong) {
            return Err(Error::text(&cell.place, "a cell with a control character"));
        }
        cells.push(cell);
        match characters.get(at) {
            None => return Ok(cells),
            Some(&c) if c == separator => at += 1,
            Some(_) => return Err(Error::text(&place(at + 1), "text after the quote's end")),
        }
    }
}

/// A quoted cell from its first quote on, and where it ends; nothing where its quote does not end.
fn quoted_cell(characters: &[char], start: usize) -> Option<(String, usize)> {
    let mut content = String::new();
    let mut at = start + 1;
    loop {
        match (*characters.get(at)?, characters.get(at + 1)) {
            ('"', Some('"')) => {
                content.push('"');
                at += 2;
            }
            ('"', _) => return Some((content, at + 1)),
            (c, _) => {
                content.push(c);
                at += 1;
            }
        }
    }
}

/// The lines of a text that are not empty, as words between blanks.
pub fn word_rows(file: &str, text: &str) -> Vec<Row> {
    let file: Rc<str> = file.into();
    let mut rows = Vec::new();
    for (i, line) in text.lines().enumerate() {
        let place = |column: usize| Place { file: file.clone(), line: i + 1, column };
        let mut cells: Vec<Cell> = Vec::new();
        let mut in_word = false;
        for (at, c) in line.chars().enumerate() {
            if !c.is_whitespace() {
                if !in_word {
                    cells.push(Cell { text: String::new(), place: place(at + 1) });
                }
                cells.last_mut().expect("a word has begun").text.push(c);
            }
            in_word = !c.is_whitespace();
        }
        if let Some(first) = cells.first() {
            rows.push(Row { place: first.place.clone(), cells });
        }
    }
    rows
}

#[cfg(test)]
mod tests {
    use super::*;

    fn texts(rows: &[Row]) -> Vec<Vec<&str>> {
        rows.iter().map(|row| row.cells.iter().map(|cell| cell.text.as_str()).collect()).collect()
    }

    fn places(row: &Row) -> Vec<(usize, usize)> {
        row.cells.iter().map(|cell| (cell.place.line, cell.place.column)).collect()
    }

    #[test]
    fn cells_and_their_places() {
        let rows = cell_rows("f", "\n# a, b\n a , \"b, \"\"c\"\"\" ,,d,,\r\n,,\n", true).unwrap();
        assert_eq!(texts(&rows), [["a", "b, \"c\"", "", "d"]]);
        assert_eq!(places(&rows[0]), [(3, 2), (3, 6), (3, 18), (3, 19)]);
    }

    #[test]
    fn the_first_row_has_the_separator() {
        for separator in [",", ";", "\t"] {
            let text = format!("# 1,2;3\t4\n\"x,;\"{separator}1\n\"y;,\"{separator} 2\n");
            let rows = cell_rows("f", &text, true).unwrap();
            assert_eq!(texts(&rows), [["x,;", "1"], ["y;,", "2"]], "{text}");
        }
        assert_eq!(texts(&cell_rows("f", "# no comment;1\n", false).unwrap()), [["# no comment", "1"]]);
        assert_eq!(texts(&cell_rows("f", "a,b;c\n\td;e,f\n", true).unwrap()), [["a,b", "c"], ["d", "e,f"]]);
    }

    #[test]
    fn wrong_text() {
        let error = |text: &str| cell_rows("f", text, true).unwrap_err().to_string();
        assert_eq!(error("a,\"b"), "f:1:3: a quote that does not end");
        assert_eq!(error("a\n\"b\"c,d"), "f:2:4: text after the quote's end");
        assert_eq!(error("a,b\u{1}c"), "f:1:3: a cell with a control character");
        assert_eq!(error("a,b\nc, \"d\te\""), "f:2:4: a cell with a control character");
        assert_eq!(text_of_bytes("f", b"a\nb\xE4".to_vec()).unwrap_err().to_string(), "f:2:2: no UTF-8 text: export it as CSV in UTF-8");
        assert_eq!(text_of_bytes("f", "\u{FEFF}a".into()).unwrap(), "a");
    }

    #[test]
    fn words_and_their_places() {
        let rows = word_rows("f", "mesh\n\n  2\t-1 ä 3 \n");
        assert_eq!(texts(&rows), [vec!["mesh"], vec!["2", "-1", "ä", "3"]]);
        assert_eq!(places(&rows[1]), [(3, 3), (3, 5), (3, 8), (3, 10)]);
    }
}
