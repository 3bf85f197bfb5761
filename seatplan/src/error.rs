use std::error;
use std::fmt;
use std::rc::Rc;

/// Where a cell of a text begins. Lines and columns count from 1, columns in characters.
#[derive(Debug, Clone, PartialEq, Eq)]
pub struct Place {
    pub file: Rc<str>,
    pub line: usize,
    pub column: usize,
}

impl fmt::Display for Place {
    fn fmt(&self, f: &mut fmt::Formatter<'_>) -> fmt::Result {
        write!(f, "{}:{}:{}", self.file, self.line, self.column)
    }
}

/// What is wrong, and where.
#[derive(Debug, Clone, PartialEq, Eq)]
pub enum Error {
    /// Of a text: a cell of it.
    Text { place: Place, what: String },
    /// Of a file as a whole.
    File { file: String, what: String },
}

impl Error {
    pub fn text(place: &Place, what: impl Into<String>) -> Error {
        Error::Text { place: place.clone(), what: what.into() }
    }

    pub fn file(file: &str, what: impl fmt::Display) -> Error {
        Error::File { file: file.to_string(), what: what.to_string() }
    }
}

impl fmt::Display for Error {
    fn fmt(&self, f: &mut fmt::Formatter<'_>) -> fmt::Result {
        match self {
            Error::Text { place, what } => write!(f, "{place}: {what}"),
            Error::File { file, what } => write!(f, "{file}: {what}"),
        }
    }
}

impl error::Error for Error {}
