// The header of a .npy file.

use super::{bad, NpyError};

/// What a header says.
pub struct Header {
    pub descr: String,
    pub fortran_order: bool,
    pub shape: Vec<u64>,
}

/// The header is a Python dictionary with the keys descr, fortran_order and shape.
pub fn parse_header(text: &str) -> Result<Header, NpyError> {
    let mut words = Words { rest: text };
    let (mut descr, mut fortran_order, mut shape) = (None, None, None);
    words.expect('{')?;
    while !words.take('}') {
        let key = words.string()?;
        words.expect(':')?;
        match key.as_str() {
            "descr" => descr = Some(words.descr()?),
            "fortran_order" => fortran_order = Some(words.boolean()?),
            "shape" => shape = Some(words.shape()?),
            _ => return bad(format!("has an unknown key '{key}' in its header")),
        }
        if !words.take(',') {
            words.expect('}')?;
            break;
        }
    }
    if !words.rest.trim().is_empty() {
        return bad("has a header that goes on after its end");
    }
    match (descr, fortran_order, shape) {
        (Some(descr), Some(fortran_order), Some(shape)) => Ok(Header { descr, fortran_order, shape }),
        _ => bad("has a header without descr, fortran_order or shape"),
    }
}

/// What is left of a header.
struct Words<'a> {
    rest: &'a str,
}

impl Words<'_> {
    /// Whether the next character is this one; if so it is passed.
    fn take(&mut self, character: char) -> bool {
        self.rest = self.rest.trim_start();
        match self.rest.strip_prefix(character) {
            Some(rest) => {
                self.rest = rest;
                true
            }
            None => false,
        }
    }

    fn expect(&mut self, character: char) -> Result<(), NpyError> {
        if self.take(character) {
            return Ok(());
        }
        let found: String = self.rest.chars().take(12).collect();
        bad(format!("has a header in which '{character}' is missing before {found:?}"))
    }

    fn string(&mut self) -> Result<String, NpyError> {
        for quote in ['\'', '"'] {
            if self.take(quote) {
                if let Some((string, rest)) = self.rest.split_once(quote) {
                    self.rest = rest;
                    return Ok(string.to_string());
                }
            }
        }
        bad("has a header in which a quoted word is missing")
    }

    /// The type of the elements; that of a structured type, which is a list, is only told apart.
    fn descr(&mut self) -> Result<String, NpyError> {
        match self.take('[') {
            true => Err(NpyError::Type("a structured type".to_string())),
            false => self.string(),
        }
    }

    fn boolean(&mut self) -> Result<bool, NpyError> {
        self.rest = self.rest.trim_start();
        for (word, value) in [("True", true), ("False", false)] {
            if let Some(rest) = self.rest.strip_prefix(word) {
                self.rest = rest;
                return Ok(value);
            }
        }
        bad("has a header in which fortran_order is neither True nor False")
    }

    fn shape(&mut self) -> Result<Vec<u64>, NpyError> {
        let mut shape = Vec::new();
        self.expect('(')?;
        while !self.take(')') {
            self.rest = self.rest.trim_start();
            let end = self.rest.find(|c: char| !c.is_ascii_digit()).unwrap_or(self.rest.len());
            let Ok(dim) = self.rest[..end].parse() else {
                return bad("has a header in which a dimension is not a whole number");
            };
            // NumPy arrays have at most 64 dimensions
            if shape.len() == 64 {
                return bad("has more than 64 dimensions");
            }
            shape.push(dim);
            self.rest = &self.rest[end..];
            if !self.take(',') {
                self.expect(')')?;
                break;
            }
        }
        Ok(shape)
    }
}
