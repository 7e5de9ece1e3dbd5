//! The words of the commands.
use std::str::FromStr;

/// Options that were not read yet.
pub struct Words<'a> {
    rest: std::slice::Iter<'a, String>,
}

/// Wrong words.
pub struct Wrong;

impl<'a> Words<'a> {
    /// Returns the options of a command.
    pub fn new(words: &'a [String]) -> Words<'a> {
        Words { rest: words.iter() }
    }

    /// Returns the next option.
    pub fn option(&mut self) -> Option<&'a str> {
        self.rest.next().map(String::as_str)
    }

    /// Reads the number of an option.
    pub fn number<T: FromStr>(&mut self) -> Result<T, Wrong> {
        self.rest.next().and_then(|word| word.parse().ok()).ok_or(Wrong)
    }
}
