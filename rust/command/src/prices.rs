//! What it costs to measure a pair: a price list in text.
//!
//! ```text
//! default 10
//! A B 3
//! A C never
//! ```

use std::ffi::OsStr;

use pattern::UNMEASURED;

use crate::document::{self, Document};
use crate::encoding;
use crate::fault::{Fault, Refusal};
use crate::near::did_you_mean;
use crate::text::{quoted, Line};

/// The most complaints that are gathered of one list.
const MOST: usize = 100;

/// The word for a pair that can't be measured.
const NEVER: &str = "never";

/// A price list: prices of pairs by their names, and that of the others.
#[derive(Clone, Default, Debug)]
pub struct Prices {
    path: String,
    default: u16,
    /// The line, the two names, the price.
    pairs: Vec<(usize, [String; 2], u16)>,
}

impl Prices {
    /// Reads a file.
    pub fn load(path: &OsStr) -> Result<Prices, Fault> {
        Prices::parse(&document::shown(path), &document::read(path)?)
    }

    /// Reads a price list, which is text.
    pub fn parse(path: &str, content: &[u8]) -> Result<Prices, Fault> {
        let text = encoding::plain(content).map_err(|what| Fault::refused(path, Refusal::file(what)))?;
        let mut prices = Prices { path: path.to_string(), ..Prices::default() };
        let complaints: Vec<_> =
            Line::all(text).filter_map(|mut line| prices.row(&mut line).err()).take(MOST).collect();
        match complaints.is_empty() {
            true => Ok(prices),
            false => Err(Fault::Refused { path: path.to_string(), refusals: complaints }),
        }
    }

    /// One line.
    fn row(&mut self, line: &mut Line) -> Result<(), Refusal> {
        let first = line.word("two names and a price, or default and a price")?;
        if first.text == "default" {
            self.default = price(line)?;
        } else {
            let second = line.word("the name of another element")?;
            let names = [first.text.to_string(), second.text.to_string()];
            self.pairs.push((line.number, names, price(line)?));
        }
        line.finish()
    }

    /// The prices of a sheet's pairs in dictionary order.
    pub fn of(&self, document: &Document) -> Result<Vec<u16>, Fault> {
        let n = document.names.len();
        let mut table = vec![vec![self.default; n]; n];
        for (line, names, price) in &self.pairs {
            let number = |name: &String| {
                let words = format!("expected the name of an element of {}, found {}", document.path, quoted(name));
                let hint = || did_you_mean(name, document.names.iter().map(String::as_str));
                let found = document.names.iter().position(|known| known == name);
                found.ok_or_else(|| Fault::refused(&self.path, Refusal::text(*line, 1, words).hint(hint())))
            };
            let (a, b) = (number(&names[0])?, number(&names[1])?);
            table[a.min(b)][a.max(b)] = *price;
        }
        Ok((0..n).flat_map(|a| table[a][a + 1..].to_vec()).collect())
    }
}

/// A price: a number, or never. Which numbers are prices is the engine's to say.
fn price(line: &mut Line) -> Result<u16, Refusal> {
    let expected = "a price from 0 to 1000, or never";
    let word = line.word(expected)?;
    if word.text == NEVER {
        return Ok(UNMEASURED);
    }
    let price = word.text.parse().ok().filter(|&price: &u16| price <= 1000);
    price.ok_or_else(|| line.unexpected(expected, word))
}
