// Lines of unsigned decimal numbers separated by single spaces.

// What is wrong with a request. It stops the run: a list with a hole in it
// would pass for a whole one.
pub type Unreadable = String;

pub fn parse(line: &str) -> Result<Vec<u64>, Unreadable> {
    line.split(' ').map(parse_one).collect()
}

// Stricter than the library's, which takes a plus sign and leading zeros: each
// number has one form, so that equal requests are equal lines.
fn parse_one(text: &str) -> Result<u64, Unreadable> {
    let plain = text.bytes().all(|b| b.is_ascii_digit()) && (text == "0" || !text.starts_with('0'));
    text.parse()
        .ok()
        .filter(|_| plain)
        .ok_or_else(|| format!("{text:?} is not a number"))
}

pub fn join(numbers: &[u64]) -> String {
    let texts: Vec<String> = numbers.iter().map(u64::to_string).collect();
    texts.join(" ")
}

// The inputs of a call, taken from the front one after the other.
pub struct Inputs<'a>(pub &'a [u64]);

impl Inputs<'_> {
    pub fn number(&mut self, max: u64) -> Result<u64, Unreadable> {
        let (&first, rest) = self.0.split_first().ok_or("an input is missing")?;
        if first > max {
            return Err(format!("{first} is above {max}"));
        }
        self.0 = rest;
        Ok(first)
    }

    pub fn flag(&mut self) -> Result<bool, Unreadable> {
        Ok(self.number(1)? == 1)
    }

    pub fn byte(&mut self) -> Result<u8, Unreadable> {
        Ok(self.number(u8::MAX.into())? as u8)
    }

    pub fn word(&mut self) -> Result<u32, Unreadable> {
        Ok(self.number(u32::MAX.into())? as u32)
    }

    // A node's index or arc, which the Rust keeps signed.
    pub fn index(&mut self) -> Result<i32, Unreadable> {
        Ok(self.number(i32::MAX as u64)? as i32)
    }

    // A list of bytes, its length before it.
    pub fn bytes(&mut self) -> Result<Vec<u8>, Unreadable> {
        let len = self.number(u64::MAX)?;
        self.bytes_of(len)
    }

    // So many bytes, without their length.
    pub fn bytes_of(&mut self, len: u64) -> Result<Vec<u8>, Unreadable> {
        (0..len).map(|_| self.byte()).collect()
    }

    // A list of words, its length before it.
    pub fn words(&mut self) -> Result<Vec<u32>, Unreadable> {
        let len = self.number(u64::MAX)?;
        self.words_of(len)
    }

    // So many words, without their length.
    pub fn words_of(&mut self, len: u64) -> Result<Vec<u32>, Unreadable> {
        (0..len).map(|_| self.word()).collect()
    }

    // How many are left.
    pub fn left(&self) -> u64 {
        self.0.len() as u64
    }

    // Every call ends its reading with this, for an input too many is a slip.
    pub fn end(&self) -> Result<(), Unreadable> {
        match self.left() {
            0 => Ok(()),
            more => Err(format!("{more} inputs too many")),
        }
    }
}
