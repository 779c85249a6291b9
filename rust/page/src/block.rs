//! Blocks of bytes: numbers of 32 bits, lowest byte first, and texts and contents behind their lengths.

/// A block that is read from its front. What is missing at its end counts as zeros.
pub struct Reader<'a> {
    rest: &'a [u8],
}

impl<'a> Reader<'a> {
    /// A block to read.
    pub fn of(rest: &'a [u8]) -> Reader<'a> {
        Reader { rest }
    }

    /// So many bytes, or as many as there are.
    fn take(&mut self, count: usize) -> &'a [u8] {
        let (front, rest) = self.rest.split_at(count.min(self.rest.len()));
        self.rest = rest;
        front
    }

    /// A number.
    fn number(&mut self) -> usize {
        let bytes = self.take(4).iter().rev();
        bytes.fold(0, |number, &byte| number << 8 | usize::from(byte))
    }

    /// A content.
    pub fn bytes(&mut self) -> &'a [u8] {
        let count = self.number();
        self.take(count)
    }

    /// A text.
    pub fn text(&mut self) -> String {
        String::from_utf8_lossy(self.bytes()).into_owned()
    }

    /// A list.
    pub fn list<T>(&mut self, item: impl Fn(&mut Reader<'a>) -> T) -> Vec<T> {
        let count = self.number().min(self.rest.len());
        (0..count).map(|_| item(self)).collect()
    }
}

/// A block that is written: its own length stands first.
pub struct Writer {
    block: Vec<u8>,
}

impl Default for Writer {
    fn default() -> Writer {
        Writer { block: vec![0; 4] }
    }
}

impl Writer {
    /// A number.
    pub fn number(&mut self, number: u32) {
        self.block.extend(number.to_le_bytes());
    }

    /// A text or a content.
    pub fn bytes(&mut self, content: &[u8]) {
        self.number(content.len() as u32);
        self.block.extend(content);
    }

    /// A list.
    pub fn list<T>(&mut self, items: &[T], write: impl Fn(&mut Writer, &T)) {
        self.number(items.len() as u32);
        items.iter().for_each(|item| write(self, item));
    }

    /// The block with its length.
    pub fn done(mut self) -> Vec<u8> {
        let length = (self.block.len() as u32).to_le_bytes();
        self.block[..4].copy_from_slice(&length);
        self.block
    }
}
