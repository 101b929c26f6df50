//! A lent buffer between guard bytes. They are random, so that a call that reads beyond an end
//! answers differently, and are compared afterwards, so that a write there is seen.

use crate::Random;

pub struct Lent {
    all: Vec<u8>,
    at_first: Vec<u8>,
    start: usize,
    length: usize,
}

impl Lent {
    pub fn new(random: &mut Random, content: &[u8]) -> Lent {
        let start = random.between(8, 40);
        let mut all = random.bytes(start);
        all.extend_from_slice(content);
        let behind = random.between(8, 40);
        all.extend(random.bytes(behind));
        Lent {
            at_first: all.clone(),
            all,
            start,
            length: content.len(),
        }
    }

    /// An output of this length with random content.
    pub fn output(random: &mut Random, length: usize) -> Lent {
        let content = random.bytes(length);
        Lent::new(random, &content)
    }

    pub fn bytes(&self) -> &[u8] {
        &self.all[self.start..self.start + self.length]
    }

    pub fn bytes_mut(&mut self) -> &mut [u8] {
        &mut self.all[self.start..self.start + self.length]
    }

    /// The content is now `content`, and the guards are as they were.
    pub fn holds(&self, content: &[u8]) -> bool {
        let end = self.start + self.length;
        self.bytes() == content
            && self.all[..self.start] == self.at_first[..self.start]
            && self.all[end..] == self.at_first[end..]
    }

    pub fn unchanged(&self) -> bool {
        self.all == self.at_first
    }
}
