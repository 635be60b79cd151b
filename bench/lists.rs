//! Lists one after the other in one array.

use std::ops::Range;

pub struct Lists<T> {
    items: Vec<T>,
    ends: Vec<u32>,
}

impl<T> Lists<T> {
    pub fn new() -> Lists<T> {
        Lists { items: Vec::new(), ends: vec![0] }
    }

    /// How many lists there are.
    pub fn len(&self) -> usize {
        self.ends.len() - 1
    }

    pub fn push(&mut self, list: impl IntoIterator<Item = T>) {
        self.items.extend(list);
        self.ends.push(self.items.len() as u32);
    }

    fn range(&self, i: usize) -> Range<usize> {
        self.ends[i] as usize..self.ends[i + 1] as usize
    }

    pub fn get(&self, i: usize) -> &[T] {
        &self.items[self.range(i)]
    }

    pub fn get_mut(&mut self, i: usize) -> &mut [T] {
        let range = self.range(i);
        &mut self.items[range]
    }
}
