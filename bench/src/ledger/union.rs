//! The union of two lists that have nothing in common, from either end.

/// What is left of two rising lists without a common key.
#[derive(Clone, Copy)]
pub struct Union<'l, K> {
    first: &'l [K],
    second: &'l [K],
}

impl<'l, K> Union<'l, K> {
    pub fn new(first: &'l [K], second: &'l [K]) -> Self {
        Union { first, second }
    }
}

impl<K: Copy + Ord> Iterator for Union<'_, K> {
    type Item = K;

    fn next(&mut self) -> Option<K> {
        let list = match (self.first.first(), self.second.first()) {
            (Some(first), Some(second)) if second < first => &mut self.second,
            (None, _) => &mut self.second,
            _ => &mut self.first,
        };
        let (key, rest) = list.split_first()?;
        *list = rest;
        Some(*key)
    }

    fn size_hint(&self) -> (usize, Option<usize>) {
        let len = self.first.len() + self.second.len();
        (len, Some(len))
    }
}

impl<K: Copy + Ord> DoubleEndedIterator for Union<'_, K> {
    fn next_back(&mut self) -> Option<K> {
        let list = match (self.first.last(), self.second.last()) {
            (Some(first), Some(second)) if second > first => &mut self.second,
            (None, _) => &mut self.second,
            _ => &mut self.first,
        };
        let (key, rest) = list.split_last()?;
        *list = rest;
        Some(*key)
    }
}

impl<K: Copy + Ord> ExactSizeIterator for Union<'_, K> {}
