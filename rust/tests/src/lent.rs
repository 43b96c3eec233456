//! Memory to lend: the middle of a larger buffer whose edges must stay as they were.

const EDGE: usize = 64;

/// A lent buffer between two edges.
pub struct Lent<T> {
    whole: Vec<T>,
    edge: T,
}

impl<T: Copy + PartialEq + std::fmt::Debug> Lent<T> {
    pub fn new(content: &[T], edge: T) -> Lent<T> {
        let mut whole = Vec::with_capacity(content.len() + 2 * EDGE);
        whole.extend_from_slice(&[edge; EDGE]);
        whole.extend_from_slice(content);
        whole.extend_from_slice(&[edge; EDGE]);
        Lent { whole, edge }
    }

    pub fn middle(&mut self) -> &mut [T] {
        let end = self.whole.len() - EDGE;
        &mut self.whole[EDGE..end]
    }

    /// What the middle holds now, once the edges were seen to be unchanged.
    pub fn returned(&self) -> &[T] {
        let end = self.whole.len() - EDGE;
        let edges = self.whole[..EDGE].iter().chain(&self.whole[end..]);
        assert!(
            edges.into_iter().all(|value| *value == self.edge),
            "a call wrote outside of what it was lent"
        );
        &self.whole[EDGE..end]
    }

    /// Fails if anything at all was written.
    pub fn expect_unchanged(&self, content: &[T]) {
        assert!(
            self.returned() == content,
            "a call changed what it may only read, or what it may not change when refused"
        );
    }
}
