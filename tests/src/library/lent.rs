//! A buffer inside a larger one, whose margins must stay as they are.

const MARGIN: usize = 16;

pub struct Lent<T> {
    first: Vec<T>,
    now: Vec<T>,
    from: usize,
    to: usize,
}

impl<T: Copy + PartialEq> Lent<T> {
    /// With at least so many elements of noise before the content.
    pub fn new(content: &[T], before: usize, mut noise: impl FnMut() -> T) -> Lent<T> {
        let (from, to) = (MARGIN + before, MARGIN + before + content.len());
        let mut first: Vec<T> = (0..from).map(|_| noise()).collect();
        first.extend_from_slice(content);
        first.extend((0..MARGIN).map(|_| noise()));
        Lent { now: first.clone(), first, from, to }
    }

    pub fn part(&mut self) -> &mut [T] {
        &mut self.now[self.from..self.to]
    }

    /// What it holds now.
    pub fn content(&self) -> &[T] {
        &self.now[self.from..self.to]
    }

    /// Whether it holds this content now, with the margins that it had.
    pub fn holds(&self, content: &[T]) -> bool {
        self.content() == content && self.kept_behind(content.len())
    }

    /// Whether everything but so many elements at the content's start is as it was lent.
    pub fn kept_behind(&self, count: usize) -> bool {
        let behind = self.from + count;
        self.now[..self.from] == self.first[..self.from] && self.now[behind..] == self.first[behind..]
    }
}
