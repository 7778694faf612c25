//! Room that is lent to a call: marks stand before and after it, and must still stand when the call is over.

/// What stands where a call has nothing to write.
pub trait Mark: Copy + PartialEq + std::fmt::Debug {
    const MARK: Self;
}

impl Mark for u8 {
    const MARK: u8 = 0xa5;
}

impl Mark for u32 {
    const MARK: u32 = 0xa5a5_5a5a;
}

impl Mark for usize {
    const MARK: usize = 0xa5a5_5a5a;
}

/// Where a slice stands; NULL, as C callers have it, if it is empty.
pub fn place<T>(slice: &[T]) -> *const T {
    if slice.is_empty() { std::ptr::null() } else { slice.as_ptr() }
}

const EDGE: usize = 4;

#[derive(Clone)]
pub struct Lent<T> {
    all: Vec<T>,
}

impl<T: Mark> Lent<T> {
    pub fn of(content: &[T]) -> Self {
        let mut all = vec![T::MARK; EDGE];
        all.extend(content);
        all.extend([T::MARK; EDGE]);
        Lent { all }
    }

    /// Room that holds nothing but marks.
    pub fn room(length: usize) -> Self {
        Lent { all: vec![T::MARK; length + 2 * EDGE] }
    }

    /// Room of zeros.
    pub fn filled(length: usize, value: T) -> Self {
        Lent::of(&vec![value; length])
    }

    pub fn len(&self) -> usize {
        self.all.len() - 2 * EDGE
    }

    pub fn is_empty(&self) -> bool {
        self.len() == 0
    }

    /// Where it stands; NULL, as C callers have it, if it is empty.
    pub fn pointer(&mut self) -> *mut T {
        if self.is_empty() { std::ptr::null_mut() } else { self.all[EDGE..].as_mut_ptr() }
    }

    /// What it holds; nothing beside it may have been written.
    pub fn held(&self) -> &[T] {
        let end = self.all.len() - EDGE;
        let edges = self.all[..EDGE].iter().chain(&self.all[end..]);
        assert!(edges.copied().all(|mark| mark == T::MARK), "the library wrote beside what was lent");
        &self.all[EDGE..end]
    }

    pub fn held_mut(&mut self) -> &mut [T] {
        let end = self.all.len() - EDGE;
        &mut self.all[EDGE..end]
    }

    /// The room still holds nothing but marks from this place on.
    pub fn untouched_from(&self, at: usize) -> bool {
        self.held()[at..].iter().all(|&mark| mark == T::MARK)
    }
}
