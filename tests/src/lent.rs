//! Memory lent to a call, with guard words on both sides.

const GUARDS: usize = 8;

#[derive(PartialEq)]
pub struct Lent<T> {
    all: Vec<T>,
    guard: T,
}

impl<T: Copy + PartialEq> Lent<T> {
    pub fn new(content: &[T], guard: T) -> Lent<T> {
        let mut all = Vec::with_capacity(content.len() + 2 * GUARDS);
        all.resize(GUARDS, guard);
        all.extend_from_slice(content);
        all.resize(content.len() + 2 * GUARDS, guard);
        Lent { all, guard }
    }

    pub fn len(&self) -> usize {
        self.all.len() - 2 * GUARDS
    }

    pub fn pointer(&mut self) -> *mut T {
        self.all[GUARDS..].as_mut_ptr()
    }

    pub fn content(&self) -> &[T] {
        &self.all[GUARDS..GUARDS + self.len()]
    }

    pub fn guards_hold(&self) -> bool {
        let last = GUARDS + self.len();
        self.all[..GUARDS].iter().chain(&self.all[last..]).all(|word| *word == self.guard)
    }
}
