//! The sides of a row: the calls that are timed by turns.

pub struct Sides<T> {
    /// The published Rust, where it has the call.
    pub rust: Option<T>,
    pub ours: T,
    /// memcpy of the bytes that the call reads or copies, where it stands beside.
    pub memcpy: Option<T>,
}

impl<T> Sides<T> {
    /// The order in which they are counted and printed, with the gaps of those that the row doesn't have.
    pub fn in_order(self) -> [Option<T>; 3] {
        [self.rust, Some(self.ours), self.memcpy]
    }

    pub fn as_mut(&mut self) -> Sides<&mut T> {
        Sides {
            rust: self.rust.as_mut(),
            ours: &mut self.ours,
            memcpy: self.memcpy.as_mut(),
        }
    }
}
