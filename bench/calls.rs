//! What is timed and counted: a call, over and over.

/// Makes so many calls, one behind the other.
pub type Calls = Box<dyn FnMut(u64)>;

pub fn calls(mut call: impl FnMut() + 'static) -> Calls {
    Box::new(move |calls| {
        for _ in 0..calls {
            call();
        }
    })
}
