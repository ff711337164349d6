//! The crate `log`: a message is type-checked and goes nowhere.

#[macro_export]
macro_rules! debug {
    ($($message:tt)*) => {{
        let _ = format_args!($($message)*);
    }};
}

#[macro_export]
macro_rules! warn {
    ($($message:tt)*) => {{
        let _ = format_args!($($message)*);
    }};
}
