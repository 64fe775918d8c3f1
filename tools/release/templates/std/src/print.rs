//! Lines on the standard streams, which can fail.

#[doc(hidden)]
pub use rust::io::{Write, stderr, stdout};

/// Prints a line to standard output.
#[macro_export]
macro_rules! println {
    ($rt:expr; $($words:tt)*) => {{
        let _ = &$rt;
        $crate::print::Write::write_fmt(&mut $crate::print::stdout(), format_args!("{}\n", format_args!($($words)*)))
    }};
}

/// Prints a line to standard error.
#[macro_export]
macro_rules! eprintln {
    ($rt:expr; $($words:tt)*) => {{
        let _ = &$rt;
        $crate::print::Write::write_fmt(&mut $crate::print::stderr(), format_args!("{}\n", format_args!($($words)*)))
    }};
}
