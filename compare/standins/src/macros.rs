//! Macros that the compared sources call.

/// Items of the part that is compared stay; those of another stability, or for some machines alone, go.
#[macro_export]
macro_rules! stability_scope {
    (BETA { $($item:item)* }) => { $($item)* };
    ($($other:tt)*) => {};
}

/// The loop over events is not run: what it calls is called by the comparison.
#[macro_export]
macro_rules! select_loop {
    ($($all:tt)*) => {};
}

/// Starts nothing, for the same reason.
#[macro_export]
macro_rules! spawn_cell {
    ($($all:tt)*) => {
        unreachable!("nothing is started")
    };
}

#[macro_export]
macro_rules! non_empty {
    (@ $iterator:expr) => {
        $crate::iter::NonEmpty::of($iterator)
    };
}

/// Traces are left out.
#[macro_export]
macro_rules! info_span {
    ($($all:tt)*) => {
        $crate::Span
    };
}

#[macro_export]
macro_rules! debug {
    ($($all:tt)*) => {};
}
