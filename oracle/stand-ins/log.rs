//! Stand-in for the crate `log`. A warning or an error of gilrs would mean that the stand-ins fed it something that
//! 01 does not mean (a mapping line that cannot be parsed, an unknown pad), so both stop the oracle.

#[macro_export]
macro_rules! trace {
    ($($words:tt)*) => {{
        let _ = format_args!($($words)*);
    }};
}

#[macro_export]
macro_rules! debug {
    ($($words:tt)*) => {{
        let _ = format_args!($($words)*);
    }};
}

#[macro_export]
macro_rules! warn {
    ($($words:tt)*) => {
        panic!($($words)*)
    };
}

#[macro_export]
macro_rules! error {
    ($($words:tt)*) => {
        panic!($($words)*)
    };
}
