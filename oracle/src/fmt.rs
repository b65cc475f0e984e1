//! Stands for `fmt.rs` of trouble-host without `defmt` and `log`: the logging macros use their arguments and print
//! nothing; `unwrap!` panics on None.

macro_rules! silent {
    ($($name:ident)*) => { silent!{ ($) $($name)* } };
    (($d:tt) $($name:ident)*) => { $(
        #[allow(unused_macros)]
        macro_rules! $name {
            ($d s:literal $d(, $d x:expr)* $d(,)?) => { { let _ = ($d( & $d x, )*); } };
        }
    )* };
}

silent! { debug info warn error }

macro_rules! unwrap {
    ($value:expr, $message:literal) => {
        match $value {
            Some(value) => value,
            None => panic!("unwrap failed: {}", $message),
        }
    };
}
