//! A C function and the safe function over it, from one declaration.
//!
//! The archive asks one thing of its callers: valid pointers to buffers that do
//! not overlap. References give both, so the `unsafe` block below is sound for
//! that one reason.

/// `pub fn NAME = C_NAME(ARGUMENT: TYPE, ..);` declares the C function C_NAME, and NAME as
/// the safe function that calls it. A slice goes as pointer and length, any other
/// reference as a pointer, an `Option` as a `bool` and a number (0 where there is none),
/// and a number as it is.
macro_rules! functions {
    ($($(#[$about:meta])* pub fn $name:ident = $c_name:ident($($lent:tt)*);)*) => {
        $(function! { ($(#[$about])* $name = $c_name($($lent)*)) [] [] $($lent)*, })*
    };
}

/// One of them: what is said of it, the C types and what is passed so far, and the
/// arguments that are left.
macro_rules! function {
    ($said:tt [$($types:tt)*] [$($passed:tt)*] $lent:ident: &[$of:ty], $($left:tt)*) => {
        function! {
            $said [$($types)* *const $of, usize,] [$($passed)* $lent.as_ptr(), $lent.len(),]
            $($left)*
        }
    };
    ($said:tt [$($types:tt)*] [$($passed:tt)*] $lent:ident: &mut [$of:ty], $($left:tt)*) => {
        function! {
            $said [$($types)* *mut $of, usize,] [$($passed)* $lent.as_mut_ptr(), $lent.len(),]
            $($left)*
        }
    };
    ($said:tt [$($types:tt)*] [$($passed:tt)*] $lent:ident: &mut $of:ty, $($left:tt)*) => {
        function! { $said [$($types)* *mut $of,] [$($passed)* $lent,] $($left)* }
    };
    ($said:tt [$($types:tt)*] [$($passed:tt)*] $lent:ident: &$of:ty, $($left:tt)*) => {
        function! { $said [$($types)* *const $of,] [$($passed)* $lent,] $($left)* }
    };
    ($said:tt [$($types:tt)*] [$($passed:tt)*] $lent:ident: Option<$of:ty>, $($left:tt)*) => {
        function! {
            $said [$($types)* bool, $of,] [$($passed)* $lent.is_some(), $lent.unwrap_or(0),]
            $($left)*
        }
    };
    ($said:tt [$($types:tt)*] [$($passed:tt)*] $lent:ident: $of:ty, $($left:tt)*) => {
        function! { $said [$($types)* $of,] [$($passed)* $lent,] $($left)* }
    };
    (
        ($(#[$about:meta])* $name:ident = $c_name:ident($($lent:tt)*))
        [$($type:ty,)*] [$($passed:tt)*]
    ) => {
        extern "C" {
            pub fn $c_name($(_: $type),*);
        }

        $(#[$about])*
        pub fn $name($($lent)*) {
            unsafe { $c_name($($passed)*) }
        }
    };
}
