//! The one place where the archive is called.

/// Calls a function of the archive. A number goes over as it is, in round brackets where it is more than a name; `[list]` goes over as
/// its pointer and its length, and so does `[mut list]`, which may be written.
macro_rules! archive {
    (@ $function:ident ($($done:expr),*)) => {{
        // Sound: what is declared is what the archive has (the gate compares them). Every pointer comes with its length from one slice,
        // so that it is valid and aligned for so many entries; and what is written comes from a `&mut`, which overlaps nothing.
        #[allow(unsafe_code)]
        let answer = unsafe { mangerknot_sys::$function($($done),*) };
        answer
    }};
    (@ $function:ident ($($done:expr),*) [mut $list:expr] $($rest:tt)*) => {
        archive!(@ $function ($($done,)* $list.as_mut_ptr(), $list.len()) $($rest)*)
    };
    (@ $function:ident ($($done:expr),*) [$list:expr] $($rest:tt)*) => {
        archive!(@ $function ($($done,)* $list.as_ptr(), $list.len()) $($rest)*)
    };
    (@ $function:ident ($($done:expr),*) $number:tt $($rest:tt)*) => {
        archive!(@ $function ($($done,)* $number) $($rest)*)
    };
    ($function:ident: $($rest:tt)*) => {
        archive!(@ $function () $($rest)*)
    };
}
