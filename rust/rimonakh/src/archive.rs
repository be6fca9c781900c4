//! How the archive's functions are called.

/// The answer of a function of the archive. Of its arguments `[slice]` and `[mut slice]` are a pointer and a length, `{guid}` is the
/// numbers of its two halves, and another one is a number.
macro_rules! archive {
    (@ $function:ident ($($given:expr,)*)) => {
        // SAFETY: each pointer and length are of one slice. All slices are borrowed until here, so that none that is written overlaps
        // another. No function has a condition on its numbers.
        unsafe { $crate::ffi::$function($($given),*) }
    };
    (@ $function:ident ($($given:expr,)*) [mut $slice:expr] $(, $($rest:tt)*)?) => {{
        let slice: &mut [_] = $slice;
        archive!(@ $function ($($given,)* slice.as_mut_ptr(), slice.len(),) $($($rest)*)?)
    }};
    (@ $function:ident ($($given:expr,)*) [$slice:expr] $(, $($rest:tt)*)?) => {{
        let slice: &[_] = $slice;
        archive!(@ $function ($($given,)* slice.as_ptr(), slice.len(),) $($($rest)*)?)
    }};
    (@ $function:ident ($($given:expr,)*) {$guid:expr} $(, $($rest:tt)*)?) => {{
        let (low, high) = $crate::Guid::halves($guid);
        archive!(@ $function ($($given,)* low, high,) $($($rest)*)?)
    }};
    (@ $function:ident ($($given:expr,)*) $number:expr $(, $($rest:tt)*)?) => {{
        let number = $number;
        archive!(@ $function ($($given,)* number,) $($($rest)*)?)
    }};
    ($function:ident($($arguments:tt)*)) => {
        archive!(@ $function () $($arguments)*)
    };
}
