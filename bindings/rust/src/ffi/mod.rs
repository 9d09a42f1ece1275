//! The calls of the library and of the system. Nothing else in this crate is unsafe.
pub(crate) mod bay;
pub(crate) mod bench;
pub(crate) mod system;

use crate::Error;
use system::Home;

/// Numbers, as the headers have them.
macro_rules! numbers {
    ($($name:ident = $number:literal),*) => {
        $(pub(crate) const $name: u32 = $number;)*
    };
}

/// Structures, field by field as the headers have them.
macro_rules! structures {
    ($(struct $it:ident { $($field:ident: $kind:ty),* })*) => {
        $(#[repr(C)]
        #[derive(Clone, Copy, Debug, Default)]
        pub(crate) struct $it {
            $(pub $field: $kind),*
        })*
    };
}

/// Calls as the headers have them, each with the statuses beside 0 that it may answer: any other is an error. Those that are given no
/// bytes are safe, because a reference is all that they want.
macro_rules! calls {
    ($($is:tt fn $call:ident($($name:ident: $kind:ty),*) -> [$($status:ident),*];)*) => {
        mod library {
            use super::*;
            extern "C" {
                $(pub fn $call($($name: $kind),*) -> u32;)*
            }
        }
        $(#[allow(clippy::too_many_arguments)]
        $is fn $call($($name: $kind),*) -> Result<u32, Error> {
            // SAFETY: it is given what the library's call is given, and gives it on.
            super::answer(stringify!($call), &[$($status),*], || unsafe { library::$call($($name),*) })
        })*
    };
}
use {calls, numbers, structures};

numbers! { DONE = 0, NO_MEMORY = 5, NO_ROOM = 6, NOT_YET = 8 }

/// The status of a call. (In this crate's own tests it may be another one than the library's.)
#[inline]
fn answer(call: &'static str, others: &[u32], make: impl FnOnce() -> u32) -> Result<u32, Error> {
    #[cfg(test)]
    let make = || crate::tests::instead(call).unwrap_or_else(make);
    match make() {
        status if status == DONE || others.contains(&status) => Ok(status),
        status => Err(Error::Status { call, status }),
    }
}

/// What the library keeps of a bench or a bay.
#[repr(C)]
pub(crate) struct Handle {
    at: *mut std::ffi::c_void,
    live: u64,
}

// SAFETY: any thread may use it, one call at a time; each call wants it for itself.
unsafe impl Send for Handle {}

/// A handle that is freed when it is dropped.
pub(crate) struct Owned {
    handle: Handle,
    frees: fn(&mut Handle) -> Result<u32, Error>,
    home: Home,
    /// Why no call is made any more.
    end: Option<Error>,
}

impl Owned {
    /// One that isn't open yet.
    pub fn new(frees: fn(&mut Handle) -> Result<u32, Error>) -> Owned {
        Owned { handle: Handle { at: std::ptr::null_mut(), live: 0 }, frees, home: Home::here(), end: None }
    }

    /// A call. If it answers what it never should, nobody relies on the handle any more: it is the last one, and each further one gives its
    /// error.
    #[inline]
    pub fn calls<T>(&mut self, call: impl FnOnce(&mut Handle) -> Result<T, Error>) -> Result<T, Error> {
        self.is_sound()?;
        call(&mut self.handle).map_err(|fault| self.end.insert(fault).clone())
    }

    pub fn is_sound(&self) -> Result<(), Error> {
        match &self.end {
            None => Ok(()),
            Some(why) => Err(why.clone()),
        }
    }

    /// From now on each call gives this error; or that of before, if it has ended.
    pub fn ends(&mut self, why: Error) {
        self.end.get_or_insert(why);
    }
}

impl Drop for Owned {
    fn drop(&mut self) {
        let _ = self.home.is_here().and_then(|()| (self.frees)(&mut self.handle));
    }
}
