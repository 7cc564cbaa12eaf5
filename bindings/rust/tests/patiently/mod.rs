//! Calls of tests with threads.

use githoppu::Error;

/// Makes a call again where others were in the way for longer than `PATIENCE`, for a minute: on a slow machine that does other work a thread may be off its
/// processor for long in the middle of a call. What was `Busy` is not done.
pub fn patiently<T>(mut call: impl FnMut() -> Result<T, Error>) -> Result<T, Error> {
    for _ in 0..60 {
        match call() {
            Err(Error::Busy) => (),
            answered => return answered,
        }
    }
    call()
}
