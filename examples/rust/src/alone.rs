//! Calls that allocate or free, which come one at a time if there are blocks.

#[cfg(feature = "blocks")]
mod held {
    use ::core::hint::spin_loop;
    use ::core::sync::atomic::{AtomicBool, Ordering};

    /// Whether a thread is in such a call. There is one table of blocks for the whole program.
    static BUSY: AtomicBool = AtomicBool::new(false);

    pub fn alone<T>(call: impl FnOnce() -> T) -> T {
        while BUSY.swap(true, Ordering::Acquire) {
            spin_loop();
        }
        let result = call();
        BUSY.store(false, Ordering::Release);
        result
    }
}

#[cfg(feature = "blocks")]
pub use held::alone;

/// Makes a call of the library that allocates or frees. It must not panic, nor make another one.
#[cfg(not(feature = "blocks"))]
pub fn alone<T>(call: impl FnOnce() -> T) -> T {
    call()
}
