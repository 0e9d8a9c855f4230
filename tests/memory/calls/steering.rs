//! Chooses the refused allocation, and the calls whose allocations count.

unsafe extern "C" {
    safe fn refuse_growth(number: u64);

    safe fn watch_growths(is_on: bool);

    safe fn growths_seen() -> u64;
}

/// From now on, refuses the allocation of this number; 0 refuses none.
pub fn refuse(number: u64) {
    refuse_growth(number)
}

/// The number of allocations of watched calls since the last call of [`refuse`].
pub fn growths() -> u64 {
    growths_seen()
}

/// Makes a call whose allocations count.
pub fn watched<T, F: FnOnce() -> T>(call: F) -> T {
    watch_growths(true);
    let answer = call();
    watch_growths(false);
    answer
}
