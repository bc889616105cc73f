//! Keeps the bench on one core, so that both sides of a pair find the same caches.

/// Pins this thread to the last core that it may run on. Gives its number, or none if that cannot
/// be done here.
pub fn pin() -> Option<usize> {
    let mask = system::allowed()?;
    let last_word = mask.iter().rposition(|word| *word != 0)?;
    let bit = mask[last_word].ilog2() as usize;
    let mut one = [0; WORDS];
    one[last_word] = 1 << bit;
    system::allow(&one).then_some(last_word * 64 + bit)
}

/// Words of a set of cores, a bit each.
const WORDS: usize = 16;

#[cfg(all(target_os = "linux", target_pointer_width = "64"))]
mod system {
    use super::WORDS;

    extern "C" {
        fn sched_getaffinity(pid: i32, size: usize, mask: *mut u64) -> i32;
        fn sched_setaffinity(pid: i32, size: usize, mask: *const u64) -> i32;
    }

    /// The cores that this thread may run on.
    pub fn allowed() -> Option<[u64; WORDS]> {
        let mut mask = [0; WORDS];
        // SAFETY: the mask has as many bytes as said; 0 is this thread.
        let failed = unsafe { sched_getaffinity(0, size_of_val(&mask), mask.as_mut_ptr()) };
        (failed == 0).then_some(mask)
    }

    pub fn allow(mask: &[u64; WORDS]) -> bool {
        // SAFETY: as above.
        unsafe { sched_setaffinity(0, size_of_val(mask), mask.as_ptr()) == 0 }
    }
}

#[cfg(not(all(target_os = "linux", target_pointer_width = "64")))]
mod system {
    use super::WORDS;

    pub fn allowed() -> Option<[u64; WORDS]> {
        None
    }

    pub fn allow(_: &[u64; WORDS]) -> bool {
        false
    }
}
