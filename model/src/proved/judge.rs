//! The log judge.

mod library {
    #[link(name = "judge", kind = "static")]
    extern "C" {
        pub fn koolvent_judge(log: *const u8, length: usize) -> u64;
    }
}

/// The verdict on a log as one number: from the lowest bit up, the refusal or 0 in 8 bits, the
/// finding in 8, the line in 16.
#[inline]
pub fn judge(log: &[u8]) -> u64 {
    unsafe { library::koolvent_judge(log.as_ptr(), log.len()) }
}
