//! The time that this thread has run, which other work on the machine does not lengthen
//! as it lengthens the time of day. Linux only.

#[repr(C)]
struct Timespec {
    seconds: i64,
    nanoseconds: i64,
}

unsafe extern "C" {
    fn clock_gettime(clock: i32, time: *mut Timespec) -> i32;
}

/// `CLOCK_THREAD_CPUTIME_ID`.
const THREAD: i32 = 3;

/// In ns.
pub fn now() -> u64 {
    let mut t = Timespec { seconds: 0, nanoseconds: 0 };
    // SAFETY: the call writes one such record.
    let said = unsafe { clock_gettime(THREAD, &mut t) };
    assert_eq!(said, 0, "no clock for the thread");
    t.seconds as u64 * 1_000_000_000 + t.nanoseconds as u64
}

/// How long `f` takes, in ns.
pub fn of(f: impl FnOnce()) -> u64 {
    let start = now();
    f();
    now() - start
}
