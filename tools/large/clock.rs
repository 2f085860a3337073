//! When the crossings of a call, and its rows, begin and end (clock.c). A library must call `told_memset` in the place of memset.

extern "C" {
    fn time_now() -> f64;
    fn watch(crossings: *const u32, rows: *const u32);
    fn last_cleared(which: usize) -> f64;
}

/// What a call took, in milliseconds.
#[derive(Clone, Copy)]
pub struct Times {
    /// From when it last cleared the crossing counts, and the rows; it clears each just before it counts. Below 0 if it did not.
    pub crossings: f64,
    pub rows: f64,
    pub whole: f64,
}

/// The times of a call that counts these.
pub fn timed(crossings: *const u32, rows: *const u32, call: impl FnOnce()) -> Times {
    // SAFETY: the clock compares the pointers, and never reads through them.
    let (begin, cleared, end) = unsafe {
        watch(crossings, rows);
        let begin = time_now();
        call();
        let end = time_now();
        (begin, [last_cleared(0), last_cleared(1)], end)
    };
    let [crossings, rows] = cleared.map(|time| if time < begin { -1.0 } else { end - time });
    Times { crossings, rows, whole: end - begin }
}

impl Times {
    /// The same, of a call that counted both.
    pub fn seen(self) -> Times {
        assert!(self.crossings >= 0.0 && self.rows >= 0.0, "crossings and rows were seen to be cleared");
        self
    }
}

/// The milliseconds of a call that changes nothing, and so clears no counts.
pub fn whole(call: impl FnOnce()) -> f64 {
    // SAFETY: it reads the time.
    let begin = unsafe { time_now() };
    call();
    // SAFETY: as above.
    unsafe { time_now() - begin }
}
