//! The sides take turns on the same input and buffers, and the best of many samples
//! counts, so that a disturbance hits none alone.

use std::time::{Duration, Instant};

/// Who is timed.
#[derive(Clone, Copy, Debug, PartialEq, Eq)]
pub enum Side {
    Library,
    Second,
    /// A plain read of the same input and a plain store of the same output.
    Limit,
}

pub const SIDES: [Side; 3] = [Side::Library, Side::Second, Side::Limit];

/// Seconds per call, by side.
pub type Times = [f64; SIDES.len()];

/// A sample repeats the call until it takes about this long.
const SAMPLE: Duration = Duration::from_micros(60);

/// Time for one visit to a row.
const VISIT: Duration = Duration::from_millis(130);

/// Bytes of a page.
const PAGE: usize = 4096;

/// The best time of each side in one visit. `call` lends the input and the buffers to
/// one.
pub fn turns(mut call: impl FnMut(Side)) -> Times {
    let calls = SIDES.map(|side| {
        let once = (0..3).map(|_| time(1, || call(side)));
        let once = once.fold(f64::INFINITY, f64::min);
        (SAMPLE.as_secs_f64() / once.max(1e-8)).ceil() as u32
    });
    let mut best = [f64::INFINITY; SIDES.len()];
    let mut turn = 0;
    let start = Instant::now();
    while start.elapsed() < VISIT {
        for at in 0..SIDES.len() {
            // Whoever comes first changes from sample to sample.
            let at = (at + turn) % SIDES.len();
            if calls[at] > 1 {
                // What the side before left in caches and predictors is not counted.
                call(SIDES[at]);
            }
            best[at] = best[at].min(time(calls[at], || call(SIDES[at])));
        }
        turn += 1;
    }
    best
}

/// A lent buffer of so many zeros that begins so many bytes into a page, so that no row
/// depends on where the allocator puts it.
pub struct Lent<T> {
    room: Vec<T>,
    start: usize,
    length: usize,
}

impl<T: Clone + Default> Lent<T> {
    pub fn new(length: usize, into_page: usize) -> Self {
        let room = vec![T::default(); length + 2 * PAGE];
        let start = room.as_ptr().align_offset(PAGE) + into_page / size_of::<T>();
        Lent {
            room,
            start,
            length,
        }
    }

    /// The same with this content.
    pub fn holding(content: &[T], into_page: usize) -> Self
    where
        T: Copy,
    {
        let mut lent = Lent::new(content.len(), into_page);
        lent.get().copy_from_slice(content);
        lent
    }

    pub fn get(&mut self) -> &mut [T] {
        &mut self.room[self.start..][..self.length]
    }
}

fn time(calls: u32, mut call: impl FnMut()) -> f64 {
    let start = Instant::now();
    for _ in 0..calls {
        call();
    }
    start.elapsed().as_secs_f64() / f64::from(calls)
}
