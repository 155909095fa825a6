//! Times of a row: the engine, the other library, the plain implementation, memset and memcpy take turns.

use super::library::{self, Library, Other, This, OTHER};
use super::rows::{Row, VRAM};
use super::side::Side;
use crate::fast;
use crate::random::Random;
use std::hint::black_box;

/// Rounds are many and short, so that what else the machine does falls on all alike.
pub const ROUNDS: usize = 25;
const SECONDS_A_ROUND: f64 = 0.012;

#[derive(Clone, Copy)]
pub enum Timed {
    Engine,
    Other,
    Plain,
    Set,
    Copied,
}

pub struct Times {
    /// Seconds that a turn took in each round: none for the other library where there is no other or it is not asked, or for
    /// memset and memcpy where no pixels are.
    pub rounds: [[Option<f64>; 5]; ROUNDS],
    /// The other library draws another picture, or counts other pixels: it has another rule.
    pub other_rule: bool,
}

impl Times {
    pub fn median(&self, timed: Timed) -> Option<f64> {
        median(self.rounds.map(|round| round[timed as usize]))
    }

    /// The median of every round's ratio.
    pub fn ratio(&self, timed: Timed, over: Timed) -> Option<f64> {
        median(
            self.rounds
                .map(|round| Some(round[timed as usize]? / round[over as usize]?)),
        )
    }
}

pub fn measure(row: &Row) -> Result<Times, String> {
    let picture = Random::of_case(1, 1).bytes(VRAM);
    let mut memory = picture.clone();
    let mut engine = Side::new(library::card(This, row.held), &picture);
    let mut other = OTHER.map(|other| Side::new(library::card(other, row.held), &picture));
    let mut card = fast::reset(row.held);
    let mut plain = Side::new(
        |vram: &mut [u8], write| fast::write(&mut card, vram, write),
        &picture,
    );
    let wanted = plain.first_pass(row)?;
    if !engine.same_work(row, wanted, true, &plain.vram)? {
        return Err(format!("{}: the sides differ", row.name));
    }
    let other_rule = match &mut other {
        None => false,
        Some(other) => !other.same_work(row, wanted, Other::CHANGED, &plain.vram)?,
    };
    let drawn = row.pixels > 0;
    let rounds = std::array::from_fn(|_| {
        // In the order of `Timed`.
        [
            Some(timed(row.turns, || engine.pass(&row.writes))),
            other
                .as_mut()
                .map(|other| timed(row.turns, || other.pass(&row.writes))),
            Some(timed(row.turns, || plain.pass(&row.writes))),
            drawn.then(|| timed(row.turns, || set(row, &mut memory))),
            drawn.then(|| timed(row.turns, || copy(row, &mut memory, &picture))),
        ]
    });
    Ok(Times { rounds, other_rule })
}

/// Seconds for each turn, over as many passes as fill a round; a pass has so many turns.
pub fn timed<T>(turns_a_pass: usize, mut pass: impl FnMut() -> T) -> f64 {
    let start = processor_time();
    let mut turns = 0;
    loop {
        black_box(pass());
        turns += turns_a_pass;
        let elapsed = processor_time() - start;
        if elapsed >= SECONDS_A_ROUND {
            return elapsed / turns as f64;
        }
    }
}

/// The processor's seconds on this thread: other work on the machine does not count.
fn processor_time() -> f64 {
    #[repr(C)]
    struct Time {
        seconds: i64,
        nanoseconds: i64,
    }
    extern "C" {
        fn clock_gettime(clock: i32, time: *mut Time) -> i32;
    }
    const LINUX_THREAD_CLOCK: i32 = 3;
    let mut time = Time {
        seconds: 0,
        nanoseconds: 0,
    };
    let status = unsafe { clock_gettime(LINUX_THREAD_CLOCK, &mut time) };
    assert_eq!(status, 0, "no clock of the processor's time");
    time.seconds as f64 + time.nanoseconds as f64 / 1e9
}

fn median(times: [Option<f64>; ROUNDS]) -> Option<f64> {
    let mut times: Vec<f64> = times.into_iter().collect::<Option<_>>()?;
    times.sort_by(f64::total_cmp);
    Some(times[ROUNDS / 2])
}

/// The compiler doesn't see the length, so every turn calls memset.
fn set(row: &Row, vram: &mut [u8]) {
    let pixels = black_box(row.pixels);
    let value = black_box(0x30);
    for &at in &row.places {
        vram[at..at + pixels].fill(value);
    }
    black_box(vram);
}

fn copy(row: &Row, vram: &mut [u8], from: &[u8]) {
    let pixels = black_box(row.pixels);
    for &at in &row.places {
        vram[at..at + pixels].copy_from_slice(&from[at..at + pixels]);
    }
    black_box(vram);
}
