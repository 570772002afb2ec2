//! Times the unit and the plain version in turn, and keeps the best of each.
//!
//! Others share the machine, so a single time says little: the sides take turns,
//! the cases too, in several rounds. Where the stack stands within a cache line
//! changes times as well, and it's another place at every start of the program;
//! so each place is measured apart.

use crate::cases::{Case, Lent, Per};
use crate::sides::{Side, PLAIN, UNIT};
use crate::stack::{at_place, LOOK, PLACES};
use crate::verify::Totals;
use std::time::{Duration, Instant};

const ROUNDS: usize = 3;
/// How long a case takes at one place in one round.
const TURN: Duration = Duration::from_millis(60);
/// Calls within one timed part where nothing has to be restored between them and no
/// commands are gone through; such calls are short, and reading the clock isn't free.
const REPEATS: u32 = 100;

/// Nanoseconds for one command or call at one place of the stack.
pub struct Figure {
    pub place: usize,
    pub unit: f64,
    pub plain: f64,
}

/// The best times of each call of a case, by side.
struct Bests([Vec<Duration>; 2]);

impl Bests {
    fn new(case: &Case) -> Bests {
        Bests([0, 1].map(|_| vec![Duration::MAX; case.calls()]))
    }

    /// Both sides again and again, each going first half the time; at least once.
    #[inline(never)]
    fn turn(&mut self, sides: [&Side; 2], case: &Case, repeats: u32, turn: Duration) {
        let mut memory = case.lent.clone();
        let mut first = 0;
        let start = Instant::now();
        loop {
            for side in [first, 1 - first] {
                sample(&mut self.0[side], sides[side], case, repeats, &mut memory);
            }
            first = 1 - first;
            if start.elapsed() >= turn {
                break;
            }
        }
    }

    fn per_part(&self, side: usize, case: &Case) -> f64 {
        let whole: Duration = self.0[side].iter().sum();
        whole.as_nanos() as f64 / case.parts() as f64
    }
}

/// Once through the case's calls. The memory is restored before the clock is read.
fn sample(bests: &mut [Duration], side: &Side, case: &Case, repeats: u32, memory: &mut Lent) {
    for (call, best) in bests.iter_mut().enumerate() {
        memory.restore(&case.lent);
        let start = Instant::now();
        for _ in 0..repeats {
            side.call(case, call, memory);
        }
        *best = (start.elapsed() / repeats).min(*best);
    }
}

/// The figures of each case, one for each place.
pub fn all(cases: &[Case], seen: &[Totals]) -> Vec<Vec<Figure>> {
    let new = |case: &Case| -> Vec<Bests> { (0..PLACES).map(|_| Bests::new(case)).collect() };
    let mut bests: Vec<_> = cases.iter().map(new).collect();
    for _ in 0..ROUNDS {
        for ((case, totals), bests) in cases.iter().zip(seen).zip(&mut bests) {
            let short = case.per == Per::Call && !totals.stored;
            let repeats = if short { REPEATS } else { 1 };
            for (place, best) in bests.iter_mut().enumerate() {
                at_place(place, &mut |real| match real {
                    true => best.turn([&UNIT, &PLAIN], case, repeats, TURN),
                    false => Bests::new(case).turn([&LOOK; 2], case, 1, Duration::ZERO),
                });
            }
        }
    }
    let figures = |(case, bests): (&Case, &Vec<Bests>)| {
        let figure = |(place, best): (usize, &Bests)| Figure {
            place,
            unit: best.per_part(0, case),
            plain: best.per_part(1, case),
        };
        bests.iter().enumerate().map(figure).collect()
    };
    cases.iter().zip(&bests).map(figures).collect()
}
