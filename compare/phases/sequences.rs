//! Long stretches of calls on one memory, as a monitor makes them.

use super::single::{any_doorbell, any_enable, any_fill};
use crate::call::{Call, RAISED};
use crate::checker::Checker;
use crate::generate::commands::{allowance, features, spoilt, usual};
use crate::generate::images::{image, queue_for};
use crate::generate::random::Random;
use crate::generate::regions;
use crate::generate::transactions::aimed;
use crate::generate::world::World;
use crate::model::control::Control;

pub fn sequences(checker: &mut Checker) {
    let mut random = checker.phase("sequences on one memory");
    for _ in 0..4_000 {
        let world = World::new(&mut random);
        let features = features(&mut random);
        let kept = image(&mut random, &world);
        let queue = queue_for(&mut random, &world, &kept, features);
        let table = regions::table(&mut random, &world);
        let mut sequence = Sequence {
            world,
            features,
            kept,
            table,
            queue,
        };
        for _ in 0..40 {
            sequence.step(checker, &mut random);
        }
    }
}

struct Sequence {
    world: World,
    features: u64,
    kept: Vec<u64>,
    table: Vec<u64>,
    queue: Vec<u8>,
}

impl Sequence {
    fn step(&mut self, checker: &mut Checker, random: &mut Random) {
        let draw = random.next();
        // The monitor's clearing hangs on the upper half of the draw alone, so that
        // it changes none of the other calls.
        if (draw >> 32) % 6 == 0 {
            checker.call(&mut self.kept, Call::ClearPending);
        }
        if (draw >> 48) % 6 == 0 {
            self.fill_table(checker, draw);
        }
        let call = match draw % 16 {
            0..=4 => return self.run(checker, random),
            5..=7 => any_fill(random, &self.world, &self.kept),
            8..=9 => self.ring(random),
            10..=13 => aimed(random, &self.world, &self.kept),
            14 => Call::State,
            _ => return self.recover(checker, random),
        };
        checker.both(&mut self.kept, &mut self.table, call);
    }

    /// A fill of the second table; what comes of it hangs on the draw alone, too.
    fn fill_table(&mut self, checker: &mut Checker, draw: u64) {
        let mut own = Random::new(draw);
        let (row, words, allowance) = regions::any_fill(&mut own, &self.world, &self.table);
        let call = Call::TableFill {
            row,
            words,
            allowance,
        };
        checker.both(&mut self.kept, &mut self.table, call);
    }

    /// The guest writes a few commands where it will, and rings.
    fn ring(&mut self, random: &mut Random) -> Call<'static> {
        for _ in 0..random.below(6) {
            let slot = random.below(self.queue.len() as u64 / 16);
            self.write(random, slot);
        }
        any_doorbell(random, &self.kept)
    }

    fn write(&mut self, random: &mut Random, slot: u64) {
        let spoil = random.once_in(12);
        let (low, high) = if spoil {
            spoilt(random, &self.world)
        } else {
            usual(random, &self.world, self.features)
        };
        let start = 16 * slot as usize;
        self.queue[start..start + 8].copy_from_slice(&low.to_le_bytes());
        self.queue[start + 8..start + 16].copy_from_slice(&high.to_le_bytes());
    }

    /// A run; after an error the guest mostly mends the command and the monitor
    /// acknowledges, else the same command raises again.
    fn run(&mut self, checker: &mut Checker, random: &mut Random) {
        let (queue, allowance) = (&self.queue, allowance(random));
        let call = Call::Run {
            queue,
            features: self.features,
            allowance,
        };
        let reply = checker.both(&mut self.kept, &mut self.table, call);
        if reply.number == 0 && reply.answer[0] == RAISED && !random.once_in(4) {
            if !random.once_in(3) {
                self.write(random, Control::fields(self.kept[0]).slot());
            }
            checker.call(&mut self.kept, Call::Acknowledge);
        }
    }

    /// Acknowledges and switches, so that no sequence stays held or off for long.
    fn recover(&mut self, checker: &mut Checker, random: &mut Random) {
        checker.call(&mut self.kept, Call::Acknowledge);
        checker.call(&mut self.kept, any_enable(random));
    }
}
