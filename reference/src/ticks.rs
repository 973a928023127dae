//! Events of ticks: "An event of n ticks leaves the chip as n events of one
//! tick would" (request R-1).

use crate::answer::Outcome;
use crate::chip::Chip;
use crate::registers::*;
use crate::sequencer::{Phase, LOST_ROUND};

impl Chip {
    /// That many ticks, at least one; what they do together.
    ///
    /// After a tick the chip rests, and further ones only count until the next
    /// that ends a phase or makes the bus free; those between are skipped.
    pub fn pass_ticks(&mut self, ticks: u32) -> Outcome {
        let mut outcome = Outcome::default();
        let mut left = ticks;
        let mut lost_before = false;
        while left > 0 {
            let phase = self.sequencer.phase;
            self.pass_tick(&mut outcome);
            left -= 1;
            if phase == Phase::Arbitrating && self.sequencer.phase == Phase::Waiting {
                // The second loss in a row has the same round before it as any
                // later one: whole rounds leave the chip as it is.
                if lost_before {
                    left %= LOST_ROUND;
                }
                lost_before = true;
            }
            left -= self.skip_counting(left);
        }
        outcome
    }

    /// An event of 0 ticks, whose outcome nobody asks for.
    #[inline]
    pub fn pass_no_ticks(&mut self) {
        self.pass(false, &mut Outcome::default());
    }

    /// One tick.
    #[inline]
    fn pass_tick(&mut self, outcome: &mut Outcome) {
        self.pass(true, outcome);
    }

    /// Steps B to D, as A has nothing to do.
    #[inline]
    fn pass(&mut self, tick: bool, outcome: &mut Outcome) {
        let before = self.remember();
        // No line that others drive changes, so that no REQ rises.
        self.edges(before, tick);
        self.settle(outcome);
        self.standing_conditions();
    }

    /// Passes the ticks, up to so many, that do no more than count; how many.
    #[inline]
    fn skip_counting(&mut self, most: u32) -> u32 {
        let silent = !self.sees(BSY | SEL);
        if silent && self.quiet_ticks < BUS_FREE {
            let skipped = most.min(u32::from(BUS_FREE - 1 - self.quiet_ticks));
            self.quiet_ticks += skipped as u8;
            return skipped;
        }
        match self.phase_length(silent) {
            Some(length) => {
                let skipped = most.min(length - 1 - self.sequencer.ticks);
                self.sequencer.ticks += skipped;
                skipped
            }
            None => most,
        }
    }
}

#[cfg(test)]
mod tests {
    use super::*;
    use crate::event::Lines;
    use crate::random::Random;
    use crate::sequencer::Sequencer;

    fn walk_ticks(chip: &mut Chip, ticks: u32) -> Outcome {
        let mut outcome = Outcome::default();
        for _ in 0..ticks {
            chip.pass_tick(&mut outcome);
        }
        outcome
    }

    const PHASES: [Phase; 8] = [
        Phase::Idle,
        Phase::Waiting,
        Phase::Arbitrating,
        Phase::Clearing,
        Phase::Selecting,
        Phase::Holding,
        Phase::Answering,
        Phase::Answered,
    ];

    /// Lines of all kinds, most often a bus that is free or nearly so.
    fn random_lines(random: &mut Random) -> Lines {
        let control = random.byte();
        Lines {
            data: random.byte() & random.byte(),
            parity: random.percent(50),
            reset: random.percent(4),
            control: match random.below(4) {
                0 => control,
                1 => control & !(SEL | BSY) | SEL | IO,
                2 => control & !SEL,
                _ => control & !(SEL | BSY),
            },
        }
    }

    /// Any chip in range, at rest or not.
    fn random_chip(random: &mut Random) -> Chip {
        let mut chip = Chip {
            scsiseq: random.byte() & !SCSIRSTO,
            sxfrctl0: random.byte() & SXFRCTL0_KEPT,
            sxfrctl1: random.byte() & SXFRCTL1_KEPT,
            scsisig: random.byte(),
            scsirate: random.byte() & SCSIRATE_KEPT,
            scsiid: random.byte() & SCSIID_KEPT,
            data_latch: random.byte(),
            status0: random.byte() & (SELDO | SELDI | SELINGO | SPIORDY),
            status1: random.byte() & !(CLRATNO | PHASEMIS),
            simode0: random.byte() & SIMODE0_KEPT,
            simode1: random.byte(),
            dmacntrl0: random.byte() & DMACNTRL0_KEPT,
            offset: random.below(9) as u8,
            automatic_ack: random.percent(20),
            quiet_ticks: random.below(9) as u8,
            others: random_lines(random),
            ..Chip::new()
        };
        if random.percent(70) {
            chip.scsisig &= !(SEL | BSY);
        }
        if random.percent(60) {
            chip.scsiseq = chip.scsiseq & !TEMODEO | ENSELO;
        }
        chip.seldi_noted = chip.status0 & SELDI != 0 && random.percent(50);
        for _ in 0..random.below(9) {
            chip.scsi_fifo.put(random.byte());
        }
        for _ in 0..random.below(129) {
            chip.host_fifo.put(random.byte());
        }
        chip.sequencer = random_sequencer(random, &chip);
        chip
    }

    /// Any phase, its ticks anywhere or shortly before its end; now and then
    /// such as only an image gives, R-5: beyond the end, or where none count.
    fn random_sequencer(random: &mut Random, chip: &Chip) -> Sequencer {
        let mut sequencer = Sequencer {
            phase: random.pick(&PHASES),
            ticks: 0,
        };
        if random.percent(10) {
            sequencer.ticks = random.between(0, 0xFF_FFFF) >> random.below(24);
            return sequencer;
        }
        let mut probe = chip.clone();
        probe.sequencer = sequencer;
        if let Some(length) = probe.phase_length(true) {
            sequencer.ticks = if random.percent(50) {
                random.below(length)
            } else {
                length - 1 - random.below(length.min(100))
            };
        }
        sequencer
    }

    #[test]
    fn skipping_is_walking() {
        let mut random = Random::new(1);
        for number in 0..60_000 {
            let chip = random_chip(&mut random);
            let most = random.pick(&[3, 10, 100, 700]);
            let ticks = random.between(1, most);
            let (mut skipped, mut walked) = (chip.clone(), chip.clone());
            let outcomes = (skipped.pass_ticks(ticks), walk_ticks(&mut walked, ticks));
            assert_eq!(outcomes.0, outcomes.1, "{number}: {ticks} ticks, {chip:?}");
            assert_eq!(skipped, walked, "{number}: {ticks} ticks, {chip:?}");
        }
    }

    /// Some ticks at once and the rest at once are all at once, also where
    /// walking takes too long.
    #[test]
    fn ticks_add_up() {
        let mut random = Random::new(2);
        for number in 0..60_000 {
            let chip = random_chip(&mut random);
            let ticks = random.between(2, 0xFF_FFFF);
            let first = random.between(1, ticks - 1);
            let (mut whole, mut parts) = (chip.clone(), chip.clone());
            whole.pass_ticks(ticks);
            parts.pass_ticks(first);
            parts.pass_ticks(ticks - first);
            assert_eq!(whole, parts, "{number}: {first} of {ticks} ticks, {chip:?}");
        }
    }

    /// The longest timeout and the endless losses, walked once.
    #[test]
    fn long_events_are_walked() {
        for data in [0x00, 0x80] {
            let mut chip = Chip {
                scsiseq: ENSELO | ENAUTOATNO,
                sxfrctl1: ENSTIMER,
                others: Lines {
                    data,
                    ..Lines::default()
                },
                ..Chip::new()
            };
            let mut walked = chip.clone();
            walk_ticks(&mut walked, 5_121_003);
            chip.pass_ticks(5_121_003);
            assert_eq!(chip, walked);
        }
    }
}
