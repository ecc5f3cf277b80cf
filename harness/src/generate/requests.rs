//! Labels, readings and rooms.

use super::own_restarts::deadline;
use super::Generator;
use crate::controller::{READING_LIMIT, T303, T308, T310};

impl Generator {
    /// Label, reading and room of an event.
    pub(super) fn request(&mut self, tick: bool) -> String {
        let label = match self.random.below(60) {
            0 => self
                .random
                .pick(&[0, 2, 255, 257, 65_537, (1 << 32) + 1, u64::MAX]),
            _ => 1,
        };
        let room = match self.random.below(60) {
            0 => self.random.pick(&[0, 1, 512, 1_000, 1_023, 1_023]),
            1 => self.random.pick(&[4_096, 4_097, 65_536, 1 << 32, u64::MAX]),
            2..8 => self.random.within(1_024, 4_096),
            _ => 1_024,
        };
        let reading = self.reading(tick);
        let (label, room) = (self.number_word(label), self.number_word(room));
        let reading = self.number_word(reading);
        format!("{label} {reading} {room}")
    }

    /// A number, now and then with zeros in front.
    pub(super) fn number_word(&mut self, number: u64) -> String {
        match self.random.below(200) {
            0 => format!("0{number}"),
            1 => format!("{number:030}"),
            _ => number.to_string(),
        }
    }

    fn reading(&mut self, tick: bool) -> u64 {
        let last = self.table().map_or(0, |table| table.reading);
        if self.plan.late && last == 0 {
            return READING_LIMIT - self.random.within(0, 90_000);
        }
        let reading = match self.random.below(100) {
            0 | 1 => return last.saturating_sub(1),
            2 => return self.random.within(0, last),
            3 => return READING_LIMIT + 1,
            4 => return self.random.pick(&[1 << 42, 1 << 63, u64::MAX]),
            5..45 => last,
            _ if tick => self.tick_reading(last),
            45..50 => self.tied_reading(last),
            _ => last + self.random.within(0, self.plan.pace),
        };
        reading.clamp(last, READING_LIMIT)
    }

    /// A reading at which a timer of a call gets the deadline of T316.
    fn tied_reading(&mut self, last: u64) -> u64 {
        let length = self.random.pick(&[T303, T310, T308]);
        let tied = self.table().and_then(deadline);
        tied.map_or(last, |deadline| deadline.saturating_sub(length))
    }

    /// A reading near a deadline.
    fn tick_reading(&mut self, last: u64) -> u64 {
        let live = self.live();
        let deadlines = live.iter().filter_map(|(_, call)| call.state.deadline());
        let restart = self.table().and_then(deadline);
        let mut deadlines: Vec<u64> = deadlines.chain(restart).collect();
        deadlines.sort_unstable();
        let (Some(&first), Some(&end)) = (deadlines.first(), deadlines.last()) else {
            return last + self.random.within(0, self.plan.pace);
        };
        match self.random.below(14) {
            0..3 => first,
            3 | 4 => first.saturating_sub(1),
            5 => self.random.pick(&deadlines),
            6 => self.random.pick(&deadlines).saturating_sub(1),
            7 => end,
            8 => first + self.random.within(1, 5_000),
            9..12 => restart.unwrap_or(first),
            12 => restart.unwrap_or(end).saturating_sub(1),
            _ => last + self.random.within(0, self.plan.pace),
        }
    }
}
