//! Lines that save and reload the table.

use super::Generator;
use crate::compose::hex;
use crate::controller::Table;
use crate::damage::{made, one, Draft};

impl Generator {
    pub(super) fn save_or_reload(&mut self) -> Vec<u8> {
        match self.saved.clone() {
            Some(saved) if self.random.chance(65) => self.reload_line(saved),
            _ => self.save_line(),
        }
    }

    /// Saves to a room that holds the form or does not. Now and then the form
    /// is reloaded at once.
    fn save_line(&mut self) -> Vec<u8> {
        if let Some(table) = self.table() {
            self.saved = Some(table.form());
        }
        let form = self.saved.clone().unwrap_or_default();
        let length = form.len() as u64;
        let room = match self.random.below(8) {
            0 | 1 => length,
            2 => length.saturating_sub(1),
            3 => 0,
            4 => self.random.pick(&[4_097, 65_536, 1 << 32, u64::MAX]),
            5 => self.random.within(0, length),
            6 => self.random.within(length, 4_096),
            _ => 4_096,
        };
        if self.table().is_some() && self.random.chance(20) {
            self.waiting = Some(format!("reload {}", hex(&form)));
        }
        format!("save {}", self.number_word(room)).into_bytes()
    }

    /// Reloads the form last saved, a table that no events gave, or damage.
    fn reload_line(&mut self, saved: Vec<u8>) -> Vec<u8> {
        let octets = match self.random.below(20) {
            0..6 => saved,
            6..8 => made(&mut self.random, 32).octets(),
            8 => Vec::new(),
            _ => self.damaged(&saved),
        };
        if Table::reload(&octets).is_err() {
            self.recover();
        }
        let word = self.octets_word(&octets);
        format!("reload {word}").into_bytes()
    }

    /// Damage of the table, or of the form last saved where there is none.
    /// Most often the script can then go on from the table.
    fn damaged(&mut self, saved: &[u8]) -> Vec<u8> {
        let table = self.table().cloned();
        let Some(table) = table.or_else(|| Table::reload(saved).ok()) else {
            return Vec::new();
        };
        if self.random.chance(80) {
            self.saved = Some(table.form());
        }
        one(&mut self.random, &Draft::of(&table)).octets
    }

    /// Most often goes on from the form last saved, else without a table.
    fn recover(&mut self) {
        match self.saved.clone() {
            Some(saved) if self.random.chance(85) => {
                self.waiting = Some(format!("reload {}", hex(&saved)));
            }
            _ => self.left = self.random.within(0, 2),
        }
    }
}
