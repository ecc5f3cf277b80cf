//! Scripts that reload damaged forms. The reference runs beside, so that what
//! must hold of its reader and writer is looked at on the way.

use crate::compose::hex;
use crate::controller::{Answer, Table, READING_LIMIT, T308, T316};
use crate::damage::{all, made, Damage, Draft};
use crate::exchange::{Exchange, Outcome};
use crate::generate::Generator;
use crate::random::Random;

/// One table of so many gets all of its damage, the others some.
const WHOLE: u64 = 9;
const SOME: usize = 250;

/// A writer of such scripts.
#[derive(Clone, Debug)]
pub struct Forms {
    random: Random,
    exchange: Exchange,
    tables: u64,
    lines: Vec<Vec<u8>>,
    /// The damaged forms so far, and those of them that are accepted.
    pub damaged: u64,
    pub taken: u64,
    /// What the reference should not have answered.
    pub faults: Vec<String>,
}

impl Forms {
    pub fn new(seed: u64) -> Forms {
        Forms {
            random: Random::new(seed),
            exchange: Exchange::default(),
            tables: 0,
            lines: Vec::new(),
            damaged: 0,
            taken: 0,
            faults: Vec::new(),
        }
    }

    /// The lines about the next table, with at most so many damaged forms.
    pub fn table(&mut self, most: u64) -> Vec<Vec<u8>> {
        let whole = self.tables.is_multiple_of(WHOLE);
        let made = self.tables.is_multiple_of(2);
        self.tables += 1;
        if made {
            self.make(whole);
        } else {
            self.drive();
        }
        if let Some(table) = self.exchange.table.clone() {
            self.saved(&table);
            self.damage(&Draft::of(&table), whole, most);
            self.reload(&table.form());
            self.save(4_096);
        }
        std::mem::take(&mut self.lines)
    }

    fn line(&mut self, line: Vec<u8>) -> Outcome {
        let outcome = self.exchange.take(&line);
        self.lines.push(line);
        outcome
    }

    fn save(&mut self, room: usize) -> Outcome {
        self.line(format!("save {room}").into_bytes())
    }

    /// Whether the octets are accepted.
    fn reload(&mut self, octets: &[u8]) -> bool {
        self.line(format!("reload {}", hex(octets)).into_bytes());
        self.exchange.table.is_some()
    }

    fn expect(&mut self, holds: bool, what: &str, octets: &[u8]) {
        if !holds {
            self.faults.push(format!("{what}: {}", hex(octets)));
        }
    }

    /// A table of any kind; one that gets all of its damage is most often
    /// small.
    fn make(&mut self, whole: bool) {
        let most = if whole && self.random.chance(75) {
            4
        } else {
            32
        };
        let draft = made(&mut self.random, most);
        self.lines.push(b"# a table that keeps the rules".to_vec());
        let octets = draft.octets();
        let accepted = self.reload(&octets);
        self.expect(accepted, "a form that keeps the rules is refused", &octets);
    }

    /// A table that events gave, from no table on.
    fn drive(&mut self) {
        self.lines.push(b"# a table that events gave".to_vec());
        self.reload(&[]);
        let mut generator = Generator::new(self.random.next());
        let least = self.random.within(20, 400);
        let mut lines = 0;
        while lines < least || self.exchange.table.is_none() {
            let (line, _) = generator.line();
            self.line(line);
            lines += 1;
        }
    }

    /// Saves a table, and reloads it.
    fn saved(&mut self, table: &Table) {
        let form = table.form();
        for room in [form.len() - 1, form.len(), 0] {
            self.save(room);
        }
        self.reload(&form);
        let same = self.exchange.table.as_ref() == Some(table);
        self.expect(same, "a saved form is another table", &form);
        self.save(4_096);
    }

    fn damage(&mut self, draft: &Draft, whole: bool, most: u64) {
        let mut list = all(&mut self.random, draft);
        self.random.shuffle(&mut list);
        if !whole {
            list.truncate(SOME);
        }
        list.truncate(usize::try_from(most).unwrap_or(usize::MAX));
        for damage in &list {
            self.damaged_form(damage);
        }
    }

    fn damaged_form(&mut self, damage: &Damage) {
        let Damage {
            what,
            octets,
            taken,
        } = damage;
        let accepted = self.reload(octets);
        self.damaged += 1;
        self.taken += u64::from(accepted);
        let right = taken.is_none_or(|taken| taken == accepted);
        self.expect(right, what, octets);
        if accepted || self.random.below(16) == 0 {
            self.again(octets);
        }
    }

    /// Accepted octets are saved again, and now and then what is due 30,000 or
    /// 120,000 later fires; after refused ones there is no table.
    fn again(&mut self, octets: &[u8]) {
        let outcome = self.save(4_096);
        let same = match &outcome {
            Outcome::Answer(answer) => answer.reply == octets,
            _ => self.exchange.table.is_none(),
        };
        self.expect(same, "a form is saved as other octets", octets);
        if self.random.below(4) == 0 {
            self.fire();
        }
    }

    fn fire(&mut self) {
        let last = self
            .exchange
            .table
            .as_ref()
            .map_or(0, |table| table.reading);
        let length = self.random.pick(&[T308, T316]);
        let reading = READING_LIMIT.min(last + length);
        let tick = format!("tick 1 {reading} 1024").into_bytes();
        while let Outcome::Answer(Answer { more: true, .. }) = self.line(tick.clone()) {}
    }
}
