//! Generates scripts of events. The controller runs beside, so that live
//! references, states, deadlines and held pairs are known.

mod elements;
mod hosts;
mod junk;
mod messages;
mod own_restarts;
mod plan;
mod requests;
mod restarts;
mod saves;
mod starts;

use crate::compose::hex;
use crate::controller::{Call, Table};
use crate::damage::{doubtful, marked};
use crate::exchange::{Exchange, Outcome};
use crate::random::Random;
use plan::{Begins, Class, Plan};

/// A generator of lines.
#[derive(Clone, Debug)]
pub struct Generator {
    random: Random,
    exchange: Exchange,
    plan: Plan,
    /// The lines before the next plan.
    left: u64,
    /// The line that comes next: the start or reload behind a comment that
    /// names its plan, or another reload.
    waiting: Option<String>,
    /// The form last saved.
    saved: Option<Vec<u8>>,
}

/// One line of so many saves or reloads, with a table and with none.
const SAVES: usize = 40;
const SAVES_EARLY: usize = 15;

impl Generator {
    pub fn new(seed: u64) -> Generator {
        let mut random = Random::new(seed);
        let plan = Plan::draw(&mut random);
        Generator {
            random,
            exchange: Exchange::default(),
            plan,
            left: 5,
            waiting: None,
            saved: None,
        }
    }

    /// The next line without its end, and what it gets.
    pub fn line(&mut self) -> (Vec<u8>, Outcome) {
        let line = self.draw();
        let outcome = self.exchange.take(&line);
        (line, outcome)
    }

    fn draw(&mut self) -> Vec<u8> {
        if let Some(line) = self.waiting.take() {
            return line.into_bytes();
        }
        if self.left == 0 {
            return self.next_plan().into_bytes();
        }
        self.left -= 1;
        if self.random.below(400) == 0 {
            return self.random.pick(&["", "#", "# tick 1 0 1024"]).into();
        }
        let early = self.table().is_none();
        let saves = if early { SAVES_EARLY } else { SAVES };
        if self.random.below(saves) == 0 {
            return self.save_or_reload();
        }
        self.plan_line()
    }

    fn plan_line(&mut self) -> Vec<u8> {
        match self.plan.class(&mut self.random) {
            Class::Setup => self.message_line(Generator::setup),
            Class::OnCall => self.message_line(Generator::on_call),
            Class::NoCall => self.message_line(Generator::no_call),
            Class::Global => self.message_line(Generator::global),
            Class::Restart => self.message_line(Generator::restart),
            Class::Junk => self.message_line(Generator::junk),
            Class::Offer => self.offer_line(),
            Class::Connect => self.connect_line(),
            Class::Clear => self.clear_line(),
            Class::Tick => self.tick_line(),
            Class::Bad => self.bad_line(),
            Class::OwnRestart => self.restart_line(),
            Class::Acknowledge => self.message_line(Generator::acknowledge),
            Class::PutBack => self.put_back_line(),
        }
    }

    /// A plan and its start or reload, or a refused start with some lines
    /// behind it.
    fn next_plan(&mut self) -> String {
        if self.random.chance(70) {
            self.left = self.random.within(0, 2);
            return starts::line(&starts::bad(&mut self.random));
        }
        self.plan = Plan::draw(&mut self.random);
        self.left = self.random.within(20, 700);
        let lists = starts::good(&mut self.random, self.plan.supply);
        let random = &mut self.random;
        let draft = match self.plan.begins {
            Begins::Start => None,
            Begins::Doubtful => Some(doubtful(random, lists.clone())),
            Begins::Marked => Some(marked(random, lists.clone())),
        };
        self.waiting = Some(match draft {
            Some(draft) => format!("reload {}", hex(&draft.octets())),
            None => starts::line(&lists),
        });
        format!("# {}", self.plan.name)
    }

    fn message_line(&mut self, message: fn(&mut Generator) -> Vec<u8>) -> Vec<u8> {
        let octets = message(self);
        let request = self.request(false);
        let octets = self.octets_word(&octets);
        format!("message {request} {octets}").into_bytes()
    }

    /// Octets in hex, now and then in upper case.
    fn octets_word(&mut self, octets: &[u8]) -> String {
        let word = hex(octets);
        if self.random.chance(3) {
            return word.to_uppercase();
        }
        word
    }

    fn table(&self) -> Option<&Table> {
        self.exchange.table.as_ref()
    }

    fn live(&self) -> Vec<(usize, Call)> {
        self.table()
            .map_or(Vec::new(), |table| table.live().collect())
    }

    /// One of the live calls.
    fn live_call(&mut self) -> Option<(usize, Call)> {
        let live = self.live();
        (!live.is_empty()).then(|| self.random.pick(&live))
    }
}
