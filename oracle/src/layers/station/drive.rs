//! Document 01's "Station" over the Rust's tracker and bank: which of their calls an event makes, and the code of its answer.

use super::{Event, CLEAR, FINISH, GAP, HINT, MARK, SEED};
use crate::manta::timing::{SpeedBankConfig, SpeedTracker, TimingBank};

/// The call of the bank at which someone may have left.
pub enum Heard {
    Nothing,
    /// A mark, and whether it is live.
    Mark(bool),
    Ready,
    Clear,
}

/// "A fresh tracker as primary and a fresh bank."
#[derive(Clone)]
pub struct Driven {
    pub primary: SpeedTracker,
    pub bank: TimingBank,
}

impl Driven {
    pub fn fresh(width: usize, switching: bool) -> Driven {
        Driven {
            primary: SpeedTracker::new(),
            bank: TimingBank::new(SpeedBankConfig { width, switching }),
        }
    }

    /// An event that is not refused: the code, and what the bank heard.
    pub fn event(&mut self, e: &Event) -> (u8, Heard) {
        match e.kind {
            MARK if e.live => self.live(e.number()),
            // "Mark, not live: only bank `on_mark`, not live"
            MARK => {
                self.bank.on_mark(&self.primary, e.number(), false);
                (0, Heard::Mark(false))
            }
            GAP => self.gap(e.number()),
            FINISH => self.finish(),
            SEED => self.seed(e.number()),
            HINT => {
                self.primary.set_ratio_hint(Some(e.number()));
                (0, Heard::Nothing)
            }
            CLEAR => {
                self.bank.clear();
                (0, Heard::Clear)
            }
            _ => {
                let code = match self.bank.take_switch(&mut self.primary) {
                    true => 2,
                    false => 3,
                };
                (code, Heard::Nothing)
            }
        }
    }

    /// "bank `on_ready` with the recent marks, oldest first"
    fn ready(&mut self) -> (u8, Heard) {
        let marks: Vec<f32> = self.primary.recent.iter().copied().collect();
        self.bank.on_ready(&self.primary, &marks);
        (1, Heard::Ready)
    }

    /// "primary `on_mark`; if it was ready before, bank `on_mark`, live; if it becomes ready, bank `on_ready`"
    fn live(&mut self, d: f32) -> (u8, Heard) {
        let was = self.primary.ready();
        self.primary.on_mark(d);
        if was {
            self.bank.on_mark(&self.primary, d, true);
            (0, Heard::Mark(true))
        } else if self.primary.ready() {
            self.ready()
        } else {
            (0, Heard::Nothing)
        }
    }

    /// "only with a ready primary: bank `on_gap`, then primary `on_element_gap` if the gap is below 2.0 times its dit estimate"
    fn gap(&mut self, d: f32) -> (u8, Heard) {
        if self.primary.ready() {
            self.bank.on_gap(&self.primary, d);
            if d < 2.0 * self.primary.dit_estimate_ms() {
                self.primary.on_element_gap(d);
            }
        }
        (0, Heard::Nothing)
    }

    /// "`bootstrap`; if true, `on_ready` as above"
    fn finish(&mut self) -> (u8, Heard) {
        match self.primary.bootstrap() {
            true => self.ready(),
            false => (3, Heard::Nothing),
        }
    }

    /// "`seed_wpm`, then `clear`"
    fn seed(&mut self, wpm: f32) -> (u8, Heard) {
        let was = self.primary.ready();
        self.primary.seed_wpm(wpm);
        self.bank.clear();
        (u8::from(!was), Heard::Clear)
    }
}
