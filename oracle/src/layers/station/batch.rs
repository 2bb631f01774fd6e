//! The same events in batches, on a station of their own: every answer is that of the call by itself.

use super::count::reached::{BATCH_64, BATCH_MANY, BATCH_ONE, BATCH_REFUSED, BATCH_UNSOUND};
use super::Call;
use crate::compare::{agree, Difference};
use crate::forms;
use crate::hullathan::bank::LEFT;
use crate::hullathan::station as ours;
use crate::hullathan::station::{Answer, Batch, Event, Station, MOST};
use crate::random::Random;

/// What stands in an answer's place before a batch is run.
const UNTOUCHED: Answer = Answer {
    code: 77,
    pad_code: [7; 3],
    dit_ms: -7.0,
    dah_ms: -77.0,
    pad_dah_ms: [7; 4],
    serial: 777,
    challengers: 7,
    left: [crate::hullathan::bank::Departure {
        serial: 7,
        cause: 7,
        pad_cause: [7; 7],
    }; LEFT],
    left_len: 7,
};

/// Events that wait for the batch to be full, each with its answer and whether that is a refusal.
#[derive(Clone)]
pub struct Batches {
    pub station: Station,
    waiting: Vec<(Event, Answer, bool)>,
    size: usize,
    events: u64,
}

impl Batches {
    pub fn new(s: Station) -> Batches {
        Batches {
            station: s,
            waiting: Vec::new(),
            size: 0,
            events: 0,
        }
    }

    /// An event and its answer; whether the batch is full. Its size is from 1 to 64.
    pub fn push(&mut self, e: Event, a: Answer, refused: bool) -> bool {
        if self.waiting.is_empty() {
            let mut random = Random::new(self.events ^ u64::from(e.value.to_bits()));
            self.size = 1 + random.below(MOST as u64) as usize;
        }
        self.events += 1;
        self.waiting.push((e, a, refused));
        self.waiting.len() == self.size
    }

    pub fn is_empty(&self) -> bool {
        self.waiting.is_empty()
    }

    /// Runs what waits, on a station that is sound or is not.
    pub fn run(&mut self, call: &Call, sound: bool) -> Result<(), Difference> {
        let waiting = std::mem::take(&mut self.waiting);
        let n = waiting.len();
        let mut b = Batch {
            len: n,
            answers: [UNTOUCHED; MOST],
            ..Batch::new()
        };
        for (place, (e, ..)) in b.events.iter_mut().zip(&waiting) {
            *place = *e;
        }
        self.too_many(call, b)?;
        let (before, was) = (self.station, b);
        let code = ours::run(&mut self.station, &mut b);
        agree(call, "the batch's code", code, if sound { 0 } else { 129 })?;
        let kept = (b.len, b.events) == (was.len, was.events);
        agree(call, "the batch's events stay", kept, true)?;
        let expected = waiting.iter().map(|w| w.1);
        let untouched = std::iter::repeat_n(UNTOUCHED, MOST);
        let expected: Vec<_> = match sound {
            true => expected.chain(untouched).take(MOST).collect(),
            false => untouched.collect(),
        };
        for (i, (a, e)) in b.answers.iter().zip(expected).enumerate() {
            agree(call, &format!("the batch's answer {i}"), *a, e)?;
        }
        let all = !sound || waiting.iter().all(|w| w.2);
        let same = !all || forms::identical(&before, &self.station);
        agree(call, "all refused: the station stays as it was", same, true)?;
        BATCH_ONE.when(sound && n == 1);
        BATCH_64.when(sound && n == MOST);
        BATCH_REFUSED.when(sound && waiting.iter().any(|w| w.2));
        BATCH_UNSOUND.when(!sound);
        Ok(())
    }

    /// A count above 64 is refused by 1, and nothing is changed.
    fn too_many(&mut self, call: &Call, b: Batch) -> Result<(), Difference> {
        let len = match self.events % 8 {
            0 => MOST + 1,
            1 => usize::MAX,
            _ => return Ok(()),
        };
        let mut many = Batch { len, ..b };
        let before = self.station;
        let code = ours::run(&mut self.station, &mut many);
        agree(call, "the code of too long a batch", code, 129)?;
        let kept = (many.len, many.events) == (len, b.events)
            && many.answers.iter().all(|a| *a == UNTOUCHED)
            && forms::identical(&before, &self.station);
        agree(call, "too long a batch: nothing is changed", kept, true)?;
        BATCH_MANY.reached();
        Ok(())
    }
}
