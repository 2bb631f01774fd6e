//! Events by the batch.

use crate::{sys, Answer, Event, Refusal, Station};
use std::iter::{Fuse, FusedIterator};

/// How many events go to the library at once.
const MOST: usize = 64;

/// The answers to events that go to the library 64 at a time: what [`Station::batches`] gives.
pub struct Batches<'a, I> {
    station: &'a mut Station,
    events: Fuse<I>,
    batch: Box<sys::Batch>,
    /// How many of the batch's answers were given.
    given: usize,
}

impl<'a, I: Iterator<Item = Event>> Batches<'a, I> {
    pub(crate) fn new(station: &'a mut Station, events: I) -> Batches<'a, I> {
        let batch = Box::new(sys::Batch {
            len: 0,
            events: [sys::Event::default(); MOST],
            answers: [sys::Answer::default(); MOST],
        });
        Batches {
            station,
            events: events.fuse(),
            batch,
            given: 0,
        }
    }

    /// Takes the next events, as many as a batch has room for, and has them answered. Whether there were any.
    fn fill(&mut self) -> bool {
        let mut len = 0;
        for (place, event) in self.batch.events.iter_mut().zip(&mut self.events) {
            *place = event.plain();
            len += 1;
        }
        self.batch.len = len;
        self.given = 0;
        if len == 0 {
            return false;
        }
        let code = sys::run(&mut self.station.memory, &mut self.batch);
        if code != 0 {
            // the whole batch was refused, and nothing is answered
            self.batch.answers.iter_mut().for_each(|a| a.code = code);
        }
        true
    }
}

impl<I: Iterator<Item = Event>> Iterator for Batches<'_, I> {
    type Item = Result<Answer, Refusal>;

    #[inline]
    fn next(&mut self) -> Option<Result<Answer, Refusal>> {
        if self.given == self.batch.len && !self.fill() {
            return None;
        }
        let answer = self.batch.answers.get(self.given)?;
        self.given += 1;
        Some(Answer::of(answer))
    }

    fn size_hint(&self) -> (usize, Option<usize>) {
        let held = self.batch.len - self.given;
        let (least, most) = self.events.size_hint();
        let most = most.and_then(|n| n.checked_add(held));
        (least.saturating_add(held), most)
    }
}

impl<I: Iterator<Item = Event>> FusedIterator for Batches<'_, I> {}
