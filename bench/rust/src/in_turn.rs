//! Workers that make their turns one after the other, so that each run is the same.

use crate::incumbent_book::Book;
use crate::worker_turns::{Gate, GatePoint};
use std::sync::{Condvar, Mutex, MutexGuard};
use std::time::Instant;

/// What a worker did.
#[derive(Clone, Copy, Default)]
struct Deeds {
    turns: u32,
    searched: u32,
    raised: u32,
    is_done: bool,
}

struct Stage {
    deeds: Vec<Deeds>,
    /// Who makes a turn.
    current: Option<usize>,
    /// How many lines were told.
    told: u32,
    is_closed: bool,
    /// In which turn the root was split.
    split: Option<u32>,
}

/// A gate at which each worker waits until no other has made fewer turns. It tells how far they are after each tenth of
/// them, and when cost and bound meet.
pub struct InTurn<'a, 'i> {
    book: &'a Mutex<Book<'i>>,
    turns: u32,
    begin: Instant,
    stage: Mutex<Stage>,
    moved: Condvar,
}

impl Stage {
    /// Lets the next one make a turn, and answers how many all have made.
    fn go_on(&mut self) -> u32 {
        let left = self.deeds.iter().enumerate().filter(|(_, deeds)| !deeds.is_done);
        let next = left.min_by_key(|(number, deeds)| (deeds.turns, *number));
        self.current = next.map(|(number, _)| number);
        self.deeds.iter().map(|deeds| deeds.turns).min().unwrap_or(0)
    }
}

impl<'a, 'i> InTurn<'a, 'i> {
    pub fn new(book: &'a Mutex<Book<'i>>, workers: usize, turns: u32) -> InTurn<'a, 'i> {
        let deeds = vec![Deeds::default(); workers];
        let stage = Stage { deeds, current: Some(0), told: 0, is_closed: false, split: None };
        InTurn { book, turns, begin: Instant::now(), stage: Mutex::new(stage), moved: Condvar::new() }
    }

    /// A worker has made all its turns.
    pub fn leave(&self, worker: u16) {
        let mut stage = self.stage.lock().unwrap();
        stage.deeds[usize::from(worker)].is_done = true;
        stage.go_on();
        self.moved.notify_all();
    }

    /// Prints the turn, leaves, bound, seconds, sets, rows, the cost, when the root was split, and for each worker its turns as
    /// a searcher and the leaves that it raised.
    fn tell(&self, made: u32, stage: &mut MutexGuard<'_, Stage>) {
        let book = self.book.lock().unwrap();
        let (gap, leaves) = (book.gap(), book.leaves());
        let is_closed = gap.cost.is_some_and(|cost| cost <= gap.bound);
        let tenth = made * 10 / self.turns;
        if stage.is_closed || tenth <= stage.told && !is_closed {
            return;
        }
        stage.told = tenth;
        stage.is_closed = is_closed;
        let number = |tenths: u64| format!("{}.{}", tenths / 10, tenths % 10);
        let cost = gap.cost.map_or("-".to_string(), |cost| number(cost.get()));
        let split = stage.split.map_or("-".to_string(), |turn| turn.to_string());
        let deeds: Vec<String> =
            stage.deeds.iter().map(|deeds| format!("{}+{}", deeds.searched, deeds.raised)).collect();
        let seconds = self.begin.elapsed().as_secs_f64();
        let (sets, rows) = (book.listed().len(), book.listed_rows().len());
        let (bound, deeds) = (number(gap.bound.get()), deeds.join(" "));
        println!("{made} {leaves} {bound} {seconds:.1} {sets} {rows} {cost} {split} {deeds}");
    }
}

impl Gate for InTurn<'_, '_> {
    fn pass(&self, worker: u16, point: GatePoint) {
        let number = usize::from(worker);
        let mut stage = self.stage.lock().unwrap();
        match point {
            GatePoint::Start => {
                drop(self.moved.wait_while(stage, |stage| stage.current != Some(number)).unwrap());
                return;
            }
            GatePoint::Offered => stage.deeds[number].searched += 1,
            GatePoint::Priced => stage.deeds[number].raised += 1,
            GatePoint::Split => stage.split = stage.split.or(Some(stage.deeds[number].turns + 1)),
            GatePoint::End => {
                stage.deeds[number].turns += 1;
                let made = stage.go_on();
                self.tell(made, &mut stage);
                self.moved.notify_all();
            }
            GatePoint::Looked | GatePoint::Stolen => {}
        }
    }
}
