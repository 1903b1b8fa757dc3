//! The deques of the workers, each under a lock.

use std::collections::VecDeque;
use std::sync::{Arc, Mutex};

type Deque = Arc<Mutex<VecDeque<u32>>>;

pub struct Hand(Deque);

pub struct Thief(Deque);

pub struct Pass;

#[derive(Clone, Copy, Debug, PartialEq, Eq)]
pub struct PoolFault;

#[derive(Clone, Copy, Debug, PartialEq, Eq)]
pub enum Stolen {
    One(u32),
    Empty,
    Again,
}

/// A deque for each of so many workers.
pub fn deques(workers: usize) -> (std::vec::Vec<Hand>, std::vec::Vec<Thief>) {
    let deques: std::vec::Vec<Deque> = (0..workers).map(|_| Deque::default()).collect();
    (deques.iter().map(|deque| Hand(deque.clone())).collect(), deques.into_iter().map(Thief).collect())
}

impl Hand {
    pub fn push(&mut self, number: u32) -> Result<(), (u32, PoolFault)> {
        self.0.lock().unwrap().push_back(number);
        Ok(())
    }

    pub fn pop(&mut self) -> Option<u32> {
        self.0.lock().unwrap().pop_front()
    }
}

impl Thief {
    pub fn steal(&self, _: &mut Pass) -> Stolen {
        self.0.lock().unwrap().pop_front().map_or(Stolen::Empty, Stolen::One)
    }
}
