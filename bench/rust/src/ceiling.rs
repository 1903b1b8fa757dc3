//! The words for cost and bound, without a proof.

use crate::shim::{AllocError, Global, Vec};
use std::sync::atomic::{AtomicU64, Ordering};

pub struct Ceiling {
    cost: AtomicU64,
    bound: AtomicU64,
}

pub struct CeilingSeat;

impl Ceiling {
    pub fn new(_: Global, seats: usize, cost: u64, bound: u64) -> Result<(Ceiling, Vec<CeilingSeat>), AllocError> {
        let ceiling = Ceiling { cost: AtomicU64::new(cost), bound: AtomicU64::new(bound) };
        Ok((ceiling, Vec((0..seats).map(|_| CeilingSeat).collect())))
    }

    pub fn offer(&self, _: &mut CeilingSeat, value: u64) -> u64 {
        self.cost.fetch_min(value, Ordering::SeqCst).min(value)
    }

    pub fn cost(&self, _: &mut CeilingSeat) -> u64 {
        self.cost.load(Ordering::SeqCst)
    }

    pub fn raise(&self, _: &mut CeilingSeat, value: u64) -> u64 {
        self.bound.fetch_max(value, Ordering::SeqCst).max(value)
    }

    pub fn floor(&self, _: &mut CeilingSeat) -> u64 {
        self.bound.load(Ordering::SeqCst)
    }
}
