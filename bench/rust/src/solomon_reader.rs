//! An instance, read without a look at its faults.

use crate::tenths::Tenths;

pub const MOST_DISTANCE: u32 = 282_842;
pub const MOST_TIME: u64 = 10_000_000;
pub const MOST_CUSTOMERS: u16 = 400;
pub const MOST_FLEET: u16 = 1_000;
pub const MOST_CAPACITY: u16 = 10_000;
pub const MOST_PRICE: u64 = 1_000_000_000_000;
pub const MOST_ROW_PRICES: usize = 256;
pub const MOST_NEED: u32 = 4_000_000;
pub const MOST_NEIGHBOURS: u32 = 15;
pub const MOST_SETS: u32 = 1_000;
pub const MOST_ROWS: u32 = 1_000;

/// Why routes are no plan.
#[derive(Clone, Copy, Debug, PartialEq, Eq)]
pub enum PlanFault {
    EmptyRoute,
    UnknownCustomer,
    Twice,
    Missing,
    OverCapacity,
    Late,
    FleetExceeded,
}

#[derive(Debug, PartialEq, Eq)]
pub struct Instance {
    pub name: String,
    fleet: u16,
    capacity: u16,
    /// x, y, demand; ready, due and service in tenths
    rows: Vec<[i64; 6]>,
    distances: Vec<u32>,
}

fn tenths_between(a: &[i64; 6], b: &[i64; 6]) -> u32 {
    (100 * ((a[0] - b[0]).pow(2) + (a[1] - b[1]).pow(2))).isqrt() as u32
}

impl Instance {
    pub fn read(path: &str) -> Instance {
        let text = std::fs::read_to_string(path).unwrap();
        let numbers = |line: &str| line.split_whitespace().map(|word| word.parse().ok()).collect();
        let lines: Vec<Vec<i64>> = text.lines().filter_map(numbers).filter(|line: &Vec<i64>| line.len() > 1).collect();
        let rows: Vec<[i64; 6]> =
            lines[1..].iter().map(|l| [l[1], l[2], l[3], 10 * l[4], 10 * l[5], 10 * l[6]]).collect();
        let distances = rows.iter().flat_map(|a| rows.iter().map(move |b| tenths_between(a, b))).collect();
        let name = text.split_whitespace().next().unwrap().to_string();
        Instance { name, fleet: lines[0][0] as u16, capacity: lines[0][1] as u16, rows, distances }
    }

    pub fn customer_count(&self) -> u16 {
        (self.rows.len() - 1) as u16
    }

    pub fn fleet(&self) -> u16 {
        self.fleet
    }

    pub fn capacity(&self) -> u16 {
        self.capacity
    }

    pub fn demand(&self, i: u16) -> u16 {
        self.rows[usize::from(i)][2] as u16
    }

    pub fn ready(&self, i: u16) -> u64 {
        self.rows[usize::from(i)][3] as u64
    }

    pub fn due(&self, i: u16) -> u64 {
        self.rows[usize::from(i)][4] as u64
    }

    pub fn service(&self, i: u16) -> u64 {
        self.rows[usize::from(i)][5] as u64
    }

    pub fn distance(&self, i: u16, j: u16) -> Tenths {
        Tenths::from(self.distances[usize::from(i) * self.rows.len() + usize::from(j)])
    }

    pub fn fewest_routes(&self) -> u32 {
        let total: u32 = (1..=self.customer_count()).map(|i| u32::from(self.demand(i))).sum();
        total.div_ceil(u32::from(self.capacity()))
    }

    pub fn ceiling(&self) -> Tenths {
        Tenths::from(2 * u32::from(self.customer_count()) * self.distances.iter().max().copied().unwrap_or(0))
    }

    pub fn above_ceiling(&self) -> u32 {
        self.ceiling().get() as u32 + 1
    }

    pub fn law_of_limits(&self) {}
}
