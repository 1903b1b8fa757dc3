//! The root's value after some numbers of pricings, and how long one pricing takes.

use crate::branching::Region;
use crate::fronts::Nearness;
use crate::labelling::{Hints, least};
use crate::leaf_work::{Goal, PricingState, RoutePool, counted_routes, first_rise, raise};
use crate::prices::Priced;
use crate::shim::Global;
use crate::solomon_reader::Instance;
use std::time::Instant;

/// The numbers of pricings.
const COUNTS: [u32; 5] = [10, 25, 50, 100, 200];
/// As by default.
const NEIGHBOURS: u32 = 8;
const MOST_LABELS: usize = 1_000_000;

/// Prints the value of the root in tenths after each number of pricings from prices of zero, and the milliseconds.
pub fn tell_ascent(instance: &Instance) {
    let nearness = Nearness::new(Global, instance, NEIGHBOURS).unwrap();
    for pricings in COUNTS {
        let hints = Hints::near(Global, &nearness);
        let root = Priced::root(Global, instance, NEIGHBOURS, Some(MOST_LABELS), &hints);
        let Ok(root) = root else { panic!("labels") };
        let goal = Goal {
            rise: first_rise(instance, None),
            pricings,
            idle_pricings: pricings,
            value: i128::MAX,
            routes: counted_routes(instance, None),
            sets: 0,
            rows: 0,
            labels: Some(MOST_LABELS),
            work: u64::MAX,
        };
        let (begin, mut pool) = (Instant::now(), RoutePool::new(Global));
        let mut state = PricingState::new(Global, &nearness);
        let best = raise(&mut pool, &mut state, root, None, &goal).priced;
        println!("pricings {pricings} value {} ms {}", best.value(), begin.elapsed().as_millis());
    }
}

/// Prints the milliseconds of one pricing of the root at prices of zero, and at those of a certificate's first leaf.
pub fn tell_labels(instance: &Instance, certificate: &str) {
    let text = std::fs::read_to_string(certificate).unwrap();
    let line = text.lines().find_map(|line| line.strip_prefix("P ")).expect("a leaf");
    let prices: Vec<i64> = line.split(' ').map(|word| word.parse().unwrap()).collect();
    let root = Region::root(Global, instance.customer_count());
    for (name, prices) in [("zero", vec![0; prices.len()]), ("certificate", prices)] {
        let begin = Instant::now();
        let found = least(Global, instance, &root, &prices, NEIGHBOURS, Some(MOST_LABELS));
        println!("{name} ms {} within labels {}", begin.elapsed().as_millis(), found.is_ok());
    }
}
