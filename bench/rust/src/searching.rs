//! Turns of one search worker, as `worker_turns` makes them.

use crate::insertion::{Weights, build_whole};
use crate::rand_core::Generator;
use crate::search::{Pace, Searcher, Seeker};
use crate::shim::Global;
use crate::solomon_reader::Instance;
use std::time::Instant;

/// The turns of a searcher without a plan, until it has one; answers how many it made.
fn seek<'i>(instance: &'i Instance, turns: u32, random: Generator) -> (Option<Searcher<'i, Generator>>, u32) {
    let mut seeker = Seeker::new(Global, instance, random).unwrap();
    for made in 0..turns {
        if let Some(plan) = seeker.turn(Pace::of_run(made, turns)).unwrap() {
            return (Some(seeker.into_searcher(plan)), made + 1);
        }
    }
    (None, turns)
}

/// Prints the least cost after each tenth of the turns, and the seconds.
pub fn tell(instance: &Instance, turns: u32, seed: u64) {
    let begin = Instant::now();
    let random = Generator::of_seed(seed);
    let (searcher, first) = match build_whole(Global, instance, &Weights::plain()).unwrap() {
        Some(plan) => (Some(Searcher::new(Global, plan, random)), 0),
        None => seek(instance, turns, random),
    };
    let Some(mut searcher) = searcher else {
        println!("no plan in {turns} turns {:.1}", begin.elapsed().as_secs_f64());
        return;
    };
    if first > 0 {
        println!("a plan in turn {first} {:.1}", begin.elapsed().as_secs_f64());
    }
    searcher.descend().unwrap();
    for turn in first + 1..=turns {
        searcher.keep_pace(Pace::of_run(turn - 1, turns));
        searcher.turn().unwrap();
        let cost = searcher.plan().cost().get();
        if turn % turns.div_ceil(10) == 0 || turn == turns {
            println!("{turn} {}.{} {:.1}", cost / 10, cost % 10, begin.elapsed().as_secs_f64());
        }
    }
}
