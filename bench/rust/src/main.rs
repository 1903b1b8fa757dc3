//! Turns of one search worker: `turns` with an instance, a number of turns and a seed. Turns of bound workers: `bound`
//! with an instance, a number of turns, the cost of the plan to reach, in tenths, the numbers of workers, of sets and of
//! rows, and a path for the certificate, if one is wanted; of both trades: `crew`. Pricings of the root: `ascent` with an
//! instance, `labels` with an instance and a certificate. The bound of a certificate's tree: `check` with an instance and the certificate.
#![allow(dead_code, unused)]

mod arrayvec;
mod branching;
mod ceiling;
mod certificate;
mod checking;
mod completions;
mod desk;
mod fronts;
mod in_turn;
mod incumbent_book;
mod insertion;
mod labelling;
mod labels;
mod leaf_arcs;
mod row_charges;
mod row_finding;
mod leaf_work;
mod measuring;
mod moves;
mod node_pool;
mod pooled_routes;
mod price_way;
mod priced_sets;
mod prices;
mod quick_routes;
mod rand_core;
mod rand_xoshiro;
mod ruin;
mod run_settings;
mod running;
mod schedule;
mod search;
mod searching;
mod set_finding;
mod set_needs;
mod segments;
mod shim;
mod solomon_reader;
mod tenths;
mod tree_bound;
mod worker_turns;

use run_settings::Settings;
use solomon_reader::Instance;

fn settings(numbers: [u64; 6]) -> Settings {
    let [turns, searchers, bounders, seed, sets, rows] = numbers.map(|number| number as u32);
    Settings { turns, searchers, bounders, seed, sets, rows, ..Settings::default() }
}

fn main() {
    let words: Vec<String> = std::env::args().collect();
    let instance = Instance::read(&words[2]);
    let number = |place: usize| -> u64 { words[place].parse().unwrap() };
    match words[1].as_str() {
        "ascent" => measuring::tell_ascent(&instance),
        "labels" => measuring::tell_labels(&instance, &words[3]),
        "check" => checking::tell(&instance, &words[3]),
        "crew" => running::tell(&instance, &settings([3, 4, 5, 6, 7, 8].map(number)), None, None),
        "bound" => {
            let settings = settings([number(3), 0, number(5), 1, number(6), number(7)]);
            running::tell(&instance, &settings, Some(number(4)), words.get(8));
        }
        _ => searching::tell(&instance, number(3) as u32, number(4)),
    }
}
