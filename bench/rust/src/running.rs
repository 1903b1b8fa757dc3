//! Workers of a run, each in a thread, of which one works at a time.

use crate::branching::Arc;
use crate::ceiling::{Ceiling, CeilingSeat};
use crate::desk::LookFault;
use crate::fronts::Nearness;
use crate::in_turn::InTurn;
use crate::incumbent_book::{Book, BookFault, Gap, Offered};
use crate::insertion::{Weights, build_whole};
use crate::leaf_work::{FirstLimits, first_leaf};
use crate::node_pool::{Hand, Pass, Thief, deques};
use crate::prices::Priced;
use crate::rand_core::Generator;
use crate::run_settings::{Settings, generator};
use crate::schedule::Feasible;
use crate::search::{HeldPlan, Searcher};
use crate::shim::Global;
use crate::solomon_reader::Instance;
use crate::tenths::Tenths;
use crate::worker_turns::{Hub, LeavesLeft, Nodes, Team, Worker, lending_worker, pricing_labels};
use std::sync::Mutex;

/// The book under a lock.
struct AtBook<'a, 'i>(&'a Mutex<Book<'i>>);

impl<'i> Hub<'i> for AtBook<'_, 'i> {
    fn offer(&mut self, plan: Feasible<'i>) -> Result<(Offered<'i>, Gap), (Feasible<'i>, BookFault)> {
        let mut book = self.0.lock().unwrap();
        let offered = book.offer(plan);
        Ok((offered, book.gap()))
    }

    fn reprice(&mut self, leaf: u32, priced: Priced<'i>) -> Result<Gap, (Priced<'i>, BookFault)> {
        let mut book = self.0.lock().unwrap();
        book.reprice(leaf, priced)?;
        Ok(book.gap())
    }

    fn split(
        &mut self,
        leaf: u32,
        arc: Arc,
        used: Priced<'i>,
        unused: Priced<'i>,
    ) -> Result<((u32, u32), Gap), (Priced<'i>, Priced<'i>, BookFault)> {
        let mut book = self.0.lock().unwrap();
        let numbers = book.split(leaf, arc, used, unused)?;
        Ok((numbers, book.gap()))
    }

    fn look(&mut self, leaf: u32) -> Result<Priced<'i>, LookFault> {
        let book = self.0.lock().unwrap();
        let leaf = book.leaf(leaf).ok_or(LookFault::NotALeaf)?;
        Ok(leaf.try_clone().expect("memory"))
    }

    fn gap(&mut self) -> Gap {
        self.0.lock().unwrap().gap()
    }
}

/// The plan that insertion builds, and the one that a descent makes of it, if there is one.
fn first_plans(instance: &Instance) -> Option<(Feasible<'_>, Feasible<'_>)> {
    let built = build_whole(Global, instance, &Weights::plain()).expect("memory")?;
    let mut searcher = Searcher::new(Global, built.try_clone().expect("memory"), Generator::of_seed(0));
    searcher.descend().expect("memory");
    Some((built, searcher.into_plan()))
}

/// What all workers of a run share.
struct Shared<'a, 'i> {
    instance: &'i Instance,
    settings: &'a Settings,
    nearness: &'a Nearness<'a>,
    plan: Option<&'a Feasible<'i>>,
    book: &'a Mutex<Book<'i>>,
    gate: &'a InTurn<'a, 'i>,
    ceiling: &'a Ceiling,
    thieves: &'a [Thief],
    left: &'a LeavesLeft,
    team: &'a Team,
}

impl Shared<'_, '_> {
    /// The turns of one worker.
    fn work(&self, number: u16, seat: CeilingSeat, own: Hand) {
        let nodes = Nodes::new(Global, self.nearness, self.plan, own, self.thieves, Pass).expect("memory");
        let held = self.plan.map(|plan| HeldPlan { plan: plan.try_clone().expect("memory"), is_optimum: true });
        let mut worker = Worker {
            alloc: Global,
            instance: self.instance,
            hub: AtBook(self.book),
            gate: self.gate,
            number,
            ceiling: self.ceiling,
            seat,
            left: self.left,
            team: self.team,
            enough: self.settings.gap,
        };
        lending_worker(&mut worker, self.settings, held, generator(self.settings.seed, number), nodes);
        self.gate.leave(number);
    }
}

/// Tells of a run with these settings, in which a plan of so many tenths is known; where it is 0 none is, and without a
/// number the one that a descent comes to. Writes the certificate of the tree to a path, if there is one.
pub fn tell(instance: &Instance, settings: &Settings, cost: Option<u64>, path: Option<&String>) {
    let nearness = Nearness::new(Global, instance, settings.neighbours).expect("memory");
    let plans = first_plans(instance).filter(|_| cost != Some(0));
    let (built, plan) = plans.as_ref().map_or((None, None), |(built, plan)| (Some(built), Some(plan)));
    let labels = Some(pricing_labels(settings, instance.customer_count()));
    let limits = FirstLimits { root_labels: None, labels, sets: settings.sets };
    let Ok(root) = first_leaf(Global, &nearness, instance, settings.neighbours, built, limits) else { panic!("labels") };
    let cost = cost.filter(|cost| *cost > 0).or(plan.map(|plan| plan.cost().get()));
    let book = Mutex::new(Book::new(instance, root, cost.and_then(Tenths::new)));
    let most = cost.unwrap_or(u64::from(instance.above_ceiling()));
    let workers = (settings.searchers + settings.bounders) as usize;
    let bound = book.lock().unwrap().gap().bound.get();
    let Ok((ceiling, seats)) = Ceiling::new(Global, workers, most, bound) else { panic!("memory") };
    let (mut hands, thieves) = deques(workers);
    for hand in hands.iter_mut().skip(settings.searchers as usize) {
        hand.push(0).expect("room");
    }
    let shared = Shared {
        instance,
        settings,
        nearness: &nearness,
        plan,
        book: &book,
        gate: &InTurn::new(&book, workers, settings.turns),
        ceiling: &ceiling,
        thieves: &thieves,
        left: &LeavesLeft::of_all(),
        team: &Team::new(false),
    };
    std::thread::scope(|scope| {
        for ((number, seat), own) in (0..).zip(seats).zip(hands) {
            let shared = &shared;
            scope.spawn(move || shared.work(number, seat, own));
        }
    });
    if let Some(path) = path {
        let text = book.lock().unwrap().certificate(settings);
        std::fs::write(path, text).expect("certificate");
    }
}
