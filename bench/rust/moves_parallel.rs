//! The best move of a kind, by one thread in place of several.

use crate::candidate::{Kind, Move};
use crate::choosing::best_under;
use crate::fault::MoveFault;
use segments::PlanTrees;

pub fn best_under_parallel<R>(
    _rt: &R,
    _alloc: Global,
    trees: &PlanTrees<'_>,
    kind: Kind,
    limit: Option<i64>,
) -> Result<Option<(Move, i64)>, MoveFault> {
    Ok(best_under(trees, kind, limit))
}

pub fn best_parallel<R>(
    rt: &R,
    alloc: Global,
    trees: &PlanTrees<'_>,
    kind: Kind,
) -> Result<Option<(Move, i64)>, MoveFault> {
    best_under_parallel(rt, alloc, trees, kind, None)
}
