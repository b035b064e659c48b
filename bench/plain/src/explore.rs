//! Exploration: pieces are advanced depth first, the false side first, which is the order of names.

use crate::piece::Region;
use crate::program::Stack;
use crate::worker::Worker;

/// An exploration that has ended.
pub struct Settled {
    /// In name order.
    pub regions: Vec<Region>,
    pub open: usize,
    pub emptied: usize,
    pub splits: usize,
    pub commits: usize,
}

/// Explores a stack.
pub fn explore(stack: &Stack, budget: usize) -> Settled {
    let mut worker = Worker::new(stack);
    let (mut is_live, mut commits) = (true, 0);
    while is_live && commits < budget {
        is_live = worker.commit() || worker.next_waiting();
        commits += 1;
    }
    let Worker { regions, splits, emptied, .. } = worker;
    Settled { open: 1 + splits - regions.len() - emptied, regions, emptied, splits, commits }
}
