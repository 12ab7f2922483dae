//! Records shared out among threads. They are independent, so each thread has a run of neighbours.

use std::thread;

use crate::stop::{Outcome, Stop};

/// Runs each worker on its part of the items, all at once; the parts are in the workers' order.
pub fn share<W: Send, T: Sync>(workers: &mut [W], items: &[T], run: impl Fn(&mut W, &[T]) + Sync) -> Outcome<()> {
    if let [only] = workers {
        run(only, items);
        return Ok(());
    }
    let size = items.len().div_ceil(workers.len().max(1)).max(1);
    let run = &run;
    let started = thread::scope(|scope| {
        let mut parts = workers.iter_mut().zip(items.chunks(size));
        parts.try_for_each(|(worker, part)| thread::Builder::new().spawn_scoped(scope, || run(worker, part)).map(drop))
    });
    started.map_err(|error| Stop::usage(format!("no thread can be started: {error}; expected --threads of fewer")))
}
