//! Many files, some at a time; the reports come in the order of the files. On a terminal a bar shows how far it is.

use std::io::{IsTerminal, Write};
use std::sync::atomic::{AtomicUsize, Ordering};
use std::sync::mpsc;
use std::time::Instant;

/// Does the work on each item with this many threads, and hands over each result in the order of the items.
pub fn each<T: Sync, R: Send>(
    items: &[T],
    jobs: usize,
    work: impl Fn(&T) -> R + Sync,
    mut done: impl FnMut(usize, R),
) {
    let next = AtomicUsize::new(0);
    let (sender, receiver) = mpsc::channel();
    let (next, work) = (&next, &work);
    std::thread::scope(|threads| {
        for _ in 0..jobs.clamp(1, items.len().max(1)) {
            let sender = sender.clone();
            threads.spawn(move || {
                loop {
                    let index = next.fetch_add(1, Ordering::Relaxed);
                    let Some(item) = items.get(index) else { return };
                    sender.send((index, work(item))).expect("the results are received to the last");
                }
            });
        }
        drop(sender);
        in_order(receiver, &mut Progress::new(items.len()), &mut done);
    });
}

fn in_order<R>(
    receiver: mpsc::Receiver<(usize, R)>,
    progress: &mut Progress,
    done: &mut impl FnMut(usize, R),
) {
    let mut waiting = std::collections::BTreeMap::new();
    let mut next = 0;
    for (index, result) in receiver {
        waiting.insert(index, result);
        progress.clear();
        while let Some(result) = waiting.remove(&next) {
            done(next, result);
            next += 1;
        }
        progress.one_more();
    }
    progress.clear();
}

/// The bar on standard error, where that is a terminal and there is more than one file.
struct Progress {
    shown: bool,
    start: Instant,
    done: usize,
    all: usize,
}

impl Progress {
    fn new(all: usize) -> Self {
        let shown = all > 1 && std::io::stderr().is_terminal();
        Progress { shown, start: Instant::now(), done: 0, all }
    }

    fn clear(&self) {
        if self.shown {
            eprint!("\r\x1b[K");
        }
    }

    fn one_more(&mut self) {
        self.done += 1;
        if self.shown {
            eprint!("{}", bar(self.done, self.all, self.start.elapsed().as_secs_f64()));
            let _ = std::io::stderr().flush();
        }
    }
}

/// Files done, rate, time left.
fn bar(done: usize, all: usize, seconds: f64) -> String {
    let filled = 20 * done / all.max(1);
    let rate = done as f64 / seconds.max(0.001);
    let left = (all - done) as f64 / rate.max(0.001);
    format!(
        "[{}{}] {done}/{all} files, {rate:.1}/s, {left:.0} s left",
        "#".repeat(filled),
        ".".repeat(20 - filled)
    )
}

#[cfg(test)]
mod tests {
    use super::{bar, each};

    #[test]
    fn results_come_in_the_order_of_the_items() {
        let items: Vec<u32> = (0..50).collect();
        let mut seen = vec![];
        each(&items, 4, |item| item * 2, |index, result| seen.push((index as u32, result)));
        assert_eq!(seen, items.iter().map(|item| (*item, item * 2)).collect::<Vec<_>>());
        each(&[] as &[u32], 4, |item| *item, |_, _| panic!("there is no item"));
    }

    #[test]
    fn the_bar_says_how_far() {
        assert_eq!(bar(5, 20, 2.0), "[#####...............] 5/20 files, 2.5/s, 6 s left");
    }
}
