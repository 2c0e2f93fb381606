//! Work on several cores whose results come in order.

use crate::stop::Stop;
use std::collections::BTreeMap;
use std::sync::atomic::{AtomicUsize, Ordering};
use std::sync::mpsc;
use std::thread;

/// Items that a thread takes at a time.
const TAKEN: usize = 16;
/// Results, of so many items each, that may wait for one before them.
const AHEAD: usize = 64;

/// Does `work` on each item, by so many threads, and hands the results to `take` in the items' order.
pub fn each<Item: Sync, Done: Send>(
    items: &[Item],
    jobs: usize,
    work: impl Fn(&Item) -> Done + Sync,
    mut take: impl FnMut(&Item, Done) -> Result<(), Stop>,
) -> Result<(), Stop> {
    let parts: Vec<&[Item]> = items.chunks(TAKEN).collect();
    let next = AtomicUsize::new(0);
    let (send, receive) = mpsc::sync_channel(AHEAD);
    let work = |part: &[Item]| part.iter().map(&work).collect::<Vec<Done>>();
    let mut take = |part: &[Item], done: Vec<Done>| part.iter().zip(done).try_for_each(|(item, done)| take(item, done));
    thread::scope(|scope| {
        let mut started = 0;
        for _ in 0..jobs.min(parts.len()) {
            let (send, next, work, parts) = (send.clone(), &next, &work, &parts);
            let job = move || loop {
                let at = next.fetch_add(1, Ordering::Relaxed);
                match parts.get(at) {
                    Some(part) if send.send((at, work(part))).is_ok() => {}
                    _ => return,
                }
            };
            started += usize::from(thread::Builder::new().spawn_scoped(scope, job).is_ok());
        }
        drop(send);
        if started == 0 {
            return parts.iter().try_for_each(|part| take(part, work(part)));
        }
        let (mut early, mut wanted) = (BTreeMap::new(), 0);
        for (at, done) in receive {
            early.insert(at, done);
            while let Some(done) = early.remove(&wanted) {
                take(parts[wanted], done)?;
                wanted += 1;
            }
        }
        Ok(())
    })
}

#[cfg(test)]
mod tests {
    use super::*;

    #[test]
    fn in_order_and_each_once() {
        for count in [0, 1, 15, 16, 17, 1000] {
            let items: Vec<usize> = (0..count).collect();
            for jobs in [1, 2, 9, 5000] {
                let mut taken = Vec::new();
                let ended = each(
                    &items,
                    jobs,
                    |item| item * 3,
                    |item, done| {
                        taken.push((*item, done));
                        Ok(())
                    },
                );
                assert!(ended.is_ok());
                assert_eq!(taken, items.iter().map(|item| (*item, item * 3)).collect::<Vec<_>>());
            }
        }
    }

    #[test]
    fn stopped() {
        let items: Vec<usize> = (0..10_000).collect();
        let mut taken = 0;
        let ended = each(
            &items,
            4,
            |item| *item,
            |_, _| {
                taken += 1;
                if taken == 40 {
                    Err(Stop::Quiet)
                } else {
                    Ok(())
                }
            },
        );
        assert!(matches!(ended, Err(Stop::Quiet)) && taken == 40);
    }
}
