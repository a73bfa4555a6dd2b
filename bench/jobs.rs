// How jobs may come to worker threads, on items that do nothing else: five ways, with Rust's threads, lock and channel.
//
// `board`: a worker that has closed an item opens the next one under the same lock, without a channel. `channel`: the
// calling thread alone opens items and sends their jobs through a bounded channel; a worker closes its item and wakes it.
// `looking`: the same, but the calling thread looks again and again in place of sleeping. `sending`: a worker that closes an
// item opens what that made ready, sends it through the channel, and sleeps in the channel. `handing`, as `ompc` does: the
// same, but it sends under the lock, sleeps on a condition variable of the lock, and wakes one worker less than it has sent
// jobs.

use std::sync::mpsc::{Receiver, SyncSender, TryRecvError, sync_channel};
use std::sync::{Arc, Condvar, Mutex};
use std::thread;
use std::time::Instant;

/// Items that are opened and closed in order: in a chain each after the last one is closed.
struct Items {
    count: usize,
    chain: bool,
    opened: usize,
    closed: usize,
}

impl Items {
    fn new(count: usize, chain: bool) -> Items {
        Items { count, chain, opened: 0, closed: 0 }
    }

    /// Opens the next item, where fewer than `most` are open and it may be opened.
    fn open(&mut self, most: usize) -> Option<usize> {
        let open = self.opened - self.closed;
        if self.opened == self.count || open >= most || (self.chain && open > 0) {
            return None;
        }
        self.opened += 1;
        Some(self.opened - 1)
    }

    fn open_all(&mut self, most: usize) -> Vec<usize> {
        std::iter::from_fn(|| self.open(most)).collect()
    }

    fn is_over(&self) -> bool {
        self.closed == self.count
    }
}

#[inline(never)]
fn job(work: usize, item: usize) -> u64 {
    let mut x = item as u64 + 1;
    for _ in 0..work {
        x ^= x << 13;
        x ^= x >> 7;
        x ^= x << 17;
    }
    x
}

/// Runs what a worker does on so many threads, and the host's part on this one.
fn on_threads<W: Fn() + Send + Sync + 'static>(workers: usize, work: W, host: impl FnOnce()) -> f64 {
    let begin = Instant::now();
    let work = Arc::new(work);
    let threads: Vec<_> = (0..workers)
        .map(|_| {
            let work = work.clone();
            thread::spawn(move || work())
        })
        .collect();
    host();
    for it in threads {
        it.join().unwrap();
    }
    begin.elapsed().as_secs_f64()
}

fn board(count: usize, chain: bool, workers: usize, work: usize) -> f64 {
    let state = Arc::new((Mutex::new(Items::new(count, chain)), Condvar::new(), Condvar::new()));
    let own = state.clone();
    let worker = move || {
        let mut items = state.0.lock().unwrap();
        while !items.is_over() {
            match items.open(usize::MAX) {
                None => items = state.1.wait(items).unwrap(),
                Some(item) => {
                    if !chain {
                        state.1.notify_one();
                    }
                    drop(items);
                    std::hint::black_box(job(work, item));
                    items = state.0.lock().unwrap();
                    items.closed += 1;
                }
            }
        }
        state.1.notify_all();
        state.2.notify_one();
    };
    on_threads(workers, worker, || {
        let mut items = own.0.lock().unwrap();
        while !items.is_over() {
            items = own.2.wait(items).unwrap();
        }
    })
}

fn next(jobs: &Mutex<Receiver<usize>>) -> Option<usize> {
    jobs.lock().unwrap().recv().ok()
}

fn channel(count: usize, chain: bool, workers: usize, work: usize) -> f64 {
    let state = Arc::new((Mutex::new(Items::new(count, chain)), Condvar::new()));
    let own = state.clone();
    let (sender, jobs) = sync_channel(count);
    let jobs = Mutex::new(jobs);
    let worker = move || {
        while let Some(item) = next(&jobs) {
            std::hint::black_box(job(work, item));
            state.0.lock().unwrap().closed += 1;
            state.1.notify_one();
        }
    };
    on_threads(workers, worker, move || {
        let mut items = own.0.lock().unwrap();
        while !items.is_over() {
            let ready = items.open_all(workers);
            if ready.is_empty() {
                items = own.1.wait(items).unwrap();
                continue;
            }
            drop(items);
            for item in ready {
                sender.send(item).unwrap();
            }
            items = own.0.lock().unwrap();
        }
    })
}

fn looking(count: usize, chain: bool, workers: usize, work: usize) -> f64 {
    let state = Arc::new(Mutex::new(Items::new(count, chain)));
    let own = state.clone();
    let (sender, jobs) = sync_channel(count);
    let jobs = Mutex::new(jobs);
    let worker = move || {
        while let Some(item) = next(&jobs) {
            std::hint::black_box(job(work, item));
            state.lock().unwrap().closed += 1;
        }
    };
    on_threads(workers, worker, move || loop {
        let (ready, is_over) = {
            let mut items = own.lock().unwrap();
            (items.open_all(workers), items.is_over())
        };
        if is_over {
            return;
        }
        if ready.is_empty() {
            thread::yield_now();
        }
        for item in ready {
            sender.send(item).unwrap();
        }
    })
}

fn sending(count: usize, chain: bool, workers: usize, work: usize) -> f64 {
    let state = Arc::new(Mutex::new(Items::new(count, chain)));
    let (sender, jobs) = sync_channel(count + workers);
    let jobs = Mutex::new(jobs);
    for item in state.lock().unwrap().open_all(workers) {
        sender.send(item).unwrap();
    }
    let worker = move || {
        while let Some(item) = next(&jobs) {
            if item == usize::MAX {
                return;
            }
            std::hint::black_box(job(work, item));
            let (ready, is_over) = {
                let mut items = state.lock().unwrap();
                items.closed += 1;
                (items.open_all(workers), items.is_over())
            };
            for item in ready {
                sender.send(item).unwrap();
            }
            for _ in 0..if is_over { workers } else { 0 } {
                sender.send(usize::MAX).unwrap();
            }
        }
    };
    on_threads(workers, worker, || {})
}

/// What the lock of `handing` holds: the items, and the sending end as long as not all are closed.
struct Board {
    items: Items,
    sender: Option<SyncSender<usize>>,
}

impl Board {
    /// Opens what may be opened, sends it, and answers how many were sent.
    fn hand_out(&mut self, most: usize) -> usize {
        let ready = self.items.open_all(most);
        for item in &ready {
            self.sender.as_ref().unwrap().send(*item).unwrap();
        }
        ready.len()
    }
}

/// Receives an item, or sleeps until there may be one; none where the sending end is gone.
fn receive(jobs: &Mutex<Receiver<usize>>, board: &Mutex<Board>, call: &Condvar) -> Option<usize> {
    let mut held = None;
    loop {
        let received = jobs.lock().unwrap().try_recv();
        match received {
            Ok(item) => return Some(item),
            Err(TryRecvError::Disconnected) => return None,
            Err(TryRecvError::Empty) => {
                held = Some(match held {
                    None => board.lock().unwrap(),
                    Some(guard) => call.wait(guard).unwrap(),
                });
            }
        }
    }
}

fn handing(count: usize, chain: bool, workers: usize, work: usize) -> f64 {
    let (sender, jobs) = sync_channel(count);
    let board = Board { items: Items::new(count, chain), sender: Some(sender) };
    let state = Arc::new((Mutex::new(board), Condvar::new()));
    let jobs = Mutex::new(jobs);
    state.0.lock().unwrap().hand_out(workers);
    let worker = move || {
        while let Some(item) = receive(&jobs, &state.0, &state.1) {
            std::hint::black_box(job(work, item));
            let mut held = state.0.lock().unwrap();
            held.items.closed += 1;
            for _ in 1..held.hand_out(workers) {
                state.1.notify_one();
            }
            if held.items.is_over() {
                held.sender = None;
                state.1.notify_all();
            }
        }
    };
    on_threads(workers, worker, || {})
}

fn main() {
    let ways = [("board", board as fn(usize, bool, usize, usize) -> f64), ("channel", channel), ("looking", looking), ("sending", sending), ("handing", handing)];
    for (name, count, work) in [("60,000 small items", 60_000, 100), ("3,000 items of some 20 us", 3_000, 10_000)] {
        for chain in [true, false] {
            for workers in [1, 4, 16] {
                print!("{name}{}, {workers} workers:", if chain { " in a chain" } else { "" });
                for (way, run) in ways {
                    print!(" {way} {:.3} s", run(count, chain, workers, work));
                }
                println!();
            }
        }
    }
}
