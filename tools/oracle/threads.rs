//! Work in parts on two threads, with a line of progress every few seconds.

use std::sync::atomic::{AtomicU64, Ordering};
use std::thread;
use std::time::{Duration, Instant};

const THREADS: usize = 2;
const BETWEEN_LINES: Duration = Duration::from_secs(5);
const BETWEEN_LOOKS: Duration = Duration::from_millis(20);

/// Work that is cut into parts, which any thread may take up.
pub struct Work<'a> {
    pub name: &'a str,
    pub parts: u64,
    /// No part is begun after this.
    pub until: Option<Instant>,
}

/// How much is done, for the lines of progress.
pub struct Done(AtomicU64);

impl Done {
    pub fn add(&self, more: u64) {
        self.0.fetch_add(more, Ordering::Relaxed);
    }
}

impl Work<'_> {
    /// What each thread gathered. The first part that fails ends the work, and is the answer.
    pub fn run<T, F>(&self, part: F) -> Result<Vec<T>, String>
    where
        T: Default + Send,
        F: Fn(u64, &mut T, &Done) -> Result<(), String> + Sync,
    {
        let next = AtomicU64::new(0);
        let done = Done(AtomicU64::new(0));
        let parts = || {
            let mut gathered = T::default();
            while let Some(number) = self.take(&next) {
                part(number, &mut gathered, &done)
                    .inspect_err(|_| next.store(self.parts, Ordering::Relaxed))?;
            }
            Ok(gathered)
        };
        thread::scope(|scope| {
            let threads: Vec<_> = (0..THREADS).map(|_| scope.spawn(parts)).collect();
            self.show_progress(&done, || threads.iter().all(|one| one.is_finished()));
            threads.into_iter().map(|one| one.join().expect("a thread ends by itself")).collect()
        })
    }

    fn take(&self, next: &AtomicU64) -> Option<u64> {
        let late = self.until.is_some_and(|until| Instant::now() >= until);
        let number = next.fetch_add(1, Ordering::Relaxed);
        (!late && number < self.parts).then_some(number)
    }

    fn show_progress(&self, done: &Done, ended: impl Fn() -> bool) {
        let start = Instant::now();
        let mut lines = 0;
        while !ended() {
            thread::sleep(BETWEEN_LOOKS);
            if start.elapsed() >= BETWEEN_LINES * (lines + 1) {
                lines += 1;
                let seconds = start.elapsed().as_secs();
                println!("{}: {} compared, {seconds} s", self.name, done.0.load(Ordering::Relaxed));
            }
        }
    }
}
