//! Files that are shared out among threads, until all are done or the library and the original differ on one.

use super::Amount;
use differential::rng::Rng;
use std::io::{self, Write};
use std::panic::{self, AssertUnwindSafe};
use std::sync::Mutex;
use std::{fs, thread};

/// Where the first files go that the two do not agree on: one, or the two that are compared.
const DIFFERENCE: [&str; 2] = ["difference.sgub", "difference-2.sgub"];

/// What is left to do, and the first difference.
pub struct Work {
    share: u64,
    state: Mutex<State>,
}

struct State {
    left: u64,
    seeds: Rng,
    difference: Option<Difference>,
}

struct Difference {
    files: Vec<Vec<u8>>,
    text: String,
}

/// The part of one thread.
pub struct Part<'a> {
    work: &'a Work,
    threads: usize,
    /// Files without chance that come before this thread's next one.
    before_next: usize,
    differs: bool,
}

impl Work {
    /// So many files of a seed, of which a thread takes a share at a time.
    pub fn new(amount: Amount, share: u64) -> Self {
        let state = State {
            left: amount.count,
            seeds: Rng::new(amount.seed),
            difference: None,
        };
        Self {
            share,
            state: Mutex::new(state),
        }
    }

    /// Does all of it with so many threads, and gives what each of them gives.
    pub fn on<C: Send>(&self, threads: usize, run: impl Fn(Part<'_>) -> C + Sync) -> Vec<C> {
        let run = &run;
        let part = |thread| Part {
            work: self,
            threads,
            before_next: thread,
            differs: false,
        };
        thread::scope(|scope| {
            let spawn = |thread| scope.spawn(move || run(part(thread)));
            let handles: Vec<_> = (0..threads).map(spawn).collect();
            let join =
                |handle: thread::ScopedJoinHandle<'_, C>| handle.join().expect("panics are caught");
            handles.into_iter().map(join).collect()
        })
    }

    /// Prints the difference, if there is one, and keeps its files.
    pub fn differs(self, out: &mut impl Write) -> io::Result<bool> {
        let state = self.state.into_inner().expect("no thread panicked");
        let Some(Difference { files, text }) = state.difference else {
            return Ok(false);
        };
        writeln!(out, "DIFFERENCE: {text}")?;
        for (name, file) in DIFFERENCE.iter().zip(files) {
            fs::write(name, &file)?;
            let length = file.len();
            writeln!(out, "the file is {name}, {length} bytes")?;
        }
        Ok(true)
    }

    /// The next share. The shares are the same whatever thread takes them.
    fn next_share(&self) -> Option<Amount> {
        let mut state = self.state.lock().expect("no thread panicked");
        let count = state.left.min(self.share);
        state.left -= count;
        let seed = state.seeds.next_u64();
        (count > 0).then_some(Amount { count, seed })
    }

    /// Notes a difference. Nothing is left to do then.
    fn stop(&self, files: &[&[u8]], text: String) {
        let mut state = self.state.lock().expect("no thread panicked");
        state.left = 0;
        let files = files.iter().map(|file| file.to_vec()).collect();
        state.difference.get_or_insert(Difference { files, text });
    }
}

impl Part<'_> {
    /// Whether the next of the files that are made without chance is this thread's to compare. All threads make all of them,
    /// and take them in turn.
    pub fn takes_next(&mut self) -> bool {
        if self.before_next > 0 {
            self.before_next -= 1;
            return false;
        }
        self.before_next = self.threads - 1;
        !self.differs
    }

    /// The next files that the thread is to draw and compare; none where nothing is left to do.
    pub fn next_share(&self) -> Option<Amount> {
        self.work.next_share()
    }

    /// What a comparison of a file, or of two, gives; none where library and original differ, and then nothing is left to do. A
    /// panic is a difference, whose files are wanted most.
    pub fn compare<T>(
        &mut self,
        files: &[&[u8]],
        compare: impl FnOnce() -> Result<T, String>,
    ) -> Option<T> {
        let answer = panic::catch_unwind(AssertUnwindSafe(compare));
        match answer.unwrap_or_else(|_| Err(String::from("a panic"))) {
            Ok(value) => Some(value),
            Err(text) => {
                self.differs = true;
                self.work.stop(files, text);
                None
            }
        }
    }
}

#[cfg(test)]
mod tests {
    use super::*;

    fn work() -> Work {
        Work::new(Amount { count: 10, seed: 1 }, 4)
    }

    #[test]
    fn each_file_without_chance_is_one_threads() {
        let taken = work().on(3, |mut part| {
            let own = (0..10).filter(|_| part.takes_next());
            own.collect::<Vec<u32>>()
        });
        assert_eq!(taken, [vec![0, 3, 6, 9], vec![1, 4, 7], vec![2, 5, 8]]);
    }

    #[test]
    fn the_shares_are_all_and_each_has_a_seed() {
        let shares = work().on(1, |part| {
            let shares = std::iter::from_fn(|| part.next_share());
            let shares = shares.map(|share| (share.count, share.seed));
            shares.collect::<Vec<_>>()
        });
        let mut seeds = Rng::new(1);
        let expected = [4, 4, 2].map(|count| (count, seeds.next_u64()));
        assert_eq!(shares, [expected]);
    }

    #[test]
    fn nothing_is_left_behind_a_difference_and_a_panic_is_one() {
        let comparisons: [fn() -> Result<u8, String>; 2] =
            [|| Err(String::from("another")), || panic!("for the test")];
        for (compare, text) in comparisons.into_iter().zip(["another", "a panic"]) {
            let work = work();
            work.on(1, |mut part| {
                assert_eq!(part.compare(&[b"1"], || Ok(7)), Some(7));
                assert_eq!(part.compare(&[b"2", b"3"], compare), None);
                assert!(!part.takes_next() && part.next_share().is_none());
            });
            let state = work.state.into_inner().unwrap();
            let difference = state.difference.expect("it is kept");
            assert_eq!(difference.text, text);
            assert_eq!(difference.files, [b"2", b"3"]);
        }
    }
}
