//! What long work says of itself on a terminal: nothing for the first half second, then one line that is written over, and taken away
//! again at the end.

use std::io::Write;
use std::time::{Duration, Instant};

const QUIET: Duration = Duration::from_millis(500);
const PERIOD: Duration = Duration::from_millis(200);

pub struct Progress {
    shown: bool,
    terminal: bool,
    next: Instant,
    began: Instant,
}

impl Progress {
    /// On standard error, where that is a terminal.
    pub fn new(terminal: bool) -> Progress {
        let began = Instant::now();
        Progress {
            shown: false,
            terminal,
            next: began + QUIET,
            began,
        }
    }

    fn show(&mut self, text: impl FnOnce() -> String) {
        let now = Instant::now();
        if self.terminal && now >= self.next {
            self.next = now + PERIOD;
            self.shown = true;
            let _ = write!(std::io::stderr(), "\r\x1b[K{}", text());
        }
    }

    /// So many bytes are read, of so many where that is known.
    pub fn bytes(&mut self, read: u64, of: Option<u64>) {
        self.show(|| match of.filter(|n| *n > 0) {
            Some(size) => format!("read {read} of {size} bytes ({} %)", 100 * read / size),
            None => format!("read {read} bytes"),
        });
    }

    /// Waits for work of which nothing is known before it ends, and counts the seconds.
    pub fn wait<T: Send>(&mut self, what: &str, work: impl FnOnce() -> T + Send) -> T {
        if !self.terminal {
            return work();
        }
        std::thread::scope(|scope| {
            let worker = scope.spawn(work);
            while !worker.is_finished() {
                std::thread::sleep(Duration::from_millis(1));
                let seconds = self.began.elapsed().as_secs();
                self.show(|| format!("{what}, {seconds} s"));
            }
            worker.join().expect("no call of the library panics")
        })
    }
}

impl Drop for Progress {
    fn drop(&mut self) {
        if self.shown {
            let _ = write!(std::io::stderr(), "\r\x1b[K");
        }
    }
}
