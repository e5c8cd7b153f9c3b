//! A line on standard error that says how far long work is, once a second.

use std::fmt;
use std::io;
use std::io::IsTerminal;
use std::io::Write;
use std::sync::Arc;
use std::sync::Mutex;
use std::sync::atomic::AtomicU64;
use std::sync::atomic::Ordering;
use std::sync::mpsc;
use std::sync::mpsc::RecvTimeoutError;
use std::sync::mpsc::Sender;
use std::thread;
use std::thread::JoinHandle;
use std::time::Duration;
use std::time::Instant;

const BETWEEN_LINES: Duration = Duration::from_secs(1);
const MEGABYTE: u64 = 1_000_000;

/// What is being done. A call of the library tells nothing before it ends, so another thread says the line.
struct Work {
    what: Mutex<String>,
    /// Bytes so far, and in all; both 0 where bytes are not what it goes by.
    done: AtomicU64,
    all: AtomicU64,
}

pub struct Progress {
    work: Arc<Work>,
    teller: Option<(Sender<()>, JoinHandle<()>)>,
}

impl Progress {
    /// Says nothing unless it is asked to or standard error is a terminal, and nothing before a second has passed.
    pub fn start(asked: bool) -> Self {
        let work = Arc::new(Work {
            what: Mutex::new("starting".to_string()),
            done: AtomicU64::new(0),
            all: AtomicU64::new(0),
        });
        let on_terminal = io::stderr().is_terminal();
        let teller = (asked || on_terminal).then(|| {
            let (stop, stopped) = mpsc::channel();
            let work = Arc::clone(&work);
            let tell = move || {
                let started = Instant::now();
                while stopped.recv_timeout(BETWEEN_LINES) == Err(RecvTimeoutError::Timeout) {
                    say(&work, started, on_terminal);
                }
                if on_terminal && started.elapsed() >= BETWEEN_LINES {
                    eprint!("\r\x1b[K");
                }
            };
            (stop, thread::spawn(tell))
        });
        Self { work, teller }
    }

    /// The work that begins now. `bytes` is how many it goes through, if that is known.
    pub fn begin(&self, what: impl fmt::Display, bytes: Option<u64>) {
        *self.work.what.lock().expect("no thread panics with it") = what.to_string();
        self.work.done.store(0, Ordering::Relaxed);
        self.work.all.store(bytes.unwrap_or(0), Ordering::Relaxed);
    }

    pub fn add_bytes(&self, bytes: u64) {
        self.work.done.fetch_add(bytes, Ordering::Relaxed);
    }
}

impl Drop for Progress {
    fn drop(&mut self) {
        if let Some((stop, teller)) = self.teller.take() {
            drop(stop);
            // There is nothing to do about a teller that failed: its line is all that is lost.
            let _ = teller.join();
        }
    }
}

fn say(work: &Work, started: Instant, on_terminal: bool) {
    let what = work.what.lock().expect("no thread panics with it").clone();
    let done = work.done.load(Ordering::Relaxed) / MEGABYTE;
    let all = work.all.load(Ordering::Relaxed) / MEGABYTE;
    let far = match (done, all) {
        (0, _) => String::new(),
        (done, 0) => format!(", {done} MB"),
        (done, all) => format!(", {done} of {all} MB"),
    };
    let line = format!("{what}{far}, {} s", started.elapsed().as_secs());
    let mut out = io::stderr().lock();
    // A progress line that cannot be written is no reason to stop.
    let _ = match on_terminal {
        true => write!(out, "\r\x1b[K{line}"),
        false => writeln!(out, "{line}"),
    };
    let _ = out.flush();
}
