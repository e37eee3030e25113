//! Signals that end the program, as Ctrl-C does: temporary files are removed first.

use crate::temporary;
use signal_hook::consts::{SIGHUP, SIGINT, SIGQUIT, SIGTERM};
use signal_hook::flag;
use signal_hook::iterator::Signals;
use signal_hook::low_level::emulate_default_handler;
use std::sync::atomic::{AtomicBool, Ordering};
use std::sync::{Arc, Mutex, PoisonError};
use std::{fs, io, thread};

/// Whether a signal has come that ends the program.
#[derive(Clone)]
pub struct Watch(Arc<AtomicBool>);

impl Watch {
    /// Watches, from the first call on, for signals that would leave temporary files behind.
    pub fn start() -> io::Result<Self> {
        static STARTED: Mutex<Option<Watch>> = Mutex::new(None);
        let mut started = STARTED.lock().unwrap_or_else(PoisonError::into_inner);
        if let Some(watch) = started.as_ref() {
            return Ok(watch.clone());
        }
        let watch = Watch(Arc::new(AtomicBool::new(false)));
        let ignored = ignored();
        let signals = [SIGHUP, SIGINT, SIGQUIT, SIGTERM].into_iter();
        let signals: Vec<_> = signals.filter(|signal| ignored >> (signal - 1) & 1 == 0).collect();
        for &signal in &signals {
            flag::register(signal, watch.0.clone())?;
        }
        let mut signals = Signals::new(signals)?;
        thread::Builder::new().spawn(move || signals.forever().next().map(end))?;
        Ok(started.insert(watch).clone())
    }

    /// Does not return if a signal has come: the program is about to end.
    pub fn pass(&self) {
        while self.0.load(Ordering::SeqCst) {
            thread::park();
        }
    }
}

/// Ends the program by the signal, so that a shell sees what ended it.
fn end(signal: i32) {
    let _none_made_meanwhile = temporary::remove_all();
    let _ = emulate_default_handler(signal);
}

/// The signals that the program was started to ignore, as under `nohup`, the first in the lowest bit:
/// these stay ignored. None where the system does not tell.
fn ignored() -> u64 {
    let status = fs::read_to_string("/proc/self/status").unwrap_or_default();
    let mask = status.lines().find_map(|line| line.strip_prefix("SigIgn:"));
    mask.and_then(|mask| u64::from_str_radix(mask.trim(), 16).ok()).unwrap_or(0)
}
