//! Progress bars and a spinner: on standard error, only where that is a terminal, and not with
//! `--quiet`.

use indicatif::{ProgressBar, ProgressState, ProgressStyle};
use std::fmt::Write;
use std::time::Duration;

/// Whether the user wants to see them.
pub struct Progress {
    quiet: bool,
}

impl Progress {
    pub fn new(quiet: bool) -> Self {
        Progress { quiet }
    }

    pub fn is_shown(&self) -> bool {
        !self.quiet && !ProgressBar::new(0).is_hidden()
    }

    /// A bar for `count` things to do; `unit` says what they are. It is gone from the terminal when
    /// it is finished or dropped, so that nothing of it stays beside a message.
    pub fn bar(&self, count: usize, unit: &'static str) -> Bar {
        let bar = match self.quiet {
            true => ProgressBar::hidden(),
            // Hidden by itself where standard error is no terminal.
            false => ProgressBar::new(count as u64),
        };
        Bar::new(bar, style("{msg} {wide_bar} {pos} of {len}"), unit)
    }

    /// A sign of life with the time so far, for what is done in one piece: a call of the library
    /// tells nothing until its end.
    pub fn spinner(&self, doing: &'static str) -> Bar {
        self.ticking("{spinner} {msg} {elapsed}", doing, |_| String::new())
    }

    /// The same for up to `most` tries, of which one takes so long: what is done of them, and the time
    /// to go.
    pub fn tries(&self, doing: &'static str, most: u32, one: Duration) -> Bar {
        self.ticking("{spinner} {msg}: {reckoned}", doing, move |so_far| {
            let all = one * most;
            let tries = so_far.as_secs_f64() / one.as_secs_f64().max(1e-9);
            let seconds = all.saturating_sub(so_far).as_secs();
            format!(
                "about {} of at most {most} tries, up to about {}:{:02} to go",
                (tries as u32).min(most),
                seconds / 60,
                seconds % 60
            )
        })
    }

    /// A spinner whose `{reckoned}` is what is known by the time so far.
    fn ticking(
        &self,
        template: &str,
        doing: &'static str,
        reckoned: impl Fn(Duration) -> String + Clone + Send + Sync + 'static,
    ) -> Bar {
        let spinner = match self.is_shown() {
            true => ProgressBar::new_spinner(),
            false => ProgressBar::hidden(),
        };
        let reckoned = move |state: &ProgressState, line: &mut dyn Write| {
            // The line is a string, which takes all.
            let _ = line.write_str(&reckoned(state.elapsed()));
        };
        let spinner = Bar::new(spinner, style(template).with_key("reckoned", reckoned), doing);
        if !spinner.0.is_hidden() {
            spinner.0.tick();
            // By a thread of its own, which ends with the spinner.
            spinner.0.enable_steady_tick(Duration::from_millis(100));
        }
        spinner
    }
}

fn style(template: &str) -> ProgressStyle {
    ProgressStyle::with_template(template).expect("a template without a fault")
}

/// A bar or a spinner that clears itself away.
pub struct Bar(ProgressBar);

impl Bar {
    fn new(bar: ProgressBar, style: ProgressStyle, message: &'static str) -> Self {
        bar.set_style(style);
        bar.set_message(message);
        Bar(bar)
    }

    pub fn one_more(&self) {
        self.0.inc(1);
    }

    /// Does what writes to the terminal while the bar is out of the way.
    pub fn aside<T>(&self, write: impl FnOnce() -> T) -> T {
        self.0.suspend(write)
    }
}

impl Drop for Bar {
    fn drop(&mut self) {
        self.0.finish_and_clear();
    }
}
