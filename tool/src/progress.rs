//! Progress of work that takes longer than a second, on a terminal.

use std::io::{self, IsTerminal};
use std::time::{Duration, Instant};

use indicatif::{ProgressBar, ProgressDrawTarget, ProgressStyle};

/// Work that is shorter is not shown.
const QUIET: Duration = Duration::from_secs(1);

/// The progress of some work.
pub struct Progress {
    what: &'static str,
    total: u64,
    done: u64,
    started: Instant,
    is_shown: bool,
    bar: Option<ProgressBar>,
}

impl Progress {
    /// Work of so many steps.
    pub fn new(what: &'static str, total: u64) -> Progress {
        let is_shown = io::stderr().is_terminal();
        Progress {
            what,
            total,
            done: 0,
            started: Instant::now(),
            is_shown,
            bar: None,
        }
    }

    /// So many steps more are done.
    pub fn step(&mut self, by: u64) {
        self.done += by;
        if !self.is_shown {
            return;
        }
        if self.bar.is_none() && self.started.elapsed() > QUIET {
            self.bar = Some(self.new_bar());
        }
        if let Some(bar) = &self.bar {
            bar.set_position(self.done);
        }
    }

    fn new_bar(&self) -> ProgressBar {
        let target = ProgressDrawTarget::stderr();
        let bar = ProgressBar::with_draw_target(Some(self.total), target);
        let style = ProgressStyle::with_template("{msg} {wide_bar} {percent}%, {eta} left");
        bar.set_style(style.expect("the template is well-formed"));
        bar.set_message(self.what);
        bar
    }
}

impl Drop for Progress {
    fn drop(&mut self) {
        if let Some(bar) = &self.bar {
            bar.finish_and_clear();
        }
    }
}
