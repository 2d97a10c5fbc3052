//! A display of progress on a terminal; none where the error stream is no terminal.
use indicatif::{ProgressBar, ProgressStyle};
use std::time::{Duration, Instant};

pub struct Progress {
    bar: ProgressBar,
    started: Instant,
}

const WITH_END: &str = "{wide_bar} {percent} % {msg}, {eta} left";
const WITHOUT_END: &str = "{spinner} {msg}";

impl Progress {
    /// Of so many bytes, if that is known.
    pub fn of_bytes(length: Option<u64>) -> Progress {
        let (bar, form) = match length {
            Some(length) => (ProgressBar::new(length), WITH_END),
            None => (ProgressBar::new_spinner(), WITHOUT_END),
        };
        if let Ok(style) = ProgressStyle::with_template(form) {
            bar.set_style(style);
        }
        bar.enable_steady_tick(Duration::from_millis(200));
        Progress { bar, started: Instant::now() }
    }

    /// Of work whose end is not known.
    pub fn without_end() -> Progress {
        Progress::of_bytes(None)
    }

    /// An input address is reached.
    pub fn reach(&self, ipa: u64) {
        // A message for each page would cost more than the page.
        if !self.bar.is_hidden() && ipa % (1 << 24) == 0 {
            self.bar.set_message(format!("at IPA {ipa:#x}"));
        }
    }

    /// So many more bytes are done, and so many addresses in all.
    pub fn pass(&self, bytes: u64, addresses: u64) {
        self.bar.inc(bytes);
        let rate = addresses as f64 / self.started.elapsed().as_secs_f64().max(1e-9);
        self.bar.set_message(format!("{addresses} addresses, {rate:.0} a second"));
    }

    pub fn end(self) {
        self.bar.finish_and_clear();
    }
}
