//! A progress bar, where standard error is a terminal.

use crate::amount::{counted, thousands};
use std::io::{self, IsTerminal, Write};
use std::time::{Duration, Instant};

/// How wide the bar is. The rest of the line has room for a million blocks beside it.
const WIDTH: usize = 16;

/// How wide a terminal is that does not say so.
const COLUMNS: usize = 80;

/// How often it is drawn.
const PAUSE: Duration = Duration::from_millis(100);

/// A line longer than the terminal is cut at its edge, and does not go on below: there it would
/// stay when the bar is taken away. Set back at once, so that nothing is left so.
const CUT: &str = "\x1b[?7l";
const WRAP: &str = "\x1b[?7h";

pub struct Progress {
    shown: bool,
    columns: usize,
    start: Instant,
    drawn: Option<Instant>,
}

impl Progress {
    /// A bar, where standard error is a terminal and the table does not go to one as well: its
    /// lines would mix with the bar.
    pub fn new(out: Option<&str>) -> Progress {
        let to_terminal = out.is_none_or(|out| out == "-") && io::stdout().is_terminal();
        let columns = std::env::var("COLUMNS").ok();
        let columns = columns.and_then(|columns| columns.parse().ok());
        Progress {
            shown: io::stderr().is_terminal() && !to_terminal,
            columns: columns.filter(|&columns| columns > 0).unwrap_or(COLUMNS),
            start: Instant::now(),
            drawn: None,
        }
    }

    /// Draws the bar, if it is time to: how much of the file is done, and how many blocks.
    pub fn show(&mut self, share: Option<f64>, blocks: usize) {
        let recent = self.drawn.is_some_and(|drawn| drawn.elapsed() < PAUSE);
        if !self.shown || recent {
            return;
        }
        self.drawn = Some(Instant::now());
        let seconds = self.start.elapsed().as_secs_f64();
        // The last column stays free: some terminals go to the next line when it is written.
        let line = line(share, blocks, seconds, self.columns - 1);
        write!(io::stderr(), "\r{CUT}{line}{WRAP}\x1b[K").ok();
    }

    /// Takes the bar away.
    pub fn clear(&mut self) {
        if self.drawn.take().is_some() {
            write!(io::stderr(), "\r\x1b[K").ok();
        }
    }
}

impl Drop for Progress {
    fn drop(&mut self) {
        self.clear();
    }
}

/// The bar as text of at most so many columns: how much of the file is done, time left, blocks and
/// rate. What is wanted least stands last, so that it goes first where the room is short.
fn line(share: Option<f64>, blocks: usize, seconds: f64, room: usize) -> String {
    let rate = thousands((blocks as f64 / seconds.max(1e-3)) as u64);
    let blocks = counted(blocks, "block");
    let rated = format!("{blocks}, {rate} a second");
    let fits = |text: &String| text.len() <= room;
    let Some(share) = share.filter(|share| *share > 0.0) else {
        return [rated, blocks].into_iter().find(fits).unwrap_or_default();
    };
    let share = share.min(1.0);
    let done = (share * WIDTH as f64) as usize;
    let bar = "#".repeat(done) + &"-".repeat(WIDTH - done);
    let percent = format!("{:3.0} %", 100.0 * share);
    let left = format!("{percent}, {} left", time(seconds / share - seconds));
    let shorter = [
        format!("[{bar}] {left}, {rated}"),
        format!("[{bar}] {left}, {blocks}"),
        format!("[{bar}] {left}"),
        left,
        percent,
    ];
    shorter.into_iter().find(fits).unwrap_or_default()
}

/// `9 s`, `2 min 5 s`, `3 h 20 min`.
fn time(seconds: f64) -> String {
    match seconds.round() as u64 {
        seconds @ 0..60 => format!("{seconds} s"),
        seconds @ 60..3_600 => format!("{} min {} s", seconds / 60, seconds % 60),
        seconds => format!("{} h {} min", seconds / 3_600, seconds / 60 % 60),
    }
}

#[cfg(test)]
mod tests {
    use super::{line, time};

    #[test]
    fn the_bar() {
        assert_eq!(line(None, 10, 2.0, 79), "10 blocks, 5 a second");
        assert_eq!(line(Some(0.0), 1, 1.0, 79), "1 block, 1 a second");
        assert_eq!(
            line(Some(0.5), 1_000, 4.0, 79),
            "[########--------]  50 %, 4 s left, 1,000 blocks, 250 a second"
        );
        let million = line(Some(0.99), 1_000_000, 11_000.0, 79);
        assert!(million.ends_with(" 99 %, 1 min 51 s left, 1,000,000 blocks, 90 a second"));
        assert!(line(Some(2.0), 1, 1.0, 79).contains("100 %"));
    }

    /// What does not fit is left out, the least wanted first.
    #[test]
    fn narrow_terminals() {
        let drawn = |room| line(Some(0.25), 123_456, 10.0, room);
        let bar = "[####------------]  25 %, 30 s left";
        assert_eq!(drawn(79), format!("{bar}, 123,456 blocks, 12,345 a second"));
        assert_eq!(drawn(67), format!("{bar}, 123,456 blocks"));
        assert_eq!(drawn(39), bar);
        assert_eq!(drawn(20), " 25 %, 30 s left");
        assert_eq!(drawn(6), " 25 %");
        assert_eq!(drawn(4), "");
        assert_eq!(line(None, 123_456, 10.0, 20), "123,456 blocks");
        for room in 0..200 {
            for (share, blocks, seconds) in [
                (Some(1.0), usize::MAX, 1e-9),
                (Some(1e-300), 0, 1e9),
                (Some(f64::MIN_POSITIVE), 1, 1e300),
                (None, usize::MAX, 0.0),
            ] {
                let drawn = line(share, blocks, seconds, room);
                assert!(drawn.len() <= room, "{drawn}");
            }
        }
    }

    #[test]
    fn times() {
        let times = [0.4, 59.4, 59.6, 125.0, 3_599.6, 12_000.0].map(time);
        let expected = ["0 s", "59 s", "1 min 0 s", "2 min 5 s", "1 h 0 min"];
        assert_eq!(times[..5], expected);
        assert_eq!(times[5], "3 h 20 min");
    }
}
