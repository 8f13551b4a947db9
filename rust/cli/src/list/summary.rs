//! What all listings come to, for standard error.

use sheafsledge::Refusal;

use crate::recording::{Ended, Row};
use crate::terminal::{Paint, Shade};

/// How often something came, and what it was.
type Count = (u64, Option<Refusal>);

pub struct Summary {
    frames: u64,
    bytes: u64,
    tails: u64,
    /// By the refusal's number.
    refused: [Count; 256],
    stopped: [Count; 256],
    /// Strays and open requests, where they are looked for.
    pairs: Option<(u64, u64)>,
    /// Frames with a string that breaks, where they alone are looked for.
    broken: Option<u64>,
    /// Directory entries, and blocks that stop at one, where they are looked for.
    entries: Option<(u64, u64)>,
}

impl Summary {
    pub fn new() -> Self {
        Self {
            frames: 0,
            bytes: 0,
            tails: 0,
            refused: [(0, None); 256],
            stopped: [(0, None); 256],
            pairs: None,
            broken: None,
            entries: None,
        }
    }

    #[inline]
    pub fn row(&mut self, row: &Row) {
        self.frames += 1;
        self.bytes += u64::from(row.size);
        match row.refusal {
            Some(refusal) => count(&mut self.refused, refusal),
            None => self.tails += u64::from(row.tail > 0),
        }
    }

    pub fn ended(&mut self, ended: &Ended) {
        if let Ended::Stopped { refusal, .. } = *ended {
            count(&mut self.stopped, refusal);
        }
    }

    pub fn pairs(&mut self, strays: u64, open: u64) {
        let (all_strays, all_open) = self.pairs.unwrap_or_default();
        self.pairs = Some((all_strays + strays, all_open + open));
    }

    pub fn broken(&mut self, broken: u64) {
        self.broken = Some(self.broken.unwrap_or_default() + broken);
    }

    pub fn entries(&mut self, entries: u64, stops: u64) {
        let (all_entries, all_stops) = self.entries.unwrap_or_default();
        self.entries = Some((all_entries + entries, all_stops + stops));
    }

    pub fn is_sound(&self) -> bool {
        if let Some(broken) = self.broken {
            return broken + sum(&self.stopped) == 0;
        }
        let (strays, open) = self.pairs.unwrap_or_default();
        let (_, stops) = self.entries.unwrap_or_default();
        self.tails + sum(&self.refused) + sum(&self.stopped) + strays + open + stops == 0
    }

    /// A line, and one more for each kind of refusal and of stop.
    pub fn text(&self, paint: Paint) -> String {
        let (refusals, stops) = (sum(&self.refused), sum(&self.stopped));
        let mut line = vec![
            numbered(self.frames, "frame"),
            numbered(self.bytes, "byte"),
            shaded(paint, self.tails, "tail", Shade::Tail),
            shaded(paint, refusals, "refusal", Shade::Refused),
            shaded(paint, stops, "stop", Shade::Refused),
        ];
        if let Some((strays, open)) = self.pairs {
            line.push(shaded(paint, strays, "stray", Shade::Refused));
            line.push(shaded(paint, open, "open request", Shade::Refused));
        }
        if let Some(broken) = self.broken {
            line.push(shaded(paint, broken, "broken string", Shade::Refused));
        }
        if let Some((all, stops)) = self.entries {
            line.push(entries(all));
            line.push(shaded(paint, stops, "stopped block", Shade::Refused));
        }
        let mut text = line.join(", ") + "\n";
        for (what, counts) in [("refused", &self.refused), ("stopped", &self.stopped)] {
            for (times, refusal) in counts {
                if let Some(refusal) = refusal {
                    let (number, sentence) = (refusal.number(), refusal.meaning());
                    text += &format!("  {times} {what} with {number}: {sentence}\n");
                }
            }
        }
        text
    }
}

#[cold]
fn count(counts: &mut [Count; 256], refusal: Refusal) {
    let (times, what) = &mut counts[refusal.number() as usize];
    *times += 1;
    *what = Some(refusal);
}

fn sum(counts: &[Count; 256]) -> u64 {
    counts.iter().map(|(times, _)| times).sum()
}

/// `1 frame`, `2 frames`
pub fn numbered(n: u64, what: &str) -> String {
    let plural = if n == 1 { "" } else { "s" };
    format!("{n} {what}{plural}")
}

/// `1 entry`, `2 entries`
pub fn entries(n: u64) -> String {
    match n {
        1 => "1 entry".into(),
        n => format!("{n} entries"),
    }
}

/// None is nothing to look at.
fn shaded(paint: Paint, n: u64, what: &str, shade: Shade) -> String {
    let text = numbered(n, what);
    match n {
        0 => text,
        _ => format!("{}{text}{}", paint.begin(shade), paint.end()),
    }
}
