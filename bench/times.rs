//! How long things take, in seconds, and what is taken of several rounds.
use std::time::Instant;

use crate::table::{Kind, Row};

/// Four ways of doing the same.
#[derive(Clone, Copy)]
pub enum Way {
    Engraver,
    Anew,
    Bare,
    Limit,
}

pub const WAYS: [Way; 4] = [Way::Engraver, Way::Anew, Way::Bare, Way::Limit];

/// What was measured in each round, for each way.
#[derive(Default)]
pub struct Times([Vec<f64>; 4]);

impl Times {
    pub fn add(&mut self, way: Way, time: f64) {
        self.0[way as usize].push(time);
    }

    pub fn row(self, what: &'static str, kind: Kind, events: usize) -> Row {
        let [engraver, anew, bare, limit] = self.0.map(median);
        Row { what, kind, events, engraver, anew, bare, limit }
    }
}

fn median(mut times: Vec<f64>) -> f64 {
    times.sort_by(f64::total_cmp);
    times[times.len() / 2]
}

pub fn seconds(f: impl FnOnce()) -> f64 {
    let start = Instant::now();
    f();
    start.elapsed().as_secs_f64()
}
