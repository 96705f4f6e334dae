//! Measures calls of the engraver's static library beside an independent implementation that does everything anew, beside the bare work of each call, and
//! beside the least that it costs. Prints a table in Markdown with the goals that are met and those that are not.
mod bare;
mod changes;
#[path = "../tests/driver/library.rs"]
mod library;
mod limit;
#[allow(dead_code)]
#[path = "../tests/driver/model.rs"]
mod model;
mod piece;
mod questions;
#[path = "../tests/driver/random.rs"]
mod random;
mod table;
mod times;

use changes::{change, moves};
use questions::{hears, shows};

const SIZES: [usize; 3] = [64, 1024, 65536];

fn main() {
    let rounds = std::env::args().nth(1).map_or(101, |s| s.parse().expect("rounds are a number"));
    let mut rows = Vec::new();
    for events in SIZES {
        let at_end = moves(rounds, events, ["put at the end", "cut at the end"], |n| n);
        let at_middle = moves(rounds, events, ["put in the middle", "cut in the middle"], |n| n / 2);
        let at_front = moves(rounds, events, ["put at the front", "cut at the front"], |_| 0);
        for way in 0..2 {
            rows.extend([at_end[way], at_middle[way], at_front[way]]);
        }
        rows.push(change(rounds, events));
        rows.extend(shows(rounds, events));
        rows.push(hears(rounds, 1, events, "heard in, 1 voice"));
        rows.push(hears(rounds, 64, events, "heard in, 64 voices"));
    }
    table::print(&rows, rounds);
}
