//! Questions: what is printed of one voice, and what is heard of all.
use std::hint::black_box;

use crate::bare::Bare;
use crate::library;
use crate::limit;
use crate::model::{call_bytes, Call};
use crate::piece;
use crate::table::{Kind, Row};
use crate::times::{seconds, Times, WAYS};

/// How long a question is asked for in one round, at least.
const LEAST: f64 = 20e-6;

/// How long one of so many runs takes.
fn each(runs: usize, f: &mut dyn FnMut()) -> f64 {
    seconds(|| (0..runs).for_each(|_| f())) / runs as f64
}

/// So many runs that they take long enough to be timed together.
fn enough(f: &mut dyn FnMut()) -> usize {
    let mut runs = 1;
    while each(runs, f) * (runs as f64) < LEAST {
        runs *= 2;
    }
    runs
}

/// A question that is asked of so many events in so many voices. Each way is asked once unmeasured in every round, so that its buffers are warm.
fn ask(rounds: usize, voices: usize, events: usize, what: &'static str, call: Call) -> Row {
    let mut score = piece::score(voices, events);
    let (mut words, mut bytes) = piece::engraved(&score);
    let input = call_bytes(call);
    let answer = score.answer(&input).0;
    assert_eq!(library::call(&mut words, &mut bytes, &input), answer.len() as i64);
    assert_eq!(bytes[..answer.len()], answer);
    let bare_score = Bare::new(&score);
    let (mut copied, mut written) = (vec![0; answer.len()], vec![0; answer.len()]);
    let items = bare_score.answer(call, &mut written);
    assert_eq!((items as u32).to_le_bytes(), answer[1..5]);
    assert_eq!(written[..answer.len() - 5], answer[5..]);
    let mut engraver = || assert_eq!(library::call(&mut words, &mut bytes, black_box(&input)), answer.len() as i64);
    let mut anew = || assert_eq!(score.answer(black_box(&input)).1, answer.len() as i64);
    let mut bare = || assert_eq!(bare_score.answer(black_box(call), &mut written), items);
    let mut limit = || limit::write(black_box(&input), black_box(&answer), black_box(&mut copied));
    let mut times = Times::default();
    let mut asked: [&mut dyn FnMut(); 4] = [&mut engraver, &mut anew, &mut bare, &mut limit];
    let runs = [0, 1, 2, 3].map(|way| enough(asked[way]));
    for _ in 0..rounds {
        for way in WAYS {
            asked[way as usize]();
            times.add(way, each(runs[way as usize], asked[way as usize]));
        }
    }
    times.row(what, Kind::Asking, events)
}

/// Sixteen bars at the beginning, in the middle and at the end of one voice.
pub fn shows(rounds: usize, events: usize) -> [Row; 3] {
    let bars = piece::score(1, events).long(0) / piece::BAR;
    let asked = [("show 16 bars, the first", 0), ("show 16 bars, in the middle", bars / 2 - 8), ("show 16 bars, the last", bars - 16)];
    asked.map(|(what, bar)| ask(rounds, 1, events, what, Call::Show(0, bar, 16)))
}

/// The widest span, around the middle of the voices.
pub fn hears(rounds: usize, voices: usize, events: usize, what: &'static str) -> Row {
    let from = (piece::score(voices, events).long(0) / 2).saturating_sub(768);
    ask(rounds, voices, events, what, Call::HeardIn(from, from + 1536))
}
