//! Changes of one voice: put, cut, and a change of an event into one that is as long.
use std::hint::black_box;

use crate::bare::Bare;
use crate::library;
use crate::limit::Rows;
use crate::model::{call_bytes, Call, Event, Score};
use crate::piece;
use crate::table::{Kind, Row};
use crate::times::{seconds, Times, Way, WAYS};

/// How many changes are timed together.
const TOGETHER: usize = 16;

/// A change at an index, as a call and as bytes, and what it moves.
struct Change {
    index: usize,
    call: Call,
    input: Vec<u8>,
    moves: fn(&mut Rows, usize, &[u8], &mut [u8]),
}

impl Change {
    fn new(index: usize, call: Call, moves: fn(&mut Rows, usize, &[u8], &mut [u8])) -> Change {
        Change { index, call, input: call_bytes(call), moves }
    }

    fn put(index: usize) -> Change {
        let event = Event::Note { place: 30, alteration: 3, length: 48 };
        Change::new(index, Call::Put(0, index as u32, event), Rows::put)
    }

    fn cut(index: usize) -> Change {
        Change::new(index, Call::Cut(0, index as u32), Rows::cut)
    }

    fn other(index: usize, event: Event) -> Change {
        Change::new(index, Call::Change(0, index as u32, event), Rows::change)
    }
}

/// How many changes are made in a row to a voice of so many events: to a short one a single change, so that it stays as long as it is said to be.
fn in_a_row(events: usize) -> usize {
    (events / 256).clamp(1, TOGETHER)
}

/// One voice, in as many copies as make TOGETHER changes.
struct Copies {
    words: Vec<Vec<u32>>,
    bytes: Vec<u8>,
    scores: Vec<Score>,
    bare: Vec<Bare>,
    rows: Vec<Rows>,
}

/// How long it takes to make each change to each copy.
fn make_all<T>(copies: &mut [T], changes: &[Change], mut make: impl FnMut(&mut T, &Change)) -> f64 {
    seconds(|| {
        for copy in copies {
            for change in changes {
                make(copy, black_box(change));
            }
        }
    })
}

impl Copies {
    fn new(events: usize) -> Copies {
        let copies = TOGETHER / in_a_row(events);
        let (words, bytes) = piece::engraved(&piece::score(1, events));
        let scores = (0..copies).map(|_| piece::score(1, events)).collect();
        let bare = vec![Bare::new(&piece::score(1, events)); copies];
        Copies { words: vec![words; copies], bytes, scores, bare, rows: vec![Rows::new(events); copies] }
    }

    /// How long one of the changes takes, if all are made to each copy.
    fn make(&mut self, way: Way, changes: &[Change]) -> f64 {
        let Copies { words, bytes, scores, bare, rows } = self;
        let time = match way {
            Way::Engraver => make_all(words, changes, |w, c| assert_eq!(library::call(w, bytes, &c.input), 1)),
            Way::Anew => make_all(scores, changes, |s, c| assert_eq!(s.answer(&c.input).1, 1)),
            Way::Bare => make_all(bare, changes, |b, c| b.make(c.call)),
            Way::Limit => make_all(rows, changes, |r, c| (c.moves)(r, c.index, &c.input, bytes)),
        };
        time / (changes.len() * words.len()) as f64
    }

    /// The engraver's voices are as long as the others, and what is kept with the bare rows is what is derived of the whole score.
    fn compare(&mut self) {
        let input = call_bytes(Call::HowLong(0));
        let answer = self.scores[0].answer(&input).0;
        assert!(self.bare.iter().zip(&self.scores).all(|(bare, score)| *bare == Bare::new(score)));
        for words in &mut self.words {
            assert_eq!(library::call(words, &mut self.bytes, &input), answer.len() as i64);
            assert_eq!(self.bytes[..answer.len()], answer);
        }
    }
}

/// Puts and cuts where a place is among so many events. Each way is made once unmeasured in every round, so that its buffers are warm.
pub fn moves(rounds: usize, events: usize, names: [&'static str; 2], place: fn(usize) -> usize) -> [Row; 2] {
    let mut copies = Copies::new(events);
    let fewer = events - in_a_row(events);
    let puts: Vec<Change> = (fewer..events).map(|n| Change::put(place(n))).collect();
    let cuts: Vec<Change> = (fewer..events).rev().map(|n| Change::cut(place(n))).collect();
    let (mut putting, mut cutting) = (Times::default(), Times::default());
    for _ in 0..rounds {
        for way in WAYS {
            copies.make(way, &cuts);
            copies.make(way, &puts);
            cutting.add(way, copies.make(way, &cuts));
            putting.add(way, copies.make(way, &puts));
        }
    }
    copies.compare();
    [putting.row(names[0], Kind::Moving, events), cutting.row(names[1], Kind::Moving, events)]
}

/// The event in the middle becomes another that is as long, and then a third.
pub fn change(rounds: usize, events: usize) -> Row {
    let mut copies = Copies::new(events);
    let middle = events / 2;
    let length = copies.scores[0].voices[0][middle].length();
    let other = |i: usize| Change::other(middle, Event::Note { place: 30 + i as u32 % 2, alteration: 2 + i as u32 % 2, length });
    let changes: Vec<Change> = (0..in_a_row(events)).map(other).collect();
    let back = [Change::other(middle, Event::Silence { length })];
    let mut times = Times::default();
    for _ in 0..rounds {
        for way in WAYS {
            copies.make(way, &back);
            times.add(way, copies.make(way, &changes));
        }
    }
    copies.compare();
    times.row("change in the middle, as long", Kind::Changing, events)
}
