//! The pieces that are measured: voices of notes with varied lengths, some of which need signs, and of some silences.
use crate::library::{self, Opening};
use crate::model::{key_alteration, record_of, Event, Score};
use crate::random::Random;

pub const KEY: u32 = 9;
pub const BAR: u32 = 192;
/// Lengths of 54 ticks in the mean: 65,536 of them stay below 2^24 ticks.
const LENGTHS: [u32; 12] = [24, 24, 24, 36, 36, 48, 48, 48, 72, 96, 96, 96];

fn event(r: &mut Random) -> Event {
    let length = r.pick(&LENGTHS);
    if r.one_in(8) {
        return Event::Silence { length };
    }
    let place = 28 + r.below(14) as u32;
    let alteration = if r.one_in(3) { r.pick(&[1, 2, 3]) } else { key_alteration(KEY, place) };
    Event::Note { place, alteration, length }
}

/// So many events, spread evenly over voices.
pub fn score(voices: usize, events: usize) -> Score {
    let mut r = Random(7);
    let voices = (0..voices).map(|_| (0..events / voices).map(|_| event(&mut r)).collect()).collect();
    Score { key: KEY, bar: BAR, limit: events, voices }
}

/// The words in which the engraver has a score, and bytes for its answers.
pub fn engraved(score: &Score) -> (Vec<u32>, Vec<u8>) {
    let opening = Opening { key: score.key, bar: score.bar, voices: score.voices.len() as u32, events: score.limit as u32 };
    let (mut words, mut bytes) = (vec![0; opening.words() as usize], vec![0; opening.bytes() as usize]);
    assert_eq!(library::open(&mut words, &mut bytes, opening), 0);
    let records = |(v, voice): (usize, &Vec<Event>)| -> Vec<u32> { voice.iter().flat_map(|e| record_of(v as u32, *e)).collect() };
    let numbers: Vec<u32> = score.voices.iter().enumerate().flat_map(records).collect();
    let mut refusal = 0;
    assert_eq!(library::put_records(&mut words, &numbers, &mut refusal), numbers.len() as i64 / 4);
    (words, bytes)
}
