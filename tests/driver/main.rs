//! Drives the engraver's static library beside an independent implementation: random calls, valid and damaged, on many scores. Every answer is compared
//! byte by byte, and every page that is shown is read back and compared with what is heard.
mod library;
mod model;
mod random;
mod reader;

use library::Opening;
use model::{call_bytes, heard, opens, record_event, record_of, Call, Event, Heard, Refused, Score};
use random::Random;

const SCORES: u64 = 100;
const CALLS: u64 = 10_000;
/// How often records are put before the first call.
const FILLS: u64 = 100;
/// Words and bytes that are lent and not asked for, which nobody may touch.
const SPARE: usize = 8;

/// The memory that is lent for a score.
struct Lent {
    words: Vec<u32>,
    bytes: Vec<u8>,
}

impl Lent {
    fn open(&mut self, opening: Opening) -> i64 {
        library::open(&mut self.words, &mut self.bytes, opening)
    }

    fn call(&mut self, input: &[u8]) -> i64 {
        library::call(&mut self.words, &mut self.bytes, input)
    }

    /// A call on so many of the words and bytes.
    fn call_in(&mut self, words: usize, bytes: usize, input: &[u8]) -> i64 {
        library::call(&mut self.words[..words], &mut self.bytes[..bytes], input)
    }
}

/// What calls a score is given.
struct Manner {
    /// How many of 10 changes put an event.
    puts: u64,
    /// The range of places, which is narrow in some scores so that signs meet.
    places: (u64, u64),
    /// The longest length, in units of three ticks.
    longest: u64,
    /// A question in so many calls.
    questions: u64,
}

fn event(r: &mut Random, m: &Manner) -> Event {
    let length = match r.below(40) {
        0 => r.below(65536) as u32,
        1 => r.pick(&[0, 1, 3, 65535, 65534, 65533]),
        2..=15 => r.pick(&[12, 24, 48, 96, 144, 192]).min(3 * m.longest as u32),
        _ => 3 * (1 + r.below(m.longest)) as u32,
    };
    if r.one_in(6) {
        return Event::Silence { length };
    }
    let place = if r.one_in(60) { r.below(256) } else { m.places.0 + r.below(m.places.1) } as u32;
    let alteration = if r.one_in(60) { r.below(256) } else { r.below(5) } as u32;
    Event::Note { place, alteration, length }
}

/// A call that may be in range or not, and more often is.
fn call(r: &mut Random, m: &Manner, score: &Score) -> Call {
    let v = if r.one_in(50) { r.pick(&[score.voices.len() as u32, u32::MAX, r.0 as u32]) } else { r.below(score.voices.len() as u64) as u32 };
    let events = score.voices.get(v as usize).map_or(0, Vec::len) as u64;
    let i = if r.one_in(50) { r.pick(&[events as u32, events as u32 + 1, u32::MAX]) } else { r.below(events + 1) as u32 };
    if !r.one_in(m.questions) {
        return match r.below(10) {
            n if n < m.puts => Call::Put(v, i, event(r, m)),
            n if n % 2 == 0 => Call::Cut(v, i),
            _ => Call::Change(v, i, event(r, m)),
        };
    }
    let long = score.voices.get(v as usize).map_or(0, |_| score.long(v as usize));
    match r.below(9) {
        0..=4 => {
            let b = if r.one_in(40) { r.pick(&[u32::MAX, 1 << 24, 5_592_405]) } else { r.below((long / score.bar) as u64 + 2) as u32 };
            Call::Show(v, b, if r.one_in(30) { r.pick(&[17, 18, u32::MAX]) } else { r.below(17) as u32 })
        }
        5..=7 => {
            let from = if r.one_in(40) { r.pick(&[u32::MAX, u32::MAX - 1000, 1 << 24]) } else { r.below(long as u64 + 100) as u32 };
            let wide = if r.one_in(20) { 1537 } else { r.below(1537) as u32 };
            Call::HeardIn(from, if r.one_in(40) { from / 2 } else { from.saturating_add(wide) })
        }
        _ => Call::HowLong(v),
    }
}

/// Bytes that were a call.
fn damage(r: &mut Random, bytes: &mut Vec<u8>) {
    match r.below(6) {
        0 => bytes.truncate(r.below(bytes.len() as u64) as usize),
        1 => bytes.push(r.next() as u8),
        2 => bytes[0] = r.next() as u8,
        3 => {
            let at = r.below(bytes.len() as u64) as usize;
            bytes[at] = r.next() as u8;
        }
        4 => bytes.extend((0..r.below(5000)).map(|i| i as u8)),
        _ => *bytes = (0..r.below(20)).map(|_| r.below(8) as u8).collect(),
    }
}

/// Records for some voices, more often in range than not, and now and then with numbers over at the end.
fn records(r: &mut Random, m: &Manner, voices: usize) -> Vec<u32> {
    let mut numbers = Vec::new();
    for _ in 0..r.below(12) {
        let v = if r.one_in(50) { r.pick(&[voices as u32, u32::MAX]) } else { r.below(voices as u64) as u32 };
        let mut record = record_of(v, event(r, m));
        if record[1] == 70 {
            record[2] = r.next() as u32;
        }
        numbers.extend(record);
    }
    if !numbers.is_empty() && r.one_in(6) {
        let at = r.below(numbers.len() as u64) as usize;
        numbers[at] = r.pick(&[70, 71, numbers[at].wrapping_add(256), numbers[at].wrapping_add(65536), u32::MAX]);
    }
    if r.one_in(5) {
        numbers.extend((0..r.below(4)).map(|_| r.below(70) as u32));
    }
    numbers
}

/// Puts records, and compares what is told of it with the model, and the words with those that so many puts leave.
fn put_records(r: &mut Random, t: &mut Tally, lent: &mut Lent, m: &Manner, score: &mut Score) {
    let numbers = records(r, m, score.voices.len());
    let mut one_by_one = Lent { words: lent.words.clone(), bytes: lent.bytes.clone() };
    let mut ends: Vec<u32> = score.voices.iter().map(|v| v.len() as u32).collect();
    let mut refusal = 9;
    let count = library::put_records(&mut lent.words, &numbers, &mut refusal);
    assert_eq!((count, refusal), score.put_records(&numbers), "something else is told of {numbers:?}");
    for record in numbers.chunks_exact(4).take(count as usize) {
        let [v, place, alteration, length] = *record else { unreachable!() };
        let put = Call::Put(v, ends[v as usize], record_event(place, alteration, length));
        assert_eq!(one_by_one.call(&call_bytes(put)), 1);
        ends[v as usize] += 1;
    }
    assert!(lent.words == one_by_one.words, "other words than so many puts leave: {numbers:?}");
    t.records += count as u64;
    t.records_refused += (refusal < 0) as u64;
}

#[derive(Default)]
struct Tally {
    calls: u64,
    refused: u64,
    unreadable: u64,
    pages: u64,
    pages_read: u64,
    notes_read: u64,
    other_memory: u64,
    openings: u64,
    records: u64,
    records_refused: u64,
}

/// Whether a note goes on over a time.
fn goes_over(notes: &[Heard], time: u32) -> bool {
    notes.iter().any(|h| h.start < time && time < h.start + h.length)
}

/// Reads a page that was shown, and compares it with what is heard of the voice, and with what the engraver tells of it.
fn read_back(t: &mut Tally, lent: &mut Lent, score: &Score, v: u32, b: u32, n: u32, page: &[u8]) {
    let notes = heard(&score.voices[v as usize]);
    let long = score.long(v as usize);
    let from = b as u64 * score.bar as u64;
    let to = from + n as u64 * score.bar as u64;
    t.pages += 1;
    if from > long as u64 {
        assert!(page.is_empty());
        return;
    }
    let (from, to) = (from as u32, to as u32);
    if goes_over(&notes, from) || goes_over(&notes, to) {
        return;
    }
    let read = reader::read(score.key, from, page);
    let there: Vec<Heard> = notes.into_iter().filter(|h| from <= h.start && h.start < to).collect();
    assert_eq!(read, there, "a page that reads otherwise than it is heard: voice {v}, {n} bars from {b}");
    t.pages_read += 1;
    t.notes_read += read.len() as u64;
    if to - from <= 1536 {
        let count = lent.call(&call_bytes(Call::HeardIn(from, to)));
        let told = lent.bytes[5..count as usize].chunks_exact(8).filter(|s| s[0] as u32 == v).map(|s| Heard {
            start: u32::from_le_bytes(s[2..6].try_into().unwrap()),
            length: s[6] as u32 + 256 * s[7] as u32,
            tone: s[1] as u32,
        });
        assert!(told.eq(read), "a page that reads otherwise than is told: voice {v}, {n} bars from {b}");
    }
}

/// Memory whose header cannot be that of a score with room there is refused, and stays as it was.
fn other_memory(r: &mut Random, t: &mut Tally, lent: &mut Lent, asked: (usize, usize), input: &[u8]) {
    let (mut words, mut bytes) = asked;
    let header = [lent.words[0], lent.words[1], lent.words[2], lent.words[3]];
    match r.below(8) {
        0 => lent.words[0] = 15 + r.below(1 << 31) as u32,
        1 => lent.words[1] = r.pick(&[0, 1, 2, 4, 767, 769, 771, u32::MAX]),
        2 => lent.words[2] = r.pick(&[0, 65, 1 << 31, u32::MAX]),
        3 => lent.words[3] = r.pick(&[65537, 1 << 31, u32::MAX]),
        4 => words = r.below(words as u64) as usize,
        5 => bytes = r.below(bytes as u64) as usize,
        6 => words = r.below(5) as usize,
        _ => (words, bytes) = (0, 0),
    }
    let (w, b) = (lent.words.clone(), lent.bytes.clone());
    assert_eq!(lent.call_in(words, bytes, input), Refused(3, 0).number());
    if bytes == asked.1 {
        let mut refusal = 9;
        assert_eq!(library::put_records(&mut lent.words[..words], &[0, 28, 2, 48], &mut refusal), Refused(3, 0).number());
        assert_eq!(refusal, 9);
    }
    assert!(lent.words == w && lent.bytes == b, "refused memory has changed");
    lent.words[..4].copy_from_slice(&header);
    t.other_memory += 1;
}

/// Openings in range and out of it, in enough memory and in too little.
fn openings(r: &mut Random, t: &mut Tally) {
    for _ in 0..2000 {
        let key = r.below(17) as u32;
        let bar = r.pick(&[0, 1, 3, 48, 144, 192, 193, 768, 769, 771, u32::MAX]);
        let voices = r.pick(&[0, 1, 2, 8, 63, 64, 65, u32::MAX]);
        let events = r.pick(&[0, 1, 2, 100, 65536, 65537, u32::MAX]);
        let opening = Opening { key, bar, voices, events };
        if opens(key, bar, voices, events) {
            opened(r, opening);
        } else {
            let out_of_range = Refused(3, 1).number();
            assert_eq!((opening.words(), opening.bytes()), (out_of_range, out_of_range));
            assert_eq!(library::open(&mut [0; 100], &mut [0; 100], opening), out_of_range);
        }
        t.openings += 1;
    }
}

/// An opening in range asks for no more than it may, leaves the same words whatever stood there, and changes nothing in less memory than it asks for.
fn opened(r: &mut Random, opening: Opening) {
    let (words, bytes) = (opening.words(), opening.bytes());
    assert!(0 < words && words <= 8 * opening.events as i64 + 64 * opening.voices as i64 + 4096);
    assert!(0 < bytes && bytes <= 8 * opening.events as i64 + 262_144);
    let mut lent = Lent { words: vec![7; words as usize], bytes: vec![9; bytes as usize] };
    let (less_words, less_bytes) = r.pick(&[(1, 0), (0, 1), (words as usize, 0), (0, bytes as usize)]);
    let (less_words, less_bytes) = (words as usize - less_words, bytes as usize - less_bytes);
    assert_eq!(library::open(&mut lent.words[..less_words], &mut lent.bytes[..less_bytes], opening), Refused(3, 0).number());
    assert!(lent.words.iter().all(|w| *w == 7) && lent.bytes.iter().all(|b| *b == 9));
    let mut other = Lent { words: vec![u32::MAX; words as usize], bytes: vec![0; bytes as usize] };
    assert_eq!((lent.open(opening), other.open(opening)), (0, 0));
    assert_eq!(lent.words[..4], [opening.key, opening.bar, opening.voices, opening.events]);
    assert!(lent.words == other.words && lent.bytes == other.bytes, "an opening leaves what stood there");
}

fn drive(r: &mut Random, t: &mut Tally, which: u64) {
    let long = which % 20 == 19;
    let key = r.below(15) as u32;
    let bar = if long { 768 } else { r.pick(&[3, 21, 48, 96, 144, 144, 192, 192, 192, 288, 768]) };
    let voices = r.pick(&[1, 1, 2, 3, 8, 64]);
    let limit = if long { 600 } else { r.pick(&[0, 1, 2, 8, 30, 100, 300, 1000]) };
    let wide = r.pick(&[3, 8, 70]);
    let manner = Manner {
        puts: r.pick(&[4, 5, 6, 7]),
        places: (r.below(71 - wide), wide),
        longest: if long { 21845 } else { r.pick(&[8, 32, 64, 128]) },
        questions: if long { 20 } else { 2 },
    };
    let opening = Opening { key, bar, voices, events: limit };
    let asked = (opening.words() as usize, opening.bytes() as usize);
    let mut lent = Lent { words: vec![0xabcd; asked.0 + SPARE], bytes: vec![0xab; asked.1 + SPARE] };
    assert_eq!(lent.open(opening), 0);
    let mut score = Score { key, bar, limit: limit as usize, voices: vec![Vec::new(); voices as usize] };
    for _ in 0..FILLS {
        put_records(r, t, &mut lent, &manner, &mut score);
    }
    for _ in 0..CALLS {
        let called = call(r, &manner, &score);
        let mut input = call_bytes(called);
        if r.one_in(12) {
            damage(r, &mut input);
        }
        if r.one_in(500) {
            other_memory(r, t, &mut lent, asked, &input);
        }
        if r.one_in(50) {
            put_records(r, t, &mut lent, &manner, &mut score);
        }
        let before = lent.words.clone();
        let number = lent.call(&input);
        let (answer, expected) = score.answer(&input);
        assert_eq!(number, expected, "score {which}: another number for {input:?}");
        assert_eq!(lent.bytes[..answer.len()], answer[..], "score {which}: other bytes for {input:?}");
        t.calls += 1;
        if number < 0 {
            assert!(lent.words == before, "score {which}: a refused call has changed words");
            t.refused += 1;
            t.unreadable += (answer[1] == 1) as u64;
        } else if let Ok(Call::Show(v, b, n)) = model::read_call(&input) {
            let page = lent.bytes[5..answer.len()].to_vec();
            read_back(t, &mut lent, &score, v, b, n, &page);
        }
    }
    assert!(lent.words[asked.0..].iter().all(|w| *w == 0xabcd) && lent.bytes[asked.1..].iter().all(|b| *b == 0xab), "memory was touched that was not asked for");
}

fn main() {
    let seed = std::env::args().nth(1).map_or(1, |s| s.parse().expect("a seed is a number"));
    let mut r = Random(seed);
    let mut t = Tally::default();
    openings(&mut r, &mut t);
    for which in 0..SCORES {
        drive(&mut r, &mut t, which);
    }
    println!("{} openings and {} calls on {} scores, answered as they should be", t.openings, t.calls, SCORES);
    println!("of the calls {} were refused, {} of them since they are no calls", t.refused, t.unreadable);
    println!("{} pages were shown, {} read back, with {} notes", t.pages, t.pages_read, t.notes_read);
    println!("{} calls on memory without a score were refused", t.other_memory);
    println!("{} events were put as records, until {} were refused", t.records, t.records_refused);
}
