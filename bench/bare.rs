//! The bare work of each call, over plain rows of words: no bytes of calls are read, nothing is checked, and nothing is promised. Where a voice's events begin
//! on paper is kept with them and derived anew in the call that changes it, as in the engraver, and each is done by the fastest way of those that were tried.
use crate::model::{key_alteration, Call, Event, Score};

const SILENT: u32 = 70;
/// One for each place, and for all else that seven bits can say, so that no index needs a check.
const PLACES: usize = 128;
const GRAIN: usize = 3;
const WHOLE: u32 = 192;
const SLOTS: usize = 512;

/// The largest value that is not longer than so many times three ticks.
const LARGEST: [u32; 65] = {
    let values = [3, 6, 9, 12, 18, 24, 36, 48, 72, 96, 144, 192];
    let (mut table, mut thirds, mut next) = ([0; 65], 1, 0);
    while thirds < 65 {
        if next < values.len() && values[next] <= 3 * thirds as u32 {
            next += 1;
        }
        table[thirds] = values[next - 1];
        thirds += 1;
    }
    table
};

/// The events of a voice by their words, and where each begins on paper: the bar, the tick of it, and the sign.
#[derive(Clone, PartialEq, Debug)]
struct Voice {
    places: Vec<u32>,
    alterations: Vec<u32>,
    lengths: Vec<u32>,
    bars: Vec<u32>,
    ticks: Vec<u32>,
    signs: Vec<u32>,
}

/// How a key alters each place, and how long a bar is.
#[derive(Clone, PartialEq, Debug)]
struct Layout {
    key: [u32; PLACES],
    bar: u32,
}

#[derive(Clone, PartialEq, Debug)]
pub struct Bare {
    layout: Layout,
    voices: Vec<Voice>,
}

fn words(event: Event) -> [u32; 3] {
    match event {
        Event::Note { place, alteration, length } => [place, alteration, length],
        Event::Silence { length } => [SILENT, 0, length],
    }
}

impl Voice {
    fn of(events: &[Event], layout: &Layout) -> Voice {
        let row = |n: usize| events.iter().map(|e| words(*e)[n]).collect();
        let zeros = vec![0; events.len()];
        let mut voice = Voice { places: row(0), alterations: row(1), lengths: row(2), bars: zeros.clone(), ticks: zeros.clone(), signs: zeros };
        voice.derive(0, events.len(), layout);
        voice
    }

    /// The first event of the bar in which the event before one begins, or the first of all.
    fn first_of_bar(&self, at: usize) -> usize {
        let [before @ .., bar] = &self.bars[..at] else { return 0 };
        before.iter().rposition(|other| other != bar).map_or(0, |other| other + 1)
    }

    /// Derives where the events from one on up to before another begin.
    #[inline(never)]
    fn derive(&mut self, from: usize, to: usize, layout: &Layout) {
        let first = self.first_of_bar(from);
        let (mut bar, mut tick) = if first > 0 { (self.bars[first], self.ticks[first]) } else { (0, 0) };
        let (mut altered, mut altered_in) = ([0; PLACES], [u32::MAX; PLACES]);
        let events = self.places[first..to].iter().zip(&self.alterations[first..to]).zip(&self.lengths[first..to]);
        let onsets = self.bars[first..to].iter_mut().zip(&mut self.ticks[first..to]).zip(&mut self.signs[first..to]);
        for (((place, alteration), length), ((bar_at, tick_at), sign)) in events.zip(onsets) {
            let at = *place as usize % PLACES;
            let held = if altered_in[at] == bar { altered[at] } else { layout.key[at] };
            (altered[at], altered_in[at]) = (*alteration, bar);
            (*bar_at, *tick_at) = (bar, tick);
            *sign = if *place == SILENT || held == *alteration { 0 } else { alteration + 1 };
            tick += length;
            let rest = tick.min(tick.wrapping_sub(layout.bar));
            if rest < layout.bar {
                (bar, tick) = (bar + (tick >= layout.bar) as u32, rest);
            } else {
                (bar, tick) = (bar + tick / layout.bar, tick % layout.bar);
            }
        }
    }

    fn put(&mut self, at: usize, event: Event, layout: &Layout) {
        let [place, alteration, length] = words(event);
        self.places.insert(at, place);
        self.alterations.insert(at, alteration);
        self.lengths.insert(at, length);
        for row in [&mut self.bars, &mut self.ticks, &mut self.signs] {
            row.push(0);
        }
        self.derive(at, self.places.len(), layout);
    }

    fn cut(&mut self, at: usize, layout: &Layout) {
        for row in [&mut self.places, &mut self.alterations, &mut self.lengths] {
            row.remove(at);
        }
        for row in [&mut self.bars, &mut self.ticks, &mut self.signs] {
            row.pop();
        }
        self.derive(at, self.places.len(), layout);
    }

    /// An event becomes another that is as long: what begins behind its bar stays.
    fn change(&mut self, at: usize, event: Event, layout: &Layout) {
        [self.places[at], self.alterations[at], self.lengths[at]] = words(event);
        let bar = self.bars[at];
        let end = self.bars[at..].iter().position(|other| *other != bar).map_or(self.bars.len(), |more| at + more);
        self.derive(at, end, layout);
    }

    /// Writes the symbols of some bars, five bytes each, and returns how many they are.
    #[inline(never)]
    fn show(&self, measure: u32, from: u32, bars: u32, out: &mut [u8]) -> usize {
        let begin = from * measure;
        let first = self.bars.partition_point(|bar| *bar < from).saturating_sub(1);
        let mut tick = self.bars[first] * measure + self.ticks[first];
        let (mut begun, mut more) = (0, bars);
        let (out, _) = out.as_chunks_mut::<5>();
        let mut count = 0;
        for ((place, sign), length) in self.places[first..].iter().zip(&self.signs[first..]).zip(&self.lengths[first..]) {
            let mut left = *length;
            let mut sign = *sign as u8;
            if tick < begin {
                let gone = left.min(begin - tick);
                (tick, left, sign) = (tick + gone, left - gone, 0);
            }
            while left > 0 {
                let mut part = left.min(measure - begun);
                begun += part;
                while part > 0 {
                    let value = LARGEST[part.min(WHOLE) as usize / GRAIN];
                    (part, left) = (part - value, left - value);
                    let [low, high] = (value as u16).to_le_bytes();
                    out[count] = if *place == SILENT { [3, 0, 0, low, high] } else { [1 + (left > 0) as u8, *place as u8, sign, low, high] };
                    (count, sign) = (count + 1, 0);
                }
                if begun == measure {
                    out[count] = [0; 5];
                    (count, begun, more) = (count + 1, 0, more - 1);
                    if more == 0 {
                        return count;
                    }
                }
            }
        }
        count
    }
}

impl Voice {
    /// The first event that begins at a tick or later, and when.
    fn reach(&self, measure: u32, from: u32) -> (usize, u32) {
        let bar = from / measure;
        let mut at = self.bars.partition_point(|other| *other < bar);
        while at < self.bars.len() && self.bars[at] * measure + self.ticks[at] < from {
            at += 1;
        }
        (at, if at < self.bars.len() { self.bars[at] * measure + self.ticks[at] } else { u32::MAX })
    }

    fn write_sound(&self, voice: u8, at: usize, start: u32, out: &mut [u8], count: &mut usize) {
        let tone = (12 * self.places[at] as u64 + 5) / 7 + self.alterations[at] as u64;
        let sound = voice as u64 | tone << 8 | (start as u64) << 16 | (self.lengths[at] as u64) << 48;
        out[8 * *count..8 * *count + 8].copy_from_slice(&sound.to_le_bytes());
        *count += 1;
    }

    /// Writes the notes of this voice alone that begin in a span, eight bytes each, and returns how many they are.
    #[inline(never)]
    fn hear(&self, measure: u32, from: u32, to: u32, out: &mut [u8]) -> usize {
        let (mut at, mut tick) = self.reach(measure, from);
        let mut count = 0;
        while at < self.places.len() && tick < to {
            if self.places[at] != SILENT {
                self.write_sound(0, at, tick, out, &mut count);
            }
            tick += self.lengths[at];
            at += 1;
        }
        count
    }
}

impl Bare {
    pub fn new(score: &Score) -> Bare {
        let layout = Layout { key: std::array::from_fn(|place| key_alteration(score.key, place as u32)), bar: score.bar };
        Bare { voices: score.voices.iter().map(|events| Voice::of(events, &layout)).collect(), layout }
    }

    /// Makes a change of the first voice.
    pub fn make(&mut self, call: Call) {
        let voice = &mut self.voices[0];
        match call {
            Call::Put(_, at, event) => voice.put(at as usize, event, &self.layout),
            Call::Cut(_, at) => voice.cut(at as usize, &self.layout),
            Call::Change(_, at, event) => voice.change(at as usize, event, &self.layout),
            _ => unreachable!("a question changes nothing"),
        }
    }

    /// Writes what is asked of the first voice, or of all, and returns how many symbols or notes that is.
    pub fn answer(&self, call: Call, out: &mut [u8]) -> usize {
        match (call, &self.voices[..]) {
            (Call::Show(_, bar, bars), [voice, ..]) => voice.show(self.layout.bar, bar, bars, out),
            (Call::HeardIn(from, to), [voice]) => voice.hear(self.layout.bar, from, to, out),
            (Call::HeardIn(from, to), _) => self.hear(from, to, out),
            _ => unreachable!("no question that is measured"),
        }
    }

    /// Writes the notes of all voices that begin in a span: a slot for each tick at which a note may begin has a bit for each voice, and a bit in `used`.
    #[inline(never)]
    fn hear(&self, from: u32, to: u32, out: &mut [u8]) -> usize {
        let first = from as usize / GRAIN;
        let (mut slots, mut used) = ([0u64; SLOTS], [0u64; SLOTS / 64]);
        let mut next = [0; 64];
        for (v, voice) in self.voices.iter().enumerate() {
            let (begin, mut tick) = voice.reach(self.layout.bar, from);
            next[v] = begin;
            for (place, length) in voice.places[begin..].iter().zip(&voice.lengths[begin..]) {
                let slot = tick as usize / GRAIN - first;
                if tick >= to || slot >= SLOTS {
                    break;
                }
                if *place != SILENT {
                    slots[slot] |= 1 << v;
                    used[slot / 64] |= 1 << (slot % 64);
                }
                tick += length;
            }
        }
        let mut count = 0;
        for (word, bits) in used.iter().enumerate() {
            let mut bits = *bits;
            while bits != 0 {
                let slot = 64 * word + bits.trailing_zeros() as usize;
                bits &= bits - 1;
                let mut voices = slots[slot];
                while voices != 0 {
                    let v = voices.trailing_zeros() as usize;
                    voices &= voices - 1;
                    let voice = &self.voices[v];
                    let mut at = next[v];
                    while voice.places[at] == SILENT {
                        at += 1;
                    }
                    next[v] = at + 1;
                    voice.write_sound(v as u8, at, (GRAIN * (first + slot)) as u32, out, &mut count);
                }
            }
        }
        count
    }
}
