//! A score by the rules alone: every answer is printed and heard anew. Written from docs/RULES.md and docs/NUMBERS.md, it shares nothing with the engraver.

const VALUES: [u32; 12] = [192, 144, 96, 72, 48, 36, 24, 18, 12, 9, 6, 3];
const HALF_TONES: [u32; 7] = [0, 2, 4, 5, 7, 9, 11];
/// The steps in the order in which sharps come; flats come in the opposite order.
const SHARPS: [u32; 7] = [3, 0, 4, 1, 5, 2, 6];

#[derive(Clone, Copy, PartialEq, Debug)]
pub enum Event {
    Note { place: u32, alteration: u32, length: u32 },
    Silence { length: u32 },
}

impl Event {
    pub fn length(self) -> u32 {
        match self {
            Event::Note { length, .. } | Event::Silence { length } => length,
        }
    }
}

#[derive(Clone, Copy, PartialEq, Debug)]
pub enum Symbol {
    Line,
    Head { place: u32, sign: u32, value: u32, tied: bool },
    Rest { value: u32 },
}

/// A note as it is heard.
#[derive(Clone, Copy, PartialEq, Eq, PartialOrd, Ord, Debug)]
pub struct Heard {
    pub start: u32,
    pub length: u32,
    pub tone: u32,
}

#[derive(Clone, Copy, PartialEq, Debug)]
pub enum Call {
    Put(u32, u32, Event),
    Cut(u32, u32),
    Change(u32, u32, Event),
    Show(u32, u32, u32),
    HeardIn(u32, u32),
    HowLong(u32),
}

/// A refusal's number and place.
#[derive(Clone, Copy, PartialEq, Debug)]
pub struct Refused(pub u32, pub u32);

impl Refused {
    pub fn number(self) -> i64 {
        -(((self.0 as i64) << 32) + self.1 as i64)
    }
}

pub fn key_alteration(key: u32, place: u32) -> u32 {
    let step = place % 7;
    if key >= 7 {
        if SHARPS[..key as usize - 7].contains(&step) { 3 } else { 2 }
    } else if SHARPS[key as usize..].contains(&step) {
        1
    } else {
        2
    }
}

pub fn tone(place: u32, alteration: u32) -> u32 {
    12 * (place / 7) + HALF_TONES[place as usize % 7] + alteration
}

// ---- bytes

pub fn event_bytes(event: Event, out: &mut Vec<u8>) {
    match event {
        Event::Note { place, alteration, .. } => out.extend([0, place as u8, alteration as u8]),
        Event::Silence { .. } => out.extend([1, 0, 0]),
    }
    out.extend((event.length() as u16).to_le_bytes());
}

pub fn call_bytes(call: Call) -> Vec<u8> {
    let (kind, fields, event) = match call {
        Call::Put(v, i, e) => (0, vec![v, i], Some(e)),
        Call::Cut(v, i) => (1, vec![v, i], None),
        Call::Change(v, i, e) => (2, vec![v, i], Some(e)),
        Call::Show(v, b, n) => (3, vec![v, b, n], None),
        Call::HeardIn(a, b) => (4, vec![a, b], None),
        Call::HowLong(v) => (5, vec![v], None),
    };
    let mut out = vec![kind];
    for field in fields {
        out.extend(field.to_le_bytes());
    }
    if let Some(event) = event {
        event_bytes(event, &mut out);
    }
    out
}

/// The call that bytes are, or the first byte that does not fit.
pub fn read_call(bytes: &[u8]) -> Result<Call, usize> {
    let kind = *bytes.first().ok_or(0usize)?;
    let (fields, has_event) = match kind {
        0 | 2 => (2, true),
        1 | 4 => (2, false),
        3 => (3, false),
        5 => (1, false),
        _ => return Err(0),
    };
    let event_at = 1 + 4 * fields;
    let end = event_at + if has_event { 5 } else { 0 };
    if has_event && bytes.len() > event_at && bytes[event_at] > 1 {
        return Err(event_at);
    }
    if bytes.len() != end {
        return Err(bytes.len().min(end));
    }
    let field = |i: usize| u32::from_le_bytes(bytes[1 + 4 * i..5 + 4 * i].try_into().unwrap());
    let event = || {
        let e = &bytes[event_at..];
        let length = e[3] as u32 + 256 * e[4] as u32;
        match e[0] {
            0 => Event::Note { place: e[1] as u32, alteration: e[2] as u32, length },
            _ => Event::Silence { length },
        }
    };
    Ok(match kind {
        0 => Call::Put(field(0), field(1), event()),
        1 => Call::Cut(field(0), field(1)),
        2 => Call::Change(field(0), field(1), event()),
        3 => Call::Show(field(0), field(1), field(2)),
        4 => Call::HeardIn(field(0), field(1)),
        _ => Call::HowLong(field(0)),
    })
}

fn symbols_bytes(symbols: &[Symbol]) -> Vec<u8> {
    let mut out = vec![2];
    out.extend((symbols.len() as u32).to_le_bytes());
    for symbol in symbols {
        let (kind, place, sign, value) = match *symbol {
            Symbol::Line => (0, 0, 0, 0),
            Symbol::Head { place, sign, value, tied } => (1 + tied as u8, place, sign, value),
            Symbol::Rest { value } => (3, 0, 0, value),
        };
        out.extend([kind, place as u8, sign as u8]);
        out.extend((value as u16).to_le_bytes());
    }
    out
}

fn sounds_bytes(sounds: &[(Heard, u32)]) -> Vec<u8> {
    let mut out = vec![3];
    out.extend((sounds.len() as u32).to_le_bytes());
    for (heard, voice) in sounds {
        out.extend([*voice as u8, heard.tone as u8]);
        out.extend(heard.start.to_le_bytes());
        out.extend((heard.length as u16).to_le_bytes());
    }
    out
}

// ---- the score

/// What is heard of a voice.
pub fn heard(voice: &[Event]) -> Vec<Heard> {
    let mut time = 0;
    let mut notes = Vec::new();
    for event in voice {
        if let Event::Note { place, alteration, length } = *event {
            notes.push(Heard { start: time, length, tone: tone(place, alteration) });
        }
        time += event.length();
    }
    notes
}

/// What is printed of a voice: its bars, of which the last is ended by no line.
pub fn printed(key: u32, bar: u32, voice: &[Event]) -> Vec<Vec<Symbol>> {
    let mut bars = vec![Vec::new()];
    let mut room = bar;
    let mut holds: [Option<u32>; 70] = [None; 70];
    for event in voice {
        let mut left = event.length();
        let mut first = true;
        while left > 0 {
            let mut here = left.min(room);
            left -= here;
            room -= here;
            while here > 0 {
                let value = *VALUES.iter().find(|v| **v <= here).unwrap();
                here -= value;
                let page = bars.last_mut().unwrap();
                match *event {
                    Event::Silence { .. } => page.push(Symbol::Rest { value }),
                    Event::Note { place, alteration, .. } => {
                        let held = &mut holds[place as usize];
                        let mut sign = 0;
                        if first && held.unwrap_or(key_alteration(key, place)) != alteration {
                            sign = alteration + 1;
                            *held = Some(alteration);
                        }
                        first = false;
                        page.push(Symbol::Head { place, sign, value, tied: here > 0 || left > 0 });
                    }
                }
            }
            if room == 0 {
                bars.last_mut().unwrap().push(Symbol::Line);
                bars.push(Vec::new());
                room = bar;
                holds = [None; 70];
            }
        }
    }
    bars
}

/// The event of a record: 70 is the place of a silence, whose alteration is not read.
pub fn record_event(place: u32, alteration: u32, length: u32) -> Event {
    if place == 70 { Event::Silence { length } } else { Event::Note { place, alteration, length } }
}

/// An event for a voice as a record.
pub fn record_of(voice: u32, event: Event) -> [u32; 4] {
    match event {
        Event::Note { place, alteration, length } => [voice, place, alteration, length],
        Event::Silence { length } => [voice, 70, 0, length],
    }
}

pub struct Score {
    pub key: u32,
    pub bar: u32,
    pub limit: usize,
    pub voices: Vec<Vec<Event>>,
}

/// Whether a score can be opened so.
pub fn opens(key: u32, bar: u32, voices: u32, events: u32) -> bool {
    key <= 14 && (3..=768).contains(&bar) && bar % 3 == 0 && (1..=64).contains(&voices) && events <= 65536
}

impl Score {
    pub fn long(&self, voice: usize) -> u32 {
        self.voices[voice].iter().map(|e| e.length()).sum()
    }

    fn voice(&self, voice: u32) -> Result<usize, Refused> {
        if (voice as usize) < self.voices.len() { Ok(voice as usize) } else { Err(Refused(4, voice)) }
    }

    fn fine(event: Event) -> Result<(), Refused> {
        let length = event.length();
        let good = match event {
            Event::Note { place, alteration, .. } => place < 70 && alteration < 5,
            Event::Silence { .. } => true,
        };
        if good && length > 0 && length < 65536 && length % 3 == 0 { Ok(()) } else { Err(Refused(2, 0)) }
    }

    /// The voice becomes another, if that is not too much.
    fn become_other(&mut self, v: usize, other: Vec<Event>) -> Result<Vec<u8>, Refused> {
        let events: usize = self.voices.iter().map(Vec::len).sum::<usize>() - self.voices[v].len() + other.len();
        let ticks: u64 = other.iter().map(|e| e.length() as u64).sum();
        if events > self.limit || ticks >= 1 << 24 {
            return Err(Refused(6, 0));
        }
        self.voices[v] = other;
        Ok(vec![0])
    }

    fn done(&mut self, call: Call) -> Result<Vec<u8>, Refused> {
        match call {
            Call::Put(v, i, e) => {
                Self::fine(e)?;
                let v = self.voice(v)?;
                if i as usize > self.voices[v].len() {
                    return Err(Refused(5, i));
                }
                let mut other = self.voices[v].clone();
                other.insert(i as usize, e);
                self.become_other(v, other)
            }
            Call::Cut(v, i) => {
                let v = self.voice(v)?;
                if i as usize >= self.voices[v].len() {
                    return Err(Refused(5, i));
                }
                let mut other = self.voices[v].clone();
                other.remove(i as usize);
                self.become_other(v, other)
            }
            Call::Change(v, i, e) => {
                Self::fine(e)?;
                let v = self.voice(v)?;
                if i as usize >= self.voices[v].len() {
                    return Err(Refused(5, i));
                }
                let mut other = self.voices[v].clone();
                other[i as usize] = e;
                self.become_other(v, other)
            }
            Call::Show(v, b, n) => {
                if n > 16 {
                    return Err(Refused(2, 0));
                }
                let bars = printed(self.key, self.bar, &self.voices[self.voice(v)?]);
                let page: Vec<Symbol> = bars.into_iter().skip(b as usize).take(n as usize).flatten().collect();
                Ok(symbols_bytes(&page))
            }
            Call::HeardIn(from, to) => {
                if to as u64 > from as u64 + 1536 {
                    return Err(Refused(2, 0));
                }
                let mut sounds = Vec::new();
                for (v, voice) in self.voices.iter().enumerate() {
                    sounds.extend(heard(voice).into_iter().filter(|h| from <= h.start && h.start < to).map(|h| (h, v as u32)));
                }
                sounds.sort_by_key(|(h, v)| (h.start, *v));
                Ok(sounds_bytes(&sounds))
            }
            Call::HowLong(v) => {
                let v = self.voice(v)?;
                let mut out = vec![4];
                out.extend(self.long(v).to_le_bytes());
                Ok(out)
            }
        }
    }

    /// Puts records of four numbers last in their voices until one cannot be: how many were, and the number of the next one's refusal, or 0.
    pub fn put_records(&mut self, numbers: &[u32]) -> (i64, i64) {
        let mut count = 0;
        for record in numbers.chunks(4) {
            let said = match *record {
                [v, place, alteration, length] => {
                    let last = self.voices.get(v as usize).map_or(0, Vec::len) as u32;
                    self.done(Call::Put(v, last, record_event(place, alteration, length)))
                }
                _ => Err(Refused(1, numbers.len() as u32)),
            };
            match said {
                Ok(_) => count += 1,
                Err(refused) => return (count, refused.number()),
            }
        }
        (count, 0)
    }

    /// What is answered to bytes, and the number that is returned with it.
    pub fn answer(&mut self, input: &[u8]) -> (Vec<u8>, i64) {
        let said = match read_call(input) {
            Ok(call) => self.done(call),
            Err(at) => Err(Refused(1, at as u32)),
        };
        match said {
            Ok(bytes) => {
                let long = bytes.len() as i64;
                (bytes, long)
            }
            Err(refused) => {
                let mut out = vec![1, refused.0 as u8];
                out.extend(refused.1.to_le_bytes());
                (out, refused.number())
            }
        }
    }
}
