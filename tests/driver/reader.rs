//! A player: reads the bytes of symbols with nothing but the key, and tells what is heard.
use crate::model::{key_alteration, tone, Heard};

struct Held {
    place: u8,
    at: usize,
}

/// What is heard of symbols in five bytes each, the first of which stands at a time.
pub fn read(key: u32, mut time: u32, symbols: &[u8]) -> Vec<Heard> {
    let mut notes: Vec<Heard> = Vec::new();
    let mut holds: [Option<u32>; 70] = [None; 70];
    let mut held: Option<Held> = None;
    for s in symbols.chunks_exact(5) {
        let (kind, place, sign) = (s[0], s[1], s[2] as u32);
        let value = s[3] as u32 + 256 * s[4] as u32;
        match kind {
            0 => holds = [None; 70],
            3 => held = None,
            _ => {
                let at = match &held {
                    Some(h) if sign == 0 && h.place == place => {
                        notes[h.at].length += value;
                        h.at
                    }
                    _ => {
                        if sign > 0 {
                            holds[place as usize] = Some(sign - 1);
                        }
                        let alteration = holds[place as usize].unwrap_or(key_alteration(key, place as u32));
                        notes.push(Heard { start: time, length: value, tone: tone(place as u32, alteration) });
                        notes.len() - 1
                    }
                };
                held = if kind == 2 { Some(Held { place, at }) } else { None };
            }
        }
        time += value;
    }
    notes
}
