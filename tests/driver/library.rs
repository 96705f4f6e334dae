//! The engraver's static library, as include/engraver.h declares it, over slices.

mod c {
    extern "C" {
        pub fn engraver_words(key: u32, bar: u32, voices: u32, events: u32) -> i64;
        pub fn engraver_bytes(key: u32, bar: u32, voices: u32, events: u32) -> i64;
        pub fn engraver_open(words: *mut u32, n: usize, bytes: *mut u8, m: usize, key: u32, bar: u32, voices: u32, events: u32) -> i64;
        pub fn engraver_call(words: *mut u32, n: usize, bytes: *mut u8, m: usize, input: *const u8, k: usize) -> i64;
        pub fn engraver_put_records(words: *mut u32, n: usize, records: *const u32, k: usize, refusal: *mut i64) -> i64;
    }
}

/// What a score is opened with.
#[derive(Clone, Copy)]
pub struct Opening {
    pub key: u32,
    pub bar: u32,
    pub voices: u32,
    pub events: u32,
}

impl Opening {
    /// How many words are asked for, or a refusal.
    pub fn words(self) -> i64 {
        unsafe { c::engraver_words(self.key, self.bar, self.voices, self.events) }
    }

    /// How many bytes are asked for, or a refusal.
    pub fn bytes(self) -> i64 {
        unsafe { c::engraver_bytes(self.key, self.bar, self.voices, self.events) }
    }
}

pub fn open(words: &mut [u32], bytes: &mut [u8], o: Opening) -> i64 {
    unsafe { c::engraver_open(words.as_mut_ptr(), words.len(), bytes.as_mut_ptr(), bytes.len(), o.key, o.bar, o.voices, o.events) }
}

pub fn call(words: &mut [u32], bytes: &mut [u8], input: &[u8]) -> i64 {
    unsafe { c::engraver_call(words.as_mut_ptr(), words.len(), bytes.as_mut_ptr(), bytes.len(), input.as_ptr(), input.len()) }
}

pub fn put_records(words: &mut [u32], records: &[u32], refusal: &mut i64) -> i64 {
    unsafe { c::engraver_put_records(words.as_mut_ptr(), words.len(), records.as_ptr(), records.len(), refusal) }
}
