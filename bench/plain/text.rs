//! Text: numbers in and out, and the page of replies.
use std::fs::File;
use std::io::Write;

const PAGE: usize = 8192;
/// The largest number of bytes of a reply but a data line.
pub const REPLY: usize = 64;
/// Digits on a data line, and its bytes.
const DIGITS: usize = 128;
const DATA_LINE: usize = 5 + DIGITS + 1;
const ZEROS: u64 = 0x3030_3030_3030_3030;

/// The names of refusals, by number less 2.
const NAMES: [&str; 24] = [
    "NoClass", "ClassLimit", "BadName", "DuplicateName", "FieldLimit", "BadRegister", "NullRegister", "BadSlot", "WrongKind",
    "OutOfRange", "TooLarge", "HeapFull", "AlreadyMarking", "NotMarking", "NothingToMark", "NothingToDrain", "NotDone",
    "SweepPending", "NothingToSweep", "TooFar", "NoPin", "Lost", "NotRetained", "PinLimit",
];

/// Returns how many of eight bytes are digits up to the first that isn't, and the bytes less '0'.
#[inline(always)]
pub fn digits_in(text: u64) -> (u32, u64) {
    let digits = text ^ ZEROS;
    let others = (digits.wrapping_add(0x7676_7676_7676_7676) | digits) & 0x8080_8080_8080_8080;
    (others.trailing_zeros() / 8, digits)
}

/// Returns the number that eight digits make, the first one in the lowest byte.
#[inline(always)]
pub fn value_of(digits: u64) -> u64 {
    let pairs = (digits.wrapping_mul(2561) >> 8) & 0x00FF_00FF_00FF_00FF;
    let fours = (pairs.wrapping_mul(6_553_601) >> 16) & 0x0000_FFFF_0000_FFFF;
    fours.wrapping_mul(42_949_672_960_001) >> 32
}

/// The powers of ten.
pub const POWERS: [u64; 8] = [1, 10, 100, 1000, 10_000, 100_000, 1_000_000, 10_000_000];

/// Returns the number that the first `count` of eight digits make, fewer than eight.
#[inline(always)]
pub fn first_value(digits: u64, count: u32) -> u64 {
    value_of(digits << 8 << (56 - 8 * count))
}

/// Returns the eight digits of a number below 10^8, less '0', the first one in the lowest byte.
#[inline(always)]
fn eight_digits(number: u64) -> u64 {
    let fours = number / 10_000 | (number % 10_000) << 32;
    let hundreds = (fours * 10_486 >> 20) & 0x0000_007F_0000_007F;
    let pairs = hundreds | (fours - hundreds * 100) << 16;
    let tens = (pairs * 103 >> 10) & 0x000F_000F_000F_000F;
    tens | (pairs - tens * 10) << 8
}

/// Writes a number's decimal digits to a text with room for 24, and returns how many they are.
#[inline(always)]
fn put_number(text: &mut [u8], number: u64) -> usize {
    if number < 10 {
        text[0] = b'0' + number as u8;
        return 1;
    }
    put_long_number(text[..24].first_chunk_mut().unwrap(), number)
}

#[inline(never)]
fn put_long_number(text: &mut [u8; 24], number: u64) -> usize {
    const MANY: u64 = 100_000_000;
    if number < MANY {
        return put_first_digits(text, number);
    }
    let (mut first, last) = (number / MANY, number % MANY);
    let mut middle = None;
    if first >= MANY {
        (first, middle) = (first / MANY, Some(first % MANY));
    }
    let mut at = put_first_digits(text, first);
    for part in middle.into_iter().chain([last]) {
        text[at..at + 8].copy_from_slice(&(eight_digits(part) + ZEROS).to_le_bytes());
        at += 8;
    }
    at
}

/// Writes the digits of a number below 10^8 and above 0, and returns how many they are.
#[inline(always)]
fn put_first_digits(text: &mut [u8; 24], number: u64) -> usize {
    let digits = eight_digits(number);
    let zeros = digits.trailing_zeros() / 8;
    text[..8].copy_from_slice(&(digits + ZEROS >> (8 * zeros)).to_le_bytes());
    8 - zeros as usize
}

/// The two hexadecimal digits of each byte.
static HEXADECIMAL: [[u8; 2]; 256] = {
    let digits = b"0123456789abcdef";
    let mut all = [[0; 2]; 256];
    let mut byte = 0;
    while byte < 256 {
        all[byte] = [digits[byte >> 4], digits[byte & 15]];
        byte += 1;
    }
    all
};

/// Writes the hexadecimal digits of sixteen bytes.
#[inline(always)]
fn put_hexadecimal(text: &mut [u8; 32], bytes: &[u8; 16]) {
    use std::arch::x86_64::*;
    // SAFETY: every x86-64 has SSE2, and 16 bytes are read and 32 written.
    unsafe {
        let (four_bits, nine) = (_mm_set1_epi8(15), _mm_set1_epi8(9));
        let (zero, more) = (_mm_set1_epi8(b'0' as i8), _mm_set1_epi8((b'a' - 10 - b'0') as i8));
        let digits = |numbers| {
            let letters = _mm_and_si128(_mm_cmpgt_epi8(numbers, nine), more);
            _mm_add_epi8(_mm_add_epi8(numbers, zero), letters)
        };
        let bytes = _mm_loadu_si128(bytes.as_ptr().cast());
        let high = digits(_mm_and_si128(_mm_srli_epi16::<4>(bytes), four_bits));
        let low = digits(_mm_and_si128(bytes, four_bits));
        _mm_storeu_si128(text.as_mut_ptr().cast(), _mm_unpacklo_epi8(high, low));
        _mm_storeu_si128(text.as_mut_ptr().add(16).cast(), _mm_unpackhi_epi8(high, low));
    }
}

/// Replies that aren't written yet.
pub struct Page {
    bytes: Box<[u8; PAGE]>,
    len: usize,
    out: File,
    /// Whether a write failed.
    pub failed: bool,
}

impl Page {
    pub fn new(out: File) -> Page {
        Page { bytes: Box::new([0; PAGE]), len: 0, out, failed: false }
    }

    #[cold]
    #[inline(never)]
    pub fn flush(&mut self) {
        self.failed |= self.out.write_all(&self.bytes[..self.len]).is_err();
        self.len = 0;
    }

    /// Returns room for a reply.
    #[inline(always)]
    fn room<const SIZE: usize>(&mut self) -> &mut [u8; SIZE] {
        if self.len > PAGE - SIZE {
            self.flush();
            self.len = 0;
        }
        self.bytes[self.len..].first_chunk_mut().unwrap()
    }

    /// Adds a line of at most 31 bytes.
    #[inline(always)]
    pub fn line<const SIZE: usize>(&mut self, text: &[u8; SIZE]) {
        let room = self.room::<REPLY>();
        room[..SIZE].copy_from_slice(text);
        room[SIZE] = b'\n';
        self.len += SIZE + 1;
    }

    /// Adds a line of a word and a number.
    #[inline(always)]
    pub fn count<const SIZE: usize>(&mut self, text: &[u8; SIZE], number: u64) {
        let room = self.room::<REPLY>();
        room[..SIZE].copy_from_slice(text);
        let size = SIZE + put_number(&mut room[SIZE..], number);
        room[size] = b'\n';
        self.len += size + 1;
    }

    /// Adds a line of an object's id, whose first byte is 0x10.
    #[inline(always)]
    pub fn object(&mut self, id: u32) {
        let room = self.room::<REPLY>();
        room[..14].copy_from_slice(b"ok object 0x10");
        for (at, byte) in [(14, id >> 16), (16, id >> 8), (18, id)] {
            room[at..at + 2].copy_from_slice(&HEXADECIMAL[byte as u8 as usize]);
        }
        room[20] = b'\n';
        self.len += 21;
    }

    /// Adds the line of a refusal with its facts.
    #[inline(never)]
    pub fn refuse(&mut self, number: u8, facts: &[u64], word: &str) {
        let text = self.room::<REPLY>();
        text[..3].copy_from_slice(b"no ");
        let mut at = 3 + put_number(&mut text[3..], u64::from(number));
        let name = NAMES[number as usize - 2].as_bytes();
        text[at] = b' ';
        text[at + 1..at + 1 + name.len()].copy_from_slice(name);
        at += 1 + name.len();
        for &fact in facts {
            text[at] = b' ';
            at += 1 + put_number(&mut text[at + 1..], fact);
        }
        text[at..at + word.len()].copy_from_slice(word.as_bytes());
        at += word.len();
        text[at] = b'\n';
        self.len += at + 1;
    }

    /// Adds a line of text and numbers in turn.
    pub fn mixed(&mut self, parts: &[(&str, Option<u64>)]) {
        let text = self.room::<REPLY>();
        let mut at = 0;
        for (word, number) in parts {
            text[at..at + word.len()].copy_from_slice(word.as_bytes());
            at += word.len();
            if let Some(number) = number {
                at += put_number(&mut text[at..], *number);
            }
        }
        text[at] = b'\n';
        self.len += at + 1;
    }

    /// Adds the data lines of a piece.
    pub fn data(&mut self, piece: &[u8]) {
        let (lines, rest) = piece.as_chunks::<{ DIGITS / 2 }>();
        for line in lines {
            self.data_line(line, DIGITS / 2);
        }
        if !rest.is_empty() {
            let mut line = [0; DIGITS / 2];
            line[..rest.len()].copy_from_slice(rest);
            self.data_line(&line, rest.len());
        }
    }

    #[inline(always)]
    fn data_line(&mut self, bytes: &[u8; DIGITS / 2], count: usize) {
        let line = self.room::<DATA_LINE>();
        line[..5].copy_from_slice(b"data ");
        let digits = line[5..5 + DIGITS].as_chunks_mut::<32>().0;
        for (digits, bytes) in digits.iter_mut().zip(bytes.as_chunks::<16>().0) {
            put_hexadecimal(digits, bytes);
        }
        line[5 + 2 * count] = b'\n';
        self.len += 6 + 2 * count;
    }
}
