//! Sessions: lines in, replies out.
use crate::commands::Bad;
use crate::dump::Writer;
use crate::heap::Heap;
use crate::text::{POWERS, Page, digits_in, first_value, value_of};
use std::fs::File;
use std::io::{ErrorKind, Read};

const BLOCK: usize = 65536;
const LONGEST_LINE: usize = 4096;
/// Bytes behind the text that may be read with it.
const SLACK: usize = 64;
const SIZE: usize = LONGEST_LINE + BLOCK + SLACK;
const READ_LIMIT: u64 = 1_000_000;

/// How a session ended.
#[derive(Clone, Copy, PartialEq, Eq)]
pub enum Ending {
    Done,
    Cut,
    Long,
    Read,
    Reads,
    Write,
}

/// Text that was read. Numbers are read right in it: a line that was found to be whole ends any reading.
struct Text(Box<[u8; SIZE]>);

impl Text {
    #[inline(always)]
    fn byte(&self, at: usize) -> u8 {
        debug_assert!(at < SIZE);
        // SAFETY: `at` is at most a few bytes behind a line, and SLACK bytes follow the last one.
        unsafe { *self.0.get_unchecked(at) }
    }

    /// Returns the eight bytes from a position on, the first one in the lowest byte.
    #[inline(always)]
    fn eight(&self, at: usize) -> u64 {
        debug_assert!(at + 8 <= SIZE);
        // SAFETY: as above.
        u64::from_le_bytes(unsafe { *self.0.as_ptr().add(at).cast() })
    }

    /// Returns the number at a position and the position behind the byte `end` that follows it, or None if they aren't there.
    #[inline(always)]
    fn number(&self, at: usize, end: u8) -> Option<(u64, usize)> {
        let digit = self.eight(at) as u16 ^ u16::from_le_bytes([b'0', end]);
        if digit < 10 {
            return Some((u64::from(digit), at + 2));
        }
        let (value, next) = self.long_number(at, end);
        if next == 0 { None } else { Some((value, next)) }
    }

    /// Does what `number` does, for a number of any size. Returns 0 and 0 instead of None.
    #[inline(never)]
    fn long_number(&self, at: usize, end: u8) -> (u64, usize) {
        let (count, digits) = digits_in(self.eight(at));
        let (value, next) = if count < 8 {
            if count == 0 {
                return (0, 0);
            }
            (first_value(digits, count), at + count as usize)
        } else {
            let (more, others) = digits_in(self.eight(at + 8));
            if more == 8 {
                return self.longest_number(at, end);
            }
            let value = value_of(digits) * POWERS[more as usize] + first_value(others, more);
            (value, at + 8 + more as usize)
        };
        if self.byte(next) == end { (value, next + 1) } else { (0, 0) }
    }

    /// Does what `long_number` does, for a number of 16 digits or more.
    #[inline(never)]
    fn longest_number(&self, at: usize, end: u8) -> (u64, usize) {
        let high = value_of(digits_in(self.eight(at)).1) * 100_000_000 + value_of(digits_in(self.eight(at + 8)).1);
        let (last, rest) = digits_in(self.eight(at + 16));
        let next = at + 16 + last as usize;
        if last > 4 || self.byte(next) != end {
            return (0, 0);
        }
        let value = high.checked_mul(POWERS[last as usize]).and_then(|high| high.checked_add(first_value(rest, last)));
        value.map_or((0, 0), |value| (value, next + 1))
    }

    /// Returns the numbers of a line from a position on, with a space between them, and the line behind it.
    #[inline(always)]
    fn numbers<const COUNT: usize>(&self, mut at: usize) -> Option<([u64; COUNT], usize)> {
        let mut numbers = [0; COUNT];
        for (index, number) in numbers.iter_mut().enumerate() {
            (*number, at) = self.number(at, if index + 1 == COUNT { b'\n' } else { b' ' })?;
        }
        Some((numbers, at))
    }
}

pub struct Session {
    pub heap: Heap,
    pub page: Page,
    pub writer: Writer,
}

impl Session {
    pub fn new(heap: Heap, writer: Writer, page: Page) -> Session {
        Session { heap, page, writer }
    }

    /// Reads and answers lines until an ending.
    pub fn serve(mut self, input: File) -> Ending {
        let ending = self.talk(input);
        match ending {
            Ending::Done => {}
            Ending::Cut => self.page.line(b"bad cut"),
            Ending::Long => self.page.line(b"bad long"),
            Ending::Read => self.page.line(b"bad read"),
            Ending::Reads => self.page.line(b"bad reads"),
            Ending::Write => return Ending::Write,
        }
        self.page.flush();
        if self.page.failed { Ending::Write } else { ending }
    }

    fn talk(&mut self, mut input: File) -> Ending {
        let mut text = Text(vec![0; SIZE].into_boxed_slice().try_into().unwrap());
        let mut size = 0;
        for _ in 0..READ_LIMIT {
            self.page.flush();
            if self.page.failed {
                return Ending::Write;
            }
            let count = loop {
                match input.read(&mut text.0[size..size + BLOCK]) {
                    Err(error) if error.kind() == ErrorKind::Interrupted => {}
                    Err(_) => return Ending::Read,
                    Ok(count) => break count,
                }
            };
            if count == 0 {
                return if size == 0 { Ending::Done } else { Ending::Cut };
            }
            let read = &text.0[size..size + count];
            let whole = read.iter().rposition(|&byte| byte == b'\n').map_or(0, |at| size + at + 1);
            size += count;
            if let Some(ending) = self.answer_lines(&text, whole) {
                return ending;
            }
            text.0.copy_within(whole..size, 0);
            size -= whole;
            if size > LONGEST_LINE {
                return Ending::Long;
            }
        }
        Ending::Reads
    }

    /// Answers the lines before a position.
    fn answer_lines(&mut self, text: &Text, end: usize) -> Option<Ending> {
        let mut at = 0;
        while at < end {
            at = match self.answer_quickly(text, at) {
                Some(next) => next,
                None => {
                    let size = text.0[at..end].iter().position(|&byte| byte == b'\n').unwrap();
                    if size > LONGEST_LINE {
                        return Some(Ending::Long);
                    }
                    match self.answer(&text.0[at..at + size]) {
                        Ok(true) => return Some(Ending::Done),
                        Ok(false) => {}
                        Err(Bad) => self.page.line(b"bad command"),
                    }
                    at + size + 1
                }
            };
        }
        None
    }

    /// Answers a line of the usual kinds, with single spaces, and returns the position behind it, or None if it is another line.
    #[inline(always)]
    fn answer_quickly(&mut self, text: &Text, at: usize) -> Option<usize> {
        // The first bytes decide; the others of the keyword are compared with it at once.
        let head = text.eight(at);
        let begins = |keyword: &[u8; 8], size: u32| (head ^ u64::from_le_bytes(*keyword)) << (64 - 8 * size) == 0;
        match head as u8 {
            b'p' if begins(b"put     ", 4) => {
                let ([m, target, slot, value], next) = text.numbers(at + 4)?;
                self.put(m, target, slot, value);
                Some(next)
            }
            b's' if begins(b"store   ", 6) => {
                let ([m, target, slot, source], next) = text.numbers(at + 6)?;
                self.store(m, target, slot, source);
                Some(next)
            }
            b'l' if begins(b"load    ", 5) => {
                let ([m, to, from, slot], next) = text.numbers(at + 5)?;
                self.load(m, to, from, slot);
                Some(next)
            }
            b'n' if begins(b"new     ", 4) => {
                let ([m, r, class], next) = text.numbers(at + 4)?;
                self.new_instance(m, r, class);
                Some(next)
            }
            b'm' if begins(b"mark\n   ", 5) => {
                self.mark();
                Some(at + 5)
            }
            b'm' if begins(b"move    ", 5) => {
                let ([m, to, from_m, from], next) = text.numbers(at + 5)?;
                self.copy(m, to, from_m, from);
                Some(next)
            }
            b'c' if begins(b"clear   ", 6) => {
                let ([m, r], next) = text.numbers(at + 6)?;
                self.clear(m, r);
                Some(next)
            }
            b'r' if begins(b"rewind  ", 7) => {
                let ([n], next) = text.numbers(at + 7)?;
                self.rewind(n);
                Some(next)
            }
            _ => None,
        }
    }
}
