//! Commands: lines of any spacing, and the replies to all.
use crate::classes::KIND_NAMES;
use crate::dump::View;
use crate::heap::{Loaded, Refusal};
use crate::session::Session;

/// A line that is no command.
pub struct Bad;

const MOST_WORDS: usize = 6;

/// Returns the number that a word is.
fn number(word: &[u8]) -> Result<u64, Bad> {
    if word.is_empty() || word.len() > 20 {
        return Err(Bad);
    }
    word.iter().try_fold(0u64, |value, byte| {
        let digit = byte.wrapping_sub(b'0');
        if digit < 10 { value.checked_mul(10)?.checked_add(u64::from(digit)) } else { None }
    }).ok_or(Bad)
}

/// Returns the number that a word is, or None if it is a hyphen.
fn number_or_none(word: &[u8]) -> Result<Option<u64>, Bad> {
    if word == b"-" { Ok(None) } else { number(word).map(Some) }
}

fn kind(word: &[u8]) -> Result<u8, Bad> {
    KIND_NAMES.iter().position(|name| *name == word).map(|kind| kind as u8).ok_or(Bad)
}

/// Returns the field that a word is: name and kind.
fn field(word: &[u8]) -> Result<(&[u8], u8), Bad> {
    let mut parts = word.split(|&byte| byte == b':');
    match (parts.next(), parts.next(), parts.next()) {
        (Some(name), Some(of), None) => Ok((name, kind(of)?)),
        _ => Err(Bad),
    }
}

impl Session {
    /// Answers a line and returns whether it ends the session.
    pub fn answer(&mut self, line: &[u8]) -> Result<bool, Bad> {
        let line = line.strip_suffix(b"\r").unwrap_or(line);
        if !line.iter().all(|byte| (0x20..=0x7E).contains(byte)) {
            return Err(Bad);
        }
        let mut words = line.split(|&byte| byte == b' ').filter(|word| !word.is_empty());
        let Some(keyword) = words.next() else {
            return Ok(false);
        };
        if keyword == b"class" {
            let (name, sup) = (words.next().ok_or(Bad)?, number_or_none(words.next().ok_or(Bad)?)?);
            let fields = words.map(field).collect::<Result<Vec<_>, Bad>>()?;
            self.define(name, sup, &fields, false);
            return Ok(false);
        }
        let mut list = [&[][..]; MOST_WORDS];
        let mut count = 0;
        for word in words {
            *list.get_mut(count).ok_or(Bad)? = word;
            count += 1;
        }
        self.answer_words(keyword, &list[..count])
    }

    /// Answers a line of a keyword and the words behind it.
    fn answer_words(&mut self, keyword: &[u8], words: &[&[u8]]) -> Result<bool, Bad> {
        match (keyword, words) {
            (b"array", [name]) => self.define(name, None, &[], true),
            (b"newprim", [m, r, of, len]) => self.new_values(number(m)?, number(r)?, kind(of)?, number(len)?),
            (b"open", [at]) => self.open(number_or_none(at)?),
            (b"dump", [b"-"]) => self.dump_current(),
            (b"end", []) => return Ok(true),
            _ => return self.answer_numbers(keyword, words),
        }
        Ok(false)
    }

    /// Answers a line of a keyword and numbers.
    fn answer_numbers(&mut self, keyword: &[u8], words: &[&[u8]]) -> Result<bool, Bad> {
        let mut numbers = [0; MOST_WORDS];
        for (number_of, word) in numbers.iter_mut().zip(words) {
            *number_of = number(word)?;
        }
        match (keyword, &numbers[..words.len()]) {
            (b"new", &[m, r, class]) => self.new_instance(m, r, class),
            (b"newarray", &[m, r, class, len]) => self.new_array(m, r, class, len),
            (b"load", &[m, to, from, slot]) => self.load(m, to, from, slot),
            (b"store", &[m, target, slot, source]) => self.store(m, target, slot, source),
            (b"put", &[m, target, slot, value]) => self.put(m, target, slot, value),
            (b"move", &[m, to, from_m, from]) => self.copy(m, to, from_m, from),
            (b"clear", &[m, r]) => self.clear(m, r),
            (b"snap", []) => self.snap(),
            (b"mark", []) => self.mark(),
            (b"drain", []) => self.drain(),
            (b"finish", []) => self.finish(),
            (b"sweep", &[region]) => self.sweep(region),
            (b"rewind", &[n]) => self.rewind(n),
            (b"piece", &[pin]) => self.piece(pin),
            (b"dump", &[pin]) => self.dump(pin),
            (b"close", &[pin]) => self.close(pin),
            _ => return Err(Bad),
        }
        Ok(false)
    }

    // ---- replies

    fn refuse(&mut self, refusal: Refusal) {
        match refusal {
            Refusal::Plain(number) => self.refuse_plainly(number),
            Refusal::NotDone(gray, undrained) => self.page.refuse(18, &[gray, undrained], ""),
            Refusal::SweepPending(region) => self.page.refuse(19, &[region], ""),
            Refusal::NothingToSweep(region) => self.page.refuse(20, &[region], ""),
            Refusal::TooFar(asked, retained) => self.page.refuse(21, &[asked, retained], ""),
        }
    }

    #[inline(always)]
    fn refuse_plainly(&mut self, number: u8) {
        self.page.refuse(number, &[], "");
    }

    #[inline(always)]
    fn reply_done(&mut self, outcome: Result<(), u8>) {
        match outcome {
            Ok(()) => self.page.line(b"ok"),
            Err(number) => self.refuse_plainly(number),
        }
    }

    #[inline(always)]
    fn reply_object(&mut self, outcome: Result<u32, u8>) {
        match outcome {
            Ok(id) => self.page.object(id),
            Err(number) => self.refuse_plainly(number),
        }
    }

    #[inline(always)]
    fn reply_pushed(&mut self, outcome: Result<u64, u8>) {
        match outcome {
            Ok(pushed) => self.page.count(b"ok pushed ", pushed),
            Err(number) => self.refuse_plainly(number),
        }
    }

    // ---- steps and rewinds

    fn define(&mut self, name: &[u8], sup: Option<u64>, fields: &[(&[u8], u8)], is_array: bool) {
        match self.heap.define(name, sup, fields, is_array) {
            Ok(class) => self.page.count(b"ok class ", class),
            Err(number) => self.refuse_plainly(number),
        }
    }

    #[inline(always)]
    pub fn new_instance(&mut self, m: u64, r: u64, class: u64) {
        let outcome = self.heap.new_instance(m, r, class);
        self.reply_object(outcome);
    }

    fn new_array(&mut self, m: u64, r: u64, class: u64, len: u64) {
        let outcome = self.heap.new_array(m, r, class, len);
        self.reply_object(outcome);
    }

    fn new_values(&mut self, m: u64, r: u64, kind: u8, len: u64) {
        let outcome = self.heap.new_values(m, r, kind, len);
        self.reply_object(outcome);
    }

    #[inline(always)]
    pub fn load(&mut self, m: u64, to: u64, from: u64, slot: u64) {
        match self.heap.load(m, to, from, slot) {
            Ok(Loaded::Value(value)) => self.page.count(b"ok value ", value),
            Ok(Loaded::Object(0)) => self.page.line(b"ok null"),
            Ok(Loaded::Object(id)) => self.page.object(id),
            Err(number) => self.refuse_plainly(number),
        }
    }

    #[inline(always)]
    pub fn store(&mut self, m: u64, target: u64, slot: u64, source: u64) {
        let outcome = self.heap.store(m, target, slot, source);
        self.reply_done(outcome);
    }

    #[inline(always)]
    pub fn put(&mut self, m: u64, target: u64, slot: u64, value: u64) {
        let outcome = self.heap.put(m, target, slot, value);
        self.reply_done(outcome);
    }

    #[inline(always)]
    pub fn copy(&mut self, m: u64, to: u64, from_m: u64, from: u64) {
        let outcome = self.heap.copy(m, to, from_m, from);
        self.reply_done(outcome);
    }

    #[inline(always)]
    pub fn clear(&mut self, m: u64, r: u64) {
        let outcome = self.heap.clear(m, r);
        self.reply_done(outcome);
    }

    fn snap(&mut self) {
        let outcome = self.heap.snap();
        self.reply_pushed(outcome);
    }

    #[inline(always)]
    pub fn mark(&mut self) {
        let outcome = self.heap.mark();
        self.reply_pushed(outcome);
    }

    #[inline(always)]
    pub fn drain(&mut self) {
        let outcome = self.heap.drain();
        self.reply_pushed(outcome);
    }

    fn finish(&mut self) {
        match self.heap.finish() {
            Ok(condemned) => self.page.count(b"ok condemned ", condemned),
            Err(refusal) => self.refuse(refusal),
        }
    }

    fn sweep(&mut self, region: u64) {
        match self.heap.sweep(region) {
            Ok((removed, false)) => self.page.count(b"ok swept ", removed),
            Ok((removed, true)) => self.page.mixed(&[("ok swept ", Some(removed)), (" empty", None)]),
            Err(refusal) => self.refuse(refusal),
        }
    }

    #[inline(always)]
    pub fn rewind(&mut self, n: u64) {
        match self.heap.rewind(n) {
            Ok(place) => self.page.count(b"ok place ", place),
            Err(refusal) => self.refuse(refusal),
        }
    }

    // ---- pins and dumps

    fn open(&mut self, at: Option<u64>) {
        match self.heap.open_pin(at) {
            Ok((pin, place)) => self.page.mixed(&[("ok pin ", Some(pin)), (" at ", Some(place))]),
            Err(number) => self.refuse_plainly(number),
        }
    }

    fn close(&mut self, pin: u64) {
        let outcome = self.heap.close_pin(pin);
        self.reply_done(outcome);
    }

    fn piece(&mut self, pin: u64) {
        match self.next_piece(pin) {
            Ok((size, true)) => self.page.count(b"ok last ", size),
            Ok((size, false)) => self.page.count(b"ok piece ", size),
            Err(number) => self.refuse_pin(number),
        }
    }

    fn refuse_pin(&mut self, number: u8) {
        self.page.refuse(number, &[], if number == 23 { " Rewound" } else { "" });
    }

    /// Adds the data lines of a pin's next piece, and returns its size and whether it is the last.
    fn next_piece(&mut self, number: u64) -> Result<(u64, bool), u8> {
        let at = self.heap.pins.find(number)?;
        let pin = &self.heap.pins.open[at];
        let mut cursor = pin.cursor;
        let view = pin.view(&self.heap).ok_or(23)?;
        let (piece, last) = self.writer.next(&view, &mut cursor);
        let size = piece.len() as u64;
        self.page.data(piece);
        self.heap.pins.open[at].cursor = cursor;
        Ok((size, last))
    }

    fn dump(&mut self, pin: u64) {
        let mut whole = 0;
        loop {
            match self.next_piece(pin) {
                Ok((size, last)) => {
                    whole += size;
                    if last {
                        return self.page.count(b"ok dump ", whole);
                    }
                }
                Err(number) => return self.refuse_pin(number),
            }
        }
    }

    fn dump_current(&mut self) {
        if let Err(number) = self.heap.pins.take_number() {
            return self.refuse_plainly(number);
        }
        let (view, mut cursor, mut whole) = (View::current(&self.heap), Default::default(), 0);
        loop {
            let (piece, last) = self.writer.next(&view, &mut cursor);
            whole += piece.len() as u64;
            self.page.data(piece);
            if last {
                return self.page.count(b"ok dump ", whole);
            }
        }
    }
}
