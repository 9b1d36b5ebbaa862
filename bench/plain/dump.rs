//! Dumps: HPROF text in pieces.
use crate::classes::{KINDS, NO_CLASS, Shape, TYPES};
use crate::heap::Heap;
use crate::regions::{Bits, Cells, FIRST_OBJECT, REGION_LIMIT, REGISTER_LIMIT};
use std::rc::Rc;

const BODY_LIMIT: usize = 4096;
const HEAD: usize = 9;
const FIRST_CLASS: u64 = 0x0010_0000;
/// Room for the head of an object's sub-record.
const HEAD_ROOM: usize = 32;
/// The largest sub-record: an array of 1,024 longs. What is written beside it is overwritten by the next one.
const LARGEST: usize = 8210 + 64;

/// A state that is dumped. Without bytes of live cells or copies it is the current one.
pub struct View<'a> {
    pub heap: &'a Heap,
    pub classes: usize,
    pub registers: &'a [u32; REGISTER_LIMIT],
    pub live: Option<&'a [Bits; REGION_LIMIT]>,
    pub copies: Option<&'a [Option<Rc<Cells>>; REGION_LIMIT]>,
}

/// What stands next in a dump.
#[derive(Clone, Copy, PartialEq, Eq, PartialOrd, Ord, Default)]
enum Part {
    #[default]
    Opening,
    Class,
    Root,
    Object,
    Register,
    End,
}

/// The part and the number in it of what stands next. No piece is left past the end.
#[derive(Clone, Copy, Default)]
pub struct Cursor {
    part: Part,
    at: usize,
    is_over: bool,
}

/// Writes pieces.
pub struct Writer {
    pub time: u64,
    pub ids: usize,
    piece: Vec<u8>,
}

impl<'a> View<'a> {
    /// Returns the view of the current state.
    pub fn current(heap: &'a Heap) -> View<'a> {
        View { heap, classes: heap.classes.len(), registers: &heap.registers, live: None, copies: None }
    }

    fn live(&self, region: usize) -> Bits {
        match self.live {
            Some(live) => live[region],
            None => self.heap.regions[region].as_ref().map_or(Bits::NONE, |region| region.live),
        }
    }

    fn cells(&self, region: usize) -> &Cells {
        match self.copies.and_then(|copies| copies[region].as_ref()) {
            Some(copy) => copy,
            None => &self.heap.regions[region].as_ref().unwrap().cells,
        }
    }
}

/// Puts a number at a position of a text and returns the position behind it.
macro_rules! put {
    ($text:expr, $at:ident, $number:expr) => {{
        let bytes = $number.to_be_bytes();
        $text[$at..$at + bytes.len()].copy_from_slice(&bytes);
        $at += bytes.len();
    }};
}

/// Puts an id of `ids` bytes at a position of a text. Writes eight bytes.
#[inline(always)]
fn put_id(text: &mut [u8], at: &mut usize, ids: usize, id: u64) {
    let bytes = id << (64 - 8 * ids);
    text[*at..*at + 8].copy_from_slice(&bytes.to_be_bytes());
    *at += ids;
}

impl Writer {
    pub fn new(time: u64, ids: usize) -> Writer {
        Writer { time, ids, piece: vec![0; HEAD + BODY_LIMIT + LARGEST] }
    }

    /// Returns the next piece, empty past the last, and whether it is the last.
    pub fn next(&mut self, view: &View, cursor: &mut Cursor) -> (&[u8], bool) {
        if cursor.is_over {
            return (&[], true);
        }
        if cursor.part == Part::Opening {
            let size = self.opening(view);
            cursor.part = Part::Class;
            return (&self.piece[..size], false);
        }
        let size = self.body(view, cursor);
        self.piece[..HEAD].fill(0);
        if size == HEAD {
            cursor.is_over = true;
            self.piece[0] = 0x2C;
            return (&self.piece[..HEAD], true);
        }
        self.piece[0] = 0x1C;
        self.piece[5..HEAD].copy_from_slice(&((size - HEAD) as u32).to_be_bytes());
        (&self.piece[..size], false)
    }

    /// Writes the records before the segments, and returns their size.
    fn opening(&mut self, view: &View) -> usize {
        let (ids, mut text) = (self.ids, Vec::new());
        let id = |text: &mut Vec<u8>, id: u64| text.extend_from_slice(&id.to_be_bytes()[8 - ids..]);
        let head = |text: &mut Vec<u8>, tag: u8, size: usize| {
            text.extend_from_slice(&[tag, 0, 0, 0, 0]);
            text.extend_from_slice(&(size as u32).to_be_bytes());
        };
        text.extend_from_slice(b"JAVA PROFILE 1.0.2\0\0\0\0");
        text.push(ids as u8);
        text.extend_from_slice(&self.time.to_be_bytes());
        let classes = &view.heap.classes.list[..view.classes];
        let names = classes.last().map_or(0, |class| class.names);
        for (number, (name, _)) in view.heap.classes.names[..names].iter().enumerate() {
            head(&mut text, 1, ids + name.len());
            id(&mut text, number as u64 + 1);
            text.extend_from_slice(name);
        }
        for (number, class) in classes.iter().enumerate() {
            head(&mut text, 2, 8 + 2 * ids);
            text.extend_from_slice(&(number as u32 + 1).to_be_bytes());
            id(&mut text, FIRST_CLASS + 8 * number as u64);
            text.extend_from_slice(&1u32.to_be_bytes());
            id(&mut text, u64::from(class.name) + 1);
        }
        head(&mut text, 5, 12);
        text.extend_from_slice(&[0, 0, 0, 1, 0, 0, 0, 0, 0, 0, 0, 0]);
        let size = text.len();
        if self.piece.len() < size {
            self.piece.resize(size, 0);
        }
        self.piece[..size].copy_from_slice(&text);
        size
    }

    /// Writes sub-records behind the head of a segment as long as they fit, and returns the size of the segment.
    fn body(&mut self, view: &View, cursor: &mut Cursor) -> usize {
        let mut end = HEAD;
        let whole = cursor.part > Part::Class || self.classes(view, cursor, &mut end);
        let whole = whole && (cursor.part > Part::Root || self.roots(view, cursor, &mut end));
        let whole = whole && (cursor.part > Part::Object || self.written_objects(view, cursor, &mut end));
        if whole && cursor.part == Part::Register {
            self.registers(view, cursor, &mut end);
        }
        end
    }

    fn written_objects(&mut self, view: &View, cursor: &mut Cursor, end: &mut usize) -> bool {
        if self.ids == 8 { self.objects::<8>(view, cursor, end) } else { self.objects::<4>(view, cursor, end) }
    }

    /// Returns whether a sub-record of a size still fits behind those before it.
    #[inline(always)]
    fn fits(end: usize, size: usize) -> bool {
        end == HEAD || end + size <= HEAD + BODY_LIMIT
    }

    /// Writes classes, and returns whether all are written.
    fn classes(&mut self, view: &View, cursor: &mut Cursor, end: &mut usize) -> bool {
        let (ids, classes) = (self.ids, &view.heap.classes);
        while cursor.at < view.classes {
            let class = &classes.list[cursor.at];
            let size = 15 + 7 * ids + class.fields.len() * (1 + ids);
            if !Writer::fits(*end, size) {
                return false;
            }
            let text = &mut self.piece;
            let shape = &classes.shapes[KINDS + cursor.at];
            let mut at = *end;
            put!(text, at, 0x20u8);
            put_id(text, &mut at, ids, FIRST_CLASS + 8 * cursor.at as u64);
            put!(text, at, 1u32);
            put_id(text, &mut at, ids, class.sup.map_or(0, |class| FIRST_CLASS + 8 * u64::from(class)));
            for _ in 0..5 {
                put_id(text, &mut at, ids, 0);
            }
            put!(text, at, if shape.is_array { 0 } else { shape.bytes });
            put!(text, at, 0u32);
            put!(text, at, class.fields.len() as u16);
            for &(name, kind) in &class.fields {
                put_id(text, &mut at, ids, u64::from(name) + 1);
                put!(text, at, TYPES[kind as usize]);
            }
            *end = at;
            cursor.at += 1;
        }
        *cursor = Cursor { part: Part::Root, at: 0, is_over: false };
        true
    }

    /// Writes the roots of classes, and returns whether all are written.
    fn roots(&mut self, view: &View, cursor: &mut Cursor, end: &mut usize) -> bool {
        while cursor.at < view.classes {
            if !self.root(5, FIRST_CLASS + 8 * cursor.at as u64, end) {
                return false;
            }
            cursor.at += 1;
        }
        *cursor = Cursor { part: Part::Object, at: 0, is_over: false };
        true
    }

    /// Writes a root, if it fits.
    fn root(&mut self, tag: u8, id: u64, end: &mut usize) -> bool {
        if !Writer::fits(*end, 1 + self.ids) {
            return false;
        }
        self.piece[*end] = tag;
        *end += 1;
        put_id(&mut self.piece, end, self.ids, id);
        true
    }

    /// Writes the roots of registers as long as they fit.
    fn registers(&mut self, view: &View, cursor: &mut Cursor, end: &mut usize) {
        while cursor.at < REGISTER_LIMIT {
            let id = view.registers[cursor.at];
            if id != 0 && !self.root(0xFF, u64::from(id), end) {
                return;
            }
            cursor.at += 1;
        }
        cursor.part = Part::End;
    }

    /// Writes objects, with ids of `IDS` bytes, and returns whether all are written.
    fn objects<const IDS: usize>(&mut self, view: &View, cursor: &mut Cursor, end: &mut usize) -> bool {
        let first = cursor.at;
        for region in first / 256..REGION_LIMIT {
            let live = view.live(region);
            if live == Bits::NONE {
                continue;
            }
            let cells = view.cells(region);
            for (part, mut left) in live.0.into_iter().enumerate() {
                let before = first.saturating_sub(256 * region + 64 * part);
                left &= if before < 64 { u64::MAX << before } else { 0 };
                while left != 0 {
                    let cell = 64 * part + left.trailing_zeros() as usize;
                    let Some(size) = self.object::<IDS>(view, cells, 256 * region + cell, *end) else {
                        cursor.at = 256 * region + cell;
                        return false;
                    };
                    *end += size;
                    left &= left - 1;
                }
            }
        }
        *cursor = Cursor { part: Part::Register, at: 0, is_over: false };
        true
    }

    /// Writes an object, and returns its size, or None if it doesn't fit.
    #[inline(always)]
    fn object<const IDS: usize>(&mut self, view: &View, cells: &Cells, number: usize, end: usize) -> Option<usize> {
        let header = cells.headers[number % 256];
        let classes = &view.heap.classes;
        let shape = &classes.shapes[header.shape as usize];
        let words = cells.words[number % 256 * 4..].get(..header.len as usize)?;
        if shape.is_array {
            return self.array::<IDS>(shape, words, number, end);
        }
        let size = 9 + 2 * IDS + shape.bytes as usize;
        if !Writer::fits(end, size) {
            return None;
        }
        let text = self.head::<IDS>(0x21, number, end)?;
        text[5 + IDS..13 + IDS].copy_from_slice(&left_aligned::<IDS>(FIRST_CLASS + 8 * u64::from(shape.class)));
        text[5 + 2 * IDS..9 + 2 * IDS].copy_from_slice(&shape.bytes.to_be_bytes());
        self.values(end + 9 + 2 * IDS, words, &shape.kinds, &classes.widths);
        Some(size)
    }

    /// Writes an array, and returns its size, or None if it doesn't fit.
    #[inline(never)]
    fn array<const IDS: usize>(&mut self, shape: &Shape, words: &[u64], number: usize, end: usize) -> Option<usize> {
        let is_of_values = shape.class == NO_CLASS;
        let head = if is_of_values { 10 + IDS } else { 9 + 2 * IDS };
        let size = head + shape.bytes as usize * words.len();
        if !Writer::fits(end, size) {
            return None;
        }
        let text = self.head::<IDS>(0x22 + u8::from(is_of_values), number, end)?;
        text[5 + IDS..9 + IDS].copy_from_slice(&(words.len() as u32).to_be_bytes());
        if is_of_values {
            text[9 + IDS] = TYPES[shape.kinds[0] as usize];
        } else {
            text[9 + IDS..17 + IDS].copy_from_slice(&left_aligned::<IDS>(FIRST_CLASS + 8 * u64::from(shape.class)));
        }
        let text = &mut self.piece[end + head..end + size];
        match shape.bytes {
            8 => elements::<8>(text, words),
            4 => elements::<4>(text, words),
            2 => elements::<2>(text, words),
            _ => elements::<1>(text, words),
        }
        Some(size)
    }

    /// Writes the tag, the id and the stack trace of an object, and returns room for the rest of its head. Bytes that are
    /// written too many are overwritten by what follows.
    #[inline(always)]
    fn head<const IDS: usize>(&mut self, tag: u8, number: usize, end: usize) -> Option<&mut [u8; HEAD_ROOM]> {
        let text: &mut [u8; HEAD_ROOM] = self.piece[end..].first_chunk_mut()?;
        text[0] = tag;
        text[1..9].copy_from_slice(&left_aligned::<IDS>(u64::from(FIRST_OBJECT) + 32 * number as u64));
        text[1 + IDS..5 + IDS].copy_from_slice(&1u32.to_be_bytes());
        Some(text)
    }

    /// Writes the values of an instance. Writes eight bytes for each: those too many are overwritten by what follows.
    #[inline(always)]
    fn values(&mut self, mut at: usize, words: &[u64], kinds: &[u8; 64], widths: &[u8; 16]) {
        for (word, kind) in words.iter().zip(kinds) {
            let width = widths[*kind as usize % 16];
            let bytes = word << (64 - 8 * u32::from(width) & 63);
            self.piece[at..at + 8].copy_from_slice(&bytes.to_be_bytes());
            at += width as usize;
        }
    }
}

/// Returns the bytes of an id of `IDS` bytes, and zeros.
#[inline(always)]
fn left_aligned<const IDS: usize>(id: u64) -> [u8; 8] {
    (id << (64 - 8 * IDS)).to_be_bytes()
}

/// Writes the elements of an array, which have `WIDTH` bytes each.
fn elements<const WIDTH: usize>(text: &mut [u8], words: &[u64]) {
    for (bytes, word) in text.as_chunks_mut::<WIDTH>().0.iter_mut().zip(words) {
        bytes.copy_from_slice(&word.to_be_bytes()[8 - WIDTH..]);
    }
}
