//! Regions: words, headers, free lists, and what a sweep takes out.
use crate::classes::{Classes, Shape};
use crate::pins::Pins;

pub const REGION_LIMIT: usize = 256;
pub const REGISTER_LIMIT: usize = 128;
pub const REGION_WORDS: usize = 1024;
/// The cell sizes, and room for other numbers.
pub const SIZES: usize = 8;
/// The id of the first object.
pub const FIRST_OBJECT: u32 = 0x1000_0000;

/// Bits by number: of the regions of a heap, or of the cells of a region, which are numbered by the quarter of their first
/// word.
#[derive(Clone, Copy, PartialEq, Eq, Default)]
pub struct Bits(pub [u64; 4]);

impl Bits {
    pub const NONE: Bits = Bits([0; 4]);

    #[inline(always)]
    pub fn has(&self, at: u8) -> bool {
        self.0[at as usize >> 6] >> (at & 63) & 1 != 0
    }

    #[inline(always)]
    pub fn add(&mut self, at: u8) {
        self.0[at as usize >> 6] |= 1 << (at & 63);
    }

    #[inline(always)]
    pub fn remove(&mut self, at: u8) {
        self.0[at as usize >> 6] &= !(1 << (at & 63));
    }

    /// Returns the lowest number.
    #[inline(always)]
    pub fn first(&self) -> Option<u8> {
        let part = self.0.iter().position(|&part| part != 0)?;
        Some((64 * part as u32 + self.0[part].trailing_zeros()) as u8)
    }

    /// Returns the numbers in rising order.
    pub fn numbers(self) -> impl Iterator<Item = u8> {
        self.0.into_iter().enumerate().flat_map(|(part, mut left)| {
            std::iter::from_fn(move || {
                let at = (left != 0).then(|| (64 * part as u32 + left.trailing_zeros()) as u8);
                left &= left.wrapping_sub(1);
                at
            })
        })
    }

    pub fn count(&self) -> u64 {
        self.0.iter().map(|part| u64::from(part.count_ones())).sum()
    }

    /// Returns the numbers that others don't have.
    fn without(self, others: Bits) -> Bits {
        Bits(std::array::from_fn(|part| self.0[part] & !others.0[part]))
    }
}

/// What an object is and its number of slots. Of a free cell, `shape` is the next free cell plus one, or 0.
#[derive(Clone, Copy, Default)]
pub struct Header {
    pub shape: u16,
    pub len: u16,
}

/// The words of a region and the headers of its cells.
#[derive(Clone)]
pub struct Cells {
    pub words: [u64; REGION_WORDS],
    pub headers: [Header; 256],
}

/// A region in use.
pub struct Region {
    /// The free cell that heads the free list plus one, or 0.
    pub head: u16,
    /// The number of the cells' size, 0 to 4.
    pub size: u8,
    /// The pins, as bits, that read the region where it is.
    pub readers: u8,
    pub used: Bits,
    pub live: Bits,
    pub mark: Bits,
    pub cells: Cells,
}

/// A dead object that a sweep removed.
pub struct Dead {
    pub cell: u8,
    pub header: Header,
}

/// What a sweep removed: the objects, and their words one after another.
pub struct Swept {
    pub dead: Vec<Dead>,
    pub words: Vec<u64>,
}

impl Region {
    pub fn new(size: u8) -> Box<Region> {
        // SAFETY: all parts are numbers, and zeros are such.
        Region::blank(unsafe { Box::<Region>::new_zeroed().assume_init() }, size)
    }

    /// Makes a region without objects of another one. The words are left as they are.
    pub fn blank(mut region: Box<Region>, size: u8) -> Box<Region> {
        let step = 1usize << (2 * size);
        for cell in (0..256 - step).step_by(step) {
            region.cells.headers[cell].shape = (cell + step + 1) as u16;
        }
        region.cells.headers[256 - step].shape = 0;
        (region.head, region.size, region.readers) = (1, size, 0);
        (region.used, region.live, region.mark) = (Bits::NONE, Bits::NONE, Bits::NONE);
        region
    }

    /// Writes a word and returns what it was. Has the pins copy the region first.
    #[inline(always)]
    pub fn write(&mut self, pins: &mut Pins, address: u32, word: u64) -> u64 {
        if self.readers != 0 {
            pins.copy(region_of(address), self);
        }
        std::mem::replace(&mut self.cells.words[word_of(address)], word)
    }

    /// Removes the objects that aren't live, and returns them.
    pub fn sweep(&mut self) -> Swept {
        let gone = self.used.without(self.live);
        let (mut size, mut words) = (0, 0);
        for cell in gone.numbers() {
            size += 1;
            words += self.cells.headers[cell as usize].len as usize;
        }
        let mut swept = Swept { dead: Vec::with_capacity(size), words: Vec::with_capacity(words) };
        for cell in gone.numbers() {
            let header = std::mem::take(&mut self.cells.headers[cell as usize]);
            let start = 4 * cell as usize;
            swept.words.extend_from_slice(&self.cells.words[start..start + header.len as usize]);
            swept.dead.push(Dead { cell, header });
            self.link(cell);
        }
        self.used = self.live;
        swept
    }

    /// Puts a cell at the head of the free list.
    pub fn link(&mut self, cell: u8) {
        self.cells.headers[cell as usize].shape = self.head;
        self.head = u16::from(cell) + 1;
    }

    /// Puts back what a sweep removed.
    pub fn restore(&mut self, swept: &Swept) {
        let mut end = swept.words.len();
        for Dead { cell, header } in swept.dead.iter().rev() {
            self.head = self.cells.headers[*cell as usize].shape;
            self.cells.headers[*cell as usize] = *header;
            let (start, len) = (4 * *cell as usize, header.len as usize);
            end -= len;
            self.cells.words[start..start + len].copy_from_slice(&swept.words[end..end + len]);
            self.used.add(*cell);
        }
    }
}

/// The regions by number. The empty ones are None.
pub type Regions = [Option<Box<Region>>; REGION_LIMIT];

/// Returns the id of the object in a register, its region and its shape. Fails if there is none or it hasn't this slot.
#[inline(always)]
pub fn find<'a>(
    registers: &[u32; REGISTER_LIMIT],
    regions: &'a mut Regions,
    classes: &'a Classes,
    register: u8,
    slot: u64,
) -> Result<(u32, &'a mut Region, &'a Shape), u8> {
    let id = registers[register as usize % REGISTER_LIMIT];
    if id == 0 {
        return Err(8);
    }
    let region = regions[region_of(id) as usize].as_deref_mut().unwrap();
    let Header { shape, len } = region.cells.headers[cell_of(id) as usize];
    if slot >= u64::from(len) {
        return Err(9);
    }
    Ok((id, region, &classes.shapes[shape as usize]))
}

#[inline(always)]
pub fn region_of(id: u32) -> u8 {
    (id >> 13) as u8
}

#[inline(always)]
pub fn cell_of(id: u32) -> u8 {
    (id >> 5) as u8
}

#[inline(always)]
pub fn word_of(address: u32) -> usize {
    (address >> 3) as usize % REGION_WORDS
}

/// Returns the number of the least cell size that holds `slots` slots, at most 1,024.
pub fn size_for(slots: usize) -> u8 {
    if slots <= 4 { 0 } else { ((slots - 1).ilog2() as u8) >> 1 }
}
