//! Pins: past states that stay readable.
use crate::dump::{Cursor, View};
use crate::heap::Heap;
use crate::regions::{Bits, Cells, Dead, REGION_LIMIT, REGISTER_LIMIT, Region, Regions, cell_of, region_of, word_of};
use crate::undo::Undo;
use std::rc::Rc;

const PIN_LIMIT: usize = 4;

/// A state as a pin keeps it. Regions without a copy are read in the heap.
pub struct Kept {
    registers: [u32; REGISTER_LIMIT],
    live: [Bits; REGION_LIMIT],
    pub copies: [Option<Rc<Cells>>; REGION_LIMIT],
    classes: usize,
}

pub struct Pin {
    pub number: u64,
    place: u64,
    /// The bit of the pin among readers.
    bit: u8,
    /// The state, or None if a rewind lost it.
    kept: Option<Box<Kept>>,
    pub cursor: Cursor,
}

/// The open pins, and the number of the next.
pub struct Pins {
    pub open: Vec<Pin>,
    next: u64,
}

impl Kept {
    fn new(heap: &Heap) -> Box<Kept> {
        let mut live = [Bits::NONE; REGION_LIMIT];
        for (bits, region) in live.iter_mut().zip(&heap.regions) {
            *bits = region.as_ref().map_or(Bits::NONE, |region| region.live);
        }
        let copies = [const { None }; REGION_LIMIT];
        Box::new(Kept { registers: heap.registers, live, copies, classes: heap.classes.len() })
    }

    /// Returns a region's copy, which is made if there is none.
    fn copy(&mut self, heap: &Heap, region: u8) -> &mut Cells {
        let from = &heap.regions[region as usize];
        let copy = self.copies[region as usize].get_or_insert_with(|| Rc::new(from.as_ref().unwrap().cells.clone()));
        Rc::make_mut(copy)
    }

    /// Goes back over the last `n` steps.
    fn walk_back(&mut self, heap: &Heap, n: usize) {
        let mut used = [Bits::NONE; REGION_LIMIT];
        for (bits, region) in used.iter_mut().zip(&heap.regions) {
            *bits = region.as_ref().map_or(Bits::NONE, |region| region.used);
        }
        for ago in 0..n {
            self.step_back(heap, heap.trail.record(ago), &mut used);
        }
    }

    /// Goes back over the step that left a record. `used` are the cells in use.
    fn step_back(&mut self, heap: &Heap, record: &Undo, used: &mut [Bits; REGION_LIMIT]) {
        match record {
            Undo::Put { address, old } | Undo::Store { address, old, .. } => {
                self.copy(heap, region_of(*address)).words[word_of(*address)] = *old;
            }
            Undo::Register { register, old } => self.registers[*register as usize] = *old,
            Undo::New { register, fresh, id, old } => {
                self.registers[*register as usize] = *old;
                let region = region_of(*id) as usize;
                used[region].remove(cell_of(*id));
                self.live[region].remove(cell_of(*id));
                if *fresh {
                    self.copies[region] = None;
                }
            }
            Undo::Class => self.classes -= 1,
            Undo::Finish { .. } => self.live = *used,
            Undo::Sweep { region, swept } => {
                let copy = self.copy(heap, *region);
                let mut words = &swept.words[..];
                for Dead { cell, header } in &swept.dead {
                    let (own, rest) = words.split_at(header.len as usize);
                    copy.headers[*cell as usize] = *header;
                    copy.words[4 * *cell as usize..][..own.len()].copy_from_slice(own);
                    words = rest;
                    used[*region as usize].add(*cell);
                }
            }
            Undo::Reclaim { region, block } => {
                self.copies[*region as usize] = Some(Rc::new(block.cells.clone()));
                used[*region as usize] = block.used;
            }
            Undo::Snap { .. } | Undo::Mark { .. } | Undo::Drain { .. } | Undo::None => {}
        }
    }
}

impl Pin {
    /// Returns what the pin shows, or None if it is lost.
    pub fn view<'a>(&'a self, heap: &'a Heap) -> Option<View<'a>> {
        let kept = self.kept.as_deref()?;
        let (live, copies) = (Some(&kept.live), Some(&kept.copies));
        Some(View { heap, classes: kept.classes, registers: &kept.registers, live, copies })
    }
}

impl Pins {
    pub fn new() -> Pins {
        Pins { open: Vec::with_capacity(PIN_LIMIT), next: 1 }
    }

    /// Returns the number of a new pin. Fails with PinLimit if as many are open as may be.
    pub fn take_number(&mut self) -> Result<u64, u8> {
        if self.open.len() == PIN_LIMIT {
            return Err(25);
        }
        self.next += 1;
        Ok(self.next - 1)
    }

    /// Has each pin that reads a region where it is copy it. The pins share the copy.
    #[cold]
    #[inline(never)]
    pub fn copy(&mut self, number: u8, region: &mut Region) {
        let readers = std::mem::take(&mut region.readers);
        let copy = Rc::new(region.cells.clone());
        for pin in self.open.iter_mut().filter(|pin| pin.bit & readers != 0) {
            if let Some(kept) = &mut pin.kept {
                kept.copies[number as usize] = Some(copy.clone());
            }
        }
    }

    /// Returns the index of an open pin. Fails with NoPin if there is none of this number.
    pub fn find(&self, number: u64) -> Result<usize, u8> {
        self.open.iter().position(|pin| pin.number == number).ok_or(22)
    }
}

impl Heap {
    /// Opens a pin on a place, or on the current one, and returns its number and place.
    pub fn open_pin(&mut self, at: Option<u64>) -> Result<(u64, u64), u8> {
        let (current, retained) = (self.trail.place, self.trail.retained());
        let place = at.unwrap_or(current);
        let ago = current.checked_sub(place).filter(|&ago| ago <= retained).ok_or(24)?;
        let number = self.pins.take_number()?;
        let mut kept = Kept::new(self);
        if ago > 0 {
            kept.walk_back(self, ago as usize);
        }
        let taken = self.pins.open.iter().fold(0, |taken, pin| taken | pin.bit);
        let bit = 1 << (!taken).trailing_zeros();
        for (region, (live, copy)) in self.regions.iter_mut().zip(kept.live.iter().zip(&kept.copies)) {
            if let (Some(region), true, None) = (region, *live != Bits::NONE, copy) {
                region.readers |= bit;
            }
        }
        self.pins.open.push(Pin { number, place, bit, kept: Some(kept), cursor: Cursor::default() });
        Ok((number, place))
    }

    /// Loses the pins above a place.
    pub fn lose_pins(&mut self, place: u64) {
        for pin in self.pins.open.iter_mut().filter(|pin| pin.place > place) {
            pin.kept = None;
            stop_reading(&mut self.regions, pin.bit);
        }
    }

    pub fn close_pin(&mut self, number: u64) -> Result<(), u8> {
        let at = self.pins.find(number)?;
        let pin = self.pins.open.remove(at);
        stop_reading(&mut self.regions, pin.bit);
        Ok(())
    }
}

/// Takes a pin's bit from the readers of all regions.
fn stop_reading(regions: &mut Regions, bit: u8) {
    for region in regions.iter_mut().flatten() {
        region.readers &= !bit;
    }
}
