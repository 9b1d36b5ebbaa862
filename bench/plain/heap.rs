//! The heap: regions, registers, the marker and the sweeper.
use crate::classes::{Classes, MAXIMA, OBJECT, Shape};
use crate::pins::Pins;
use crate::regions::{Bits, FIRST_OBJECT, Header, REGION_LIMIT, REGISTER_LIMIT, Region, Regions, SIZES};
use crate::regions::{cell_of, find, region_of, size_for, word_of};
use crate::undo::{Trail, Undo};

const REGISTERS: u64 = 8;
const ELEMENT_LIMIT: u64 = 1024;

/// Why a step was refused: a number, which implies its name, and its facts.
pub enum Refusal {
    Plain(u8),
    NotDone(u64, u64),
    SweepPending(u64),
    NothingToSweep(u64),
    TooFar(u64, u64),
}

/// The outcome of reading a slot.
pub enum Loaded {
    Value(u64),
    Object(u32),
}

pub struct Heap {
    pub regions: Regions,
    pub registers: [u32; REGISTER_LIMIT],
    pub classes: Classes,
    pub mutators: u64,
    pub count: usize,
    pub pool: Vec<u8>,
    /// Some regions whose first object was undone, to be used again.
    pub spare: Vec<Box<Region>>,
    /// By cell size, the regions with free cells.
    pub free: [Bits; SIZES],
    used: Bits,
    pub pending: Bits,
    pub gray: Vec<u32>,
    pub log: Vec<u32>,
    pub drained: usize,
    pub marking: bool,
    pub trail: Trail,
    pub pins: Pins,
}

impl Heap {
    pub fn new(regions: usize, mutators: u64, keep: usize, ids: usize) -> Heap {
        Heap {
            regions: [const { None }; REGION_LIMIT],
            registers: [0; REGISTER_LIMIT],
            classes: Classes::new(ids),
            mutators,
            count: regions,
            pool: (0..regions).rev().map(|region| region as u8).collect(),
            spare: Vec::new(),
            free: [Bits::NONE; SIZES],
            used: Bits::NONE,
            pending: Bits::NONE,
            gray: Vec::new(),
            log: Vec::new(),
            drained: 0,
            marking: false,
            trail: Trail::new(keep),
            pins: Pins::new(),
        }
    }

    #[inline(always)]
    fn register(&self, m: u64, r: u64) -> Result<u8, u8> {
        if m < self.mutators && r < REGISTERS { Ok((8 * m + r) as u8) } else { Err(7) }
    }

    #[inline(always)]
    pub fn at(&mut self, register: u8) -> &mut u32 {
        &mut self.registers[register as usize % REGISTER_LIMIT]
    }

    /// Returns the region that an id of an object or an address in it names.
    #[inline(always)]
    pub fn region(&mut self, id: u32) -> &mut Region {
        self.region_at(region_of(id))
    }

    #[inline(always)]
    pub fn region_at(&mut self, number: u8) -> &mut Region {
        self.regions[number as usize].as_deref_mut().unwrap()
    }

    // ---- mutators

    pub fn define(&mut self, name: &[u8], sup: Option<u64>, fields: &[(&[u8], u8)], is_array: bool) -> Result<u64, u8> {
        self.classes.define(name, sup, fields, is_array)?;
        self.trail.add(Undo::Class);
        Ok(self.classes.len() as u64 - 1)
    }

    #[inline(always)]
    pub fn new_instance(&mut self, m: u64, r: u64, class: u64) -> Result<u32, u8> {
        let register = self.register(m, r)?;
        let (number, shape) = self.classes.shape(class).ok_or(2)?;
        if shape.is_array {
            return Err(10);
        }
        let (size, len) = (shape.size, shape.len);
        self.make(register, Header { shape: number, len }, size)
    }

    pub fn new_array(&mut self, m: u64, r: u64, class: u64, len: u64) -> Result<u32, u8> {
        let register = self.register(m, r)?;
        let (shape, of) = self.classes.shape(class).ok_or(2)?;
        if !of.is_array {
            return Err(10);
        }
        self.make_array(register, shape, len)
    }

    pub fn new_values(&mut self, m: u64, r: u64, kind: u8, len: u64) -> Result<u32, u8> {
        let register = self.register(m, r)?;
        if kind == OBJECT {
            return Err(10);
        }
        self.make_array(register, u16::from(kind), len)
    }

    fn make_array(&mut self, register: u8, shape: u16, len: u64) -> Result<u32, u8> {
        if len > ELEMENT_LIMIT {
            return Err(12);
        }
        self.make(register, Header { shape, len: len as u16 }, size_for(len as usize))
    }

    /// Makes an object in the first region with a free cell of this size, or in one from the pool.
    #[inline(always)]
    fn make(&mut self, register: u8, header: Header, size: u8) -> Result<u32, u8> {
        let (number, fresh) = match self.free[size as usize % SIZES].first() {
            Some(number) => (number, false),
            None => (self.open(size)?, true),
        };
        let marking = self.marking;
        let region = self.regions[number as usize].as_deref_mut().unwrap();
        let cell = region.head.wrapping_sub(1) as u8;
        region.head = region.cells.headers[cell as usize].shape;
        region.cells.headers[cell as usize] = header;
        let start = 4 * cell as usize;
        if size == 0 {
            region.cells.words[start..start + 4].fill(0);
        } else {
            region.cells.words[start..start + header.len as usize].fill(0);
        }
        region.used.add(cell);
        region.live.add(cell);
        if marking {
            region.mark.add(cell);
        }
        if region.head == 0 {
            self.free[size as usize % SIZES].remove(number);
        }
        let id = FIRST_OBJECT + 8192 * u32::from(number) + 32 * u32::from(cell);
        let old = std::mem::replace(self.at(register), id);
        self.trail.add(Undo::New { register, fresh, id, old });
        Ok(id)
    }

    /// Takes a region from the pool.
    #[inline(never)]
    fn open(&mut self, size: u8) -> Result<u8, u8> {
        let number = self.pool.pop().ok_or(13)?;
        let region = match self.spare.pop() {
            Some(region) => Region::blank(region, size),
            None => Region::new(size),
        };
        self.put_region(number, region);
        Ok(number)
    }

    pub fn put_region(&mut self, number: u8, block: Box<Region>) {
        if block.head != 0 {
            self.free[block.size as usize % SIZES].add(number);
        }
        self.used.add(number);
        self.regions[number as usize] = Some(block);
    }

    pub fn take_region(&mut self, number: u8) -> Box<Region> {
        let block = self.regions[number as usize].take().unwrap();
        self.free[block.size as usize % SIZES].remove(number);
        self.used.remove(number);
        self.pool.push(number);
        block
    }

    #[inline(always)]
    pub fn load(&mut self, m: u64, to: u64, from: u64, slot: u64) -> Result<Loaded, u8> {
        let (to, from) = (self.register(m, to)?, self.register(m, from)?);
        let (id, region, shape) = find(&self.registers, &mut self.regions, &self.classes, from, slot)?;
        let word = region.cells.words[word_of(id + 8 * slot as u32)];
        if shape.is_reference(slot) {
            self.set(to, word as u32);
            return Ok(Loaded::Object(word as u32));
        }
        let old = *self.at(to);
        self.trail.add(Undo::Register { register: to, old });
        Ok(Loaded::Value(word))
    }

    #[inline(always)]
    pub fn store(&mut self, m: u64, target: u64, slot: u64, source: u64) -> Result<(), u8> {
        let (target, source) = (self.register(m, target)?, self.register(m, source)?);
        let (id, region, shape) = find(&self.registers, &mut self.regions, &self.classes, target, slot)?;
        if !shape.is_reference(slot) {
            return Err(10);
        }
        let word = self.registers[source as usize % REGISTER_LIMIT];
        let address = id + 8 * slot as u32;
        let old = region.write(&mut self.pins, address, u64::from(word));
        let logged = self.marking && old != 0;
        if logged {
            self.log.push(old as u32);
        }
        self.trail.add(Undo::Store { address, logged, old });
        Ok(())
    }

    #[inline(always)]
    pub fn put(&mut self, m: u64, target: u64, slot: u64, value: u64) -> Result<(), u8> {
        let target = self.register(m, target)?;
        let (id, region, shape) = find(&self.registers, &mut self.regions, &self.classes, target, slot)?;
        let kind = shape.kind(slot);
        if kind == OBJECT {
            return Err(10);
        }
        if value > MAXIMA[kind as usize % MAXIMA.len()] {
            return Err(11);
        }
        let address = id + 8 * slot as u32;
        let old = region.write(&mut self.pins, address, value);
        self.trail.add(Undo::Put { address, old });
        Ok(())
    }

    #[inline(always)]
    pub fn copy(&mut self, m: u64, to: u64, from_m: u64, from: u64) -> Result<(), u8> {
        let (to, from) = (self.register(m, to)?, self.register(from_m, from)?);
        let word = *self.at(from);
        self.set(to, word);
        Ok(())
    }

    #[inline(always)]
    pub fn clear(&mut self, m: u64, r: u64) -> Result<(), u8> {
        let register = self.register(m, r)?;
        self.set(register, 0);
        Ok(())
    }

    #[inline(always)]
    fn set(&mut self, register: u8, word: u32) {
        let old = std::mem::replace(self.at(register), word);
        self.trail.add(Undo::Register { register, old });
    }

    // ---- the marker

    /// Marks and pushes an object, if it is unmarked, and returns whether it was.
    #[inline(always)]
    fn shade(&mut self, id: u32) -> bool {
        let mark = &mut self.region(id).mark;
        if mark.has(cell_of(id)) {
            return false;
        }
        mark.add(cell_of(id));
        self.gray.push(id);
        true
    }

    pub fn snap(&mut self) -> Result<u64, u8> {
        if self.marking {
            return Err(14);
        }
        self.marking = true;
        let mut pushed = 0;
        for id in self.registers {
            pushed += u32::from(id != 0 && self.shade(id));
        }
        self.trail.add(Undo::Snap { pushed });
        Ok(u64::from(pushed))
    }

    #[inline(always)]
    pub fn mark(&mut self) -> Result<u64, u8> {
        if !self.marking {
            return Err(15);
        }
        let id = self.gray.pop().ok_or(16)?;
        let Header { shape, len } = self.region(id).cells.headers[cell_of(id) as usize];
        let Shape { references, is_array, .. } = self.classes.shapes[shape as usize];
        let mut pushed = 0;
        if is_array && references != 0 {
            for slot in 0..u32::from(len) {
                pushed += u32::from(self.shade_slot(id, slot));
            }
        } else {
            let mut left = references;
            while left != 0 {
                pushed += u32::from(self.shade_slot(id, left.trailing_zeros()));
                left &= left - 1;
            }
        }
        self.trail.add(Undo::Mark { id, pushed });
        Ok(u64::from(pushed))
    }

    #[inline(always)]
    fn shade_slot(&mut self, id: u32, slot: u32) -> bool {
        let child = self.region(id).cells.words[word_of(id + 8 * slot)] as u32;
        child != 0 && self.shade(child)
    }

    #[inline(always)]
    pub fn drain(&mut self) -> Result<u64, u8> {
        if !self.marking {
            return Err(15);
        }
        let id = *self.log.get(self.drained).ok_or(17)?;
        self.drained += 1;
        let pushed = self.shade(id);
        self.trail.add(Undo::Drain { pushed });
        Ok(u64::from(pushed))
    }

    pub fn finish(&mut self) -> Result<u64, Refusal> {
        if !self.marking {
            return Err(Refusal::Plain(15));
        }
        let undrained = self.log.len() - self.drained;
        if !self.gray.is_empty() || undrained > 0 {
            return Err(Refusal::NotDone(self.gray.len() as u64, undrained as u64));
        }
        if let Some(region) = self.pending.first() {
            return Err(Refusal::SweepPending(u64::from(region)));
        }
        let mut condemned = 0;
        for region in self.regions.iter_mut().flatten() {
            condemned += region.used.count() - region.mark.count();
            region.live = std::mem::take(&mut region.mark);
        }
        self.pending = self.used;
        self.drained = 0;
        self.marking = false;
        self.trail.add(Undo::Finish { log: Box::new(std::mem::take(&mut self.log)) });
        Ok(condemned)
    }

    // ---- the sweeper

    /// Sweeps a region, and returns how many objects were removed and whether the region was emptied.
    pub fn sweep(&mut self, number: u64) -> Result<(u64, bool), Refusal> {
        if number >= self.count as u64 || !self.pending.has(number as u8) {
            return Err(Refusal::NothingToSweep(number));
        }
        let at = number as u8;
        self.pending.remove(at);
        let region = self.regions[at as usize].as_deref_mut().unwrap();
        if region.readers != 0 {
            self.pins.copy(at, region);
        }
        if region.live == Bits::NONE {
            let block = self.take_region(at);
            let removed = block.used.count();
            self.trail.add(Undo::Reclaim { region: at, block });
            return Ok((removed, true));
        }
        let swept = region.sweep();
        if region.head != 0 {
            self.free[region.size as usize % SIZES].add(at);
        }
        let removed = swept.dead.len() as u64;
        self.trail.add(Undo::Sweep { region: at, swept: Box::new(swept) });
        Ok((removed, false))
    }

    // ---- rewinds

    /// Undoes the last `n` steps.
    pub fn rewind(&mut self, n: u64) -> Result<u64, Refusal> {
        let retained = self.trail.retained();
        if n > retained {
            return Err(Refusal::TooFar(n, retained));
        }
        self.lose_pins(self.trail.place - n);
        for _ in 0..n {
            let record = self.trail.take();
            self.undo(record);
        }
        Ok(self.trail.place)
    }
}
