//! Undo records of steps, and what they undo.
use crate::heap::Heap;
use crate::regions::{Bits, Region, SIZES, Swept, cell_of, region_of, word_of};

/// The most regions that are kept to be used again.
const SPARES: usize = 16;

/// What undoes a step.
pub enum Undo {
    Put { address: u32, old: u64 },
    Store { address: u32, logged: bool, old: u64 },
    Register { register: u8, old: u32 },
    New { register: u8, fresh: bool, id: u32, old: u32 },
    Class,
    Snap { pushed: u32 },
    Mark { id: u32, pushed: u32 },
    Drain { pushed: bool },
    Finish { log: Box<Vec<u32>> },
    Sweep { region: u8, swept: Box<Swept> },
    Reclaim { region: u8, block: Box<Region> },
    /// Stands where an undo record was taken.
    None,
}

impl Undo {
    #[inline(always)]
    fn holds_memory(&self) -> bool {
        matches!(self, Undo::Finish { .. } | Undo::Sweep { .. } | Undo::Reclaim { .. })
    }
}

/// The undo records of the last `keep` steps.
pub struct Trail {
    ring: Vec<Undo>,
    next: usize,
    keep: usize,
    pub place: u64,
    /// The highest place before the last rewind. Undo records of steps `keep` below it are lost.
    highest: u64,
}

impl Trail {
    pub fn new(keep: usize) -> Trail {
        Trail { ring: Vec::with_capacity(keep), next: 0, keep, place: 0, highest: 0 }
    }

    /// Adds an undo record, instead of the oldest if there are `keep`.
    #[inline(always)]
    pub fn add(&mut self, record: Undo) {
        match self.ring.get_mut(self.next) {
            Some(slot) => {
                let last = std::mem::replace(slot, record);
                if last.holds_memory() {
                    drop(last);
                } else {
                    std::mem::forget(last);
                }
            }
            None => self.ring.push(record),
        }
        self.next += 1;
        if self.next == self.keep {
            self.next = 0;
        }
        self.place += 1;
    }

    /// Returns how many steps can be undone.
    pub fn retained(&self) -> u64 {
        self.place - self.highest.max(self.place).saturating_sub(self.keep as u64)
    }

    /// Takes the newest record.
    pub fn take(&mut self) -> Undo {
        self.next = if self.next == 0 { self.keep } else { self.next } - 1;
        self.highest = self.highest.max(self.place);
        self.place -= 1;
        std::mem::replace(&mut self.ring[self.next], Undo::None)
    }

    /// Returns the undo record of the step `ago` steps before the newest.
    pub fn record(&self, ago: usize) -> &Undo {
        &self.ring[(self.next + 2 * self.keep - 1 - ago) % self.keep]
    }
}

impl Heap {
    /// Undoes the newest step, which left this record.
    #[inline(always)]
    pub fn undo(&mut self, record: Undo) {
        match record {
            Undo::Put { address, old } => self.region(address).cells.words[word_of(address)] = old,
            Undo::Store { address, logged, old } => {
                self.region(address).cells.words[word_of(address)] = old;
                if logged {
                    self.log.pop();
                }
            }
            Undo::Register { register, old } => *self.at(register) = old,
            Undo::New { register, fresh, id, old } => {
                *self.at(register) = old;
                self.remove(id, fresh);
            }
            Undo::Class => self.classes.remove_last(),
            Undo::Snap { pushed } => {
                self.unshade(pushed);
                self.marking = false;
            }
            Undo::Mark { id, pushed } => {
                self.unshade(pushed);
                self.gray.push(id);
            }
            Undo::Drain { pushed } => {
                self.unshade(u32::from(pushed));
                self.drained -= 1;
            }
            Undo::Finish { log } => self.unfinish(*log),
            Undo::Sweep { region, swept } => {
                let block = self.regions[region as usize].as_deref_mut().unwrap();
                block.restore(&swept);
                if block.head == 0 {
                    self.free[block.size as usize % SIZES].remove(region);
                }
                self.pending.add(region);
            }
            Undo::Reclaim { region, block } => {
                self.pool.pop();
                self.put_region(region, block);
                self.pending.add(region);
            }
            Undo::None => unreachable!(),
        }
    }

    /// Removes the newest object.
    #[inline(always)]
    fn remove(&mut self, id: u32, fresh: bool) {
        if fresh {
            let region = self.take_region(region_of(id));
            if self.spare.len() < SPARES {
                self.spare.push(region);
            }
            return;
        }
        let block = self.region(id);
        let cell = cell_of(id);
        block.link(cell);
        block.used.remove(cell);
        block.live.remove(cell);
        block.mark.remove(cell);
        let size = block.size;
        self.free[size as usize % SIZES].add(region_of(id));
    }

    /// Takes the newest objects off the gray stack, and their marks from them.
    fn unshade(&mut self, pushed: u32) {
        for _ in 0..pushed {
            let id = self.gray.pop().unwrap();
            self.region(id).mark.remove(cell_of(id));
        }
    }

    /// Goes back into a cycle with this log. All objects were live in it.
    fn unfinish(&mut self, log: Vec<u32>) {
        for block in self.regions.iter_mut().flatten() {
            block.mark = std::mem::replace(&mut block.live, block.used);
        }
        self.pending = Bits::NONE;
        self.drained = log.len();
        self.log = log;
        self.marking = true;
    }
}
