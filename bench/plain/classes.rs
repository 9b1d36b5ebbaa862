//! Classes, their names, and the shapes of objects.
use std::collections::HashMap;

pub const KINDS: usize = 9;
pub const OBJECT: u8 = 0;
/// The kinds' names, by number.
pub const KIND_NAMES: [&[u8]; KINDS] =
    [b"object", b"boolean", b"char", b"float", b"double", b"byte", b"short", b"int", b"long"];
/// The kinds' types in a dump.
pub const TYPES: [u8; KINDS] = [2, 4, 5, 6, 7, 8, 9, 10, 11];
/// The largest values of the kinds, and room for numbers of no kind.
pub const MAXIMA: [u64; 16] =
    [0, 1, 0xFFFF, 0xFFFF_FFFF, u64::MAX, 0xFF, 0xFFFF, 0xFFFF_FFFF, u64::MAX, 0, 0, 0, 0, 0, 0, 0];
pub const NO_CLASS: u16 = u16::MAX;
const CLASS_LIMIT: usize = 256;
const SLOT_LIMIT: usize = 64;
const NAME_LIMIT: usize = 64;

/// What objects have in common: those of one class, or arrays of values of one kind.
#[derive(Clone)]
pub struct Shape {
    /// A bit for each slot that holds a reference. Of arrays, all or none.
    pub references: u64,
    pub is_array: bool,
    /// Of an instance, the number of its cell size and of its slots.
    pub size: u8,
    pub len: u16,
    /// The bytes of an instance's values in a dump, or of one element.
    pub bytes: u32,
    /// The class, or NO_CLASS for arrays of values.
    pub class: u16,
    /// The kinds of the slots. Of an array, all are that of its elements.
    pub kinds: [u8; SLOT_LIMIT],
}

impl Shape {
    #[inline(always)]
    pub fn is_reference(&self, slot: u64) -> bool {
        self.references >> (slot % 64) & 1 != 0
    }

    #[inline(always)]
    pub fn kind(&self, slot: u64) -> u8 {
        self.kinds[slot as usize % SLOT_LIMIT]
    }

    /// Creates the shape of arrays whose elements have a kind.
    fn of_arrays(kind: u8, class: u16, width: usize) -> Shape {
        let references = if kind == OBJECT { u64::MAX } else { 0 };
        Shape { references, is_array: true, size: 0, len: 0, bytes: width as u32, class, kinds: [kind; SLOT_LIMIT] }
    }
}

pub struct Class {
    pub name: u32,
    pub sup: Option<u16>,
    /// The own fields: number of the name, and kind.
    pub fields: Vec<(u32, u8)>,
    /// How many names the classes up to this one have.
    pub names: usize,
}

pub struct Classes {
    /// The widths of the kinds in a dump, and room for numbers of no kind.
    pub widths: [u8; 16],
    /// First the kinds' arrays of values, then the classes.
    pub shapes: Vec<Shape>,
    pub list: Vec<Class>,
    /// The names in order of first use, and whether a class has each.
    pub names: Vec<(Box<[u8]>, bool)>,
    numbers: HashMap<Box<[u8]>, u32>,
}

fn is_name(name: &[u8]) -> bool {
    let is_letter = |b: &u8| b.is_ascii_alphanumeric() || b"_$/[;.".contains(b);
    (1..=NAME_LIMIT).contains(&name.len()) && name.iter().all(is_letter)
}

impl Classes {
    pub fn new(ids: usize) -> Classes {
        let widths = [ids as u8, 1, 2, 4, 8, 1, 2, 4, 8, 0, 0, 0, 0, 0, 0, 0];
        let shapes = (0..KINDS).map(|kind| Shape::of_arrays(kind as u8, NO_CLASS, widths[kind] as usize)).collect();
        Classes { widths, shapes, list: Vec::new(), names: Vec::new(), numbers: HashMap::new() }
    }

    pub fn len(&self) -> usize {
        self.list.len()
    }

    /// Returns a class's shape, and its number among the shapes.
    #[inline(always)]
    pub fn shape(&self, class: u64) -> Option<(u16, &Shape)> {
        if class >= CLASS_LIMIT as u64 {
            return None;
        }
        let number = KINDS + class as usize;
        self.shapes.get(number).map(|shape| (number as u16, shape))
    }

    /// Adds a class.
    pub fn define(&mut self, name: &[u8], sup: Option<u64>, fields: &[(&[u8], u8)], is_array: bool) -> Result<(), u8> {
        let above = match sup {
            Some(class) => Some(self.shape(class).filter(|(_, shape)| !shape.is_array).ok_or(2)?.1),
            None => None,
        };
        if self.list.len() >= CLASS_LIMIT {
            return Err(3);
        }
        if !is_name(name) || !fields.iter().all(|(name, _)| is_name(name)) {
            return Err(4);
        }
        if self.numbers.get(name).is_some_and(|&number| self.names[number as usize].1) || has_twice(fields) {
            return Err(5);
        }
        let slots = fields.len() + above.map_or(0, |shape| shape.len as usize);
        if slots > SLOT_LIMIT {
            return Err(6);
        }
        let class = self.list.len() as u16;
        let shape = match (is_array, above) {
            (true, _) => Shape::of_arrays(OBJECT, class, self.widths[OBJECT as usize] as usize),
            (false, above) => self.shape_of(class, fields, above, slots),
        };
        self.shapes.push(shape);
        self.add(name, sup, fields);
        Ok(())
    }

    /// Returns the shape of a class's instances.
    fn shape_of(&self, class: u16, fields: &[(&[u8], u8)], above: Option<&Shape>, slots: usize) -> Shape {
        let mut kinds = [OBJECT; SLOT_LIMIT];
        let own = fields.iter().map(|field| field.1);
        let inherited = above.map_or(&[][..], |shape| &shape.kinds[..shape.len as usize]).iter().copied();
        let (mut references, mut bytes) = (0, 0);
        for (slot, kind) in own.chain(inherited).enumerate() {
            kinds[slot] = kind;
            references |= u64::from(kind == OBJECT) << slot;
            bytes += u32::from(self.widths[kind as usize]);
        }
        let size = crate::regions::size_for(slots);
        Shape { references, is_array: false, size, len: slots as u16, bytes, class, kinds }
    }

    fn add(&mut self, name: &[u8], sup: Option<u64>, fields: &[(&[u8], u8)]) {
        let name = self.number(name);
        self.names[name as usize].1 = true;
        let fields = fields.iter().map(|&(name, kind)| (self.number(name), kind)).collect();
        let names = self.names.len();
        self.list.push(Class { name, sup: sup.map(|class| class as u16), fields, names });
    }

    /// Returns a name's number, which is added if it is new.
    fn number(&mut self, name: &[u8]) -> u32 {
        if let Some(&number) = self.numbers.get(name) {
            return number;
        }
        let number = self.names.len() as u32;
        self.names.push((name.into(), false));
        self.numbers.insert(name.into(), number);
        number
    }

    /// Removes the last class, and the names that it alone has.
    pub fn remove_last(&mut self) {
        let gone = self.list.pop().unwrap();
        self.shapes.pop();
        self.names[gone.name as usize].1 = false;
        let left = self.list.last().map_or(0, |class| class.names);
        for (name, _) in self.names.drain(left..) {
            self.numbers.remove(&name);
        }
    }
}

/// Returns whether two fields have one name.
fn has_twice(fields: &[(&[u8], u8)]) -> bool {
    let mut seen = std::collections::HashSet::with_capacity(fields.len());
    !fields.iter().all(|field| seen.insert(field.0))
}
