//! The records that cross the interface, as structs and as bytes.

/// A place in the world.
pub type Point = [f64; 3];

/// Where the cell table lies: its least cell, and how many cells it has each way.
#[derive(Clone, Copy, Debug, PartialEq, Eq)]
pub struct Window {
    pub origin: [i32; 3],
    pub sizes: [u32; 3],
}

/// What a search is asked.
#[derive(Clone, Copy, Debug, PartialEq)]
pub struct Request {
    pub start: Point,
    pub goal: Point,
    pub max_range: f64,
    pub step_height: f64,
    pub jump_height: f64,
    pub max_drop: f64,
    pub node_budget: u64,
}

/// What walks.
#[derive(Clone, Copy, Debug, PartialEq)]
pub struct Body {
    pub width: f64,
    pub height: f64,
    pub step_height: f64,
}

/// What a mob may be in, stand on and go through.
#[derive(Clone, Copy, Debug, PartialEq)]
pub struct Policy {
    pub avoid_water: bool,
    pub avoid_damage_blocks: bool,
    pub can_jump: bool,
    /// The lift of one jump.
    pub jump_height: f64,
    pub can_pass_doors: bool,
    pub can_open_doors: bool,
    pub can_open_iron_doors: bool,
    pub door_breaker: bool,
}

/// How a waypoint is reached. The numbers are those of the records.
#[derive(Clone, Copy, Debug, PartialEq, Eq)]
pub enum Movement {
    Walk = 0,
    Step = 1,
    Jump = 2,
    Drop = 3,
}

/// A point of a list.
#[derive(Clone, Copy, Debug, PartialEq)]
pub struct Waypoint {
    pub feet: Point,
    pub lift: f64,
    pub movement: Movement,
    /// What a guide opens before it goes on to this point: the number of the
    /// state of the first door on the way, as the cell table has it. A door is a
    /// cell that is known and whose state's permission byte lacks bit 4; the
    /// header's `walkprint_waypoint` says which is the first. The cells that the
    /// body leaves count, 0 is a state like any other, and the start has none.
    pub door: Option<u64>,
}

/// The door in a record, where there is none.
pub const NO_DOOR: u64 = 4294967295;

impl Movement {
    pub(crate) fn numbered(number: u64) -> Option<Self> {
        [Self::Walk, Self::Step, Self::Jump, Self::Drop].get(usize::try_from(number).ok()?).copied()
    }
}

impl Policy {
    /// A bit for each wish, from the lowest, and one for a body in water.
    pub(crate) fn bits(&self, in_water: bool) -> u64 {
        let wishes = [
            self.avoid_water,
            self.avoid_damage_blocks,
            self.can_jump,
            self.can_pass_doors,
            self.can_open_doors,
            self.can_open_iron_doors,
            self.door_breaker,
            in_water,
        ];
        wishes.iter().rev().fold(0, |bits, &wish| 2 * bits + u64::from(wish))
    }
}

impl Window {
    pub(crate) fn bytes(&self) -> Vec<u8> {
        let origin = self.origin.iter().flat_map(|n| n.to_le_bytes());
        origin.chain(self.sizes.iter().flat_map(|n| n.to_le_bytes())).collect()
    }

    pub(crate) fn read(bytes: &[u8]) -> Self {
        let word = |k: usize| bytes[4 * k..][..4].try_into().expect("four bytes");
        Self {
            origin: [0, 1, 2].map(|k| i32::from_le_bytes(word(k))),
            sizes: [3, 4, 5].map(|k| u32::from_le_bytes(word(k))),
        }
    }
}

impl Request {
    pub(crate) fn bytes(&self) -> Vec<u8> {
        let rest = [self.max_range, self.step_height, self.jump_height, self.max_drop];
        let mut out = floats(&[&self.start[..], &self.goal, &rest].concat());
        out.extend(self.node_budget.to_le_bytes());
        out
    }

    pub(crate) fn read(bytes: &[u8]) -> Self {
        let x = |k| f64::from_bits(word(bytes, k));
        Self {
            start: [x(0), x(1), x(2)],
            goal: [x(3), x(4), x(5)],
            max_range: x(6),
            step_height: x(7),
            jump_height: x(8),
            max_drop: x(9),
            node_budget: word(bytes, 10),
        }
    }
}

impl Body {
    pub(crate) fn bytes(&self) -> Vec<u8> {
        floats(&[self.width, self.height, self.step_height])
    }

    pub(crate) fn read(bytes: &[u8]) -> Self {
        let x = |k| f64::from_bits(word(bytes, k));
        Self { width: x(0), height: x(1), step_height: x(2) }
    }
}

impl Waypoint {
    /// The bytes of a record.
    pub const BYTES: usize = 48;

    /// The first `count` waypoint records of an output room.
    pub fn list(out: &[u8], count: usize) -> Vec<Self> {
        out.chunks_exact(Self::BYTES).take(count).filter_map(Self::read).collect()
    }

    /// None where the movement is no movement.
    fn read(bytes: &[u8]) -> Option<Self> {
        let x = |k| f64::from_bits(word(bytes, k));
        let movement = Movement::numbered(word(bytes, 4))?;
        let door = Some(word(bytes, 5)).filter(|&door| door != NO_DOOR);
        Some(Self { feet: [x(0), x(1), x(2)], lift: x(3), movement, door })
    }
}

/// The k-th u64.
pub(crate) fn word(bytes: &[u8], k: usize) -> u64 {
    u64::from_le_bytes(bytes[8 * k..][..8].try_into().expect("eight bytes"))
}

pub(crate) fn floats(numbers: &[f64]) -> Vec<u8> {
    numbers.iter().flat_map(|n| n.to_le_bytes()).collect()
}
