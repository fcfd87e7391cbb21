//! A scene as document 01 describes it: the request, the body and the tables,
//! the answer to it, and both in bytes, in text and as walkprint prints them.
//!
//! Written from documents 01 and 02 alone; nothing here knows the original.

mod asked;
mod bytes;
mod large;
mod make;
mod print;
mod random;
mod read;
mod reasons;
mod record;
mod text;
mod world;

pub use asked::{Asked, Question, asked};
pub use bytes::{NODE, WAITING, WAYPOINT, f64_at, u32_at, u64_at};
pub use large::{LARGE, large, stairs};
pub use make::{KINDS, make};
pub use print::{name, print, print_refusal};
pub use random::Random;
pub use read::{BadScene, Ends, Partial, RECORD, Steps, read, read_partial};
pub use reasons::{Walked, YES, words};
pub use record::{Record, write_bytes};
pub use text::{from_text, to_text};
pub use world::{RawTables, bad_world};

/// What is asked of a search.
#[derive(Debug, Clone, Copy, PartialEq)]
pub struct Request {
    pub start: [f64; 3],
    pub goal: [f64; 3],
    pub max_range: f64,
    pub node_budget: u64,
    pub step_height: f64,
    pub jump_height: f64,
    pub max_drop: f64,
}

/// The body that walks; its step height caps the request's.
#[derive(Debug, Clone, Copy, PartialEq)]
pub struct Body {
    pub width: f64,
    pub height: f64,
    pub step_height: f64,
}

/// The cells that a table of cells speaks about.
#[derive(Debug, Default, Clone, Copy, PartialEq, Eq)]
pub struct Window {
    pub origin: [i32; 3],
    pub sizes: [u32; 3],
}

/// State and shape of a cell that no fill reached.
pub const UNFILLED: (u32, u32) = (u32::MAX, 0);

/// 01's "Tables", as numbers.
#[derive(Debug, Default, Clone, PartialEq)]
pub struct Tables {
    pub window: Window,
    /// State and shape of each cell: x runs fastest, then z, then y.
    pub cells: Vec<(u32, u32)>,
    /// A byte a state: 1 occupied, 2 support, 4 collides.
    pub permissions: Vec<u8>,
    /// First box and count of each shape.
    pub shapes: Vec<(u32, u32)>,
    /// Min x, y, z, max x, y, z of each box, local to its cell.
    pub boxes: Vec<[f64; 6]>,
}

/// A whole scene.
#[derive(Debug, Clone, PartialEq)]
pub struct Scene {
    pub request: Request,
    pub body: Body,
    pub tables: Tables,
}

/// How a search that was not refused ended.
#[derive(Debug, Clone, Copy, PartialEq, Eq)]
pub enum Outcome {
    Found = 0,
    Unreachable = 1,
    BudgetExceeded = 2,
}

/// The door of a waypoint whose edge crosses none, and of the start (02, No. 5).
pub const NO_DOOR: u64 = 4_294_967_295;

/// A point of a list; movement 0 Walk, 1 Step, 2 Jump, 3 Drop.
#[derive(Debug, Clone, Copy, PartialEq)]
pub struct Waypoint {
    pub feet: [f64; 3],
    pub lift: f64,
    pub movement: u64,
    /// The state number of the first door that its edge crosses.
    pub door: u64,
}

impl Waypoint {
    /// A point that is walked to, through no door: a list begins so.
    pub fn walked(feet: [f64; 3]) -> Self {
        Self {
            feet,
            lift: 0.0,
            movement: 0,
            door: NO_DOOR,
        }
    }
}

/// The parent number of a node without parent.
pub const NO_PARENT: u32 = u32::MAX;

/// A retained node; closed is 1 after its expansion began, else 0.
#[derive(Debug, Clone, Copy, PartialEq)]
pub struct NodeRecord {
    pub point: Waypoint,
    pub cost: f64,
    pub parent: u32,
    pub closed: u32,
}

/// A frontier record: the estimate of a node, the number of its push, and 1 where
/// it waits. All three are 0 where it does not, unless another hand left others.
#[derive(Debug, Clone, Copy, PartialEq)]
pub struct FrontierRecord {
    pub estimate: f64,
    pub push: u64,
    pub waiting: u64,
}

impl FrontierRecord {
    /// That of a node that does not wait.
    pub const IDLE: Self = Self {
        estimate: 0.0,
        push: 0,
        waiting: 0,
    };

    pub fn waits(&self) -> bool {
        self.waiting == 1
    }
}

/// The answer to a scene that was not refused.
#[derive(Debug, Clone, PartialEq)]
pub struct Answer {
    pub outcome: Outcome,
    pub list: Vec<Waypoint>,
    /// Retained nodes in discovery order; none if no search began.
    pub nodes: Vec<NodeRecord>,
    /// How many of them are closed.
    pub closed: u64,
}

/// A refusal by its number in 01's table; the record is 0 unless the number
/// is 7.
#[derive(Debug, Clone, Copy, PartialEq, Eq)]
pub struct Refusal {
    pub number: u32,
    pub record: u64,
}

/// What walkprint answers to a scene.
pub type Verdict = Result<Answer, Refusal>;

impl Answer {
    /// An answer whose search never began.
    pub fn unbegun(outcome: Outcome) -> Self {
        Self {
            outcome,
            list: Vec::new(),
            nodes: Vec::new(),
            closed: 0,
        }
    }

    /// Whether both answers have the same bits everywhere.
    pub fn same_bits(&self, other: &Self) -> bool {
        self.outcome == other.outcome
            && self.closed == other.closed
            && self.list.len() == other.list.len()
            && self.nodes.len() == other.nodes.len()
            && self
                .list
                .iter()
                .zip(&other.list)
                .all(|(a, b)| a.bytes() == b.bytes())
            && self
                .nodes
                .iter()
                .zip(&other.nodes)
                .all(|(a, b)| a.bytes() == b.bytes())
    }
}

/// Number 4, TooLarge: a limit of the search, judged after `valid_request`.
pub fn too_large(request: &Request, body: &Body) -> bool {
    request.max_range > 64.0 || body.width > 8.0 || body.height > 16.0 || request.node_budget > 4096
}
