//! walkprint's proved functions for Rust programs: safe functions on slices
//! over the C interface of include/walkprint.h, which says what each lent byte
//! holds after each answer. The calls on bytes are in `raw`.

pub mod raw;
mod reasons;
mod records;
mod rooms;
mod slices;

pub use reasons::{Reason, WORD, WalkBack, word};
pub use records::{Body, Movement, NO_DOOR, Point, Policy, Request, Waypoint, Window};
pub use rooms::{
    MOST_INDEX_BYTES, PATH_FRONT_BYTES, PATH_INDEX_BYTES, PATH_NODE_BUDGET, PATH_NODES_BYTES, PATH_OUT_BYTES, Rooms, front_bytes,
    index_bytes, nodes_bytes, out_bytes,
};
pub use slices::{Counts, Search, Tick};

/// The largest sizes in bytes that a scene's tables can have: cells,
/// permissions, shapes and boxes.
pub const SCENE_TABLES: [usize; 4] = [32768, 256, 2048, 12288];

/// The number of an edge is this and its movement's.
const EDGE: u64 = 130;

/// What a search comes to. The numbers are the interface's.
#[derive(Clone, Copy, Debug, PartialEq, Eq)]
pub enum Outcome {
    Found = 0,
    Unreachable = 1,
    BudgetExceeded = 2,
}

impl std::fmt::Display for Outcome {
    /// 01's name in words, as `budget exceeded`.
    fn fmt(&self, f: &mut std::fmt::Formatter<'_>) -> std::fmt::Result {
        f.write_str(&word(*self as u64))
    }
}

/// A refusal. An invalid request is one of an edge alone: a search answers it
/// with `Unreachable`, the walk-back with no and that reason. A bad scene comes
/// with its first bad record, counted from 0.
#[derive(Clone, Copy, Debug, PartialEq, Eq)]
pub enum Error {
    InvalidRequest,
    BadWorld,
    TooLarge,
    NoRoom,
    EndlessJump,
    BadScene(u64),
    BadTable,
    BadNumber,
    BadProgress,
}

impl Error {
    /// The interface's number.
    pub fn number(self) -> u64 {
        match self {
            Self::InvalidRequest => 1,
            Self::BadWorld => 3,
            Self::TooLarge => 4,
            Self::NoRoom => 5,
            Self::EndlessJump => 6,
            Self::BadScene(_) => 7,
            Self::BadTable => 8,
            Self::BadNumber => 9,
            Self::BadProgress => 12,
        }
    }
}

impl std::fmt::Display for Error {
    fn fmt(&self, f: &mut std::fmt::Formatter<'_>) -> std::fmt::Result {
        write!(f, "refused: {self:?} ({})", self.number())
    }
}

impl std::error::Error for Error {}

/// A world: the window and the four tables, in bytes.
#[derive(Clone, Copy, Debug)]
pub struct Tables<'a> {
    pub window: Window,
    pub cells: &'a [u8],
    pub permissions: &'a [u8],
    pub shapes: &'a [u8],
    pub boxes: &'a [u8],
}

/// What a search answers. `count` waypoints stand at the start of the output.
#[derive(Clone, Copy, Debug, PartialEq, Eq)]
pub struct Answer {
    pub outcome: Outcome,
    pub count: usize,
    pub retained: usize,
    pub closed: usize,
}

/// What a scene says, and how many bytes of each table it made.
#[derive(Clone, Copy, Debug, PartialEq)]
pub struct Scene {
    pub request: Request,
    pub body: Body,
    pub window: Window,
    pub in_use: [usize; 4],
}

/// Calls `ask` with a world, a request (or two ends) and a body in bytes.
fn in_bytes<T>(t: &Tables, request: &[u8], body: &Body, ask: impl FnOnce(&raw::Asked) -> T) -> T {
    ask(&raw::Asked {
        window: &t.window.bytes(),
        tables: [t.cells, t.permissions, t.shapes, t.boxes],
        request,
        body: &body.bytes(),
    })
}

/// Lends a search its rooms, and reads its answer.
fn searched(rooms: &mut Rooms, search: impl FnOnce(raw::Lent) -> u64) -> Result<Answer, Error> {
    let mut answer = [0; 32];
    let Rooms { nodes, front, index, out } = rooms;
    let number = search(raw::Lent { nodes, front, index, out, answer: &mut answer });
    answered(number, &answer)
}

/// A way from the request's start to its goal; the list goes to `rooms.out`.
pub fn find_walk_path(t: &Tables, request: &Request, body: &Body, rooms: &mut Rooms) -> Result<Answer, Error> {
    in_bytes(t, &request.bytes(), body, |asked| searched(rooms, |lent| raw::find_walk_path(asked, lent)))
}

/// A mob's search: the flags of the states and the policy fill `permissions`,
/// which stays filled, and the rooms are for `PATH_NODE_BUDGET` points. Of the
/// tables the permissions are not read.
#[allow(clippy::too_many_arguments)]
pub fn find_path(
    policy: &Policy,
    in_water: bool,
    flags: &[u8],
    t: &Tables,
    permissions: &mut [u8],
    ends: [Point; 2],
    body: &Body,
    rooms: &mut Rooms,
) -> Result<Answer, Error> {
    let bits = policy.bits(in_water);
    in_bytes(t, &records::floats(&ends.concat()), body, |asked| {
        searched(rooms, |lent| raw::find_path(bits, policy.jump_height, flags, asked, permissions, lent))
    })
}

/// Whether a list of waypoint records is a route, and if not, why and where.
pub fn walk_back(t: &Tables, request: &Request, body: &Body, list: &[u8]) -> Result<WalkBack, Error> {
    let mut place = [0; 8];
    let number = in_bytes(t, &request.bytes(), body, |asked| raw::walk_back(asked, list, &mut place));
    match Reason::numbered(number) {
        Some(reason) => Ok(WalkBack::No(reason, reason.is_of_a_pair().then(|| records::word(&place, 0) as usize))),
        None if number == 0 => Ok(WalkBack::Yes),
        None => Err(refusal(number, 0)),
    }
}

/// How the edge from one point to another moves, or the first reason why there
/// is none. The points may be any numbers.
///
/// There are two errors, one inside the other, because they say two things. The
/// outer one is a refusal: the tables, the request or the body were no good, and
/// nothing was looked at. The inner one is an answer about the world. So
/// `edge(..)?` leaves a movement or a reason, and `edge(..)?.ok()` a movement or
/// none.
pub fn edge(t: &Tables, request: &Request, body: &Body, from: Point, to: Point) -> Result<Result<Movement, Reason>, Error> {
    let number = in_bytes(t, &request.bytes(), body, |asked| raw::edge(asked, from, to));
    if let Some(movement) = number.checked_sub(EDGE).and_then(Movement::numbered) {
        return Ok(Ok(movement));
    }
    Reason::numbered(number).map(Err).ok_or_else(|| refusal(number, 0))
}

/// The length of a list of waypoint records, as the body goes: from each record
/// to the next one up by the later one's lift, across, and up or down to the
/// point. The header's `walkprint_length` has the sum with its order. It is what
/// the program walkprint prints of a found list, and not the search's cost, which
/// adds up straight lines from point to point.
///
/// A partial record at the end is not read; nor are movements, doors and the
/// first record's lift. The list need be no route: its numbers are taken as they
/// are. So with lifts below 0 the length can be below 0. Of two records or more, a
/// NaN makes it a NaN; an infinity, or numbers too large to be squared or added,
/// make it infinite or a NaN.
pub fn length(list: &[u8]) -> f64 {
    raw::length(list)
}

/// Reads a whole scene into four tables, each of at least its size in
/// `SCENE_TABLES`.
pub fn read_scene(
    bytes: &[u8],
    cells: &mut [u8],
    permissions: &mut [u8],
    shapes: &mut [u8],
    boxes: &mut [u8],
) -> Result<Scene, Error> {
    let mut made = [0; 168];
    let number = raw::read_scene(bytes, [cells, permissions, shapes, boxes], &mut made);
    if number != 0 {
        return Err(refusal(number, records::word(&made, 0)));
    }
    Ok(Scene {
        request: Request::read(&made),
        body: Body::read(&made[88..]),
        window: Window::read(&made[112..]),
        in_use: [17, 18, 19, 20].map(|k| records::word(&made, k) as usize),
    })
}

/// How many blocks a jump gains that starts with the velocity `power`.
pub fn jump_apex(power: f32, gravity: f64) -> Result<f64, Error> {
    float(|height| raw::jump_apex(power, gravity, height))
}

/// The nearest f64 to the exact square root.
pub fn root(x: f64) -> Result<f64, Error> {
    float(|root| raw::root(x, root))
}

/// The square root of IEEE 754, which answers every number.
pub fn square_root(x: f64) -> f64 {
    raw::square_root(x)
}

/// The version of the library: 1,000,000 for each major, 1,000 for each minor,
/// 1 for each patch. It is this crate's own.
pub fn version() -> u64 {
    raw::version()
}

/// The number that a call writes into eight bytes, or its refusal.
fn float(call: impl FnOnce(&mut [u8]) -> u64) -> Result<f64, Error> {
    let mut bytes = [0; 8];
    match call(&mut bytes) {
        0 => Ok(f64::from_le_bytes(bytes)),
        number => Err(refusal(number, 0)),
    }
}

/// What a search's number and its record say.
fn answered(number: u64, answer: &[u8]) -> Result<Answer, Error> {
    let outcome = match number {
        0 => Outcome::Found,
        1 => Outcome::Unreachable,
        2 => Outcome::BudgetExceeded,
        _ => return Err(refusal(number, 0)),
    };
    let count = |k| records::word(answer, k) as usize;
    Ok(Answer { outcome, count: count(1), retained: count(2), closed: count(3) })
}

/// The refusal with a number; no call gives another.
fn refusal(number: u64, record: u64) -> Error {
    match number {
        1 => Error::InvalidRequest,
        3 => Error::BadWorld,
        4 => Error::TooLarge,
        5 => Error::NoRoom,
        6 => Error::EndlessJump,
        7 => Error::BadScene(record),
        8 => Error::BadTable,
        9 => Error::BadNumber,
        12 => Error::BadProgress,
        _ => unreachable!("no number of the interface: {number}"),
    }
}
