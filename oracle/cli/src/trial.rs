//! A search as the gate's program `replay_check` tries it: the rooms that it is
//! lent, what must stand in them then, and the index of the nodes that it left.

use reading::index;
use scene::{NODE, Refusal, Scene, Verdict, WAITING, WAYPOINT};

use crate::row::Row;

/// The program's rooms, and their bytes.
const NODES: usize = 0;
const FRONT: usize = 1;
const INDEX: usize = 2;
const OUT: usize = 3;
const ROOMS: [usize; 4] = [32_896, 32_896, 8_208, 32_896];

pub struct Trial {
    /// How many bytes the rooms of records are longer than the budget asks for.
    pub more: usize,
    /// Which is a byte short: 1 to 3 a room of records, 4 the cell table.
    pub short: usize,
    /// The bytes of the index room, if so many are the least.
    pub index: fn(usize) -> usize,
    /// The byte that rooms and tables are full of.
    pub fill: u8,
}

impl Trial {
    /// The bytes that are lent of each room.
    pub fn lent(&self, scene: &Scene) -> [usize; 4] {
        let mut lent = needed(scene).map(|bytes| bytes + self.more);
        for (place, room) in [NODES, FRONT, OUT].into_iter().enumerate() {
            lent[room] = lent[room].saturating_sub(usize::from(self.short == place + 1));
        }
        lent[INDEX] = (self.index)(needed(scene)[INDEX]);
        let fits = (0..4).all(|room| lent[room] <= ROOMS[room]);
        assert!(fits, "the program's rooms are large enough");
        lent
    }

    /// Puts into a row what the search answers and leaves in the rooms.
    pub fn take(&self, scene: &Scene, row: &mut Row) {
        let verdict = self.searched(scene);
        let answer = verdict.as_ref().ok();
        let (list, nodes) = answer.map_or((&[][..], &[][..]), |a| (&a.list[..], &a.nodes[..]));
        row.take(match &verdict {
            Ok(answer) => answer.outcome as u64,
            Err(refusal) => refusal.number.into(),
        });
        row.take(list.len() as u64);
        row.take(nodes.len() as u64);
        row.take(answer.map_or(0, |answer| answer.closed));
        let mut rooms = ROOMS.map(|bytes| vec![self.fill; bytes]);
        rooms[INDEX][..4].fill(0);
        for (place, node) in nodes.iter().enumerate() {
            rooms[NODES][NODE * place..][..NODE].copy_from_slice(&node.bytes());
        }
        for (place, point) in list.iter().enumerate() {
            rooms[OUT][WAYPOINT * place..][..WAYPOINT].copy_from_slice(&point.bytes());
        }
        let lent = self.lent(scene);
        if !nodes.is_empty() {
            rooms[FRONT][..lent[FRONT]].fill(0);
            rooms[INDEX][..lent[INDEX]].fill(0);
        }
        rooms.iter().for_each(|room| row.take_words(room));
        let feet = nodes.iter().map(|node| node.point.feet.map(f64::to_bits));
        let points: Vec<[u64; 3]> = feet.collect();
        let goal = scene.request.goal.map(f64::to_bits);
        take_index(&mut rooms[INDEX], lent[INDEX], &points, goal, row);
    }

    /// "3; `valid_request`; 4; 5", then the original.
    fn searched(&self, scene: &Scene) -> Verdict {
        let refused = |number| Err(Refusal { number, record: 0 });
        let mut tables = scene.tables.raw();
        if self.short == 4 {
            tables.cells.pop();
        }
        if scene::bad_world(&tables) {
            return refused(3);
        }
        let verdict = original::judge(scene);
        if original::valid_request(scene) && verdict.is_ok() && self.no_room(scene) {
            return refused(5);
        }
        verdict
    }

    /// "5", 02's "5 also for an index room of a wrong size" with it.
    fn no_room(&self, scene: &Scene) -> bool {
        let (lent, needed) = (self.lent(scene), needed(scene));
        let short = |room: usize| lent[room] < needed[room];
        let wrong = index::wrong_size(lent[INDEX], scene.request.node_budget);
        [NODES, FRONT, OUT].into_iter().any(short) || wrong
    }
}

/// The least bytes of the rooms for a scene's budget.
fn needed(scene: &Scene) -> [usize; 4] {
    let budget = scene.request.node_budget;
    let records = budget as usize;
    let index = index::least_bytes(budget);
    [
        NODE * records,
        WAITING * records,
        index,
        WAYPOINT * (records + 1),
    ]
}

/// The retained points entered into the index room, as far as it is lent: how
/// many are, where the goal is found, where each point is, twice; then the room.
fn take_index(room: &mut [u8], lent: usize, points: &[[u64; 3]], goal: [u64; 3], row: &mut Row) {
    row.take(index::enter(&mut room[..lent], points) as u64);
    row.take(first(points, goal));
    for &point in points.iter().chain(points) {
        row.take(first(points, point));
    }
    row.take_words(room);
}

/// The first of the points that is the same as one, or how many there are.
fn first(points: &[[u64; 3]], one: [u64; 3]) -> u64 {
    let same = |point: &[u64; 3]| point.map(index::canonical) == one.map(index::canonical);
    points.iter().position(same).unwrap_or(points.len()) as u64
}
