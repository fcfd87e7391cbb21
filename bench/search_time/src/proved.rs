//! The proved search, whole and in slices, and the walk-back as a server links
//! them (include/walkprint.h): a scene in the bytes that they read, the search's
//! rooms, and what it left in them.

use scene::{Answer, NODE, RawTables, Scene, WAITING, WAYPOINT};
use walkprint::index_bytes;
use walkprint::raw::{self, Asked, Lent};

/// A scene in bytes.
struct Handed {
    window: [u8; 24],
    tables: RawTables,
    request: [u8; 88],
    body: [u8; 24],
}

impl Handed {
    fn asked(&self) -> Asked<'_> {
        Asked {
            window: &self.window,
            tables: self.tables.all(),
            request: &self.request,
            body: &self.body,
        }
    }
}

/// A scene, and rooms of exactly the size that its budget asks.
pub struct Proved {
    scene: Handed,
    /// Nodes, frontier, index, output.
    rooms: [Vec<u8>; 4],
    answer: [u8; 32],
    /// Of a search in slices: number and count, and the four counts.
    progress: [u8; 48],
}

/// The number of a search in slices that has not ended.
pub const STILL_SEARCHING: u64 = 100;

impl Proved {
    pub fn new(scene: &Scene) -> Self {
        let budget = scene.request.node_budget as usize;
        let sizes = [
            NODE * budget,
            WAITING * budget,
            index_bytes(budget),
            WAYPOINT * (budget + 1),
        ];
        Self {
            scene: Handed {
                window: scene.tables.window.bytes(),
                tables: scene.tables.raw(),
                request: scene.request.bytes(),
                body: scene.body.bytes(),
            },
            rooms: sizes.map(|size| vec![0; size]),
            answer: [0; 32],
            progress: [0; 48],
        }
    }

    /// One search, and nothing else; its number.
    pub fn run(&mut self) -> u64 {
        let [nodes, front, index, out] = &mut self.rooms;
        let answer = &mut self.answer;
        raw::find_walk_path(
            &self.scene.asked(),
            Lent {
                nodes,
                front,
                index,
                out,
                answer,
            },
        )
    }

    /// A search in slices begun, and nothing else; its number.
    pub fn begin(&mut self) -> u64 {
        let [nodes, front, _, out] = &mut self.rooms;
        raw::begin_search(&self.scene.asked(), nodes, front, out, &mut self.progress)
    }

    /// One slice of it, and nothing else; its number.
    pub fn advance(&mut self, expansions: u64) -> u64 {
        let counts = [16, 24, 32, 40].map(|at| scene::u64_at(&self.progress, at));
        let [nodes, front, _, out] = &mut self.rooms;
        let (asked, progress) = (self.scene.asked(), &mut self.progress);
        raw::continue_search(counts, expansions, &asked, nodes, front, out, progress)
    }

    /// One search in slices of so many expansions, and nothing else; its number.
    pub fn run_in_slices(&mut self, expansions: u64) -> u64 {
        let mut number = self.begin();
        while number == STILL_SEARCHING {
            number = self.advance(expansions);
        }
        number
    }

    /// Retained and closed, as the last whole search answered.
    pub fn counts(&self) -> [u64; 2] {
        [16, 24].map(|at| scene::u64_at(&self.answer, at))
    }

    /// Whether a search in slices left what this whole one did: number, counts,
    /// list, node records and frontier, with every byte behind them.
    pub fn ended_as(&self, sliced: &Self) -> bool {
        self.answer == sliced.progress[..32]
            && [0, 1, 3].iter().all(|&k| self.rooms[k] == sliced.rooms[k])
    }

    /// How many points the last search's list has.
    pub fn points(&self) -> usize {
        scene::u64_at(&self.answer, 8) as usize
    }

    /// The last search's list walked back, and nothing else; its number.
    pub fn walk_back(&self) -> u64 {
        let list = &self.rooms[3][..WAYPOINT * self.points()];
        raw::walk_back(&self.scene.asked(), list, &mut [0; 8])
    }

    /// All four rooms zeroed, whole.
    pub fn clear(&mut self) {
        for room in &mut self.rooms {
            room.fill(0);
        }
    }

    /// Rooms and answer filled with what no search leaves, so that nothing an
    /// earlier search wrote can pass for this one's.
    pub fn spoil(&mut self) {
        for room in &mut self.rooms {
            room.fill(0xa5);
        }
        self.answer = [0xa5; 32];
        self.progress = [0xa5; 48];
    }

    /// Whether the last search, with this number, left what the original did:
    /// outcome and counts, list and node records byte for byte, with the doors
    /// that the oracle names, and the frontier and the index all zero.
    pub fn left(&self, number: u64, answer: &Answer) -> bool {
        let numbers = [
            answer.outcome as u64,
            answer.list.len() as u64,
            answer.nodes.len() as u64,
            answer.closed,
        ];
        let nodes: Vec<u8> = answer.nodes.iter().flat_map(|n| n.bytes()).collect();
        let list: Vec<u8> = answer.list.iter().flat_map(|p| p.bytes()).collect();
        number == answer.outcome as u64
            && self.answer == *numbers.map(u64::to_le_bytes).concat()
            && self.rooms[0].starts_with(&nodes)
            && self.rooms[1].iter().all(|&byte| byte == 0)
            && self.rooms[2].iter().all(|&byte| byte == 0)
            && self.rooms[3].starts_with(&list)
    }
}
