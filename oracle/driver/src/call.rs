//! What a server hands over, the rooms apart.

use scene::{Body, NODE, RawTables, Request, Scene, WAYPOINT, Walked, u64_at};
use walkprint::raw::{self, Asked, Lent};

use crate::sizes::{NODES, OUT, Sizes};

#[derive(Clone)]
pub struct Call {
    pub tables: RawTables,
    pub request: Request,
    pub body: Body,
}

impl Call {
    pub fn of(scene: &Scene) -> Self {
        Self {
            tables: scene.tables.raw(),
            request: scene.request,
            body: scene.body,
        }
    }

    /// What `ask` answers to it, all in bytes.
    pub fn ask<T>(&self, ask: impl FnOnce(&Asked) -> T) -> T {
        ask(&Asked {
            window: &self.tables.window.bytes(),
            tables: self.tables.all(),
            request: &self.request.bytes(),
            body: &self.body.bytes(),
        })
    }

    /// What the proved search answers in rooms of these sizes: its number, its
    /// list and its nodes.
    pub fn search(&self, sizes: Sizes) -> (u64, [Vec<u8>; 2]) {
        let mut rooms = sizes.map(|size| vec![0; size]);
        let mut answer = [0; 32];
        let [nodes, front, index, out] = rooms.each_mut().map(Vec::as_mut_slice);
        let lent = Lent {
            nodes,
            front,
            index,
            out,
            answer: &mut answer,
        };
        let number = self.ask(|asked| raw::find_walk_path(asked, lent));
        let [count, retained] = [8, 16].map(|at| u64_at(&answer, at) as usize);
        let list = rooms[OUT][..WAYPOINT * count].to_vec();
        let nodes = rooms[NODES][..NODE * retained].to_vec();
        (number, [list, nodes])
    }

    /// What the proved walk-back says of a list. Its place is read where its
    /// number is a pair's.
    pub fn walk_back(&self, list: &[u8]) -> Walked {
        let mut place = [0xff; 8];
        let number = self.ask(|asked| raw::walk_back(asked, list, &mut place));
        let is_pair = matches!(number, 101..=109 | 117 | 118);
        Walked {
            number,
            place: is_pair.then_some(u64::from_le_bytes(place)),
        }
    }

    /// The same as a scene, if the tables are not bad.
    pub fn whole(&self) -> Option<Scene> {
        (!scene::bad_world(&self.tables)).then(|| self.scene())
    }

    /// The same with the tables as numbers, for tables that are not bad.
    pub fn scene(&self) -> Scene {
        Scene {
            request: self.request,
            body: self.body,
            tables: self.tables.numbers(),
        }
    }
}
