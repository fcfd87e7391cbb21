//! `crate::registry` as the original names it: the boxes are its own, the
//! registry and the block data stand in for it.

use std::cell::RefCell;
use std::rc::Rc;

use scene::Tables;

use self::collision::Aabb;
use crate::glam::{DVec3, IVec3};

/// Stands in for the registry: the tables of a scene. A state is registered
/// if it has a permission byte.
#[derive(Default)]
pub struct BlockRegistry {
    pub tables: Option<Tables>,
    /// Each shape's boxes.
    pub shapes: Rc<Vec<Vec<Aabb>>>,
}

thread_local! {
    /// The shapes of the world that is being searched: the original's
    /// `block_collision_boxes` is handed a number and no world.
    static SHAPES: RefCell<Rc<Vec<Vec<Aabb>>>> = RefCell::default();
}

impl BlockRegistry {
    pub fn new(tables: Tables) -> Self {
        let shapes = tables
            .shapes
            .iter()
            .map(|&(first, count)| {
                let run = &tables.boxes[first as usize..][..count as usize];
                run.iter()
                    .map(|&[a, b, c, d, e, f]| Aabb::new(DVec3::new(a, b, c), DVec3::new(d, e, f)))
                    .collect()
            })
            .collect();
        Self {
            tables: Some(tables),
            shapes: Rc::new(shapes),
        }
    }

    /// Makes this world's shapes the ones that are looked up.
    pub fn enter(&self) {
        SHAPES.set(self.shapes.clone());
    }

    pub fn get_by_runtime_id(&self, id: u32) -> Option<u8> {
        let tables = self.tables.as_ref()?;
        tables.permissions.get(id as usize).copied()
    }

    /// State and shape of the cell at `pos`, if the window holds it.
    pub fn cell(&self, pos: IVec3) -> Option<(u32, u32)> {
        let tables = self.tables.as_ref()?;
        let place = [pos.x, pos.y, pos.z];
        let mut local = [0; 3];
        for axis in 0..3 {
            let offset = i64::from(place[axis]) - i64::from(tables.window.origin[axis]);
            if offset < 0 || i64::from(tables.window.sizes[axis]) <= offset {
                return None;
            }
            local[axis] = offset as usize;
        }
        let [width, _, depth] = tables.window.sizes.map(|size| size as usize);
        Some(tables.cells[local[0] + width * (local[2] + depth * local[1])])
    }

    /// No entry: flag tables are given, not worked out from block names.
    pub fn iter(&self) -> std::slice::Iter<'_, block::BlockEntry> {
        [].iter()
    }

    pub fn liquid_state(&self, _id: u32) -> Option<block::LiquidState> {
        None
    }
}

/// Block data, of which none is here.
pub mod block {
    pub struct BlockEntry {
        pub string_id: String,
        pub min_state_id: u32,
        pub max_state_id: u32,
    }

    impl BlockEntry {
        pub fn state_value(&self, _id: u32, _name: &str) -> Option<StateValue> {
            None
        }
    }

    #[derive(PartialEq, Eq)]
    pub enum StateValue {
        Byte(u8),
    }

    pub struct LiquidState {
        pub kind: LiquidKind,
    }

    #[allow(dead_code)]
    pub enum LiquidKind {
        Water,
        Lava,
    }
}

/// The original's boxes, then the two lookups that stand in for its block
/// shapes.
#[allow(dead_code, unused_imports)]
pub mod collision {
    use super::SHAPES;
    use crate::absent::unastar_data;
    use crate::glam;

    include!(concat!(env!("OUT_DIR"), "/collision.rs"));

    /// The shape number of the cell at `pos`, whatever its neighbours.
    pub fn connected_state(
        registry: &BlockRegistry,
        pos: IVec3,
        _state: u32,
        _block_at: impl Fn(IVec3) -> Option<u32>,
    ) -> u32 {
        registry.cell(pos).map_or(0, |(_, shape)| shape)
    }

    /// The boxes of a shape number.
    pub fn block_collision_boxes(shape: u32, out: &mut Vec<Aabb>) {
        SHAPES.with_borrow(|shapes| {
            if let Some(boxes) = shapes.get(shape as usize) {
                out.extend_from_slice(boxes);
            }
        });
    }
}
