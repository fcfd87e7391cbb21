//! `crate::entity` as the original names it.

/// Stands in for the body's component: the three numbers that are read.
pub mod components {
    #[derive(Debug, Clone, Copy)]
    pub struct PhysicsBody {
        pub width: f64,
        pub height: f64,
        pub step_height: f64,
    }
}

/// Stands in for the goal controls that a constant names.
pub mod goal_selector {
    pub struct GoalControls;

    impl GoalControls {
        pub const MOVE: Self = Self;
        pub const LOOK: Self = Self;
        pub const JUMP: Self = Self;

        pub const fn union(self, _other: Self) -> Self {
            Self
        }
    }
}

/// Stands in for the world that is searched.
pub mod systems {
    pub mod physics {
        use crate::glam::IVec3;
        use crate::registry::BlockRegistry;
        use crate::registry::collision::Aabb;

        pub trait BlockSource {
            fn block_at(&self, pos: IVec3) -> Option<u32>;
            fn registry(&self) -> &BlockRegistry;
        }

        /// Named by the half of `path.rs` that is left out.
        pub fn collect_block_boxes(_: &impl BlockSource, _: Aabb, _: &mut Vec<Aabb>) {}

        /// Named by the half of `path.rs` that is left out.
        pub fn collides_with_blocks(_: &impl BlockSource, _: Aabb) -> bool {
            false
        }
    }
}

/// The original search, unchanged, and beside it what lets the rest of this
/// crate look into it.
#[allow(dead_code)]
pub mod searched {
    use crate::glam;

    include!(concat!(env!("OUT_DIR"), "/navigation.rs"));

    /// A zero lift's sign is open in the original; document 01 says +0.0. The
    /// original names no doors.
    pub fn waypoint(point: WalkWaypoint) -> scene::Waypoint {
        scene::Waypoint {
            feet: point.feet.to_array(),
            lift: if point.lift_height == 0.0 {
                0.0
            } else {
                point.lift_height
            },
            movement: match point.movement {
                WalkMovement::Walk => 0,
                WalkMovement::Step => 1,
                WalkMovement::Jump => 2,
                WalkMovement::Drop => 3,
            },
            door: scene::NO_DOOR,
        }
    }

    impl NavigationScratch {
        /// Forgets the blocks looked up so far, as a search does at its entry.
        pub fn forget(&mut self) {
            self.blocks.clear();
            self.boxes.clear();
        }

        /// The retained nodes in discovery order.
        pub fn records(&self) -> Vec<scene::NodeRecord> {
            let record = |node: &Node| scene::NodeRecord {
                point: waypoint(node.point),
                cost: node.cost,
                parent: node.parent.map_or(scene::NO_PARENT, |parent| parent as u32),
                closed: u32::from(node.closed),
            };
            self.nodes.iter().map(record).collect()
        }
    }

    pub fn valid(body: &PhysicsBody, request: WalkPathRequest) -> bool {
        valid_request(body, request)
    }

    pub const EXPANSION: [(i32, i32); 9] = NEIGHBOURS;
    pub const SIDES: [(usize, usize); 4] = DIAGONAL_SIDES;
    pub const E: f64 = EPSILON;

    /// The original's checks on a world, one call each.
    pub struct Checks<'a, B, P>(Search<'a, B, P>);

    impl<'a, B: BlockSource, P: Fn(u32, WalkBlockRole) -> bool> Checks<'a, B, P> {
        pub fn new(
            blocks: &'a B,
            body: &'a PhysicsBody,
            request: WalkPathRequest,
            scratch: &'a mut NavigationScratch,
            permitted: P,
        ) -> Self {
            Self(Search {
                blocks,
                body,
                request,
                scratch,
                permitted,
            })
        }

        pub fn in_range(&self, feet: DVec3) -> bool {
            self.0.in_range(feet)
        }

        pub fn clear_area(&mut self, area: Aabb) -> bool {
            self.0.clear_area(area)
        }

        pub fn standable(&mut self, feet: DVec3) -> bool {
            self.0.standable(feet)
        }

        pub fn supported_segment(&mut self, from: DVec3, to: DVec3) -> bool {
            self.0.supported_segment(from, to)
        }

        pub fn candidate_heights(&mut self, x: f64, z: f64, from_y: f64) -> Vec<f64> {
            self.0.candidate_heights(x, z, from_y);
            self.0.scratch.heights.clone()
        }

        pub fn edge(&mut self, from: DVec3, to: DVec3) -> Option<scene::Waypoint> {
            self.0.edge(from, to).map(waypoint)
        }
    }
}

/// What `path.rs` calls: the original search, and a note of what it was asked
/// and how it ended, so that the permissions which `path.rs` works out can be
/// read.
pub mod navigation {
    use std::cell::RefCell;

    use super::components::PhysicsBody;
    use super::searched;
    pub(crate) use super::searched::{
        NavigationScratch, WalkBlockRole, WalkNavigation, WalkPathOutcome, WalkPathRequest,
    };
    use super::systems::physics::BlockSource;

    /// One call of the search.
    pub(crate) struct Note {
        pub request: WalkPathRequest,
        /// The permission bytes of the states from 0 on.
        pub permissions: Vec<u8>,
        pub outcome: WalkPathOutcome,
    }

    thread_local! {
        /// How many states to note, and the last call.
        pub(crate) static NOTE: RefCell<(u32, Option<Note>)> = RefCell::default();
    }

    pub(crate) fn find_walk_path(
        blocks: &impl BlockSource,
        body: &PhysicsBody,
        request: WalkPathRequest,
        scratch: &mut NavigationScratch,
        output: &mut WalkNavigation,
        permitted: impl Fn(u32, WalkBlockRole) -> bool,
    ) -> WalkPathOutcome {
        let byte = |id| {
            u8::from(permitted(id, WalkBlockRole::Occupied))
                | u8::from(permitted(id, WalkBlockRole::Support)) << 1
                | u8::from(permitted(id, WalkBlockRole::Collides)) << 2
        };
        let states = NOTE.with_borrow(|(states, _)| *states);
        let permissions = (0..states).map(byte).collect();
        let outcome = searched::find_walk_path(blocks, body, request, scratch, output, permitted);
        let note = Note {
            request,
            permissions,
            outcome,
        };
        NOTE.set((states, Some(note)));
        outcome
    }
}

pub mod mob {
    /// The original's constants, unchanged.
    #[allow(dead_code)]
    pub mod constants {
        include!(concat!(env!("OUT_DIR"), "/constants.rs"));
    }

    /// Stands in for the component that a policy is made from.
    pub mod components {
        #[derive(Debug, Clone, Copy)]
        pub struct WalkNavigationConfig {
            pub avoid_water: bool,
            pub avoid_damage_blocks: bool,
            pub can_jump: bool,
            pub can_pass_doors: bool,
            pub can_open_doors: bool,
            pub can_open_iron_doors: bool,
        }
    }

    pub mod ai {
        /// The policy half of the original's `path.rs`, unchanged.
        #[allow(dead_code, unused_imports)]
        pub mod path {
            use crate::absent::{bevy_ecs, rand};
            use crate::glam;

            include!(concat!(env!("OUT_DIR"), "/path.rs"));

            impl PathBlockTable {
                pub fn of_flags(flags: &[u8]) -> Self {
                    Self {
                        flags: flags.to_vec(),
                    }
                }
            }

            /// The passage by number: 0 Shape, 1 Through, 2 Wall.
            pub fn passage_number(policy: &WalkPolicy, flags: u8) -> u8 {
                match door_passage(policy, flags) {
                    Passage::Shape => 0,
                    Passage::Through => 1,
                    Passage::Wall => 2,
                }
            }

            pub fn apex(power: f32, gravity: f64) -> f64 {
                jump_apex(power, gravity)
            }
        }
    }
}
