//! The original's policy: passages, permission bytes, jumps, `find_path`.

use scene::{Answer, Body, Request, Scene, Tables};

use crate::doors::doored;
use crate::entity::mob::ai::path::{self, PathBlockTable, WalkPolicy};
use crate::entity::navigation::NOTE;
use crate::entity::searched::{NavigationScratch, WalkNavigation, WalkPathRequest};
use crate::search::{World, answer, outcome, vector};

/// A walk policy; bit k of its number is the k-th field from `avoid_water`
/// on, the jump height apart.
#[derive(Debug, Clone, Copy, PartialEq)]
pub struct Policy {
    pub avoid_water: bool,
    pub avoid_damage_blocks: bool,
    pub can_jump: bool,
    pub can_pass_doors: bool,
    pub can_open_doors: bool,
    pub can_open_iron_doors: bool,
    pub door_breaker: bool,
    pub jump_height: f64,
}

impl Policy {
    /// The policy of a number below 128.
    pub fn numbered(number: u32, jump_height: f64) -> Self {
        let bit = |k: u32| number >> k & 1 == 1;
        Self {
            avoid_water: bit(0),
            avoid_damage_blocks: bit(1),
            can_jump: bit(2),
            can_pass_doors: bit(3),
            can_open_doors: bit(4),
            can_open_iron_doors: bit(5),
            door_breaker: bit(6),
            jump_height,
        }
    }

    fn original(&self) -> WalkPolicy {
        WalkPolicy {
            avoid_water: self.avoid_water,
            avoid_damage_blocks: self.avoid_damage_blocks,
            can_jump: self.can_jump,
            jump_height: self.jump_height,
            can_pass_doors: self.can_pass_doors,
            can_open_doors: self.can_open_doors,
            can_open_iron_doors: self.can_open_iron_doors,
            door_breaker: self.door_breaker,
        }
    }
}

/// The original's `door_passage`: 0 Shape, 1 Through, 2 Wall.
pub fn door_passage(policy: &Policy, flags: u8) -> u8 {
    path::passage_number(&policy.original(), flags)
}

/// A jump's height, or number 6.
#[derive(Debug, Clone, Copy, PartialEq)]
pub enum Apex {
    Height(f64),
    Endless,
}

/// The original's `jump_apex`, where it ends: an infinite power under finite
/// gravity above 0 stays infinite for ever.
pub fn jump_apex(power: f32, gravity: f64) -> Apex {
    if power == f32::INFINITY && gravity > 0.0 && gravity.is_finite() {
        return Apex::Endless;
    }
    Apex::Height(path::apex(power, gravity))
}

/// What the original's `find_path` is called with. The length of the tables'
/// permission bytes says which states are known; the bytes are not read.
pub struct Call<'a> {
    pub tables: &'a Tables,
    pub flags: &'a [u8],
    pub body: Body,
    pub policy: Policy,
    pub in_water: bool,
    pub start: [f64; 3],
    pub goal: [f64; 3],
}

/// What the original's `find_path` did.
pub struct Found {
    /// Whether it answered yes.
    pub found: bool,
    /// What it asked of the search.
    pub request: Request,
    /// The permission bytes of the states of the flag table.
    pub permissions: Vec<u8>,
    pub answer: Answer,
}

/// The original's `find_path`.
pub fn find_path(call: &Call) -> Found {
    let world = World::new(call.tables);
    world.enter();
    NOTE.set((call.flags.len() as u32, None));
    let mut scratch = NavigationScratch::default();
    let mut output = WalkNavigation::default();
    let found = path::find_path(
        &world,
        &PathBlockTable::of_flags(call.flags),
        &crate::search::body(&call.body),
        call.policy.original(),
        call.in_water,
        vector(call.start),
        vector(call.goal),
        &mut scratch,
        &mut output,
    );
    let (_, note) = NOTE.take();
    let note = note.expect("find_path calls the search");
    let asked = Scene {
        request: asked(note.request),
        body: call.body,
        tables: Tables {
            permissions: note.permissions,
            ..call.tables.clone()
        },
    };
    let answer = answer(outcome(note.outcome), &scratch, &output);
    Found {
        found,
        answer: doored(&asked, answer),
        request: asked.request,
        permissions: asked.tables.permissions,
    }
}

fn asked(request: WalkPathRequest) -> Request {
    Request {
        start: request.start.to_array(),
        goal: request.goal.to_array(),
        max_range: request.max_range,
        node_budget: request.node_budget as u64,
        step_height: request.step_height,
        jump_height: request.jump_height,
        max_drop: request.max_drop,
    }
}

/// The permission bytes that the original works out for a table of flags.
pub fn permission_bytes(policy: &Policy, in_water: bool, flags: &[u8]) -> Vec<u8> {
    let body = Body {
        width: 1.0,
        height: 1.0,
        step_height: 0.0,
    };
    let call = Call {
        tables: &Tables::default(),
        flags,
        body,
        policy: *policy,
        in_water,
        start: [0.0; 3],
        goal: [0.0; 3],
    };
    find_path(&call).permissions
}
