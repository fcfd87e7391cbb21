//! 01's section "Policy": permission bytes, the request of `find_path`, and
//! the jump apex.

use scene::{Body, Refusal, Request};

/// "The six flag bits are named once."
pub const WATER: u8 = 1;
pub const DAMAGING: u8 = 2;
pub const GRASS: u8 = 4;
pub const DOOR: u8 = 8;
pub const IRON_DOOR: u8 = 16;
pub const OPEN: u8 = 32;

/// How a body may walk.
#[derive(Debug, Clone, Copy, PartialEq)]
pub struct Policy {
    pub avoid_water: bool,
    pub avoid_damage_blocks: bool,
    pub can_jump: bool,
    pub jump_height: f64,
    pub can_pass_doors: bool,
    pub can_open_doors: bool,
    pub can_open_iron_doors: bool,
    pub door_breaker: bool,
}

/// How a search treats a state.
#[derive(Debug, Clone, Copy, PartialEq, Eq)]
pub enum Passage {
    /// As its shape.
    Shape,
    /// As if it were empty.
    Through,
    /// Never entered.
    Wall,
}

/// "Passage as `door_passage`." Only doors are special; a body that breaks no
/// doors opens them, or passes open ones, or is kept out; a breaker needs to
/// pass doors, passes open ones as they are, and crosses a closed one unless
/// it is of iron and those stay shut.
pub fn passage(policy: &Policy, flags: u8) -> Passage {
    let door = flags & DOOR != 0;
    let iron = flags & IRON_DOOR != 0;
    let open = flags & OPEN != 0;
    match (door, policy.door_breaker) {
        (false, _) => Passage::Shape,
        (true, false) if policy.can_open_doors => Passage::Through,
        (true, false) if policy.can_pass_doors => Passage::Shape,
        (true, false) => Passage::Wall,
        (true, true) if !policy.can_pass_doors => Passage::Wall,
        (true, true) if open => Passage::Shape,
        (true, true) if iron && !policy.can_open_iron_doors => Passage::Wall,
        (true, true) => Passage::Through,
    }
}

/// "Occupied: no forbidden flag and not Wall. Support: no forbidden flag.
/// Collides: not Through. WATER is forbidden if avoided and the body isn't in
/// it, DAMAGING if damage blocks are avoided."
pub fn permission(policy: &Policy, in_water: bool, flags: u8) -> u8 {
    let passage = passage(policy, flags);
    let forbidden = flags & WATER != 0 && policy.avoid_water && !in_water
        || flags & DAMAGING != 0 && policy.avoid_damage_blocks;
    let occupied = !forbidden && passage != Passage::Wall;
    let support = !forbidden;
    let collides = passage != Passage::Through;
    u8::from(occupied) + 2 * u8::from(support) + 4 * u8::from(collides)
}

/// "`find_path` asks range 16, budget 2,048, drop 3, the body's step, and the
/// policy's jump height or 0 if it can't jump."
pub fn find_path_request(policy: &Policy, body: &Body, start: [f64; 3], goal: [f64; 3]) -> Request {
    Request {
        start,
        goal,
        max_range: 16.0,
        node_budget: 2048,
        step_height: body.step_height,
        jump_height: if policy.can_jump {
            policy.jump_height
        } else {
            0.0
        },
        max_drop: 3.0,
    }
}

/// "It judges 8, fills the permission table": one byte a flag byte, or the
/// refusal where the tables' lengths differ.
pub fn fill_permissions(
    policy: &Policy,
    in_water: bool,
    flags: &[u8],
    permissions: &mut [u8],
) -> Result<(), Refusal> {
    if flags.len() != permissions.len() {
        return Err(Refusal {
            number: 8,
            record: 0,
        });
    }
    for (byte, &flags) in permissions.iter_mut().zip(flags) {
        *byte = permission(policy, in_water, flags);
    }
    Ok(())
}

/// "Only the jump apex, a call of its own, gives 6": the height of a jump, each
/// tick a move and then a velocity less gravity, times 0.98; 6 where "65,536
/// ticks don't bring the jump to rest".
pub fn jump_apex(power: f32, gravity: f64) -> Result<f64, Refusal> {
    let mut velocity = f64::from(power);
    let mut height = 0.0;
    for _ in 0..65_536 {
        if !(velocity > 0.0 && gravity > 0.0) {
            return Ok(height);
        }
        height += velocity;
        velocity = (velocity - gravity) * 0.98;
    }
    if velocity > 0.0 && gravity > 0.0 {
        return Err(Refusal {
            number: 6,
            record: 0,
        });
    }
    Ok(height)
}
