//! The original search on scenes, and its checks one by one.

use scene::{Answer, Outcome, Refusal, Scene, Verdict, Waypoint};

use crate::doors::doored;
use crate::entity::components::PhysicsBody;
use crate::entity::searched::{
    self, NavigationScratch, WalkBlockRole, WalkNavigation, WalkPathOutcome, WalkPathRequest,
};
use crate::entity::systems::physics::BlockSource;
use crate::glam::{DVec3, IVec3};
use crate::registry::BlockRegistry;
use crate::registry::collision::Aabb;

/// A scene's world. A cell is not loaded outside the window, or if its shape
/// is not in the table.
pub(crate) struct World(BlockRegistry);

impl World {
    pub(crate) fn new(tables: &scene::Tables) -> Self {
        Self(BlockRegistry::new(tables.clone()))
    }

    /// To be called before each use of the original on this world.
    pub(crate) fn enter(&self) {
        self.0.enter();
    }

    fn permitted(&self, id: u32, role: WalkBlockRole) -> bool {
        let bit = match role {
            WalkBlockRole::Occupied => 1,
            WalkBlockRole::Support => 2,
            WalkBlockRole::Collides => 4,
        };
        self.0
            .get_by_runtime_id(id)
            .is_some_and(|byte| byte & bit != 0)
    }

    /// The state of a cell that is loaded, registered and does not collide, and
    /// whose voxel the area shares room with.
    pub(crate) fn passable(&self, [x, y, z]: [i32; 3], area: [f64; 6]) -> Option<u32> {
        let state = self.block_at(IVec3::new(x, y, z))?;
        self.0.get_by_runtime_id(state)?;
        let min = DVec3::new(x.into(), y.into(), z.into());
        let inside = Aabb::new(min, min + DVec3::ONE).intersects(&aabb(area));
        (inside && !self.permitted(state, WalkBlockRole::Collides)).then_some(state)
    }
}

impl BlockSource for World {
    fn block_at(&self, pos: IVec3) -> Option<u32> {
        let (state, shape) = self.0.cell(pos)?;
        ((shape as usize) < self.0.shapes.len()).then_some(state)
    }

    fn registry(&self) -> &BlockRegistry {
        &self.0
    }
}

pub(crate) fn vector([x, y, z]: [f64; 3]) -> DVec3 {
    DVec3::new(x, y, z)
}

fn aabb([a, b, c, d, e, f]: [f64; 6]) -> Aabb {
    Aabb::new(DVec3::new(a, b, c), DVec3::new(d, e, f))
}

fn numbers(area: Aabb) -> [f64; 6] {
    let ([a, b, c], [d, e, f]) = (area.min.to_array(), area.max.to_array());
    [a, b, c, d, e, f]
}

pub(crate) fn body(body: &scene::Body) -> PhysicsBody {
    PhysicsBody {
        width: body.width,
        height: body.height,
        step_height: body.step_height,
    }
}

fn request(request: &scene::Request) -> WalkPathRequest {
    WalkPathRequest {
        start: vector(request.start),
        goal: vector(request.goal),
        max_range: request.max_range,
        node_budget: request.node_budget as usize,
        step_height: request.step_height,
        jump_height: request.jump_height,
        max_drop: request.max_drop,
    }
}

pub(crate) fn outcome(outcome: WalkPathOutcome) -> Outcome {
    match outcome {
        WalkPathOutcome::Found => Outcome::Found,
        WalkPathOutcome::Unreachable => Outcome::Unreachable,
        WalkPathOutcome::BudgetExceeded => Outcome::BudgetExceeded,
    }
}

/// The original with its scratch and output, on one scene.
pub struct Navigator {
    world: World,
    body: PhysicsBody,
    request: WalkPathRequest,
    scratch: NavigationScratch,
    output: WalkNavigation,
}

impl Navigator {
    pub fn new(scene: &Scene) -> Self {
        Self {
            world: World::new(&scene.tables),
            body: body(&scene.body),
            request: request(&scene.request),
            scratch: NavigationScratch::default(),
            output: WalkNavigation::default(),
        }
    }

    /// The scratch and output of this one for another scene.
    pub fn turn_to(&mut self, scene: &Scene) {
        self.world = World::new(&scene.tables);
        self.body = body(&scene.body);
        self.request = request(&scene.request);
    }

    /// One search of the original, and nothing else.
    pub fn run(&mut self) -> Outcome {
        let world = &self.world;
        world.enter();
        outcome(searched::find_walk_path(
            world,
            &self.body,
            self.request,
            &mut self.scratch,
            &mut self.output,
            |id, role| world.permitted(id, role),
        ))
    }

    /// A search of its scene and what it left behind, with doors.
    pub fn answer(&mut self, scene: &Scene) -> Answer {
        let outcome = self.run();
        doored(scene, answer(outcome, &self.scratch, &self.output))
    }
}

/// What a search left behind, without doors.
pub(crate) fn answer(
    outcome: Outcome,
    scratch: &NavigationScratch,
    output: &WalkNavigation,
) -> Answer {
    let nodes = scratch.records();
    Answer {
        outcome,
        list: output
            .waypoints
            .iter()
            .copied()
            .map(searched::waypoint)
            .collect(),
        closed: nodes.iter().map(|node| u64::from(node.closed)).sum(),
        nodes,
    }
}

/// The original's answer to a scene, without 01's limits, with doors.
pub fn find_walk_path(scene: &Scene) -> Answer {
    Navigator::new(scene).answer(scene)
}

/// The original's `valid_request`.
pub fn valid_request(scene: &Scene) -> bool {
    searched::valid(&body(&scene.body), request(&scene.request))
}

/// What the search of document 01 answers to a scene's request, body and
/// tables: 3, then `valid_request`, then 4, then the original.
pub fn judge(scene: &Scene) -> Verdict {
    let refused = |number| Err(Refusal { number, record: 0 });
    if scene::bad_world(&scene.tables.raw()) {
        return refused(3);
    }
    if !valid_request(scene) {
        return Ok(Answer::unbegun(Outcome::Unreachable));
    }
    if scene::too_large(&scene.request, &scene.body) {
        return refused(4);
    }
    Ok(find_walk_path(scene))
}

/// What walkprint answers to these bytes.
pub fn verdict(bytes: &[u8]) -> Verdict {
    match scene::read(bytes) {
        Ok(scene) => judge(&scene),
        Err(bad) => Err(Refusal {
            number: 7,
            record: bad.record,
        }),
    }
}

/// A column around a point: its centre, the answers of the four sides before
/// it, whether the graph looks at it, and its heights with the edges to them.
pub struct Column {
    pub x: f64,
    pub z: f64,
    pub sides: [bool; 4],
    pub looked: bool,
    pub heights: Vec<(f64, Option<Waypoint>)>,
}

/// The original's checks on a scene, one call each.
pub struct Checks<'a> {
    pub(crate) scene: &'a Scene,
    pub(crate) world: World,
    body: PhysicsBody,
    request: WalkPathRequest,
    scratch: NavigationScratch,
}

macro_rules! ask {
    ($self:ident, $checks:ident => $call:expr) => {{
        let world = &$self.world;
        world.enter();
        #[allow(unused_mut)]
        let mut $checks = searched::Checks::new(
            world,
            &$self.body,
            $self.request,
            &mut $self.scratch,
            |id, role| world.permitted(id, role),
        );
        $call
    }};
}

impl<'a> Checks<'a> {
    pub fn new(scene: &'a Scene) -> Self {
        Self {
            scene,
            world: World::new(&scene.tables),
            body: body(&scene.body),
            request: request(&scene.request),
            scratch: NavigationScratch::default(),
        }
    }

    /// Forgets the blocks looked up so far.
    pub fn forget(&mut self) {
        self.scratch.forget();
    }

    pub fn in_range(&mut self, feet: [f64; 3]) -> bool {
        ask!(self, checks => checks.in_range(vector(feet)))
    }

    /// The area as min x, y, z, max x, y, z.
    pub fn clear_area(&mut self, area: [f64; 6]) -> bool {
        ask!(self, checks => checks.clear_area(aabb(area)))
    }

    pub fn standable(&mut self, feet: [f64; 3]) -> bool {
        ask!(self, checks => checks.standable(vector(feet)))
    }

    pub fn supported_segment(&mut self, from: [f64; 3], to: [f64; 3]) -> bool {
        ask!(self, checks => checks.supported_segment(vector(from), vector(to)))
    }

    pub fn candidate_heights(&mut self, x: f64, z: f64, from_y: f64) -> Vec<f64> {
        ask!(self, checks => checks.candidate_heights(x, z, from_y))
    }

    /// Each retained node of the scene's search with each height of the nine
    /// columns around it, to measure edges on.
    pub fn neighbours(&mut self, scene: &Scene) -> Vec<([f64; 3], [f64; 3])> {
        let mut out = Vec::new();
        for node in find_walk_path(scene).nodes {
            let from = node.point.feet;
            for column in 0..9 {
                let x = from[0].floor() + f64::from(column % 3 - 1) + 0.5;
                let z = from[2].floor() + f64::from(column / 3 - 1) + 0.5;
                let heights = self.candidate_heights(x, z, from[1]);
                out.extend(heights.iter().map(|&y| (from, [x, y, z])));
            }
        }
        out
    }

    /// The original's edge, with its door.
    pub fn edge(&mut self, from: [f64; 3], to: [f64; 3]) -> Option<Waypoint> {
        let point = self.bare_edge(from, to)?;
        let door = self.door(from, &point);
        Some(Waypoint { door, ..point })
    }

    /// The same without its door, to measure.
    pub fn bare_edge(&mut self, from: [f64; 3], to: [f64; 3]) -> Option<Waypoint> {
        ask!(self, checks => checks.edge(vector(from), vector(to)))
    }

    /// The edge, or the number of the first of its checks that fails (02, No.
    /// 3), each asked by itself. Whether there is an edge the original says; but
    /// a coordinate that is no finite number "differs from the start's by at
    /// most" nothing, where the original lets a NaN pass (docs/DIFFERENCES.md).
    pub fn edge_check(&mut self, from: [f64; 3], to: [f64; 3]) -> Result<Waypoint, u64> {
        let finite = from.iter().chain(&to).all(|n| n.is_finite());
        let edge = finite.then(|| self.edge(from, to)).flatten();
        match (self.reason(from, to), edge) {
            (None, Some(point)) => Ok(point),
            (Some(number), None) => Err(number),
            _ => panic!("the original's edge and its checks part: {from:?} to {to:?}"),
        }
    }

    /// The first check that fails: in order the height, target and raised point
    /// in range, the target standable, lift, crossing and settle clear, the
    /// segment supported.
    fn reason(&mut self, from: [f64; 3], to: [f64; 3]) -> Option<u64> {
        let lift = match self.lift(to[1] - from[1]) {
            Ok(lift) => lift,
            Err(number) => return Some(number),
        };
        let raised = [from[0], from[1] + lift, from[2]];
        for (number, feet) in [(103, to), (104, raised)] {
            if feet.iter().any(|n| n.is_nan()) || !self.in_range(feet) {
                return Some(number);
            }
        }
        if !self.standable(to) {
            return Some(105);
        }
        for (number, area) in (106..).zip(self.areas(from, lift, to)) {
            if !self.clear_area(area) {
                return Some(number);
            }
        }
        (!self.supported_segment(from, to)).then_some(109)
    }

    /// The lift by a difference in height, as the original's edge works it out,
    /// or 101 for too high, 102 for too deep.
    fn lift(&self, dy: f64) -> Result<f64, u64> {
        let step = self.request.step_height.min(self.body.step_height);
        let jump = self.request.jump_height;
        if dy > searched::E {
            match dy {
                _ if dy <= step + searched::E => Ok(dy),
                _ if dy <= jump + searched::E => Ok(jump),
                _ => Err(101),
            }
        } else if dy < -searched::E {
            match -dy > self.request.max_drop + searched::E {
                true => Err(102),
                false => Ok(0.0),
            }
        } else {
            Ok(dy.max(0.0))
        }
    }

    /// The body's box at a point.
    pub fn body_box(&self, feet: [f64; 3]) -> [f64; 6] {
        numbers(Aabb::from_feet(
            vector(feet),
            self.body.width,
            self.body.height,
        ))
    }

    /// The lift, crossing and settle areas of an edge with this lift, by the
    /// original's boxes.
    pub fn areas(&self, from: [f64; 3], lift: f64, to: [f64; 3]) -> [[f64; 6]; 3] {
        let (from, to) = (vector(from), vector(to));
        let at = |feet| Aabb::from_feet(feet, self.body.width, self.body.height);
        let raised = from + DVec3::Y * lift;
        let across = DVec3::new(to.x, raised.y, to.z);
        [
            at(from).expand_towards(DVec3::Y * lift),
            at(raised).expand_towards(across - raised),
            at(across).expand_towards(to - across),
        ]
        .map(numbers)
    }

    /// The nine columns around a point, in order, whether the graph looks at
    /// each, its heights and the edges to them. The original has no function
    /// for them: the loop is ours, its tables, heights and edges are the
    /// original's.
    pub fn columns(&mut self, from: [f64; 3]) -> Vec<Column> {
        let column = vector(from).floor().as_ivec3();
        let mut level = [false; 4];
        let mut out = Vec::new();
        for (n, (dx, dz)) in searched::EXPANSION.into_iter().enumerate() {
            let looked = n < 5 || {
                let (a, b) = searched::SIDES[n - 5];
                level[a] && level[b]
            };
            let x = f64::from(column.x + dx) + 0.5;
            let z = f64::from(column.z + dz) + 0.5;
            let sides = level;
            let mut heights = Vec::new();
            for y in self.candidate_heights(x, z, from[1]) {
                let edge = self.edge(from, [x, y, z]);
                if (1..=4).contains(&n) && edge.is_some() && y <= from[1] + searched::E {
                    level[n - 1] = true;
                }
                heights.push((y, edge));
            }
            out.push(Column {
                x,
                z,
                sides,
                looked,
                heights,
            });
        }
        out
    }

    /// The graph steps of a point, in order.
    pub fn steps(&mut self, from: [f64; 3]) -> Vec<Waypoint> {
        let columns = self.columns(from).into_iter();
        let looked = columns.filter(|column| column.looked);
        looked
            .flat_map(|column| column.heights)
            .filter_map(|(_, edge)| edge)
            .collect()
    }

    /// The connector: an edge to the goal with both horizontal differences at
    /// most 1.5.
    pub fn connector(&mut self, from: [f64; 3]) -> Option<Waypoint> {
        let goal = self.request.goal.to_array();
        let near = (from[0] - goal[0]).abs() <= 1.5 && (from[2] - goal[2]).abs() <= 1.5;
        if near { self.edge(from, goal) } else { None }
    }
}
