//! A search in slices: what begin writes, in which order the calls judge, what is
//! answered when, that a refusal loses nothing, and that every division ends as the
//! whole search does, byte for byte, also in a thousand made worlds. Rooms and counts
//! that another hand changed are in `states`.

use walkprint::{
    Answer, Counts, Error, Outcome, Request, Search, Tick, WalkBack, front_bytes, index_bytes, nodes_bytes, out_bytes, raw,
};

use super::world::{G, S, UP, World, record};
use super::{BODY, NODE, REQUEST, ROOMS, WAYPOINT, is_zero, pattern, search_in};

/// The number of a search that has not ended, and of one that is not to be continued.
pub const SEARCHING: u64 = 100;
pub const BAD_PROGRESS: u64 = 12;

/// Retained, closed, pushed and dropped.
pub type FourCounts = [u64; 4];

/// What a search in slices is lent.
#[derive(Clone, Debug, PartialEq)]
pub struct Lent {
    pub nodes: Vec<u8>,
    pub front: Vec<u8>,
    pub out: Vec<u8>,
    pub progress: Vec<u8>,
}

impl Lent {
    /// Slices that are so much longer than a budget asks, filled with the pattern.
    pub fn new(budget: u64, longer: usize) -> Self {
        let budget = budget as usize;
        let [nodes, front, out, progress] =
            [nodes_bytes(budget), front_bytes(budget), out_bytes(budget), 48].map(|bytes| pattern(bytes + longer));
        Self { nodes, front, out, progress }
    }

    pub fn begin(&mut self, world: &World, request: &Request) -> u64 {
        let Self { nodes, front, out, progress } = self;
        world.asked(request, &BODY, |asked| raw::begin_search(asked, nodes, front, out, progress))
    }

    /// Goes on by the counts that the last call gave back.
    pub fn advance(&mut self, world: &World, request: &Request, expansions: u64) -> u64 {
        self.advance_by(self.counts(), world, request, expansions)
    }

    pub fn advance_by(&mut self, counts: FourCounts, world: &World, request: &Request, expansions: u64) -> u64 {
        let Self { nodes, front, out, progress } = self;
        world.asked(request, &BODY, |asked| raw::continue_search(counts, expansions, asked, nodes, front, out, progress))
    }

    /// Number, count, and the four counts.
    pub fn told(&self) -> [u64; 6] {
        [0, 1, 2, 3, 4, 5].map(|k| word(&self.progress, k))
    }

    pub fn counts(&self) -> FourCounts {
        let [_, _, retained, closed, pushed, dropped] = self.told();
        [retained, closed, pushed, dropped]
    }
}

/// The k-th u64.
fn word(bytes: &[u8], k: usize) -> u64 {
    u64::from_le_bytes(bytes[8 * k..][..8].try_into().expect("eight bytes"))
}

/// A search that is begun, in the shortest slices.
pub fn begun(world: &World, request: &Request) -> Lent {
    let mut lent = Lent::new(request.node_budget, 0);
    assert_eq!(lent.begin(world, request), SEARCHING);
    lent
}

fn with_budget(node_budget: u64) -> Request {
    Request { node_budget, ..REQUEST }
}

// ---- begin

#[test]
fn begin_retains_the_start() {
    // The start may be the goal: nothing is found yet.
    for request in [REQUEST, Request { goal: S, ..REQUEST }, with_budget(1)] {
        for longer in [0, 1, 7, 100] {
            let old = Lent::new(request.node_budget, longer);
            let mut lent = old.clone();
            assert_eq!(lent.begin(&World::flat(), &request), SEARCHING);
            // Its waypoint, cost 0, no parent, not closed.
            let start = [record(S, 0.0, 0), vec![0; 8], vec![0xff; 4], vec![0; 4]].concat();
            assert_eq!(lent.nodes, [&start, &old.nodes[NODE..]].concat());
            // Estimate 0, order 0, waiting.
            let waits = [0u64, 0, 1].map(u64::to_le_bytes).concat();
            assert_eq!(lent.front[..24], waits);
            assert!(is_zero(&lent.front[24..]));
            assert_eq!(lent.told(), [SEARCHING, 0, 1, 0, 1, 0]);
            assert_eq!((&lent.progress[48..], &lent.out), (&old.progress[48..], &old.out));
        }
    }
}

/// What begin answers, with nothing written.
fn not_begun(world: &World, request: &Request, old: &Lent) -> u64 {
    let mut lent = old.clone();
    let number = lent.begin(world, request);
    assert_eq!(&lent, old);
    number
}

/// Each with all that comes behind it wrong as well, as far as that can be.
#[test]
fn the_order_of_begin() {
    let (flat, bad, rooms, none) = (World::flat(), World::bad(), Lent::new(64, 0), Lent::new(0, 0));
    let lost = Request { start: [0.5, 1.5, 0.5], goal: [17.5, 1.0, 0.5], node_budget: 0, ..REQUEST };
    let wide = Request { max_range: 64.5, ..lost };
    let endless = Request { max_range: f64::NAN, node_budget: 4097, ..lost };
    let empty = Lent { out: Vec::new(), ..none.clone() };
    assert_eq!(not_begun(&bad, &endless, &empty), 3);
    assert_eq!(not_begun(&flat, &endless, &empty), 1);
    assert_eq!(not_begun(&flat, &wide, &empty), 4);
    assert_eq!(not_begun(&flat, &with_budget(4097), &empty), 4);
    assert_eq!(not_begun(&flat, &lost, &empty), 5);
    // Goal in range, start standable, goal standable; then the budget.
    assert_eq!(not_begun(&flat, &lost, &none), 1);
    assert_eq!(not_begun(&flat, &Request { goal: S, ..lost }, &none), 1);
    assert_eq!(not_begun(&flat, &Request { goal: UP, node_budget: 0, ..REQUEST }, &none), 1);
    assert_eq!(not_begun(&flat, &with_budget(0), &none), 2);
    assert_eq!(not_begun(&flat, &with_budget(0), &rooms), 2);
    // Where a search is begun, a room that is one byte short.
    assert_eq!(not_begun(&flat, &REQUEST, &Lent { nodes: pattern(64 * 64 - 1), ..rooms.clone() }), 5);
    assert_eq!(not_begun(&flat, &REQUEST, &Lent { front: pattern(24 * 64 - 1), ..rooms.clone() }), 5);
    assert_eq!(not_begun(&flat, &REQUEST, &Lent { out: pattern(48 * 65 - 1), ..rooms.clone() }), 5);
}

// ---- which call answers what

/// A search by such lots: what each call told. After the end, one call more is 12.
fn by_lots(world: &World, request: &Request, lots: &[u64]) -> Vec<[u64; 6]> {
    let mut lent = begun(world, request);
    let mut told = Vec::new();
    for &lot in lots {
        let number = lent.advance(world, request, lot);
        assert_eq!(lent.told()[0], number);
        told.push(lent.told());
    }
    if told.last().is_some_and(|told| told[0] != SEARCHING) {
        let ended = lent.clone();
        assert_eq!(lent.advance(world, request, 1), BAD_PROGRESS);
        assert_eq!(lent, ended);
    }
    told
}

#[test]
fn the_end_is_told_by_the_call_that_comes_to_it() {
    let (flat, wall) = (World::flat(), World::barrier(2));
    assert_eq!(by_lots(&flat, &REQUEST, &[1, 1]), [[SEARCHING, 0, 9, 1, 9, 0], [0, 3, 9, 2, 9, 0]]);
    assert_eq!(by_lots(&flat, &REQUEST, &[4096]), [[0, 3, 9, 2, 9, 0]]);
    assert_eq!(by_lots(&flat, &REQUEST, &[2]), [[0, 3, 9, 2, 9, 0]]);
    assert_eq!(by_lots(&flat, &with_budget(1), &[1]), [[2, 0, 1, 1, 1, 8]]);
    assert_eq!(by_lots(&flat, &with_budget(2), &[1, 1]), [[SEARCHING, 0, 2, 1, 2, 7], [0, 3, 2, 2, 2, 7]]);
    assert_eq!(by_lots(&flat, &Request { goal: S, ..REQUEST }, &[1]), [[0, 1, 1, 1, 1, 0]]);
    // The wall: fifteen closings, and nothing waits after the last.
    let told = by_lots(&wall, &REQUEST, &[1; 15]);
    assert!(told[..14].iter().all(|told| told[..2] == [SEARCHING, 0]));
    assert_eq!(told[14], [1, 0, 15, 15, 15, 0]);
    assert_eq!(by_lots(&wall, &REQUEST, &[14]), [[SEARCHING, 0, 15, 14, 15, 0]]);
    assert_eq!(by_lots(&wall, &REQUEST, &[14, 1])[1], [1, 0, 15, 15, 15, 0]);
    let told = by_lots(&wall, &REQUEST, &[3, 1, 7, 2, 64]);
    assert_eq!((told[3][0], told[3][3], told[4]), (SEARCHING, 13, [1, 0, 15, 15, 15, 0]));
    let told = by_lots(&wall, &with_budget(14), &[1; 14]);
    assert_eq!((told[12][0], told[13]), (SEARCHING, [2, 0, 14, 14, 14, 3]));
}

// ---- every division ends as the whole search

/// The whole search in rooms that are filled with the pattern, and what continue's
/// progress has of its answer: number, count, retained and closed.
fn whole(world: &World, request: &Request) -> (Lent, [u64; 4]) {
    let mut rooms = Lent::new(request.node_budget, 0);
    let (mut index, mut answer) = (pattern(index_bytes(request.node_budget as usize)), [0; 32]);
    let Lent { nodes, front, out, .. } = &mut rooms;
    let lent = raw::Lent { nodes, front, index: &mut index, out, answer: &mut answer };
    let number = world.asked(request, &BODY, |asked| raw::find_walk_path(asked, lent));
    let told = [0, 1, 2, 3].map(|k| word(&answer, k));
    assert_eq!(told[0], number);
    (rooms, told)
}

/// A search by lots ends as the whole one, in every byte: that one's number.
fn divided(world: &World, request: &Request, mut lot: impl FnMut() -> u64) -> u64 {
    let (rooms, told) = whole(world, request);
    let mut lent = Lent::new(request.node_budget, 0);
    let mut number = lent.begin(world, request);
    if number == SEARCHING {
        while number == SEARCHING {
            number = lent.advance(world, request, lot());
        }
        assert_eq!(lent.told()[..4], told);
        assert!(lent.told()[3] <= request.node_budget);
    }
    assert_eq!(number, told[0]);
    assert_eq!([lent.nodes, lent.front, lent.out], [rooms.nodes, rooms.front, rooms.out]);
    number
}

#[test]
fn every_division_ends_as_the_whole_search() {
    let worlds = [World::flat(), World::wall(), World::gap(), World::barrier(1), World::barrier(2), World::ledge()];
    let jumper = Request { jump_height: 1.25, ..REQUEST };
    let mut ends = [0; 3];
    for world in &worlds {
        for budget in [1, 2, 5, 9, 14, 15, 20, 64] {
            for request in [with_budget(budget), Request { node_budget: budget, ..jumper }] {
                for lot in (1..=16).chain([64, 4096]) {
                    ends[divided(world, &request, || lot) as usize] += 1;
                }
                for first in 1..=16 {
                    let mut lots = [first, 1, 3].into_iter().chain(std::iter::repeat(2));
                    divided(world, &request, || lots.next().expect("there is no last one"));
                }
            }
        }
    }
    assert!(ends.iter().all(|&ends| ends >= 100), "{ends:?}");
}

/// SplitMix64.
struct Random(u64);

impl Random {
    fn below(&mut self, n: u64) -> u64 {
        self.0 = self.0.wrapping_add(0x9e37_79b9_7f4a_7c15);
        let z = (self.0 ^ (self.0 >> 30)).wrapping_mul(0xbf58_476d_1ce4_e5b9);
        let z = (z ^ (z >> 27)).wrapping_mul(0x94d0_49bb_1331_11eb);
        (z ^ (z >> 31)) % n
    }

    fn one_of<T: Copy>(&mut self, among: &[T]) -> T {
        among[self.below(among.len() as u64) as usize]
    }
}

/// The flat scene with blocks, slabs, doors and holes.
fn made_world(random: &mut Random) -> World {
    let mut world = World::new(6).permitting(&[7, 7, 3]).shaped([1.0, 0.5, 1.0]);
    for _ in 0..random.below(40) {
        let [x, z] = [random.below(7) as i32 - 2, random.below(5) as i32 - 2];
        let (y, state, shape) = random.one_of(&[(0, 0, 0), (1, 1, 1), (1, 1, 2), (1, 2, 1), (2, 1, 1), (2, 1, 2), (3, 1, 1)]);
        world = world.with([x, y, z], state, shape);
    }
    // Where the ends mostly are, there is ground, and room above it.
    [0, 2].into_iter().fold(world, |world, x| world.stone([x, 0, 0]).air([x, 1, 0]).air([x, 2, 0]))
}

#[test]
fn a_thousand_made_worlds() {
    let random = &mut Random(10);
    let mut ends = [0; 3];
    for _ in 0..1000 {
        let world = made_world(random);
        let request = Request {
            goal: random.one_of(&[G, G, [2.25, 1.0, 0.75], [4.5, 1.0, -1.5], S]),
            max_range: random.one_of(&[16.0, 3.0, 2.0]),
            jump_height: random.one_of(&[0.0, 1.25]),
            node_budget: random.one_of(&[1, 3, 8, 20, 64]),
            ..REQUEST
        };
        for most in [1, 4, 30] {
            ends[divided(&world, &request, || 1 + random.below(most)) as usize] += 1;
        }
    }
    assert!(ends.iter().all(|&ends| ends >= 300), "{ends:?}");
}

/// Slices that are longer than the budget asks keep their bytes; the frontier does so
/// while the search goes on, and at its end is zero to its own end.
#[test]
fn what_lies_past_the_records() {
    for (world, end) in [(World::barrier(1), [0, 7, 20, 11]), (World::barrier(2), [1, 0, 15, 15])] {
        for longer in [0, 1, 23, 24, 100] {
            let (mut lent, old) = (Lent::new(64, longer), Lent::new(64, longer));
            assert_eq!(lent.begin(&world, &REQUEST), SEARCHING);
            // Past the retained nodes a record may hold anything that does not wait.
            lent.front[24 * 60..].copy_from_slice(&old.front[24 * 60..]);
            assert_eq!(lent.advance(&world, &REQUEST, 4), SEARCHING);
            assert_eq!(lent.front[24 * 60..], old.front[24 * 60..]);
            let kept = |lent: &Lent| {
                let [_, count, retained, ..] = lent.told().map(|n| n as usize);
                assert_eq!(lent.nodes[NODE * retained..], old.nodes[NODE * retained..]);
                assert_eq!(lent.out[WAYPOINT * count..], old.out[WAYPOINT * count..]);
                assert_eq!(lent.progress[48..], old.progress[48..]);
            };
            kept(&lent);
            lent.advance(&world, &REQUEST, 4096);
            assert_eq!(lent.told()[..4], end);
            assert!(is_zero(&lent.front));
            kept(&lent);
        }
    }
}

/// The output is no part of the search: it is another one in each call.
#[test]
fn the_output_is_written_at_the_end_alone() {
    let world = World::barrier(1);
    let mut lent = begun(&world, &REQUEST);
    for longer in 0..10 {
        lent.out = pattern(out_bytes(64) + longer);
        assert_eq!(lent.advance(&world, &REQUEST, 1), SEARCHING);
        assert_eq!(lent.out, pattern(out_bytes(64) + longer));
    }
    lent.out = pattern(out_bytes(64));
    assert_eq!(lent.advance(&world, &REQUEST, 1), 0);
    assert_eq!(lent.out, whole(&world, &REQUEST).0.out);
}

/// Too short for its record, it is untouched, and the number is returned all the same.
#[test]
fn a_progress_of_any_length() {
    let (flat, wall) = (World::flat(), World::barrier(2));
    for length in 0..100 {
        let mut lent = Lent { progress: pattern(length), ..Lent::new(64, 0) };
        let must = |words: [u64; 6]| {
            let mut bytes = pattern(length);
            if length >= 48 {
                bytes[..48].copy_from_slice(&words.map(u64::to_le_bytes).concat());
            }
            bytes
        };
        assert_eq!(lent.begin(&wall, &REQUEST), SEARCHING);
        assert_eq!(lent.progress, must([SEARCHING, 0, 1, 0, 1, 0]));
        assert_eq!(lent.advance_by([1, 0, 1, 0], &wall, &REQUEST, 14), SEARCHING);
        assert_eq!(lent.progress, must([SEARCHING, 0, 15, 14, 15, 0]));
        assert_eq!(lent.advance_by([15, 14, 15, 0], &wall, &REQUEST, 9), 1);
        assert_eq!(lent.progress, must([1, 0, 15, 15, 15, 0]));
        assert_eq!(lent.begin(&flat, &REQUEST), SEARCHING);
        assert_eq!(lent.advance_by([1, 0, 1, 0], &flat, &REQUEST, 4096), 0);
        assert_eq!(lent.progress, must([0, 3, 9, 2, 9, 0]));
    }
}

// ---- refusals

/// What continue answers, with nothing written.
fn refused(lent: &Lent, world: &World, request: &Request, expansions: u64) -> u64 {
    let mut after = lent.clone();
    let number = after.advance(world, request, expansions);
    assert_eq!(&after, lent);
    number
}

/// Each with all that comes behind it wrong as well; the ends and the budget of 0
/// are not judged.
#[test]
fn the_order_of_continue() {
    let (flat, bad) = (World::flat(), World::bad());
    let mut lent = begun(&flat, &REQUEST);
    assert_eq!(lent.advance(&flat, &REQUEST, 1), SEARCHING);
    let short = Lent { out: pattern(48 * 65 - 1), ..lent.clone() };
    let wide = Request { max_range: 65.0, ..REQUEST };
    let endless = Request { max_range: f64::NAN, node_budget: 4097, ..REQUEST };
    assert_eq!(refused(&short, &bad, &endless, 0), 3);
    assert_eq!(refused(&short, &flat, &endless, 0), 1);
    assert_eq!(refused(&short, &flat, &wide, 0), 4);
    assert_eq!(refused(&short, &flat, &with_budget(4097), 0), 4);
    assert_eq!(refused(&short, &flat, &REQUEST, 0), 5);
    assert_eq!(refused(&Lent { nodes: lent.nodes[..64 * 64 - 1].to_vec(), ..lent.clone() }, &flat, &REQUEST, 0), 5);
    assert_eq!(refused(&Lent { front: lent.front[..24 * 64 - 1].to_vec(), ..lent.clone() }, &flat, &REQUEST, 0), 5);
    assert_eq!(refused(&lent, &flat, &REQUEST, 0), BAD_PROGRESS);
    // Budget 0: 12, behind 5.
    assert_eq!(refused(&Lent { out: pattern(47), ..lent.clone() }, &flat, &with_budget(0), 1), 5);
    assert_eq!(refused(&lent, &flat, &with_budget(0), 1), BAD_PROGRESS);
}

/// In the middle of a search each refusal in turn, and then it ends as it would have.
#[test]
fn a_refusal_loses_nothing() {
    let world = World::barrier(1);
    let mut lent = begun(&world, &REQUEST);
    let wide = Request { max_range: 65.0, ..REQUEST };
    let endless = Request { max_range: f64::NAN, ..REQUEST };
    while lent.counts()[1] < 10 {
        assert_eq!(lent.advance(&world, &REQUEST, 1), SEARCHING);
        let mut again = lent.clone();
        assert_eq!(again.advance(&World::bad(), &REQUEST, 1), 3);
        assert_eq!(again.advance(&world, &endless, 1), 1);
        assert_eq!(again.advance(&world, &wide, 1), 4);
        for expansions in [0, 4097, u64::MAX] {
            assert_eq!(again.advance(&world, &REQUEST, expansions), BAD_PROGRESS);
        }
        again.out.pop();
        assert_eq!(again.advance(&world, &REQUEST, 1), 5);
        again.out = lent.out.clone();
        assert_eq!(again, lent);
        lent = again;
    }
    assert_eq!(lent.advance(&world, &REQUEST, 1), 0);
    let (rooms, told) = whole(&world, &REQUEST);
    assert_eq!((lent.told()[..4].to_vec(), lent.nodes, lent.out), (told.to_vec(), rooms.nodes, rooms.out));
}

/// 1 of an invalid request leaves 100 in the progress; 1 of the end stands there.
#[test]
fn one_says_two_things() {
    let wall = World::barrier(2);
    let endless = Request { max_range: f64::INFINITY, ..REQUEST };
    let mut lent = begun(&wall, &REQUEST);
    assert_eq!((lent.advance(&wall, &endless, 4096), lent.told()[0]), (1, SEARCHING));
    assert_eq!((lent.advance(&wall, &endless, 4096), lent.told()[0]), (1, SEARCHING));
    assert_eq!((lent.advance(&wall, &REQUEST, 4096), lent.told()[0]), (1, 1));
    assert_eq!((lent.advance(&wall, &REQUEST, 4096), lent.told()[0]), (BAD_PROGRESS, 1));
}

// ---- a Search

fn search<'a>(world: &'a World, request: &Request) -> Search<'a> {
    Search::begin(&world.tables(), request, &BODY).expect("no refusal").expect("a search")
}

#[test]
fn a_search_is_begun_or_answered() {
    let begin = |world: &World, request: &Request| {
        Search::begin(&world.tables(), request, &BODY).map(|begun| begun.map(|search| search.counts()))
    };
    let flat = World::flat();
    assert_eq!(begin(&flat, &REQUEST), Ok(Ok(Counts { retained: 1, closed: 0, pushed: 1, dropped: 0 })));
    assert_eq!(begin(&World::bad(), &REQUEST), Err(Error::BadWorld));
    assert_eq!(begin(&flat, &with_budget(4097)), Err(Error::TooLarge));
    assert_eq!(begin(&flat, &with_budget(u64::MAX)), Err(Error::TooLarge));
    for bad in [Request { goal: UP, ..REQUEST }, Request { max_range: -1.0, ..REQUEST }] {
        assert_eq!(begin(&flat, &bad), Ok(Err(Outcome::Unreachable)));
    }
    assert_eq!(begin(&flat, &with_budget(0)), Ok(Err(Outcome::BudgetExceeded)));
}

#[test]
fn a_search_goes_on_to_its_end() {
    let world = World::barrier(1);
    let mut search = search(&world, &REQUEST);
    for closed in [3, 6, 9] {
        let Ok(Tick::Searching(counts)) = search.advance(3) else { panic!("it has not ended") };
        assert_eq!((counts.closed, counts), (closed, search.counts()));
        assert!(search.list().is_empty() && search.list_records().is_empty());
        assert_eq!(search.node_records().len(), NODE * counts.retained);
        for expansions in [0, 4097, u64::MAX] {
            assert_eq!(search.advance(expansions), Err(Error::BadProgress));
            assert_eq!(search.counts(), counts);
        }
    }
    assert_eq!(search.advance(3), Ok(Tick::Ended(Answer { outcome: Outcome::Found, count: 7, retained: 20, closed: 11 })));
    let (rooms, _) = whole(&world, &REQUEST);
    assert_eq!(search.list_records(), &rooms.out[..WAYPOINT * 7]);
    assert_eq!(search.node_records(), &rooms.nodes[..NODE * 20]);
    assert_eq!(walkprint::walk_back(&world.tables(), &REQUEST, &BODY, search.list_records()), Ok(WalkBack::Yes));
    assert_eq!((search.list().len(), search.list()[0].feet, search.list()[6].feet), (7, S, G));
    // It has ended, and stays as it is.
    for expansions in [1, 4096] {
        assert_eq!(search.advance(expansions), Err(Error::BadProgress));
        assert_eq!((search.list().len(), search.counts().closed), (7, 11));
    }
}

#[test]
fn a_search_without_a_list() {
    let world = World::barrier(2);
    for (budget, outcome) in [(64, Outcome::Unreachable), (14, Outcome::BudgetExceeded)] {
        let request = with_budget(budget);
        let mut search = search(&world, &request);
        let (answer, [nodes, ..]) = search_in(&world.tables(), &request, ROOMS.map(pattern));
        let whole = answer.expect("no refusal");
        assert_eq!((whole.outcome, search.advance(4096)), (outcome, Ok(Tick::Ended(whole))));
        assert_eq!((search.list(), search.list_records()), (vec![], &[][..]));
        assert_eq!(search.node_records(), &nodes[..NODE * whole.retained]);
    }
}

/// A copy is a search of its own.
#[test]
fn two_searches_side_by_side() {
    let world = World::barrier(1);
    let mut one = search(&world, &REQUEST);
    assert!(matches!(one.advance(5), Ok(Tick::Searching(_))));
    let mut two = one.clone();
    let Ok(Tick::Ended(end)) = one.advance(6) else { panic!("it has ended") };
    assert!(matches!(two.advance(5), Ok(Tick::Searching(_))));
    assert_eq!(two.advance(1), Ok(Tick::Ended(end)));
    assert_eq!((one.list(), one.node_records()), (two.list(), two.node_records()));
}
