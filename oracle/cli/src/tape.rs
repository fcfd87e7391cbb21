//! The stored cases of the gate's program `replay_check`, and what it must
//! print: a digest of the original's answers for each. oracle/README.md
//! describes the layout.

use std::collections::VecDeque;
use std::fmt::Write;

use original::Checks;
use reading::Variant::ReadAsWritten;
use reading::{length, print};
use scene::{Partial, Scene};

use crate::row::{Row, bits};
use crate::trial::Trial;

/// Every number of the layout has two bytes.
fn number(n: usize) -> [u8; 2] {
    u16::try_from(n).expect("it fits two bytes").to_le_bytes()
}

/// The places of the sheet, as crates/replay_check/src/sheet.rt has them.
const KIND: usize = 256;
const SCENE: usize = 260;
const LIST: usize = 264;
const CELLS: usize = 268;
const ROOMS: [usize; 4] = [272, 276, 280, 284];
const FILL: usize = 288;
const COLUMN: usize = 292;
const SIDES: usize = 296;
const AFTER: usize = 300;
const FROM: usize = 308;
const TO: usize = 332;
const SHEET: usize = 356;

/// What is asked: two points, the list, a search.
const POINTS: usize = 0;
const WALK: usize = 1;
const SEARCH: usize = 2;

/// The largest sizes of the four tables.
const TABLES: [usize; 4] = [8 * 4096, 256, 8 * 256, 48 * 256];

/// All that is asked, in order, and what must be printed of it.
pub struct Tape {
    input: Vec<u8>,
    output: String,
    names: String,
    cases: usize,
    /// The scene's bytes and the sheet as the program holds them.
    held: [Vec<u8>; 2],
    /// The sheet of the next case.
    sheet: Vec<u8>,
    /// Scenes still to be printed, one with each case.
    printed: VecDeque<Vec<u8>>,
}

impl Tape {
    pub fn new(printed: Vec<Vec<u8>>) -> Self {
        Self {
            input: Vec::new(),
            output: String::new(),
            names: String::new(),
            cases: 0,
            held: [vec![0; 24_576], vec![0; SHEET]],
            sheet: vec![0; SHEET],
            printed: printed.into(),
        }
    }

    /// Some cases under one name.
    pub fn named(&mut self, name: &str, cases: impl FnOnce(&mut Self)) {
        let first = self.cases;
        cases(self);
        let _ = writeln!(self.names, "{first} {} {name}", self.cases - 1);
    }

    /// The program's input, its output, and the cases' names.
    pub fn files(self) -> [Vec<u8>; 3] {
        assert!(self.printed.is_empty(), "each scene has a case");
        let input = [&number(self.cases)[..], &self.input].concat();
        [input, self.output.into_bytes(), self.names.into_bytes()]
    }

    fn put(&mut self, at: usize, n: usize) {
        let n = u32::try_from(n).expect("it fits four bytes");
        self.sheet[at..at + 4].copy_from_slice(&n.to_le_bytes());
    }

    fn put_floats(&mut self, at: usize, numbers: &[f64]) {
        let bytes: Vec<u8> = numbers.iter().flat_map(|n| n.to_le_bytes()).collect();
        self.sheet[at..at + bytes.len()].copy_from_slice(&bytes);
    }

    /// A case: a scene, the sheet, and the answers to what it asks.
    fn case(&mut self, bytes: &[u8], answers: Row) {
        match self.printed.pop_front() {
            Some(scene) => {
                self.input.extend(number(scene.len() + 1));
                self.output
                    .push_str(&print(&original::verdict(&scene), ReadAsWritten));
                self.input.extend(scene);
            }
            None => self.input.extend(number(0)),
        }
        let sheet = self.sheet.clone();
        for (held, new) in self.held.iter_mut().zip([bytes, &sheet]) {
            self.input.extend(change(&held[..new.len()], new));
            held[..new.len()].copy_from_slice(new);
        }
        let _ = writeln!(self.output, "{:016x}", answers.0);
        self.cases += 1;
    }

    /// What reading answers and leaves in the tables.
    fn read(&mut self, bytes: &[u8]) -> Row {
        self.put(SCENE, bytes.len());
        let (partial, bad) = scene::read_partial(bytes);
        let mut row = Row(if bad.is_some() { 7 } else { 0 });
        row.take_words(&match bad {
            Some(bad) => [&bad.record.to_le_bytes()[..], &[0; 160]].concat(),
            None => record(&partial),
        });
        let raw = partial.tables.raw();
        for (size, made) in TABLES.into_iter().zip(raw.all()) {
            let mut table = vec![self.sheet[FILL]; size];
            table[..made.len()].copy_from_slice(made);
            row.take_words(&table);
        }
        row
    }

    /// A scene that is only read, if it is refused; a whole one is searched.
    pub fn ask_reader(&mut self, bytes: &[u8], fill: u8) {
        match scene::read(bytes) {
            Ok(scene) => {
                let trial = Trial {
                    more: 0,
                    short: 0,
                    index: |least| least,
                    fill,
                };
                self.ask_search(bytes, &scene, &trial);
            }
            Err(_) => {
                self.put(FILL, fill.into());
                let row = self.read(bytes);
                self.case(bytes, row);
            }
        }
    }

    /// Two points, with the first one's own column.
    pub fn ask_points(&mut self, bytes: &[u8], scene: &Scene, from: [f64; 3], to: [f64; 3]) {
        let centre = |x: f64| f64::from(x.floor() as i32) + 0.5;
        let [x, y, z] = from;
        let heights = Checks::new(scene).candidate_heights(centre(x), centre(z), y);
        self.put(COLUMN, 0);
        self.sheet[SIDES..SIDES + 4].fill(0);
        self.points(
            bytes,
            scene,
            from,
            to,
            true,
            heights.first(),
            f64::INFINITY,
            None,
        );
    }

    /// The nine columns around a point: each height with the next, the edge to
    /// it, and whether the graph looks at the column.
    pub fn ask_columns(&mut self, bytes: &[u8], scene: &Scene, from: [f64; 3]) {
        for (n, column) in Checks::new(scene).columns(from).into_iter().enumerate() {
            self.put(COLUMN, n);
            self.sheet[SIDES..SIDES + 4].copy_from_slice(&column.sides.map(u8::from));
            let heights: Vec<f64> = column.heights.iter().map(|(y, _)| *y).collect();
            let first = heights.first();
            let looked = column.looked;
            if first.is_none() {
                self.points(bytes, scene, from, from, looked, None, f64::INFINITY, None);
            }
            for (k, &y) in heights.iter().enumerate() {
                let to = [column.x, y, column.z];
                let next = heights.get(k + 1);
                self.points(bytes, scene, from, to, looked, first, y, next);
            }
        }
    }

    #[expect(clippy::too_many_arguments, reason = "a question and its answer")]
    fn points(
        &mut self,
        bytes: &[u8],
        scene: &Scene,
        from: [f64; 3],
        to: [f64; 3],
        looked: bool,
        first: Option<&f64>,
        after: f64,
        next: Option<&f64>,
    ) {
        self.put(KIND, POINTS);
        self.put_floats(AFTER, &[after]);
        self.put_floats(FROM, &from);
        self.put_floats(TO, &to);
        let mut row = self.read(bytes);
        let mut checks = Checks::new(scene);
        let [[a, b, c], [d, e, f]] = [from, to];
        row.take(looked.into());
        row.take(checks.in_range(from).into());
        row.take(checks.standable(from).into());
        row.take(checks.clear_area([a, b, c, d, e, f]).into());
        row.take(checks.door_in([a, b, c, d, e, f]));
        row.take(checks.supported_segment(from, to).into());
        row.take_check(checks.edge_check(from, to));
        row.take_connector(checks.connector(from));
        row.take_height(first.copied());
        row.take_height(next.copied());
        self.case(bytes, row);
    }

    /// Walk-backs of lists.
    pub fn ask_lists(&mut self, bytes: &[u8], scene: &Scene, lists: &[Vec<u8>]) {
        self.put(KIND, WALK);
        for list in lists {
            assert!(list.len() <= KIND, "a list fits the sheet");
            self.sheet[..list.len()].copy_from_slice(list);
            self.put(LIST, list.len());
            let mut row = self.read(bytes);
            row.take_walked(
                original::walk_back(scene, list),
                length(list, ReadAsWritten),
            );
            self.case(bytes, row);
        }
    }

    /// A search in the rooms of a trial.
    pub fn ask_search(&mut self, bytes: &[u8], scene: &Scene, trial: &Trial) {
        for (place, lent) in ROOMS.into_iter().zip(trial.lent(scene)) {
            self.put(place, lent);
        }
        let cells = scene.tables.raw().cells.len();
        self.put(KIND, SEARCH);
        self.put(CELLS, cells.saturating_sub(usize::from(trial.short == 4)));
        self.put(FILL, trial.fill.into());
        let mut row = self.read(bytes);
        trial.take(scene, &mut row);
        self.case(bytes, row);
    }
}

/// The shortest run in which two rows of bytes differ: its place, its length,
/// and the new one's bytes.
fn change(old: &[u8], new: &[u8]) -> Vec<u8> {
    let differs = |k: &usize| old[*k] != new[*k];
    let first = (0..new.len()).find(differs).unwrap_or(0);
    let end = (0..new.len()).rfind(differs).map_or(0, |k| k + 1);
    let run = &new[first..end];
    [&number(first)[..], &number(run.len()), run].concat()
}

/// A whole scene's record, as include/walkprint.h has it.
fn record(partial: &Partial) -> Vec<u8> {
    let ends = partial.ends.expect("a record of kind 1");
    let steps = partial.steps.expect("a record of kind 2");
    let body = steps.body;
    let window = partial.window.expect("a record of kind 3");
    let floats = |numbers: &[f64]| -> Vec<u8> {
        let all = numbers.iter().flat_map(|n| bits(*n).to_le_bytes());
        all.collect()
    };
    let mut out = floats(&[ends.start, ends.goal].concat());
    out.extend(floats(&[ends.max_range, steps.step_height]));
    out.extend(floats(&[steps.jump_height, steps.max_drop]));
    out.extend(ends.node_budget.to_le_bytes());
    out.extend(floats(&[body.width, body.height, body.step_height]));
    out.extend(window.origin.iter().flat_map(|n| n.to_le_bytes()));
    out.extend(window.sizes.iter().flat_map(|n| n.to_le_bytes()));
    let raw = partial.tables.raw();
    let sizes = raw.all().map(|table| table.len() as u64);
    out.extend(sizes.iter().flat_map(|n| n.to_le_bytes()));
    out
}
