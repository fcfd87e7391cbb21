//! Looks for scenes that tell variants from the reading, makes them small and
//! writes them down.

use std::path::Path;

use reading::{VARIANTS, Variant, search};
use scene::{RECORD, Record, Scene, to_text};

use crate::compare::{self, parting};
use crate::draft::scene_of;
use crate::recipes::Recipe;
use crate::shrink::{shrink, weight};

/// Whether the scene tells the variant from the reading.
pub fn tells(scene: &Scene, variant: Variant) -> bool {
    let right = search(scene, Variant::ReadAsWritten);
    compare::tells(&right, &search(scene, variant), variant)
}

/// The best scene so far for a variant.
pub struct Quarry {
    pub variant: Variant,
    pub found: usize,
    pub best: Option<Vec<Record>>,
}

impl Quarry {
    pub fn new(variant: Variant) -> Self {
        Self {
            variant,
            found: 0,
            best: None,
        }
    }

    /// Takes a scene in if it tells the variant apart and is the smallest.
    pub fn offer(&mut self, records: &[Record], scene: &Scene) {
        if !tells(scene, self.variant) {
            return;
        }
        self.found += 1;
        let small = shrink(records.to_vec(), &|records| {
            scene_of(records).is_some_and(|scene| tells(&scene, self.variant))
        });
        if self
            .best
            .as_ref()
            .is_none_or(|best| weight(&small) < weight(best))
        {
            self.best = Some(small);
        }
    }

    /// Writes the scene under the variant's name, with what it shows.
    pub fn write(&self, folder: &Path) {
        if let Some(best) = &self.best {
            let file = folder.join(format!("{}.txt", self.variant.name()));
            std::fs::write(&file, page(best, self.variant)).expect("the folder can be written");
        }
    }
}

/// The text of a scene, headed by the sentence that it is about.
pub fn page(records: &[Record], variant: Variant) -> String {
    let [part, sentence, edit] = variant.about();
    let scene = scene_of(records).expect("a good scene");
    let right = search(&scene, Variant::ReadAsWritten);
    let wrong = search(&scene, variant);
    let [is, would_be] = parting(&right, &wrong, variant);
    format!(
        "# {part}: \"{sentence}\".\n# Misread: {edit}.\n# Right: {is}\n# Wrong: {would_be}\n{}",
        plain_text(records)
    )
}

/// The text of the records, with short forms for fills.
fn plain_text(records: &[Record]) -> String {
    let mut out = String::new();
    for record in records {
        let mut line = to_text(&record.bytes());
        if let Record::Fill { min, max, .. } = record {
            let (from, to) = line.split_once(" to ").unwrap_or((&line, ""));
            let content = to.find("state").map_or("", |at| &to[at..]);
            if is_whole(min, max, records) {
                line = format!("fill all {content}");
            } else if min == max {
                line = format!("{from} {content}");
            }
        }
        out.push_str(&line);
    }
    out
}

/// Whether the corners are the window's.
fn is_whole(min: &[i32; 3], max: &[i32; 3], records: &[Record]) -> bool {
    records.iter().any(|record| match record {
        Record::Window { origin, sizes } => (0..3).all(|axis| {
            let last = i64::from(origin[axis]) + i64::from(sizes[axis]) - 1;
            min[axis] == origin[axis] && i64::from(max[axis]) == last
        }),
        _ => false,
    })
}

/// Makes the scenes that were written by a hunt smaller again, and writes them
/// anew; those with words of their own stay.
pub fn tidy(folder: &Path) {
    for &variant in VARIANTS {
        let file = folder.join(format!("{}.txt", variant.name()));
        let Ok(text) = std::fs::read_to_string(&file) else {
            continue;
        };
        let comments = text.lines().filter(|line| line.contains('#')).count();
        let [part, sentence, edit] = variant.about();
        let head = format!("# {part}: \"{sentence}\".\n# Misread: {edit}.\n# Right");
        if comments != 4 || !text.starts_with(&head) {
            println!("{} has words of its own", variant.name());
            continue;
        }
        let bytes = scene::from_text(&text).expect("a scene's text");
        let records: Vec<Record> = bytes.chunks(RECORD).map(Record::from_bytes).collect();
        let mut quarry = Quarry::new(variant);
        quarry.offer(&records, &scene_of(&records).expect("a good scene"));
        quarry.write(folder);
    }
}

/// Offers random scenes until every variant was told apart `enough` times or
/// the scenes run out; writes after each find.
pub fn hunt(
    variants: &[Variant],
    seeds: std::ops::Range<u64>,
    enough: usize,
    make: &Recipe,
    folder: &Path,
) {
    let mut open: Vec<Quarry> = variants.iter().copied().map(Quarry::new).collect();
    for seed in seeds {
        let records = make(seed);
        let Some(scene) = scene_of(&records) else {
            continue;
        };
        for quarry in &mut open {
            let before = quarry.found;
            quarry.offer(&records, &scene);
            if quarry.found > before {
                quarry.write(folder);
            }
        }
        open.retain(|quarry| quarry.found < enough);
        if open.is_empty() {
            return;
        }
    }
    for quarry in open {
        println!(
            "{} was told apart {} times",
            quarry.variant.name(),
            quarry.found
        );
    }
}
