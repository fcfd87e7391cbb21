//! The table: for each variant the scenes that tell it from the reading.

use std::path::Path;

use reading::{ASKED, Graph, LISTED, ROOMED, Rooms, VARIANTS, Variant, search, search_in};
use scene::{Scene, Verdict};

use crate::compare::{self, parting, same, shown_by};
use crate::doorways::doorways;
use crate::draft::{draft, scene_of};
use crate::lengths::noticed_after;

/// A scene with its name, its text and the reading's answer.
struct Judged {
    name: String,
    text: String,
    scene: Scene,
    right: Verdict,
}

impl Judged {
    fn new(name: String, text: String, scene: Scene) -> Self {
        let right = search(&scene, Variant::ReadAsWritten);
        Self {
            name,
            text,
            scene,
            right,
        }
    }

    fn tells(&self, variant: Variant) -> bool {
        compare::tells(&self.right, &search(&self.scene, variant), variant)
    }

    /// Whether the segment from start to goal is supported, by this variant.
    fn supported(&self, edit: Variant) -> bool {
        let scene = &self.scene;
        Graph { scene, edit }.supported(scene.request.start, scene.request.goal)
    }

    /// The rooms, a byte shorter than they must be in one place, with which a
    /// variant does not answer as the reading.
    fn short_room(&self, edit: Variant) -> Option<&'static str> {
        Rooms::short(self.scene.request.node_budget)
            .into_iter()
            .find(|(_, rooms)| {
                let [read, edited] =
                    [Variant::ReadAsWritten, edit].map(|edit| search_in(&self.scene, rooms, edit));
                !same(&read, &edited)
            })
            .map(|(name, _)| name)
    }

    /// Whether the original answers as the reading; says so if not.
    fn agrees(&self) -> bool {
        let original = original::judge(&self.scene);
        let agrees = same(&self.right, &original);
        if !agrees {
            let [ours, theirs] = parting(&self.right, &original, Variant::ReadAsWritten);
            let name = &self.name;
            println!("{name}: the reading says {ours}, the original {theirs}");
        }
        agrees
    }

    /// Whether the head of a variant's own scene gives the lines on which the
    /// answers part; says so if not.
    fn headed(&self, variant: Variant) -> bool {
        let wrong = search(&self.scene, variant);
        let [right, wrong] = parting(&self.right, &wrong, variant);
        let headed = [format!("# Right: {right}"), format!("# Wrong: {wrong}")]
            .iter()
            .all(|line| self.text.lines().any(|other| other == line));
        if !headed {
            let name = &self.name;
            println!("{name}: its head should say\n# Right: {right}\n# Wrong: {wrong}");
        }
        headed
    }
}

/// The good scenes of the folder, by name.
fn directed(folder: &Path) -> Vec<Judged> {
    let entries = std::fs::read_dir(folder).expect("the folder of scenes");
    let mut files: Vec<_> = entries
        .map(|entry| entry.expect("an entry").path())
        .filter(|path| path.extension().is_some_and(|end| end == "txt"))
        .collect();
    files.sort();
    files
        .into_iter()
        .filter_map(|file| {
            let name = file.file_stem()?.to_string_lossy().into_owned();
            let text = std::fs::read_to_string(&file).expect("a scene's text");
            let bytes = scene::from_text(&text).unwrap_or_else(|error| panic!("{name}: {error}"));
            Some(Judged::new(name, text, scene::read(&bytes).ok()?))
        })
        .collect()
}

/// The variants that no directed scene of their name tells from the reading. One
/// stair shows several variants of lengths, so for these any scene does.
pub fn survivors(folder: &Path) -> Vec<Variant> {
    let scenes = directed(folder);
    let told = |variant: Variant| {
        let mut own = scenes
            .iter()
            .filter(|judged| variant.is_of_lengths() || judged.name == variant.name());
        own.any(|judged| judged.tells(variant))
    };
    VARIANTS
        .iter()
        .copied()
        .filter(|&variant| !told(variant))
        .collect()
}

/// Prints the table; false if a variant survives the directed scenes, the
/// reading and the original part on one of them, or a scene's head is wrong.
pub fn table(folder: &Path, seed: u64, count: u64) -> bool {
    let scenes = directed(folder);
    let (directed, variants) = (scenes.len(), VARIANTS.len());
    println!("{directed} directed scenes, {variants} variants");
    let random = [draft, doorways].map(|recipe| -> Vec<Judged> {
        (seed..seed + count)
            .filter_map(|seed| scene_of(&recipe(seed)))
            .map(|scene| Judged::new(String::new(), String::new(), scene))
            .collect()
    });
    let mut good = scenes.iter().filter(|judged| !judged.agrees()).count() == 0;
    let mut survivors = 0;
    for &variant in VARIANTS {
        let random = &random[usize::from(variant.is_of_doors())];
        let (line, survives, headed) = row(variant, &scenes, random);
        println!("{line}");
        survivors += u32::from(survives);
        good &= headed;
    }
    let asked = ASKED
        .iter()
        .map(|&variant| (variant, asked(variant, &scenes)));
    let roomed = ROOMED
        .iter()
        .map(|&variant| (variant, roomed(variant, &scenes)));
    let listed = LISTED.iter().map(|&variant| (variant, listed(variant)));
    for (variant, shown) in asked.chain(roomed).chain(listed) {
        survivors += u32::from(shown.is_none());
        let shown = shown.unwrap_or("SURVIVES".to_string());
        println!("{}: {shown}", variant.name());
    }
    println!("{survivors} survive the directed scenes");
    good && survivors == 0
}

/// What tells a variant apart that only a question shows.
fn asked(variant: Variant, scenes: &[Judged]) -> Option<String> {
    let name = variant.name();
    let own = scenes.iter().find(|judged| judged.name == name)?;
    let tells = own.supported(variant) != own.supported(Variant::ReadAsWritten);
    tells
        .then(|| format!("scenes/directed/{name}.txt by asking whether start to goal is supported"))
}

/// What tells a variant apart that only a room shows.
fn roomed(variant: Variant, scenes: &[Judged]) -> Option<String> {
    let mut short = scenes
        .iter()
        .filter_map(|judged| Some((judged, judged.short_room(variant)?)));
    let (judged, room) = short.next()?;
    Some(format!(
        "scenes/directed/{}.txt with its {room} a byte short; {} directed",
        judged.name,
        1 + short.count()
    ))
}

/// What tells a variant apart that only the length of a list shows.
fn listed(variant: Variant) -> Option<String> {
    let lists = noticed_after(variant)?;
    Some(format!(
        "by lists that no search gives; after {lists} lists"
    ))
}

/// A variant's line, whether it survives, and whether its scene's head is
/// right.
fn row(variant: Variant, scenes: &[Judged], random: &[Judged]) -> (String, bool, bool) {
    let name = variant.name();
    let killers: Vec<&Judged> = scenes
        .iter()
        .filter(|judged| judged.tells(variant))
        .collect();
    let own = killers.iter().find(|judged| judged.name == name);
    let verdict = match own.or(killers.first()) {
        Some(judged) => {
            let shown = shown_by(&judged.right, &search(&judged.scene, variant));
            format!("scenes/directed/{}.txt by {shown}", judged.name)
        }
        None => "SURVIVES".to_string(),
    };
    let chance = random.iter().filter(|judged| judged.tells(variant)).count();
    let line = format!(
        "{name}: {verdict}; {} directed, {chance} of {} random",
        killers.len(),
        random.len()
    );
    let headed = own.is_none_or(|judged| judged.headed(variant));
    (line, killers.is_empty(), headed)
}
