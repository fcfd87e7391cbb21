//! Directed calls of begin and continue: `mutants/src/tick_cases.rs`.

use mutants::chance::Chance;
use mutants::tick_cases;
use reading::Tick;
use scene::Scene;

use crate::call::Call;
use crate::counts::Counts;
use crate::tick::compared;

pub fn all() -> bool {
    let mut counts = Counts::default();
    let mut strips = Chance::new(0);
    let mut answers = |scene: &Scene, asked: Tick, lent| {
        let call = Call::of(scene);
        compared(&call, scene, asked, lent, &mut strips, &mut counts)
    };
    let (cases, parts) = tick_cases::parts(&mut answers);
    for parts in &parts {
        println!("{parts}");
    }
    println!("ticks: {cases} cases, {counts}, {} mismatches", parts.len());
    parts.is_empty()
}
