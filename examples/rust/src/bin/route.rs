//! A scene, from a Rust program: reads the scene file that it is given,
//! searches a way, prints the route with the doors on it and how long it is, and
//! asks walk-back whether it is one; then the same of a list that is none, which
//! is told why and where. tools/test-examples builds and runs it on
//! scenes/start/door.txt.

use std::error::Error;

use examples::{World, print_route};
use walkprint::{Outcome, Rooms, Waypoint, front_bytes, index_bytes, nodes_bytes, out_bytes};

fn main() -> Result<(), Box<dyn Error>> {
    let world = World::named()?;
    let (tables, scene) = (world.tables(), &world.scene);

    let budget = usize::try_from(scene.request.node_budget)?;
    let sizes = [nodes_bytes(budget), front_bytes(budget), index_bytes(budget), out_bytes(budget)];
    let [mut nodes, mut front, mut index, mut out] = sizes.map(|n| vec![0; n]);
    let mut rooms = Rooms { nodes: &mut nodes, front: &mut front, index: &mut index, out: &mut out };
    let answer = walkprint::find_walk_path(&tables, &scene.request, &scene.body, &mut rooms)?;

    println!(
        "{}: {} waypoints, {} nodes retained, {} closed",
        answer.outcome, answer.count, answer.retained, answer.closed
    );
    if answer.outcome != Outcome::Found {
        return Ok(());
    }
    let list = &mut out[..Waypoint::BYTES * answer.count];
    print_route(&Waypoint::list(list, answer.count));
    println!("length {}", walkprint::length(list));
    println!("walk-back: {}", walkprint::walk_back(&tables, &scene.request, &scene.body, list)?);
    raise_last(list)?;
    println!("its last point a block higher: {}", walkprint::walk_back(&tables, &scene.request, &scene.body, list)?);
    Ok(())
}

/// The last point a block higher: y is the second number of a record.
fn raise_last(list: &mut [u8]) -> Result<(), Box<dyn Error>> {
    let last = list.len() - Waypoint::BYTES;
    let y = &mut list[last..][8..16];
    let higher = f64::from_le_bytes((&*y).try_into()?) + 1.0;
    y.copy_from_slice(&higher.to_le_bytes());
    Ok(())
}
