//! The proved scene reader against the oracle's, on good and damaged scenes.

use mutants::chance::Chance;
use scene::{RECORD, f64_at, read_partial, to_text, write_bytes};
use walkprint::raw;

use crate::call::Call;
use crate::counts::Counts;
use crate::room::Room;
use crate::runner::{Makers, Mismatch};

/// The largest sizes of cells, permissions, shapes and boxes, in bytes.
const LARGEST: [usize; 4] = [8 * 4096, 256, 8 * 256, 48 * 256];
/// Bytes of what a scene comes to: request, body, window, sizes in use.
const MADE: usize = 168;

/// A scene, as it is or with one of its bytes changed or its end cut.
pub fn one_scene(makers: &Makers, number: u64, counts: &mut Counts) -> Result<(), Mismatch> {
    let mut bytes = write_bytes(&makers.records(number));
    let mut chance = Chance::new(number);
    if chance.once_in(3) {
        damage(&mut bytes, &mut chance);
    }
    read(&bytes, number, counts).map_err(|what| Mismatch {
        what,
        scene: to_text(&smallest(bytes, number)),
    })
}

/// A byte of any record, or a field's worth of them, or a cut.
fn damage(bytes: &mut Vec<u8>, chance: &mut Chance) {
    let at = chance.below(bytes.len());
    match chance.below(6) {
        0 => bytes.truncate(at),
        1 => bytes[at] ^= 1 << chance.below(8),
        2 => bytes[at / RECORD * RECORD] = chance.below(8) as u8,
        3 => bytes[at / RECORD * RECORD + 4] = chance.below(256) as u8,
        _ => bytes[at] = chance.pick(&[0, 1, 7, 8, 0x7f, 0x80, 0xff]),
    }
}

/// Fewer records that still part.
fn smallest(mut bytes: Vec<u8>, number: u64) -> Vec<u8> {
    let parts = |bytes: &[u8]| read(bytes, number, &mut Counts::default()).is_err();
    let mut place = bytes.len() / RECORD;
    while place > 0 {
        place -= 1;
        let mut fewer = bytes.clone();
        fewer.drain(place * RECORD..(place + 1) * RECORD);
        if parts(&fewer) {
            bytes = fewer;
        }
    }
    bytes
}

/// What a call must answer, and what it must write to each table and to the
/// record of the scene.
struct Must {
    number: u64,
    tables: [Vec<u8>; 4],
    made: Vec<u8>,
}

/// "A scene table's room below its largest size (before 7, nothing written)";
/// "after 7 the scene's tables hold what the records before it made".
fn must(bytes: &[u8], sizes: [usize; 4]) -> Must {
    if (0..4).any(|room| sizes[room] < LARGEST[room]) {
        return Must {
            number: 5,
            tables: Default::default(),
            made: Vec::new(),
        };
    }
    let (partial, bad) = read_partial(bytes);
    let tables = partial.tables.raw();
    let (number, made) = match (bad, scene::read(bytes)) {
        (None, Ok(scene)) => (0, made(&Call::of(&scene))),
        (bad, _) => (
            7,
            bad.map_or(partial.good, |bad| bad.record)
                .to_le_bytes()
                .to_vec(),
        ),
    };
    Must {
        number,
        tables: tables.all().map(<[u8]>::to_vec),
        made,
    }
}

/// Request, body, window, and the bytes in use of each table. A NaN has one
/// pattern.
fn made(call: &Call) -> Vec<u8> {
    let plain = |bytes: &[u8]| -> Vec<u8> {
        let numbers = bytes.chunks(8).map(|word| f64_at(word, 0));
        let one = |n: f64| if n.is_nan() { f64::NAN } else { n };
        numbers.flat_map(|n| one(n).to_le_bytes()).collect()
    };
    let mut out = plain(&call.request.bytes()[..80]);
    out.extend(call.request.node_budget.to_le_bytes());
    out.extend(plain(&call.body.bytes()));
    out.extend(call.tables.window.bytes());
    for table in call.tables.all() {
        out.extend((table.len() as u64).to_le_bytes());
    }
    out
}

/// What is not as it must be.
fn read(bytes: &[u8], seed: u64, counts: &mut Counts) -> Result<(), String> {
    let mut chance = Chance::new(seed);
    let sizes = LARGEST.map(|size| match chance.below(40) {
        0 => chance.below(size),
        1 => size - 1,
        n => size + n % 7,
    });
    let length = match chance.below(20) {
        0 => chance.below(MADE),
        n => MADE + n,
    };
    let mut rooms = sizes.map(|size| Room::new(size, &mut chance));
    let mut record = Room::new(length, &mut chance);
    let must = must(bytes, sizes);
    let fits = must.made.len() <= length;
    let mut after: Vec<Vec<u8>> = (0..4).map(|k| rooms[k].after(&must.tables[k])).collect();
    after.push(record.after(if fits { &must.made } else { &[] }));
    let number = raw::read_scene(bytes, rooms.each_mut().map(Room::lent), record.lent());
    if number != must.number {
        return Err(format!("answered {number}, must be {}", must.number));
    }
    let names = ["cells", "permissions", "shapes", "boxes", "record"];
    for (place, room) in rooms.iter().chain([&record]).enumerate() {
        if let Some(parts) = room.parts(&after[place]) {
            return Err(format!("{}: {parts}", names[place]));
        }
    }
    counts.add(
        match number {
            0 => "scenes read",
            5 => "refused 5",
            _ => "refused 7",
        },
        1,
    );
    Ok(())
}
