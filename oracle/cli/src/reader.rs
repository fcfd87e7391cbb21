//! Cases for a scene reader: what it must refuse, and what then stands in its
//! tables.

use scene::{Record, write_bytes};

use crate::tape::Tape;

/// A base scene with many small damages, then whole scenes; each in tables
/// full of another byte.
pub fn ask(tape: &mut Tape) {
    let mut scenes = vec![];
    let base = write_bytes(&base_records());
    scenes.push(base.clone());
    scenes.extend(damages(&base).iter().map(|damage| damage.applied(&base)));
    for scene in whole_scenes() {
        scenes.push(to_first_bad(&scene).to_vec());
    }
    tape.named("read", |tape| {
        for (k, scene) in scenes.iter().enumerate() {
            tape.ask_reader(scene, (37 * k) as u8);
        }
    });
}

/// A scene to its first bad record: a reader reads no further.
fn to_first_bad(bytes: &[u8]) -> &[u8] {
    let good = scene::read_partial(bytes).0.good as usize;
    &bytes[..bytes.len().min(scene::RECORD * (good + 1))]
}

/// Eight bytes written over a scene at a place, then a cut.
struct Damage {
    length: usize,
    at: usize,
    bytes: [u8; 8],
}

impl Damage {
    fn applied(&self, base: &[u8]) -> Vec<u8> {
        let mut out = base.to_vec();
        out[self.at..self.at + 8].copy_from_slice(&self.bytes);
        out.truncate(self.length);
        out
    }
}

/// A small scene with every kind of record.
fn base_records() -> Vec<Record> {
    let shape = |shape, numbers| Record::Shape { shape, numbers };
    let state = |state, permission| Record::State { state, permission };
    let fill = |min, max, state, shape| Record::Fill {
        min,
        max,
        state,
        shape,
    };
    let mut out = head_records();
    out.extend([
        shape(1, [0.0, 0.0, 0.0, 1.0, 1.0, 1.0]),
        shape(3, [0.0, 0.0, 0.0, 1.0, 0.5, 1.0]),
        shape(3, [0.5, -16.0, 0.0, 1.0, 16.0, 1.0]),
        state(0, 7),
        state(1, 6),
        state(2, 0),
        fill([-2, 0, -3], [2, 2, 0], 0, 0),
        // Past the window on every side.
        fill([i32::MIN, -5, -9], [i32::MAX, 0, 99], 1, 1),
        // Inverted.
        fill([1, 1, -1], [0, 1, 5], 2, 3),
        fill([1, 1, -1], [7, 1, -1], u32::MAX, 9),
    ]);
    out
}

/// Its first three records.
fn head_records() -> Vec<Record> {
    vec![
        Record::Request {
            start: [0.5, 1.0, 0.5],
            goal: [2.5, 1.0, 0.5],
            max_range: 16.0,
            budget: 64,
        },
        Record::Body {
            numbers: [0.5, 1.25, 3.0, 0.625, 1.75, 0.5625],
        },
        Record::Window {
            origin: [-2, 0, -3],
            sizes: [5, 3, 4],
        },
    ]
}

/// Each record's fields, one at a time, and each end of the scene.
fn damages(base: &[u8]) -> Vec<Damage> {
    let mut out = Vec::new();
    for begin in (0..base.len()).step_by(scene::RECORD) {
        head_damages(base, begin, &mut out);
        field_damages(base, begin, &mut out);
        out.extend([begin, begin + 1, begin + 63].map(|length| Damage {
            length,
            at: 0,
            bytes: eight(base, 0),
        }));
    }
    out
}

fn eight(base: &[u8], at: usize) -> [u8; 8] {
    base[at..at + 8].try_into().expect("eight bytes")
}

/// Every kind, each of the three zeros, several n.
fn head_damages(base: &[u8], at: usize, out: &mut Vec<Damage>) {
    let mut over = |change: &dyn Fn(&mut [u8; 8])| {
        let mut bytes = eight(base, at);
        change(&mut bytes);
        out.push(Damage {
            length: base.len(),
            at,
            bytes,
        });
    };
    for kind in 0..=8 {
        over(&|bytes| bytes[0] = kind);
    }
    for place in 1..4 {
        over(&|bytes| bytes[place] = 1);
    }
    for n in [0u32, 1, 2, 3, 4, 255, 256, 512, 513, u32::MAX] {
        over(&|bytes| bytes[4..].copy_from_slice(&n.to_le_bytes()));
    }
}

/// A bit far on in several places of the payload; then by kind the numbers at
/// their borders.
fn field_damages(base: &[u8], begin: usize, out: &mut Vec<Damage>) {
    let mut over = |at: usize, bytes: [u8; 8]| {
        out.push(Damage {
            length: base.len(),
            at,
            bytes,
        });
    };
    for at in [9, 24, 32, 40, 56].map(|offset| begin + offset) {
        let mut bytes = eight(base, at);
        bytes[7] ^= 0x80;
        over(at, bytes);
    }
    match base[begin] {
        2 | 4 => {
            let numbers = [f64::NAN, 16.0, 16.0f64.next_up(), -16.0, 0.25, -0.0];
            for at in (begin + 8..begin + 56).step_by(8) {
                for number in numbers {
                    over(at, number.to_bits().to_le_bytes());
                }
            }
        }
        3 => {
            for sizes in [[256, 16], [257, 1], [0, 9], [4096, 1], [16, 256], [32, 129]] {
                over(begin + 20, eight(&sizes.map(u32::to_le_bytes).concat(), 0));
            }
        }
        5 => {
            for permission in 0..=9 {
                over(begin + 8, [permission, 0, 0, 0, 0, 0, 0, 0]);
            }
        }
        _ => {}
    }
}

/// Orders, counts at their limits and one past them, and made scenes.
fn whole_scenes() -> Vec<Vec<u8>> {
    let base = base_records();
    let mut out = Vec::new();
    for place in 0..base.len() {
        let mut removed = base.clone();
        removed.remove(place);
        out.push(write_bytes(&removed));
        let mut doubled = base.clone();
        doubled.insert(place, base[place].clone());
        out.push(write_bytes(&doubled));
    }
    let head = &head_records()[..];
    let tiny = |shape| Record::Shape {
        shape,
        numbers: [0.0, 0.0, 0.0, 0.5, 0.5, 0.5],
    };
    for count in [16, 17] {
        let shapes: Vec<Record> = (0..count).map(|_| tiny(200)).collect();
        out.push(write_bytes(&[head, &shapes].concat()));
    }
    let many: Vec<Record> = (0..257).map(|k| tiny(k / 16)).collect();
    out.push(write_bytes(&[head, &many].concat()));
    let states: Vec<Record> = (0..257)
        .map(|state| Record::State {
            state,
            permission: (state % 8) as u8,
        })
        .collect();
    out.push(write_bytes(&[head, &states].concat()));
    let damaged = (1..=24).map(|seed| scene::make(seed, "damaged").expect("a kind"));
    out.extend(damaged.filter(|bytes| bytes.len() <= 2560));
    out
}
