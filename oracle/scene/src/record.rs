//! The records of a scene and their bytes, by 01's "Scenes and walkprint".

use crate::read::{Fields, RECORD};

/// One record of a scene, good or not.
#[derive(Debug, Clone, PartialEq)]
pub enum Record {
    Request {
        start: [f64; 3],
        goal: [f64; 3],
        max_range: f64,
        budget: u32,
    },
    /// Step, jump, drop, width, height, body step.
    Body {
        numbers: [f64; 6],
    },
    Window {
        origin: [i32; 3],
        sizes: [u32; 3],
    },
    Shape {
        shape: u32,
        numbers: [f64; 6],
    },
    State {
        state: u32,
        permission: u8,
    },
    Fill {
        min: [i32; 3],
        max: [i32; 3],
        state: u32,
        shape: u32,
    },
    /// Any bytes.
    Raw(Vec<u8>),
}

impl Record {
    /// The bytes of the record: 64, unless it is raw.
    pub fn bytes(&self) -> Vec<u8> {
        let (kind, n) = match self {
            Record::Request { budget, .. } => (1, *budget),
            Record::Body { .. } => (2, 0),
            Record::Window { .. } => (3, 0),
            Record::Shape { shape, .. } => (4, *shape),
            Record::State { state, .. } => (5, *state),
            Record::Fill { .. } => (6, 0),
            Record::Raw(bytes) => return bytes.clone(),
        };
        let mut out = vec![kind, 0, 0, 0];
        out.extend(u32::to_le_bytes(n));
        self.payload(&mut out);
        out.resize(RECORD, 0);
        out
    }

    /// Appends the fields behind n.
    fn payload(&self, out: &mut Vec<u8>) {
        match self {
            Record::Request {
                start,
                goal,
                max_range,
                ..
            } => {
                floats(out, start);
                floats(out, goal);
                floats(out, &[*max_range]);
            }
            Record::Window { origin, sizes } => {
                whole(out, &origin.map(i32::cast_unsigned));
                whole(out, sizes);
            }
            Record::Body { numbers } | Record::Shape { numbers, .. } => floats(out, numbers),
            Record::State { permission, .. } => out.push(*permission),
            Record::Fill {
                min,
                max,
                state,
                shape,
            } => {
                whole(out, &min.map(i32::cast_unsigned));
                whole(out, &max.map(i32::cast_unsigned));
                whole(out, &[*state, *shape]);
            }
            Record::Raw(bytes) => out.extend(bytes),
        }
    }

    /// The record that has these bytes; raw where no other has.
    pub fn from_bytes(bytes: &[u8]) -> Record {
        let said = if bytes.len() == RECORD {
            Record::said(bytes[0], Fields(bytes))
        } else {
            None
        };
        match said {
            Some(record) if record.bytes() == bytes => record,
            _ => Record::Raw(bytes.to_vec()),
        }
    }

    /// What a whole record says by its kind, whatever its unused bytes are.
    fn said(kind: u8, fields: Fields) -> Option<Record> {
        let corner = |at: usize| [at, at + 4, at + 8].map(|at| fields.i32(at));
        Some(match kind {
            1 => Record::Request {
                start: fields.f64s(8),
                goal: fields.f64s(32),
                max_range: fields.f64(56),
                budget: fields.n(),
            },
            2 => Record::Body {
                numbers: fields.f64s(8),
            },
            3 => Record::Window {
                origin: corner(8),
                sizes: [20, 24, 28].map(|at| fields.u32(at)),
            },
            4 => Record::Shape {
                shape: fields.n(),
                numbers: fields.f64s(8),
            },
            5 => Record::State {
                state: fields.n(),
                permission: fields.0[8],
            },
            6 => Record::Fill {
                min: corner(8),
                max: corner(20),
                state: fields.u32(32),
                shape: fields.u32(36),
            },
            _ => return None,
        })
    }
}

fn floats(out: &mut Vec<u8>, numbers: &[f64]) {
    out.extend(numbers.iter().flat_map(|n| n.to_bits().to_le_bytes()));
}

fn whole(out: &mut Vec<u8>, numbers: &[u32]) {
    out.extend(numbers.iter().flat_map(|n| n.to_le_bytes()));
}

/// The scene of these records.
pub fn write_bytes(records: &[Record]) -> Vec<u8> {
    records.iter().flat_map(Record::bytes).collect()
}
