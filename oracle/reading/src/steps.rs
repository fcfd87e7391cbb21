//! 01's "Graph step".

use scene::Waypoint;

use crate::Variant::*;
use crate::boxes::{Area, Point, X, Y, Z};
use crate::graph::{E, Graph, floor};

/// "The nine column offsets in this order."
const COLUMNS: [(i64, i64); 9] = [
    (0, 0),
    (1, 0),
    (0, 1),
    (-1, 0),
    (0, -1),
    (1, 1),
    (-1, 1),
    (-1, -1),
    (1, -1),
];

/// "Diagonals need two sides ..., numbered from 0 at (1,0)."
const SIDES: [(usize, usize); 4] = [(0, 1), (2, 1), (2, 3), (0, 3)];

impl Graph<'_> {
    /// "Low is the larger of y - max_drop and start y - range, high the smaller
    /// of y + max(step, jump) and start y + range."
    fn low_and_high(&self, y: f64) -> (f64, f64) {
        let request = &self.scene.request;
        let bottom = request.start[Y] - request.max_range;
        let top = request.start[Y] + request.max_range;
        let low = match self.edit {
            LowWithoutRange => y - request.max_drop,
            LowIsStartMinusRange => bottom,
            _ => (y - request.max_drop).max(bottom),
        };
        let climb = match self.edit {
            HighByStepOnly => self.step(),
            HighByJumpOnly => request.jump_height,
            _ => self.step().max(request.jump_height),
        };
        let high = match self.edit {
            HighWithoutRange => y + climb,
            HighIsStartPlusRange => top,
            _ => (y + climb).min(top),
        };
        (low, high)
    }

    /// "That column's cells .. from floor(low) - 2 to floor(high)."
    fn column_cells(&self, (x, z): (i64, i64), low: f64, high: f64) -> Vec<[i64; 3]> {
        let lowest = match self.edit {
            HeightsLayersFromMinusOne => floor(low) - 1,
            HeightsLayersFromMinusThree => floor(low) - 3,
            _ => floor(low) - 2,
        };
        let highest = match self.edit {
            HeightsTopLayerMissing => floor(high) - 1,
            HeightsLayerAbove => floor(high) + 1,
            _ => floor(high),
        };
        let columns = match self.edit {
            HeightsOfCellsAround => COLUMNS.to_vec(),
            _ => vec![(0, 0)],
        };
        let cells = |y: i64| columns.iter().map(move |(dx, dz)| [x + dx, y, z + dz]);
        (lowest..=highest).flat_map(cells).collect()
    }

    /// The heights of a column with the centre (x, z) for a body at height y:
    /// "box tops from low to high, E allowed, of that column's cells with bit 2
    /// .. whose box spans the centre, borders included; sorted; one within E of
    /// the last kept is dropped".
    fn heights(&self, column: (i64, i64), x: f64, z: f64, y: f64) -> Vec<f64> {
        let (low, high) = self.low_and_high(y);
        let mut tops = Vec::new();
        for [cell_x, cell_y, cell_z] in self.column_cells(column, low, high) {
            let cell = self.cell(cell_x, cell_y, cell_z);
            if !cell.support && !self.is(HeightsSupportUnread) {
                continue;
            }
            for shape in cell.boxes() {
                if self.spans(&shape, X, x)
                    && self.spans(&shape, Z, z)
                    && self.between(low, shape.max[Y], high)
                {
                    tops.push(shape.max[Y]);
                }
            }
        }
        self.thinned(tops)
    }

    fn spans(&self, shape: &Area, axis: usize, centre: f64) -> bool {
        let (min, max) = (shape.min[axis], shape.max[axis]);
        match self.edit {
            CentreBordersOutX if axis == X => min < centre && centre < max,
            CentreBordersOutZ if axis == Z => min < centre && centre < max,
            _ => min <= centre && centre <= max,
        }
    }

    /// "From low to high, E allowed."
    fn between(&self, low: f64, top: f64, high: f64) -> bool {
        let above = match self.edit {
            LowWithoutE => low <= top,
            LowAtEOut => low - E < top,
            LowByDifference => low - top <= E,
            _ => low - E <= top,
        };
        let below = match self.edit {
            HighWithoutE => top <= high,
            HighAtEOut => top < high + E,
            HighByDifference => top - high <= E,
            _ => top <= high + E,
        };
        above && below
    }

    /// "Sorted; one within E of the last kept is dropped."
    fn thinned(&self, mut tops: Vec<f64>) -> Vec<f64> {
        match self.edit {
            HeightsUnsorted => {}
            HeightsFalling => tops.sort_by(|a, b| b.total_cmp(a)),
            _ => tops.sort_by(f64::total_cmp),
        }
        let mut kept: Vec<f64> = Vec::new();
        let mut last = f64::NEG_INFINITY;
        for top in tops {
            let near = match self.edit {
                ThinnedEqualOnly => top == last,
                ThinnedAtEKept => (top - last).abs() < E,
                ThinnedByLimit => top.max(last) <= top.min(last) + E,
                _ => (top - last).abs() <= E,
            };
            if !near {
                kept.push(top);
                last = top;
            } else if self.is(ThinnedInAChain) {
                last = top;
            } else if self.is(ThinnedKeepsLater) {
                kept.pop();
                kept.push(top);
                last = top;
            }
        }
        kept
    }

    /// "Graph step from a point": the steps in order. A side for which `silent`
    /// holds answers nothing; nothing is silent in the reading.
    pub fn steps(&self, from: Point, silent: &dyn Fn(Point) -> bool) -> Vec<Waypoint> {
        let mut steps = Vec::new();
        // "The four side answers of one expansion."
        let mut answers = [false; 4];
        for (number, (dx, dz)) in self.columns() {
            if number >= 5 && !self.diagonal_open(number - 5, answers) {
                continue;
            }
            // "The column is the floor of x and z plus the offset, its centre
            // 0.5 further."
            let whole = |n: f64| match self.edit {
                ColumnTruncated => n as i32 as i64,
                ColumnRounded => n.round() as i32 as i64,
                _ => floor(n),
            };
            let column = (whole(from[X]) + dx, whole(from[Z]) + dz);
            let (x, z) = (column.0 as f64 + 0.5, column.1 as f64 + 0.5);
            // "A step goes to any kept height with an edge."
            for height in self.heights(column, x, z, from[Y]) {
                let Some(step) = self.edge(from, [x, height, z]) else {
                    continue;
                };
                if (1..5).contains(&number) && self.level(from, step.feet) && !silent(step.feet) {
                    answers[number - 1] = true;
                }
                steps.push(step);
                if self.is(LowestHeightOnly) {
                    break;
                }
            }
        }
        steps
    }

    /// The column offsets with their numbers, in the order of visits.
    fn columns(&self) -> Vec<(usize, (i64, i64))> {
        let mut order: Vec<usize> = (0..9).collect();
        match self.edit {
            OwnColumnMissing => order = (1..9).collect(),
            OwnColumnLast => order.rotate_left(1),
            SidesZBeforeX => order = vec![0, 2, 1, 4, 3, 5, 6, 7, 8],
            SidesReversed => order = vec![0, 4, 3, 2, 1, 5, 6, 7, 8],
            DiagonalsReversed => order = vec![0, 1, 2, 3, 4, 8, 7, 6, 5],
            DiagonalsMissing => order = (0..5).collect(),
            _ => {}
        }
        order
            .into_iter()
            .map(|number| (number, COLUMNS[number]))
            .collect()
    }

    fn diagonal_open(&self, diagonal: usize, answers: [bool; 4]) -> bool {
        let pairs = match self.edit {
            // Around the compass from the wrong side.
            DiagonalSidesTurned => [(3, 0), (0, 1), (1, 2), (2, 3)],
            DiagonalSidesSwapped => [(0, 1), (2, 3), (2, 1), (0, 3)],
            _ => SIDES,
        };
        let (a, b) = pairs[diagonal];
        match self.edit {
            DiagonalByOneSide => answers[a] || answers[b],
            DiagonalByFirstSide => answers[a],
            DiagonalBySecondSide => answers[b],
            DiagonalFree => true,
            _ => answers[a] && answers[b],
        }
    }

    /// A side answers for an edge "to a y at most this y + E".
    fn level(&self, from: Point, to: Point) -> bool {
        match self.edit {
            SideWithoutE => to[Y] <= from[Y],
            SideAtEOut => to[Y] < from[Y] + E,
            SideByDifference => to[Y] - from[Y] <= E,
            SideBelow => to[Y] < from[Y],
            SideNotByDrop => (to[Y] - from[Y]).abs() <= E,
            SideByAnyHeight => true,
            _ => to[Y] <= from[Y] + E,
        }
    }
}
