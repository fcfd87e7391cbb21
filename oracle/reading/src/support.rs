//! 01's "Supported segment".

use std::ops::RangeInclusive;

use crate::Variant::*;
use crate::boxes::{Area, Point, X, Y, Z};
use crate::graph::{E, Graph, ceil, floor};

impl Graph<'_> {
    /// "Supported segment." A shape that counts carries the part of the centre
    /// line that it spans; the parts must cover 0 to 1.
    pub fn supported(&self, from: Point, to: Point) -> bool {
        let span = self.span(from, to);
        let [xs, ys, zs] = self.support_cells(&span);
        let mut intervals = Vec::new();
        for (y, x, z) in ys.flat_map(|y| {
            let zs = zs.clone();
            xs.clone()
                .flat_map(move |x| zs.clone().map(move |z| (y, x, z)))
        }) {
            let cell = self.cell(x, y, z);
            for shape in cell.boxes().filter(|shape| self.counts(shape, &span)) {
                // "One that counts and lacks bit 2 refuses the segment."
                if !cell.support {
                    match self.edit {
                        ForbiddenSupportIgnored => continue,
                        ForbiddenSupportCarries => {}
                        _ => return false,
                    }
                }
                intervals.extend(self.interval(&shape, from, to));
            }
        }
        self.covers(intervals)
    }

    /// "The footprint is both feet's span widened by half the width": in y the
    /// span itself.
    fn span(&self, from: Point, to: Point) -> Area {
        let half = match self.edit {
            FootprintWholeWidth => self.scene.body.width,
            FootprintBare => 0.0,
            _ => self.scene.body.width * 0.5,
        };
        let (low, high) = match self.edit {
            SpanOfTargetOnly => (to[Y], to[Y]),
            _ => (from[Y].min(to[Y]), from[Y].max(to[Y])),
        };
        let min = |axis: usize| from[axis].min(to[axis]) - half;
        let max = |axis: usize| from[axis].max(to[axis]) + half;
        Area {
            min: [min(X), low, min(Z)],
            max: [max(X), high, max(Z)],
        }
    }

    /// "Cells run from floor(low y) - 2 to floor(high y), in x and z from its
    /// floor(min) to ceil(max) - 1."
    fn support_cells(&self, span: &Area) -> [RangeInclusive<i64>; 3] {
        let lowest = match self.edit {
            SupportLayersFromMinusOne => floor(span.min[Y]) - 1,
            SupportLayersFromMinusThree => floor(span.min[Y]) - 3,
            _ => floor(span.min[Y]) - 2,
        };
        let highest = match self.edit {
            SupportTopLayerMissing => floor(span.max[Y]) - 1,
            SupportLayerAbove => floor(span.max[Y]) + 1,
            _ => floor(span.max[Y]),
        };
        let first = |axis: usize| match self.edit {
            SupportOneCellBeforeX if axis == X => floor(span.min[axis]) - 1,
            SupportOneCellBeforeZ if axis == Z => floor(span.min[axis]) - 1,
            _ => floor(span.min[axis]),
        };
        let last = |axis: usize| match self.edit {
            SupportToFloorX if axis == X => floor(span.max[axis]),
            SupportToFloorZ if axis == Z => floor(span.max[axis]),
            _ => ceil(span.max[axis]) - 1,
        };
        [first(X)..=last(X), lowest..=highest, first(Z)..=last(Z)]
    }

    /// "A shape counts if its top is within E of the span and it overlaps the
    /// footprint strictly in x and z."
    fn counts(&self, shape: &Area, span: &Area) -> bool {
        self.top_within(shape.max[Y], span.min[Y], span.max[Y])
            && self.overlaps(shape, span, X)
            && self.overlaps(shape, span, Z)
    }

    fn top_within(&self, top: f64, low: f64, high: f64) -> bool {
        let above = match self.edit {
            SupportLowWithoutE => low <= top,
            SupportLowAtEOut => low - E < top,
            SupportLowByDifference => low - top <= E,
            _ => low - E <= top,
        };
        let below = match self.edit {
            SupportHighWithoutE => top <= high,
            SupportHighAtEOut => top < high + E,
            SupportHighByDifference => top - high <= E,
            _ => top <= high + E,
        };
        above && below
    }

    fn overlaps(&self, shape: &Area, span: &Area, axis: usize) -> bool {
        let (min, max) = (span.min[axis], span.max[axis]);
        match self.edit {
            FootprintTouchingX if axis == X => shape.min[X] <= max && min <= shape.max[X],
            FootprintTouchingZ if axis == Z => shape.min[Z] <= max && min <= shape.max[Z],
            _ => shape.min[axis] < max && min < shape.max[axis],
        }
    }

    /// The part of the centre line, from 0 to 1, over the shape, borders
    /// included.
    fn interval(&self, shape: &Area, from: Point, to: Point) -> Option<(f64, f64)> {
        let (mut begin, mut end) = (0.0_f64, 1.0_f64);
        for axis in [X, Z] {
            if self.is(IntervalAlongXOnly) && axis == Z {
                continue;
            }
            let delta = to[axis] - from[axis];
            let (min, max) = (shape.min[axis], shape.max[axis]);
            if delta == 0.0 {
                let over = match self.edit {
                    IntervalBordersOut => min < from[axis] && from[axis] < max,
                    _ => min <= from[axis] && from[axis] <= max,
                };
                if !over {
                    return None;
                }
                continue;
            }
            let place = |border: f64| match self.edit {
                IntervalByReciprocal => (border - from[axis]) * (1.0 / delta),
                IntervalSplit => border / delta - from[axis] / delta,
                _ => (border - from[axis]) / delta,
            };
            begin = begin.max(place(min).min(place(max)));
            end = end.min(place(min).max(place(max)));
        }
        let any = match self.edit {
            IntervalPointsOut => begin < end,
            _ => begin <= end,
        };
        any.then_some((begin, end))
    }

    /// "The centre-line intervals, borders included, must cover 0 to 1, each
    /// joint within E; 1 - E suffices."
    fn covers(&self, mut intervals: Vec<(f64, f64)>) -> bool {
        if !self.is(CoverInCellOrder) {
            intervals.sort_by(|a, b| a.0.total_cmp(&b.0).then(a.1.total_cmp(&b.1)));
        }
        let mut covered = 0.0_f64;
        for (begin, end) in intervals {
            let joined = match self.edit {
                JointWithoutE => begin <= covered,
                JointAtEOut => begin < covered + E,
                JointWithinTwoE => begin <= covered + 2.0 * E,
                JointByDifference => begin - covered <= E,
                AskedFirstJointWithoutE if covered == 0.0 => begin <= covered,
                _ => begin <= covered + E,
            };
            if !joined {
                return false;
            }
            covered = match self.edit {
                CoveredToLastEnd => end,
                _ => covered.max(end),
            };
            let enough = match self.edit {
                AskedCoverToOne => covered >= 1.0,
                AskedCoverAtEOut => covered > 1.0 - E,
                _ => covered >= 1.0 - E,
            };
            if enough {
                return true;
            }
        }
        false
    }
}
