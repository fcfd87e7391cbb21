//! The variants: each misreads one sentence of 01, or of 02's No. 2, 3, 5, 7 or
//! 10, and is switched at the place of that sentence.
//!
//! Left out, because no answer can show them: an occupiable unknown cell (its cube
//! fills the voxel); a voxel that touches in x or z (the cells that are looked at
//! never only touch there); halving by 2 or by 0.5; finiteness other than that of
//! steps, jump and drop, and a limit of 0 or less (no coordinate is smaller than
//! such a limit); 1 - covered ≤ E instead of covered ≥ 1 - E (the same, for this
//! E); a lookup that leaves out the nodes of the expansion under way (its points
//! all differ). Of doors: an unknown cell as a door (its cube would block the
//! area), a voxel that touches in x or z, and one that intersects another area of
//! the corridor than the one whose turn it is (a cell that is looked at for an
//! area, but for the layer below, intersects it). Of lengths: another order of two
//! numbers that are added, dz² + dx², root + lift, edge + sum, and so (root +
//! settle) + lift, which is lift + (root + settle). Of No. 10: 0 retained (no
//! retained node waits then), and a parent that is not retained (its chain does not
//! end at node 0).
//!
//! No search shows these, but rooms that begin wrote or another hand changed do, so
//! they are among those of No. 10: the start's estimate (it waits alone); a re-push
//! whose estimate is equal (a cost lower by E lowers every estimate below 4.5e8,
//! and range 64 keeps them there); a node other than the start at the goal
//! (whatever discovers it has a connector).
//!
//! Three misreadings show only where `supported` is asked by itself: in a search
//! the body stands at the segment's start and the target is standable, so that
//! some interval begins at 0 and one ends at 1. Those of 02's No. 3 show only in
//! the reason of an edge or of a walk-back, or in its place. Two of No. 5 show only
//! in rooms that are too short, and two of lengths only in lists that no search
//! gives: a found list has whole records, and its start's lift is 0. Those of No. 10
//! show only in calls of begin and continue.

macro_rules! variants {
    (
        searched { $($part:literal { $($sentence:literal { $($name:ident: $edit:literal,)* })* })* }
        asked { $($part_asked:literal { $($sentence_asked:literal { $($asked:ident: $edit_asked:literal,)* })* })* }
        roomed { $($part_roomed:literal { $($sentence_roomed:literal { $($roomed:ident: $edit_roomed:literal,)* })* })* }
        listed { $($part_listed:literal { $($sentence_listed:literal { $($listed:ident: $edit_listed:literal,)* })* })* }
        told { $($part_told:literal { $($sentence_told:literal { $($told:ident: $edit_told:literal,)* })* })* }
        ticked { $($part_ticked:literal { $($sentence_ticked:literal { $($ticked:ident: $edit_ticked:literal,)* })* })* }
    ) => {
        /// A way to read 01: as written, or with one sentence misread.
        #[derive(Debug, Clone, Copy, PartialEq, Eq, Hash)]
        pub enum Variant {
            /// Nothing misread.
            ReadAsWritten,
            $($($(#[doc = $edit] $name,)*)*)*
            $($($(#[doc = $edit_asked] $asked,)*)*)*
            $($($(#[doc = $edit_roomed] $roomed,)*)*)*
            $($($(#[doc = $edit_listed] $listed,)*)*)*
            $($($(#[doc = $edit_told] $told,)*)*)*
            $($($(#[doc = $edit_ticked] $ticked,)*)*)*
        }

        /// Every variant that a search can show, in 01's order.
        pub const VARIANTS: &[Variant] = &[$($($(Variant::$name,)*)*)*];

        /// The variants that only a question to `supported` shows.
        pub const ASKED: &[Variant] = &[$($($(Variant::$asked,)*)*)*];

        /// The variants that only rooms show that are too short.
        pub const ROOMED: &[Variant] = &[$($($(Variant::$roomed,)*)*)*];

        /// The variants that only the length of a list shows that no search gives.
        pub const LISTED: &[Variant] = &[$($($(Variant::$listed,)*)*)*];

        /// The variants that only a reason shows, of an edge or of a walk-back.
        pub const TOLD: &[Variant] = &[$($($(Variant::$told,)*)*)*];

        /// The variants that only a call of begin or of continue shows.
        pub const TICKED: &[Variant] = &[$($($(Variant::$ticked,)*)*)*];

        impl Variant {
            /// The part of 01, the sentence, and what the variant does instead.
            pub fn about(self) -> [&'static str; 3] {
                match self {
                    Variant::ReadAsWritten => ["", "", "nothing is misread"],
                    $($($(Variant::$name => [$part, $sentence, $edit],)*)*)*
                    $($($(Variant::$asked => [$part_asked, $sentence_asked, $edit_asked],)*)*)*
                    $($($(Variant::$roomed => [$part_roomed, $sentence_roomed, $edit_roomed],)*)*)*
                    $($($(Variant::$listed => [$part_listed, $sentence_listed, $edit_listed],)*)*)*
                    $($($(Variant::$told => [$part_told, $sentence_told, $edit_told],)*)*)*
                    $($($(Variant::$ticked => [$part_ticked, $sentence_ticked, $edit_ticked],)*)*)*
                }
            }
        }
    };
}

impl Variant {
    /// Whether it misreads what 02's No. 5 says of doors.
    pub fn is_of_doors(self) -> bool {
        self.about()[0] == "02, No. 5"
    }

    /// Whether it misreads the printed length alone (02, No. 2): its search is the
    /// reading's own.
    pub fn is_of_lengths(self) -> bool {
        let [part, ..] = self.about();
        part == "02, No. 2" || part.ends_with(", the length")
    }

    /// The name of the variant, and of the scene that tells it apart:
    /// `BoxTouchingX` is `box-touching-x`.
    pub fn name(self) -> String {
        let mut name = String::new();
        let mut digits = false;
        for letter in format!("{self:?}").chars() {
            let starts = letter.is_uppercase() || letter.is_ascii_digit() && !digits;
            if starts && !name.is_empty() {
                name.push('-');
            }
            digits = letter.is_ascii_digit();
            name.extend(letter.to_lowercase());
        }
        name
    }
}

variants! {
    searched {
        "Tables" {
            "x runs fastest, then z, then y" {
                CellsRunYBeforeZ: "y runs before z",
            }
            "1 occupied, 2 support, 4 collides" {
                OccupiedAndSupportSwapped: "bits 1 and 2 are swapped",
            }
            "A cell's boxes are its run of box records inside the box table" {
                LastBoxOfRunMissing: "the last box of the run is not read",
            }
            "A cell is unknown outside the window, or with no permission byte for its state, or no such shape: one full unit cube, neither occupiable nor a support" {
                UnknownIsAir: "an unknown cell is air",
                UnknownHasNoCube: "an unknown cell has no cube",
                UnknownSupports: "an unknown cell is a support",
                StateWithoutByteIsAir: "a state without a permission byte is air",
                MissingShapeIsEmpty: "a shape past the table is empty",
                WindowEndWraps: "the window's end, origin + size, wraps at the largest i32",
            }
            "A known state without bit 4 has no boxes" {
                CollidesUnread: "bit 4 is not read",
            }
        }
        "Numbers given back" {
            "Search order: 3; valid_request (else 1); 4; 5; goal in range, start standable, goal standable (else 1); budget 0 (2); search" {
                LimitsBeforeRequest: "4 comes before valid_request",
                GoalRangeUnread: "the goal's range is not judged first",
                StartUnread: "the start need not be standable",
                GoalUnread: "the goal's standing is not judged first",
                BudgetZeroFirst: "budget 0 comes before the endpoints",
                BudgetZeroUnreachable: "budget 0 is Unreachable",
                StartAtGoalBeforeBudget: "a start at the goal is found with budget 0 too",
            }
            "max_range > 64, width > 8, height > 16 or node_budget > 4,096" {
                RangeOf64TooLarge: "a range of 64 is too large",
                WidthOf8TooLarge: "a width of 8 is too large",
                HeightOf16TooLarge: "a height of 16 is too large",
            }
            "all numbers finite" {
                JumpFinityUnread: "an infinite jump is valid",
                DropFinityUnread: "an infinite drop is valid",
                StepFinityUnread: "an infinite step of the request is valid",
                BodyStepFinityUnread: "an infinite step of the body is valid",
            }
            "width and height above 0" {
                WidthSignUnread: "the width's sign is not read",
                HeightSignUnread: "the height's sign is not read",
            }
            "range, both steps, jump and drop at least 0" {
                RangeSignUnread: "the range's sign is not read",
                StepSignUnread: "the request's step's sign is not read",
                BodyStepSignUnread: "the body's step's sign is not read",
                JumpSignUnread: "the jump's sign is not read",
                DropSignUnread: "the drop's sign is not read",
            }
            "every start and goal coordinate smaller in size than 2147483647 - (max_range + width + height + 4), itself above 0" {
                GoalSizeUnread: "the goal's size is not read",
                StartSizeUnread: "the start's size is not read",
                SizeOfZUnread: "z's size is not read",
                SizeWithSign: "a coordinate far below 0 is small",
                LimitIncluded: "a coordinate at the limit is valid",
                MarginWithoutFour: "the margin has no 4",
                MarginFromFour: "the margin is added from right to left",
            }
        }
        "In range" {
            "each coordinate differs from the start's by at most max_range + E" {
                RangeWithoutE: "at most max_range",
                RangeAtEOut: "less than max_range + E",
                RangeEOnTheDifference: "the difference less E is at most max_range",
                RangeFlat: "y is not read",
                RangeRound: "the straight distance is read",
            }
        }
        "Clear" {
            "the cells from floor(min) to ceil(max) - 1 on each axis" {
                ClearFromCeilX: "from ceil(min) in x",
                ClearFromCeilZ: "from ceil(min) in z",
                ClearToFloorX: "to floor(max) in x",
                ClearToFloorY: "to floor(max) in y",
                ClearToFloorZ: "to floor(max) in z",
                ClearTopLayerMissing: "to ceil(max) - 2 in y",
            }
            "and one layer below" {
                ClearLowerLayerMissing: "no layer below",
                ClearTwoLowerLayers: "two layers below",
                ClearLowerLayerOnlyUnderLayers: "no layer below an area that has no layer",
            }
            "none has a box that intersects the area" {
                BoxTouchingX: "touching in x intersects",
                BoxTouchingY: "touching in y intersects",
                BoxTouchingZ: "touching in z intersects",
                ClearBoxesOfOccupiableUnread: "a cell with bit 1 is clear whatever its boxes",
            }
            "and none whose voxel does lacks bit 1" {
                VoxelTouchingY: "a voxel that touches in y counts",
                OccupiedOfEveryCell: "every cell needs bit 1",
                OccupiedUnread: "bit 1 is not read",
            }
        }
        "Supported segment" {
            "the footprint is both feet's span widened by half the width" {
                FootprintWholeWidth: "widened by the width",
                FootprintBare: "not widened",
            }
            "cells run from floor(low y) - 2 to floor(high y)" {
                SupportLayersFromMinusOne: "from floor(low y) - 1",
                SupportLayersFromMinusThree: "from floor(low y) - 3",
                SupportTopLayerMissing: "to floor(high y) - 1",
                SupportLayerAbove: "to floor(high y) + 1",
            }
            "in x and z from its floor(min) to ceil(max) - 1" {
                SupportOneCellBeforeX: "from floor(min) - 1 in x",
                SupportOneCellBeforeZ: "from floor(min) - 1 in z",
                SupportToFloorX: "to floor(max) in x",
                SupportToFloorZ: "to floor(max) in z",
            }
            "A shape counts if its top is within E of the span" {
                SpanOfTargetOnly: "the span is the target's y",
                SupportLowWithoutE: "no E below the span",
                SupportLowAtEOut: "exactly E below the span does not count",
                SupportLowByDifference: "low - top is compared with E",
                SupportHighWithoutE: "no E above the span",
                SupportHighAtEOut: "exactly E above the span does not count",
                SupportHighByDifference: "top - high is compared with E",
            }
            "and it overlaps the footprint strictly in x and z" {
                FootprintTouchingX: "touching in x counts",
                FootprintTouchingZ: "touching in z counts",
            }
            "One that counts and lacks bit 2 refuses the segment" {
                ForbiddenSupportIgnored: "it is passed over",
                ForbiddenSupportCarries: "it carries as any other",
            }
            "The centre-line intervals, borders included" {
                IntervalBordersOut: "a border does not carry a line along it",
                IntervalPointsOut: "an interval of one point is none",
                IntervalAlongXOnly: "only x is read",
                IntervalByReciprocal: "times 1 / delta instead of by delta",
                IntervalSplit: "border / delta - from / delta",
            }
            "must cover 0 to 1, each joint within E" {
                JointWithoutE: "joints without E",
                JointAtEOut: "a joint of exactly E is a gap",
                JointWithinTwoE: "joints within 2 E",
                JointByDifference: "begin - covered is compared with E",
                CoveredToLastEnd: "covered up to the last interval's end, not the largest",
                CoverInCellOrder: "intervals are joined in cell order",
            }
        }
        "Edge" {
            "step = the smaller step height" {
                StepOfRequestOnly: "the request's step height",
                StepOfBodyOnly: "the body's step height",
            }
            "Rise above E" {
                RiseWithoutE: "any rise",
                RiseAtE: "a rise of E too",
            }
            "Step with lift dy if dy ≤ step + E" {
                StepWithoutE: "dy ≤ step",
                StepAtEOut: "dy < step + E",
                StepEOnTheRise: "dy - E ≤ step",
                StepLiftedByStep: "the lift is the step height",
            }
            "else Jump with lift jump_height if dy ≤ jump_height + E, else none" {
                JumpBeforeStep: "Jump is tried before Step",
                JumpWithoutE: "dy ≤ jump_height",
                JumpAtEOut: "dy < jump_height + E",
                JumpEOnTheRise: "dy - E ≤ jump_height",
                JumpLiftedByDy: "the lift is dy",
            }
            "Fall beyond E" {
                FallWithoutE: "any fall",
                FallAtE: "a fall of E too",
            }
            "Drop, lift 0, if at most max_drop + E, else none" {
                DropWithoutE: "at most max_drop",
                DropAtEOut: "less than max_drop + E",
                DropEOnTheFall: "the fall less E is at most max_drop",
                DropLiftedByFall: "the lift is the fall",
            }
            "Otherwise Walk, lift the larger of dy and 0" {
                WalkLiftZero: "the lift is 0",
                WalkLiftDy: "the lift is dy",
                WalkLiftKeepsZeroSign: "the larger of -0.0 and 0 is -0.0",
            }
            "target and raised point in range" {
                TargetRangeUnread: "the target's range is not read",
                RaisedRangeUnread: "the raised point's range is not read",
                StepRaisedToTarget: "a Step's raised y is the target's y",
            }
            "target standable" {
                TargetStandableUnread: "the target need not be standable",
            }
            "the lift, crossing and settle areas clear" {
                LiftUnread: "the lift is not looked at",
                LiftByDifference: "grown by raised y - y instead of by the lift",
                CrossingUnread: "the crossing is not looked at",
                CrossingAtFeet: "the crossing is at the height of the feet",
                SettleUnread: "the settling is not looked at",
                SweepBetweenBodies: "to ± half instead of (feet ± half) + difference",
            }
            "the segment supported" {
                SegmentUnread: "the segment need not be supported",
            }
        }
        "Graph step" {
            "the nine column offsets in this order" {
                OwnColumnMissing: "the own column is not visited",
                OwnColumnLast: "the own column comes last",
                SidesZBeforeX: "sides in z come before those in x",
                SidesReversed: "sides in the reverse order",
                DiagonalsReversed: "diagonals in the reverse order",
                DiagonalsMissing: "no diagonals",
            }
            "Diagonals need two sides: (0,1), (2,1), (2,3), (0,3), numbered from 0 at (1,0)" {
                DiagonalSidesTurned: "(0,3), (0,1), (2,1), (2,3)",
                DiagonalSidesSwapped: "(0,1), (2,3), (2,1), (0,3)",
                DiagonalByOneSide: "one of the two suffices",
                DiagonalByFirstSide: "the first of the two decides",
                DiagonalBySecondSide: "the second of the two decides",
                DiagonalFree: "diagonals need no side",
            }
            "whether that side has an edge to a y at most this y + E" {
                SideWithoutE: "at most this y",
                SideAtEOut: "below this y + E",
                SideByDifference: "y - this y is compared with E",
                SideBelow: "below this y",
                SideNotByDrop: "within E of this y",
                SideByAnyHeight: "to any y",
            }
            "a closed side still answers" {
                ClosedSideSilent: "a closed side is skipped",
                RetainedSideSilent: "a side that was retained before is skipped",
                DroppedSideSilent: "a side that has no room is skipped",
            }
            "The column is the floor of x and z plus the offset" {
                ColumnTruncated: "x and z are cut towards 0",
                ColumnRounded: "x and z are rounded",
            }
            "Low is the larger of y - max_drop and start y - range" {
                LowWithoutRange: "y - max_drop",
                LowIsStartMinusRange: "start y - range",
            }
            "high the smaller of y + max(step, jump) and start y + range" {
                HighByStepOnly: "y + step for y + max(step, jump)",
                HighByJumpOnly: "y + jump for y + max(step, jump)",
                HighWithoutRange: "y + max(step, jump)",
                HighIsStartPlusRange: "start y + range",
            }
            "Heights are box tops from low to high, E allowed" {
                LowWithoutE: "no E below low",
                LowAtEOut: "exactly E below low is out",
                LowByDifference: "low - top is compared with E",
                HighWithoutE: "no E above high",
                HighAtEOut: "exactly E above high is out",
                HighByDifference: "top - high is compared with E",
            }
            "of that column's cells with bit 2 from floor(low) - 2 to floor(high)" {
                HeightsSupportUnread: "bit 2 is not read",
                HeightsOfCellsAround: "of the cells around the column's too",
                HeightsLayersFromMinusOne: "from floor(low) - 1",
                HeightsLayersFromMinusThree: "from floor(low) - 3",
                HeightsTopLayerMissing: "to floor(high) - 1",
                HeightsLayerAbove: "to floor(high) + 1",
            }
            "whose box spans the centre, borders included" {
                CentreBordersOutX: "without borders in x",
                CentreBordersOutZ: "without borders in z",
            }
            "sorted" {
                HeightsUnsorted: "in cell order",
                HeightsFalling: "sorted from the top",
            }
            "one within E of the last kept is dropped" {
                ThinnedInAChain: "one within E of the one before is dropped",
                ThinnedEqualOnly: "only an equal one is dropped",
                ThinnedAtEKept: "one at exactly E is kept",
                ThinnedByLimit: "compared with the last kept + E",
                ThinnedKeepsLater: "the one before is dropped instead",
            }
            "A step goes to any kept height with an edge" {
                LowestHeightOnly: "only to the lowest with an edge",
            }
        }
        "Connector" {
            "an edge to the goal with both horizontal differences at most 1.5" {
                ConnectorBelow: "below 1.5",
                ConnectorWithinOne: "at most 1",
                ConnectorWithE: "at most 1.5 + E",
                ConnectorXUnread: "x is not read",
                ConnectorZUnread: "z is not read",
                ConnectorAlsoVertical: "y too",
                ConnectorRound: "the straight horizontal distance at most 1.5",
                ConnectorAlwaysWalk: "the last point is always a Walk",
            }
        }
        "Same point" {
            "equal bits, with -0.0 as 0" {
                ZeroSignCounts: "-0.0 is not 0",
                SamePointWithinE: "within E",
                SamePointByColumn: "y is not read",
            }
        }
        "Search" {
            "lowest estimate first, then earliest push" {
                TiesByNode: "then the lowest node",
                TiesByLatestPush: "then the latest push",
            }
            "Estimate = cost + 1.5 × distance to goal" {
                WeightOne: "1 × distance",
                WeightTwo: "2 × distance",
                EstimateWithoutCost: "no cost",
                EstimateWithoutDistance: "no distance",
                DistanceFlat: "the distance without y",
                DistanceAlongAxes: "the distance along the axes",
                DistanceFromZToX: "the squares are summed from z to x",
                CostOfLiftAndSettle: "the cost is that of lift, crossing and settle",
            }
            "Pop, close, try the connector, then the columns" {
                ClosedAfterConnector: "close after the connector",
                ConnectorAfterColumns: "the connector after the columns",
                ConnectorNotAtStart: "no connector at the start",
                ConnectorRetained: "the connector's point takes a node",
            }
            "a start equal to the goal needs none: its list is the start alone" {
                StartAtGoalTwice: "the list is start and goal",
                StartAtGoalByBits: "-0.0 is not 0 there",
            }
            "An open point is re-parented" {
                ReparentNever: "never",
                ClosedReparented: "a closed one too",
                ClosedReopened: "a closed one too, and it is open again",
            }
            "with the new edge's movement and lift" {
                ReparentKeepsMovement: "the movement stays",
                ReparentKeepsLift: "the lift stays",
                ReparentKeepsParent: "the parent stays",
                ReparentKeepsCost: "the cost stays",
            }
            "and pushed again" {
                ReparentNotPushed: "not pushed again",
                ReparentKeepsPush: "pushed again with its old number",
            }
            "only if new cost + E < old cost" {
                ReparentAtEqualCost: "new cost ≤ old cost",
                ReparentWithoutE: "new cost < old cost",
                ReparentEOnTheOld: "new cost < old cost - E",
                ReparentByDifference: "old cost - new cost > E",
                ReparentWithinE: "new cost < old cost + E",
            }
            "2 BudgetExceeded: search ended after a new point was dropped" {
                BudgetOneMore: "one node more is retained",
                BudgetOneLess: "one node less is retained",
                DropsUncounted: "Unreachable all the same",
                DropsCountKnown: "a known point counts as dropped",
                StopAtFirstDrop: "the search ends there",
            }
        }
        "02, No. 7" {
            "u32 slots, a power of two and at least twice the budget" {
                IndexStartFree: "a slot holds a node's number, and the start's is a free one",
                IndexHalfLost: "the node that makes the room half full is lost",
                IndexNotRound: "behind the last slot there is none, and the node is lost",
            }
            "addressed by a hash of the three 64-bit words of a point" {
                IndexByZeroSign: "of its own words, so that -0.0 and 0 have two slots",
            }
            "each lookup answers as the scan does" {
                IndexUncompared: "the node in the point's own slot is taken unseen",
                IndexOwnSlotOnly: "no slot is looked at but the point's own",
            }
        }
        "02, No. 5" {
            "the state number of the first crossed cell" {
                DoorOfTheShape: "the shape's number",
                DoorLast: "of the last one",
                DoorNotOfTheCellLeft: "the cells that the body leaves do not count",
            }
            "that is known, lacks bit 4" {
                DoorCollidesUnread: "bit 4 is not read",
                DoorByOccupied: "lacks bit 1",
                DoorBySupport: "lacks bit 2",
            }
            "whose voxel intersects a corridor area" {
                DoorVoxelUnread: "the voxel is not read, and the layer below counts",
                DoorVoxelTouchingY: "a voxel that touches in y counts",
            }
            "taken in lift, crossing, settle order" {
                DoorCrossingBeforeLift: "the crossing before the lift",
                DoorSettleBeforeCrossing: "the settling before the crossing",
                DoorOfTheCrossing: "the crossing alone",
                DoorNotOfTheSettle: "without the settling",
            }
            "and within each in the clear check's y, x, z order" {
                DoorOrderYZX: "y, z, x",
                DoorOrderXYZ: "x, y, z",
                DoorOrderXZY: "x, z, y",
                DoorFromTheTop: "the highest y first",
            }
            "4294967295 when there is none" {
                DoorZeroIsNone: "state 0 is none",
            }
            "the start has none" {
                StartHasADoor: "the start has the door that it stands in",
                StartDoorIsZero: "the start's door is 0",
            }
            "A re-parented node takes the new edge's door" {
                ReparentKeepsDoor: "the door stays",
            }
            "Each waypoint record gains 8 bytes" {
                ConnectorHasNoDoor: "the connector has no door",
            }
        }
        "02, No. 2" {
            "The guide lifts, crosses and settles; document 01 sums straight lines" {
                LengthStraight: "straight lines",
            }
            "The length of an edge becomes lift" {
                LengthWithoutLift: "the lift is not added",
                LengthByTheLiftBefore: "the lift of the record before",
            }
            "plus the root of dx² + dz²" {
                LengthWithTheRise: "the root of dx² + dy² + dz²",
                LengthAlongAxes: "the sizes of dx and dz",
                LengthFused: "dx² is not rounded before dz² is added",
                LengthHypot: "a root for which no square is too small or too large",
            }
            "plus the size of to.y - (from.y + lift)" {
                LengthWithoutSettle: "the settling is not added",
                LengthSettleSigned: "to.y - (from.y + lift) itself",
                LengthSettleFromFeet: "the size of to.y - from.y",
                LengthSettleLessLift: "the size of (to.y - from.y) - lift",
            }
            "added in that order" {
                LengthCrossingWithSettle: "lift + (root + settle)",
                LengthSettleBeforeCrossing: "(lift + settle) + root",
            }
            "then added to the sum" {
                LengthPartByPart: "each of the three parts is added to the sum",
            }
        }
        "Scenes and walkprint, the length" {
            "the f64 sum, from 0.0 in list order" {
                LengthFromMinusZero: "from -0.0",
                LengthFromTheEnd: "from the list's end",
            }
        }
        "02, No. 5, the length" {
            "Each waypoint record gains 8 bytes" {
                LengthOfOldRecords: "40 bytes a record",
                LengthOfNodeRecords: "64 bytes a record",
            }
        }
    }
    asked {
        "Supported segment" {
            "must cover 0 to 1, each joint within E" {
                AskedFirstJointWithoutE: "the first interval begins at 0",
            }
            "1 - E suffices" {
                AskedCoverToOne: "1 is needed",
                AskedCoverAtEOut: "exactly 1 - E does not suffice",
            }
        }
    }
    roomed {
        "02, No. 5" {
            "Rooms are counted in the new sizes" {
                RoomOfOldNodes: "56 bytes a node",
                RoomOfOldWaypoints: "40 bytes a waypoint",
            }
        }
    }
    listed {
        "include/walkprint.h, walkprint_length" {
            "A partial record at the end is not read" {
                LengthOfAPartialRecord: "it is read as if zeros followed",
            }
            "nor are .. the first record's lift" {
                LengthWithTheFirstLift: "the sum begins at the first record's lift",
            }
        }
    }
    told {
        "02, No. 3, the edge" {
            "too high, too deep, target out of range, raised point out of range, target not standable, lift blocked, crossing blocked, settle blocked, segment unsupported" {
                ToldHighForDeep: "too high and too deep are exchanged",
                ToldDeepForTarget: "too deep and target out of range are exchanged",
                ToldTargetForRaised: "target and raised point out of range are exchanged",
                ToldRaisedForStanding: "raised point out of range and target not standable are exchanged",
                ToldStandingForLift: "target not standable and lift blocked are exchanged",
                ToldLiftForCrossing: "lift and crossing blocked are exchanged",
                ToldCrossingForSettle: "crossing and settle blocked are exchanged",
                ToldSettleForSegment: "settle blocked and segment unsupported are exchanged",
            }
            "its first reason .. in 01's order" {
                ToldRangeBeforeHeight: "the target's range is judged before the height",
                ToldRaisedBeforeTarget: "the raised point is judged before the target's range",
                ToldStandingBeforeRaised: "the target's standing is judged before the raised point",
                ToldLiftBeforeStanding: "the lift is judged before the target's standing",
                ToldCrossingBeforeLift: "the crossing is judged before the lift",
                ToldSettleBeforeCrossing: "the settling is judged before the crossing",
                ToldSegmentBeforeSettle: "the segment is judged before the settling",
            }
            "each coordinate differs from the start's by at most max_range + E" {
                ToldNanInRange: "a NaN is in range",
            }
            "Otherwise Walk" {
                ToldNanTooHigh: "a NaN difference in height is too high",
                ToldNanTooDeep: "a NaN difference in height is too deep",
            }
        }
        "02, No. 3, the walk-back" {
            "invalid request, bad list, goal out of range, start not standable, goal not standable, wrong start; .. not a graph step, wrong movement or lift; then wrong end" {
                ToldRequestForList: "invalid request and bad list are exchanged",
                ToldListForGoalRange: "bad list and goal out of range are exchanged",
                ToldGoalRangeForStart: "goal out of range and start not standable are exchanged",
                ToldStartForGoal: "start and goal not standable are exchanged",
                ToldGoalForWrongStart: "goal not standable and wrong start are exchanged",
                ToldWrongStartForStep: "wrong start and not a graph step are exchanged",
                ToldStepForLabel: "not a graph step and wrong movement or lift are exchanged",
                ToldLabelForEnd: "wrong movement or lift and wrong end are exchanged",
            }
            "its first reason: invalid request, bad list (judged after 4), goal out of range, start not standable, goal not standable, wrong start" {
                ToldLimitsBeforeRequest: "4 is judged before the request",
                ToldListBeforeLimits: "the list is judged before 4",
                ToldListBeforeRequest: "the list is judged before the request",
                ToldListAfterGoalRange: "the list is judged after the goal's range",
                ToldListAfterEnds: "the list is judged after the ends",
                ToldListAfterStart: "the list is judged after its start",
                ToldStartBeforeGoalRange: "the start is judged before the goal's range",
                ToldGoalBeforeStart: "the goal's standing is judged before the start's",
                ToldWrongStartBeforeGoal: "the list's start is judged before the goal's standing",
                ToldPairsBeforeStart: "the list's start is judged after its pairs",
                ToldEndBeforePairs: "the list's end is judged before its pairs",
            }
            "An empty list, a partial record or a movement above 3" {
                ToldEmptyIsWrongStart: "an empty list is a wrong start",
                ToldPartialUnread: "a partial record at the end is not read",
                ToldMovementAtItsPair: "a movement above 3 is wrong at its pair",
                ToldMovementOfTheStart: "a movement above 3 of the start is a wrong start",
                ToldMovementHalfRead: "the low half of a movement is read",
            }
            "the start first (Walk, lift 0)" {
                ToldStartMovementUnread: "the start's movement is not read",
                ToldStartLiftUnread: "the start's lift is not read",
                ToldStartLiftByBits: "the start's lift is no -0.0",
                ToldZeroSignCounts: "-0.0 is another coordinate than 0",
            }
            "for each pair in order" {
                ToldLastPair: "the last pair that has a reason is told",
                ToldPairsByReason: "the edges of all pairs come before their graph steps",
            }
            "the edge's reason" {
                ToldEdgeBackwards: "the edge is asked from the later point to the earlier",
                ToldEdgeFromStart: "the edge is asked from the start",
                ToldStepBeforeEdge: "not a graph step is judged before the edge",
            }
            "not a graph step (nor, at the last pair, a connector)" {
                ToldConnectorAnywhere: "a connector at any pair",
                ToldConnectorNever: "no connector",
                ToldConnectorToAnyPoint: "at the last pair an edge to any point that is near enough",
            }
            "wrong movement or lift" {
                ToldLabelBeforeStep: "it is judged before the graph step",
                ToldMovementUnread: "the movement is not read",
                ToldLiftUnread: "the lift is not read",
                ToldLiftByBits: "lifts compare by bits",
                ToldLiftWithinE: "lifts compare within E",
            }
            "then wrong end" {
                ToldEndUnread: "the end is not read",
            }
            "With a pair's reason goes its later point's place" {
                ToldPlaceOneMore: "the place is one more",
                ToldPlaceOneLess: "the earlier point's place",
                ToldPlaceOfTheEnd: "a wrong end has the last point's place",
            }
        }
        "02, No. 5, the walk-back" {
            "A route must carry the right door too (else No. 3's wrong movement or lift)" {
                ToldDoorUnread: "the door of a pair is not read",
                ToldDoorHalfRead: "the low half of a door is read",
                ToldDoorNotAStep: "a wrong door is not a graph step",
            }
            "the start has none" {
                ToldStartDoorUnread: "the start's door is not read",
            }
        }
    }
    ticked {
        "02, No. 10, begin" {
            "Begin makes 01's checks" {
                TickBeginEndsUnread: "begin does not judge the ends",
                TickBeginOutputUnread: "begin does not judge the output's size",
                TickBeginFinds: "a start at the goal is found by begin",
            }
            "zeroes the frontier room" {
                TickBeginFrontierKept: "begin does not zero it",
                TickBeginFrontierToBudget: "begin zeroes the budget's records",
            }
            "and retains the start" {
                TickStartEstimated: "the start's estimate is 1.5 × distance",
                TickStartUnpushed: "pushed is 0 after begin",
            }
        }
        "02, No. 10, continue" {
            "each continue with a number of expansions" {
                TickOneExpansionMore: "one expansion more",
                TickOneExpansionFewer: "one expansion fewer",
                TickOneExpansion: "one expansion, whatever the number",
            }
            "the outcome is answered by the call whose expansion finds the goal or leaves nothing waiting" {
                TickOutcomeLate: "a call too late: the frontier is not asked after the last expansion",
            }
            "The frontier room is zeroed when it ends" {
                TickFrontierKept: "it stays",
                TickFrontierKeptWhereFound: "it stays where the goal is found",
                TickFrontierZeroedToRetained: "the retained nodes' records are zeroed",
                TickFrontierZeroedToBudget: "the budget's records are zeroed",
            }
            "Rooms or counts that another hand changed are answered by the step's definition on them" {
                TickFrontierPastZeroed: "the records past the retained ones are zeroed in each call",
                TickStaleZeroed: "a record that does not wait is zeroed",
                TickWokenWithOldWords: "a woken node keeps its old estimate and order if that is no higher",
                TickEqualReplaces: "a re-push whose estimate is equal takes the entry",
                TickIdleNotWoken: "an open node that does not wait is not woken by a cheaper way",
                TickEstimatesByBits: "-0.0 comes before 0.0",
                TickGoalByEdge: "a node at the goal, not the start, needs an edge",
                TickReparentTakesZero: "a re-parented node takes the sign of the edge's zero",
            }
            "the lower node first where push orders tie" {
                TickHigherNodeFirst: "the higher node first",
            }
            "the counts (retained, closed, pushed, dropped) pass by value" {
                TickKeptUnpushed: "pushed does not advance where a re-push keeps the lower entry",
                TickDroppedOnce: "dropped says whether, not how often",
                TickDropsOfTheCall: "the outcome counts the drops of its own call",
                TickClosedByMarks: "closed is counted by the marks",
                TickFinderUncounted: "the node that finds the goal does not count as closed",
            }
            "lookups scan" {
                TickLastRecordAnswers: "of two records at one point the last answers",
            }
            "nothing written" {
                TickProgressOnRefusal: "a refusal writes the progress record",
                TickProgressCut: "a progress record that does not fit is written as far as it does",
            }
        }
        "02, No. 10, the order of refusals" {
            "continue judges 3, `valid_request` (1), 4, 5, then 12" {
                TickProgressBeforeRooms: "12 is judged before 5",
                TickProgressBeforeLimits: "12 is judged before 4",
                TickProgressBeforeRequest: "12 is judged before the request",
                TickProgressFirst: "12 is judged first",
                TickRoomsBeforeLimits: "5 is judged before 4",
                TickLimitsBeforeRequest: "4 is judged before the request",
                TickRequestBeforeWorld: "the request is judged before 3",
                TickBudgetZeroAgain: "budget 0 is 2",
                TickEndsAgain: "the ends are judged again",
                TickJudgedEachExpansion: "12 is judged before each expansion",
            }
        }
        "02, No. 10, 12" {
            "expansions outside 1 to 4,096" {
                TickNoExpansion: "0 is accepted",
                Tick4097Expansions: "4,097 is accepted",
                TickExpansionsHalfRead: "the low half of the number is read",
            }
            "a search already ended" {
                TickEndedAgain: "it answers its outcome again",
            }
            "retained is 1 to budget" {
                TickRetainedOneMore: "budget + 1 is accepted",
            }
            "closed at most that" {
                TickClosedToBudget: "at most the budget",
                TickCountForMarks: "as many as are marked",
            }
            "pushed and dropped below 2^32" {
                TickPushedAtTheEnd: "2^32 pushed are accepted",
                TickDroppedAtTheEnd: "2^32 dropped are accepted",
            }
            "each retained point in range" {
                TickRangeUnread: "points are not read",
                TickStartRangeUnread: "node 0's point is not read",
                TickPointsDiffer: "no two nodes at one point",
                TickFirstIsTheStart: "node 0 is the request's start",
            }
            "with finite cost" {
                TickInfiniteCost: "an infinite cost is accepted",
                TickNanCost: "a NaN is accepted",
                TickNegativeCost: "a cost below 0 is refused",
            }
            "movement at most 3" {
                TickMovementHalfRead: "the low half is read",
                TickMovementOf4: "4 is accepted",
                TickMovementUnread: "it is not read",
            }
            "and marks 0 or 1" {
                TickClosedMarkOf2: "a closed mark of 2 is accepted",
                TickWaitingMarkUnread: "the waiting mark is not read",
                TickWaitingMarkHalfRead: "the low half of the waiting mark is read",
                TickStaleRefused: "a record that does not wait is all zero",
            }
            "each parent is retained and closed" {
                TickParentLower: "and lower than its node",
                TickParentOpen: "an open parent is accepted",
                TickOrphan: "a node without a parent has none to be judged",
            }
            "each parent chain ends at node 0" {
                TickCycle: "a cycle is accepted",
                TickStartWithParent: "node 0 may have a parent",
            }
            "and some node waits" {
                TickOpenNodesWait: "and each open one",
            }
            "each that does retained" {
                TickWaitingPastRetained: "waiting records past retained are not judged",
                TickWaitingPastBudget: "waiting records past the budget are not judged",
                TickIdleWordsPastRetained: "past retained every waiting word is 0",
                TickPartialRecord: "a part of a record at the end is judged as if zeros followed",
            }
            "open" {
                TickWaitingClosed: "a closed node may wait",
            }
            "and of finite estimate" {
                TickInfiniteEstimate: "an infinite estimate is accepted",
                TickNanEstimate: "a NaN is accepted",
                TickIdleEstimate: "also where the node does not wait",
            }
        }
    }
}
