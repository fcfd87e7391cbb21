//! What was seen, by name.

use std::collections::BTreeMap;
use std::fmt;

use reading::Variant::{LengthStraight, ReadAsWritten};
use reading::{Tick, edges, index, length, same_number};
use scene::{NODE, WAYPOINT, words};

use crate::expected::Expected;

#[derive(Default)]
pub struct Counts {
    names: BTreeMap<&'static str, u64>,
    /// The numbers of walk-backs and edges.
    told: BTreeMap<u64, u64>,
    /// The numbers of begins and continues.
    ticks: BTreeMap<(&'static str, u64), u64>,
    /// Rows of tables, by the table's name and the row's.
    rows: BTreeMap<(&'static str, &'static str), u64>,
}

impl Counts {
    pub fn add(&mut self, name: &'static str, count: u64) {
        *self.names.entry(name).or_default() += count;
    }

    /// A walk-back or an edge that answered this number.
    pub fn told(&mut self, number: u64) {
        *self.told.entry(number).or_default() += 1;
    }

    /// A begin or a continue that answered this number.
    pub fn tick(&mut self, asked: Tick, number: u64) {
        let name = match asked {
            Tick::Begin => "begins",
            Tick::Continue(..) => "continues",
        };
        *self.ticks.entry((name, number)).or_default() += 1;
    }

    /// One more in a row of a table.
    pub fn row(&mut self, table: &'static str, row: &'static str) {
        *self.rows.entry((table, row)).or_default() += 1;
    }

    pub fn merge(&mut self, other: Counts) {
        for (name, count) in other.names {
            self.add(name, count);
        }
        for (number, count) in other.told {
            *self.told.entry(number).or_default() += count;
        }
        for (tick, count) in other.ticks {
            *self.ticks.entry(tick).or_default() += count;
        }
        for (row, count) in other.rows {
            *self.rows.entry(row).or_default() += count;
        }
    }

    /// A search that was as it must be.
    pub fn search(&mut self, answer: &Expected) {
        let name = match answer.number {
            0 => "found",
            1 if answer.began => "unreachable",
            1 => "unreachable unbegun",
            2 if answer.began => "exceeded",
            2 => "exceeded unbegun",
            3 => "refused 3",
            4 => "refused 4",
            5 => "refused 5",
            _ => "refused 8",
        };
        self.add("searches", 1);
        self.add(name, 1);
        self.add("node records", (answer.nodes.len() / NODE) as u64);
        self.add("waypoints", (answer.list.len() / WAYPOINT) as u64);
        self.doors(answer);
        self.lengths(&answer.list);
    }

    /// The lists with an edge, and those in which a lift, a settling and 02's No. 2
    /// itself show.
    pub fn lengths(&mut self, list: &[u8]) {
        let edges = edges(list);
        let straight = length(list, LengthStraight);
        let other = !same_number(length(list, ReadAsWritten), straight);
        let lifted = edges.iter().any(|[lift, _, _]| *lift != 0.0);
        let settled = edges.iter().any(|[_, _, settle]| *settle != 0.0);
        self.add("lists of two points or more", (!edges.is_empty()).into());
        self.add("lists with a lift", lifted.into());
        self.add("lists with a settling", settled.into());
        self.add("lists longer or shorter than straight lines", other.into());
    }

    /// The doors that a search names, those of number 0 among them, and whether
    /// its connector does.
    fn doors(&mut self, answer: &Expected) {
        let [list, nodes] = answer.doors();
        let zeros = list.iter().chain(&nodes).filter(|&&door| door == 0);
        self.add("doors 0", zeros.count() as u64);
        self.add("doors of waypoints", list.len() as u64);
        self.add("doors of nodes", nodes.len() as u64);
        self.add("doors of connectors", answer.connector_door().into());
    }

    /// The nodes of a search in an index of so many bytes: those in another slot
    /// than their own, and those of them that went round the room's end.
    pub fn index(&mut self, answer: &Expected, bytes: usize) {
        let points = answer.points();
        let mut room = vec![0; if answer.began { bytes } else { 0 }];
        index::enter(&mut room, &points);
        for (slot, number) in room.as_chunks().0.iter().enumerate() {
            let number = u32::from_le_bytes(*number) as usize;
            if number > 0 {
                let own = index::home(bytes / 4, points[number - 1]);
                self.add("nodes in another slot", (slot != own).into());
                self.add("nodes round the end", (slot < own).into());
            }
        }
    }
}

impl fmt::Display for Counts {
    fn fmt(&self, f: &mut fmt::Formatter) -> fmt::Result {
        let names = self.names.iter().map(|(name, n)| format!("{n} {name}"));
        let told = self.told.iter();
        let told = told.map(|(number, n)| format!("{n} {} ({number})", words(*number)));
        let ticks = self.ticks.iter();
        let ticks = ticks.map(|((name, number), n)| format!("{n} {name} answered {number}"));
        let rows = self.rows.iter();
        let rows = rows.map(|((table, row), n)| format!("{table}, {row}: {n}"));
        let parts: Vec<String> = names.chain(told).chain(ticks).chain(rows).collect();
        f.write_str(&parts.join(", "))
    }
}
