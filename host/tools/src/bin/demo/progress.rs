//! What has arrived, and what is known of each table.

use crate::network::{Arrival, Delivery, Packet};
use sarvoltig::{Accepted, Delivered, Intake, Refusal, Table, Walk};
use sarvoltig_tools::output::counted;
use std::collections::HashMap;

/// The places listed of each table, the blocks held, how many blocks did what, and how many packets.
#[derive(Default)]
pub struct Progress {
    places: HashMap<Table, Vec<u32>>,
    held: u64,
    new: u64,
    same: u64,
    refused: u64,
    packets: u64,
    packets_refused: u64,
}

impl Progress {
    /// The blocks held.
    pub fn held(&self) -> u64 {
        self.held
    }

    pub fn take(&mut self, intake: &mut Intake, delivery: &Delivery) {
        match delivery {
            Delivery::Block(arrival) => self.take_block(intake, arrival),
            Delivery::Packet(packet) => self.take_packet(intake, packet),
        }
    }

    fn take_block(&mut self, intake: &mut Intake, Arrival { block, piece }: &Arrival) {
        let result = intake.deliver(*block, piece);
        self.held = result.map_or(self.held, Delivered::held);
        self.count(result.map(|delivered| match delivered {
            Delivered::New(_) => Accepted::New,
            Delivered::Same(_) => Accepted::Same,
        }));
    }

    fn take_packet(&mut self, intake: &mut Intake, Packet { blocks, pieces }: &Packet) {
        self.packets += 1;
        let mut results = vec![0; blocks.len()];
        match intake.deliver_packet(blocks, pieces, &mut results) {
            Ok(packet) => {
                self.held = packet.held();
                packet.into_iter().for_each(|result| self.count(result));
            }
            Err(_) => self.packets_refused += 1,
        }
    }

    fn count(&mut self, result: Result<Accepted, Refusal>) {
        match result {
            Ok(Accepted::New) => self.new += 1,
            Ok(Accepted::Same) => self.same += 1,
            Err(_) => self.refused += 1,
        }
    }

    /// Lines about the blocks, and one about each table.
    pub fn lines(&mut self, intake: &Intake) -> Vec<String> {
        let Self { held, new, .. } = *self;
        let blocks = counted(intake.blocks(), "block", "blocks");
        let mut lines = vec![format!(
            "{held} of {blocks} held; {new} new, {} repeated, {} refused",
            self.same, self.refused
        )];
        if self.packets > 0 {
            let (packets, refused) = (self.packets, self.packets_refused);
            lines.push(format!("  packets: {packets}, refused whole: {refused}"));
        }
        lines.extend(Table::ALL.map(|table| self.table_line(intake, table)));
        lines
    }

    /// A table's line: its rows and where the walk stands. Rows that an earlier answer had must stay first.
    fn table_line(&mut self, intake: &Intake, table: Table) -> String {
        let name = format!("{table:?}");
        match intake.rows(table) {
            Ok(rows) => {
                let walk = rows.walk();
                let listed = self.places.entry(table).or_default();
                let places = rows.into_places();
                assert!(places.starts_with(listed), "{name}: a row was taken back");
                *listed = places;
                let noun = if walk.rows() == 1 { "row" } else { "rows" };
                format!("  {name:<16}{:>7} {noun}{}", walk.rows(), state(walk))
            }
            Err(Refusal::NoPointer) => format!("  {name:<16}      no table"),
            Err(refusal) => format!("  {name:<16}      refused {}: {refusal}", refusal.number()),
        }
    }
}

/// Where a walk stands.
fn state(walk: Walk) -> String {
    match walk {
        Walk::Full { pages, .. } => format!(" on {}, complete", counted(pages, "page", "pages")),
        Walk::Waiting { page: 0, .. } => ", waits for the directory".to_string(),
        Walk::Waiting { page, .. } => format!(", waits for page {page}"),
    }
}
