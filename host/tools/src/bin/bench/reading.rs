//! Everything of an export, read by the library.

use sarvoltig::{Intake, Refusal, Table};
use sarvoltig_reference::model;
use std::hint::black_box;

/// How many rows were read, and the bytes of their texts.
#[derive(Debug, Default, PartialEq)]
pub struct Read {
    pub rows: u64,
    pub text: u64,
}

/// Reads every record and string of the ten tables from lists, of those that the file has; the questions for the lists
/// are made here too.
pub fn read_from_lists(intake: &Intake, list: &mut [u32]) -> Result<Read, Refusal> {
    let mut read = Read::default();
    for table in Table::ALL {
        let rows = match intake.rows_into(table, list) {
            Err(Refusal::NoPointer) => continue,
            walk => walk?.rows(),
        };
        let list = &list[..rows as usize];
        let slots = model::Table::of_type(table.number()).map_or(0, model::Table::slots);
        for i in 0..rows {
            black_box(intake.record_in(table, list, i)?);
            for slot in 0..slots {
                let text = intake.text_in(table, list, i, slot)?;
                read.text += text.found().map_or(0, |text| text.bytes.len() as u64);
            }
        }
        read.rows += rows;
    }
    Ok(read)
}
