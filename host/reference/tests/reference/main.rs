//! The tests of the reference.

mod anlz;
mod anlz_files;
mod anlz_runs;
mod counts;
mod cues;
mod desk;
mod entries;
mod examples;
mod fetching;
mod fetching_runs;
mod generated;
mod lines;
mod listed;
mod packets;
mod pages;
mod refusals;
mod runs;
mod waves;

use sarvoltig_reference::model::{RecordReply, Refusal, Session, BLOCK_SIZE};

/// A refusal without an entry.
fn refused<T>(number: u8, value: u64) -> Result<T, Refusal> {
    refused_at(number, value, 0)
}

/// A refusal for an entry of a page.
fn refused_at<T>(number: u8, value: u64, entry: u64) -> Result<T, Refusal> {
    Err(Refusal {
        number,
        value,
        entry,
    })
}

/// The record of the row that an entry of a page names.
fn found([page, entry]: [u32; 2], numbers: &[u64]) -> Result<RecordReply, Refusal> {
    Ok(RecordReply::Found {
        page,
        entry,
        numbers: numbers.to_vec(),
    })
}

/// A session of a file with buffers that just fit, without blocks.
fn opened(file: &[u8]) -> Session {
    let blocks = file.len() / BLOCK_SIZE;
    let mut session = Session::new(vec![0xa5; file.len()], vec![u64::MAX; blocks.div_ceil(64)]);
    assert_eq!(session.open(file.len() as u64), Ok(blocks as u64));
    session
}

/// A session that holds every block of a file.
fn whole(file: &[u8]) -> Session {
    let mut session = opened(file);
    for (block, piece) in (0..).zip(file.chunks(BLOCK_SIZE)) {
        session.deliver(block, piece).expect("each block is new");
    }
    session
}
