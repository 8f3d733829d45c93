//! Chains that go round.

use super::crafted::Crafted;
use super::held::with_file;
use super::report::{Report, Subject};
use sarvoltig::Table;
use sarvoltig_reference::rng::Rng;

/// Loops over pages without rows, in their order and in a random one, in which each page is a cache miss, and over pages
/// with the most rows, of each shape.
pub fn loops(report: &mut Report) {
    let empty = Crafted::without_rows();
    for megabytes in [1, 8, 64, 256] {
        let (mut order, back_to) = Shape::Whole.chain(empty.pages(megabytes));
        let export = empty.export(megabytes, &order, Some(back_to));
        walk(
            report,
            "a loop over pages without rows",
            empty.table,
            export,
        );
        Rng::new(1).shuffle(&mut order);
        let export = empty.export(megabytes, &order, Some(back_to));
        let file = "a loop over pages without rows, in random order";
        walk(report, file, empty.table, export);
    }
    let tracks = Crafted::one_row(Table::Tracks);
    for shape in Shape::ALL {
        let (order, back_to) = shape.chain(tracks.pages(8));
        let export = tracks.export(8, &order, Some(back_to));
        let file = format!("Tracks, one row for all entries, {}", shape.name());
        walk(report, &file, tracks.table, export);
    }
}

/// The question for all rows, which the loop refuses.
fn walk(report: &mut Report, file: &str, table: Table, export: Vec<u8>) {
    let (call, len) = ("rows", export.len());
    with_file(export, table, |held| {
        report.measure(
            Subject { file, call, len },
            || held.rows(&mut []),
            || held.reference_rows(&mut []),
        )
    })
}

/// The walk keeps one page, a later one each time that the pages walked are a power of two (D26), and ends when it has
/// walked as many as the file has behind its header (D27).
#[derive(Clone, Copy)]
enum Shape {
    /// The last page leads to the first.
    Whole,
    /// The last page leads to the middle.
    Half,
    /// One page more than a power of two, at most a third of the file: it is gone round three times.
    Third,
}

impl Shape {
    const ALL: [Self; 3] = [Self::Whole, Self::Half, Self::Third];

    fn name(self) -> &'static str {
        match self {
            Self::Whole => "the last leads to the first",
            Self::Half => "the last leads to the middle",
            Self::Third => "a third in a loop",
        }
    }

    /// The pages of the chain, and which of them the last leads to. The last page of the file is none of them.
    fn chain(self, pages: u32) -> (Vec<u32>, usize) {
        let all = pages - 2;
        let (count, back_to) = match self {
            Self::Whole => (all, 0),
            Self::Half => (all, all / 2),
            Self::Third => (1 + (1 << (all / 3 - 1).ilog2()), 0),
        };
        ((1..=count).collect(), back_to as usize)
    }
}

#[cfg(test)]
mod tests {
    use super::*;

    /// Every page of a chain is there once, and the walk is refused with 16.
    #[test]
    fn every_shape_is_a_loop() {
        let empty = Crafted::without_rows();
        let pages = empty.pages(1);
        assert_eq!(pages, 2_048);
        let expected = [(2_046, 0), (2_046, 1_023), (513, 0)];
        for (shape, (count, back_to)) in Shape::ALL.into_iter().zip(expected) {
            let (order, to) = shape.chain(pages);
            assert!(order.iter().copied().eq(1..=count));
            assert_eq!(to, back_to);
            let export = empty.export(1, &order, Some(to));
            with_file(export, empty.table, |held| {
                assert_eq!(held.rows(&mut []).1, Err(16));
                assert_eq!(held.reference_rows(&mut []).1, Err(16));
            });
        }
    }
}
