//! The walks of one state that are not refused, and what has to hold for them.

use sarvoltig_reference::model::Table;
use std::collections::HashMap;

/// A walk that is not refused.
#[derive(Clone, Debug)]
pub struct Walk {
    pub table: Table,
    /// The page waited for and the number of pages walked, as the library answers them.
    pub waiting: Option<u32>,
    pub page_count: u64,
    /// The places that the library wrote.
    pub places: Vec<u32>,
    /// The page of one of the records, as the library answers it.
    pub record_page: Option<u32>,
    /// The pages walked, as the reference names them.
    pub pages: Vec<u32>,
}

/// What does not hold for the walks of one state, if something does not. The file has so many pages, page 0 among them.
pub fn breach(walks: &[Walk], len_page: u32, file_pages: u32) -> Option<String> {
    let mut walked_for = HashMap::new();
    for walk in walks {
        let table = walk.table;
        if walk.page_count != walk.pages.len() as u64 {
            return Some(format!("number of pages: {walk:?}"));
        }
        for page in &walk.pages {
            if let Some(other) = walked_for.insert(page, table) {
                return Some(format!("page {page} is walked for {other:?} and {table:?}"));
            }
        }
        let pages_of_places = walk.places.iter().map(|place| place / len_page);
        let mut pages_of_rows = pages_of_places.chain(walk.record_page);
        if let Some(page) = pages_of_rows.find(|page| !walk.pages.contains(page)) {
            return Some(format!("page {page} has a row and is not walked: {walk:?}"));
        }
    }
    let sum = page_sum(walks);
    (sum >= u64::from(file_pages)).then(|| format!("{sum} pages are walked of {file_pages}"))
}

/// A page that is walked for another table than in an earlier state of the file, if there is one. Keeps for which table
/// each page was walked first.
pub fn later_breach(walks: &[Walk], walked_for: &mut HashMap<u32, Table>) -> Option<String> {
    for walk in walks {
        for page in &walk.pages {
            let first = *walked_for.entry(*page).or_insert(walk.table);
            if first != walk.table {
                return Some(format!(
                    "page {page}: first {first:?}, then {:?}",
                    walk.table
                ));
            }
        }
    }
    None
}

/// The numbers of pages in the library's answers, added up.
pub fn page_sum(walks: &[Walk]) -> u64 {
    walks.iter().map(|walk| walk.page_count).sum()
}

/// A walk of pages of 512 bytes with a row on each.
fn walk(table: Table, pages: &[u32]) -> Walk {
    Walk {
        table,
        waiting: None,
        page_count: pages.len() as u64,
        places: pages.iter().map(|page| 512 * page + 0x28).collect(),
        record_page: pages.first().copied(),
        pages: pages.to_vec(),
    }
}

/// The breach of a file of five pages, for the walks of these pages of the genres and the artists after an edit of the
/// second walk.
fn breach_after(genres: &[u32], artists: &[u32], edit: impl FnOnce(&mut Walk)) -> Option<String> {
    let mut walks = [walk(Table::Genres, genres), walk(Table::Artists, artists)];
    edit(&mut walks[1]);
    breach(&walks, 512, 5)
}

#[test]
fn walks_without_a_breach() {
    assert_eq!(breach(&[], 512, 1), None);
    assert_eq!(breach_after(&[], &[], |_| {}), None);
    assert_eq!(breach_after(&[1, 2, 3], &[4], |_| {}), None);
    assert_eq!(breach_after(&[2], &[3, 1], |_| {}), None);
}

#[test]
fn a_page_of_another_table_later() {
    let mut walked_for = HashMap::new();
    let mut later = |table, pages: &[u32]| later_breach(&[walk(table, pages)], &mut walked_for);
    assert_eq!(later(Table::Genres, &[1]), None);
    assert_eq!(later(Table::Genres, &[1, 2]), None);
    assert_eq!(later(Table::Artists, &[3]), None);
    let breach = later(Table::Artists, &[3, 2]);
    assert_eq!(
        breach.as_deref(),
        Some("page 2: first Genres, then Artists")
    );
}

#[test]
fn each_breach_is_found() {
    let found = |breach: Option<String>, words: &str| {
        assert!(
            breach.is_some_and(|breach| breach.contains(words)),
            "{words}"
        );
    };
    let unchanged = |_: &mut Walk| {};
    found(
        breach_after(&[1], &[2, 3, 2], unchanged),
        "page 2 is walked for Artists and Artists",
    );
    found(
        breach_after(&[1, 2], &[3, 2], unchanged),
        "page 2 is walked for Genres and Artists",
    );
    found(
        breach_after(&[1, 2], &[3, 4, 5], unchanged),
        "5 pages are walked of 5",
    );
    found(
        breach_after(&[1], &[2], |walk| walk.page_count += 1),
        "number of pages",
    );
    found(
        breach_after(&[1], &[2], |walk| walk.pages.push(3)),
        "number of pages",
    );
    found(
        breach_after(&[1], &[2], |walk| walk.places.push(512)),
        "page 1 has a row",
    );
    found(
        breach_after(&[1], &[2], |walk| walk.places[0] = 1536),
        "page 3 has a row",
    );
    found(
        breach_after(&[1], &[2], |walk| walk.record_page = Some(1)),
        "page 1 has a row",
    );
}
