//! The pages of the benchmark that are full of recording codes are good.

use sarvoltig::{Encoding, Intake, Table, Track};
use sarvoltig_tools::code_page::CodePage;

#[test]
fn pages_full_of_codes_are_read() {
    for page in [CodePage::longest_search(), CodePage::most_entries()] {
        let mut file = page.with_codes();
        let mut map = [!0; 2];
        let intake = Intake::resume(file.len() as u64, &mut file, &mut map);
        let rows = intake.rows(Table::Tracks).expect("a good table");
        assert_eq!(rows.len(), page.rows());
        for i in [0, rows.len() - 1] {
            let text = rows.get(i).expect("a row").text(Track::ISRC);
            let text = text.expect("found");
            assert_eq!(text.encoding, Encoding::Ascii);
            assert_eq!(text.bytes, vec![b'7'; page.code_len()]);
        }
        let mut file = page.without_codes();
        let intake = Intake::resume(file.len() as u64, &mut file, &mut map);
        let rows = intake.rows(Table::Tracks).expect("a good table");
        assert_eq!(rows.len(), page.rows());
    }
}
