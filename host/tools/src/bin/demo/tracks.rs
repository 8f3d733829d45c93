//! What is listed of a track: title, artist and recording code, in columns.

use crate::printable;
use sarvoltig::{Encoding, Intake, Record, Refusal, Table, Text, Track};
use std::collections::HashMap;

/// Characters of the widest columns of titles and of artists. What stands behind a longer one is not in line.
const WIDEST: [usize; 2] = [40, 24];

/// What is known of the tracks and of their artists.
pub struct Tracks<'a> {
    tracks: HashMap<u32, Listed<'a>>,
    artists: HashMap<u32, Text<'a>>,
}

struct Listed<'a> {
    title: Text<'a>,
    artist_id: u32,
    code: Text<'a>,
}

impl<'a> Tracks<'a> {
    /// The rows by their ids; the first where an id comes twice. A table of artists that is refused has none, as one that
    /// is not wanted.
    pub fn read(intake: &'a Intake, with_artists: bool) -> Result<Self, Refusal> {
        let mut tracks = HashMap::new();
        for row in &intake.rows(Table::Tracks)? {
            if let Record::Track(Track { id, artist_id, .. }) = row.record()? {
                tracks.entry(id).or_insert(Listed {
                    title: row.text(Track::TITLE)?,
                    artist_id,
                    code: row.text(Track::ISRC)?,
                });
            }
        }
        let artists = with_artists.then(|| artists(intake).unwrap_or_default());
        let artists = artists.unwrap_or_default();
        Ok(Self { tracks, artists })
    }

    /// The lines of tracks, each an index and an id. Artists and codes have columns of their own.
    pub fn lines(&self, list: &[(u32, u32)]) -> Vec<String> {
        let columns: Vec<_> = list.iter().map(|&(_, id)| self.columns(id)).collect();
        let widths = [0, 1].map(|column| {
            let lengths = columns
                .iter()
                .map(|columns| columns[column].chars().count());
            lengths.max().unwrap_or(0).min(WIDEST[column])
        });
        let lines = list.iter().zip(columns);
        lines
            .map(|(&(index, _), columns)| line(index, &columns, widths))
            .collect()
    }

    /// A track's title, its artist and its recording code, where these are known. A code is never UTF-16.
    fn columns(&self, id: u32) -> [String; 3] {
        let Some(track) = self.tracks.get(&id) else {
            return [
                format!("track {id} is missing"),
                String::new(),
                String::new(),
            ];
        };
        let artist = self.artists.get(&track.artist_id).copied();
        let code = Some(track.code).filter(|code| code.encoding == Encoding::Ascii);
        [Some(track.title), artist, code].map(|text| text.map_or(String::new(), printable))
    }
}

/// The names of the artists.
fn artists<'a>(intake: &'a Intake) -> Result<HashMap<u32, Text<'a>>, Refusal> {
    let mut artists = HashMap::new();
    for row in &intake.rows(Table::Artists)? {
        if let Record::Artist { id } = row.record()? {
            artists.entry(id).or_insert(row.text(0)?);
        }
    }
    Ok(artists)
}

/// A line of a track. A column that no track of the list has takes no room.
fn line(index: u32, [title, artist, code]: &[String; 3], [titles, artists]: [usize; 2]) -> String {
    let mut line = format!("{index:>4}  {title:<titles$}");
    if artists > 0 {
        line += &format!("  {artist:<artists$}");
    }
    line += &format!("  {code}");
    line.trim_end().to_string()
}
