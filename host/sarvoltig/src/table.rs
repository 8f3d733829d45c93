//! The ten tables.

/// A table that can be asked for, under its type number in the file.
#[derive(Clone, Copy, Debug, PartialEq, Eq, Hash, PartialOrd, Ord)]
#[repr(u32)]
pub enum Table {
    /// Tracks, with 21 string slots.
    Tracks = 0,
    /// Genres.
    Genres = 1,
    /// Artists.
    Artists = 2,
    /// Albums.
    Albums = 3,
    /// Labels.
    Labels = 4,
    /// Musical keys.
    Keys = 5,
    /// Colors.
    Colors = 6,
    /// Playlists and their folders.
    PlaylistTree = 7,
    /// Which track stands where in a playlist; no strings.
    PlaylistEntries = 8,
    /// Paths of cover images.
    Artwork = 13,
}

impl Table {
    /// All ten, in the order of their numbers.
    pub const ALL: [Table; 10] = [
        Table::Tracks,
        Table::Genres,
        Table::Artists,
        Table::Albums,
        Table::Labels,
        Table::Keys,
        Table::Colors,
        Table::PlaylistTree,
        Table::PlaylistEntries,
        Table::Artwork,
    ];

    /// The string slot of the tables that have one: the name, of an artwork the path. Those of tracks are the constants
    /// of [`Track`](crate::Track).
    pub const NAME: u64 = 0;

    /// Its type number in the file.
    ///
    /// ```
    /// assert_eq!(sarvoltig::Table::Artwork.number(), 13);
    /// ```
    #[must_use]
    pub fn number(self) -> u32 {
        self as u32
    }

    /// The table of a type number, if it is one of the ten.
    ///
    /// ```
    /// use sarvoltig::Table;
    /// assert_eq!(Table::from_number(7), Some(Table::PlaylistTree));
    /// assert_eq!(Table::from_number(9), None);
    /// ```
    #[must_use]
    pub fn from_number(number: u32) -> Option<Self> {
        Self::ALL.into_iter().find(|t| t.number() == number)
    }
}
