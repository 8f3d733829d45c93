//! The ten tables (rule 1.1).

/// A table that is read. Its number is its type in the file.
#[derive(Clone, Copy, Debug, PartialEq, Eq, Hash)]
#[repr(u8)]
pub enum Table {
    /// Type 0.
    Tracks = 0,
    /// Type 1.
    Genres = 1,
    /// Type 2.
    Artists = 2,
    /// Type 3.
    Albums = 3,
    /// Type 4.
    Labels = 4,
    /// Type 5.
    Keys = 5,
    /// Type 6.
    Colors = 6,
    /// Type 7, playlist_tree.
    PlaylistTree = 7,
    /// Type 8, playlist_entries.
    PlaylistEntries = 8,
    /// Type 13.
    Artwork = 13,
}

impl Table {
    /// The ten tables in the order of their types.
    pub const ALL: [Table; 10] = [
        Table::Tracks,
        Table::Genres,
        Table::Artists,
        Table::Albums,
        Table::Labels,
        Table::Keys,
        Table::Colors,
        Table::PlaylistTree,
        Table::PlaylistEntries,
        Table::Artwork,
    ];

    /// The table of a type, if it is one of the ten.
    ///
    /// ```
    /// use sarvoltig_reference::model::Table;
    ///
    /// assert_eq!(Table::of_type(13), Some(Table::Artwork));
    /// assert_eq!(Table::of_type(9), None);
    /// ```
    pub fn of_type(number: u32) -> Option<Table> {
        Table::ALL
            .into_iter()
            .find(|table| u32::from(table.number()) == number)
    }

    /// The type's number.
    ///
    /// ```
    /// # use sarvoltig_reference::model::Table;
    /// assert_eq!(Table::Genres.number(), 1);
    /// ```
    pub fn number(self) -> u8 {
        self as u8
    }

    /// How many string slots a row has.
    ///
    /// ```
    /// # use sarvoltig_reference::model::Table;
    /// assert_eq!(Table::Tracks.slots(), 21);
    /// assert_eq!(Table::PlaylistEntries.slots(), 0);
    /// ```
    pub fn slots(self) -> u64 {
        match self {
            Table::Tracks => 21,
            Table::PlaylistEntries => 0,
            _ => 1,
        }
    }
}
