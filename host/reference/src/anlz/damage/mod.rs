//! Damaged ANLZ files.

mod cue_lists;
mod fields;
mod lengths;
mod target;
mod waveforms;

use super::{BEAT, CUE};
use crate::rng::Rng;
use target::Target;

/// What is damaged.
#[derive(Clone, Copy, Debug, PartialEq, Eq)]
pub enum Kind {
    /// The code of the file.
    FileCode,
    /// len_header of the file.
    FileLenHeader,
    /// len_file.
    LenFile,
    /// The file ends early; len_file follows or not.
    Cut,
    /// Bytes behind the file; len_file follows or not.
    Extended,
    /// The code of a section.
    SectionCode,
    /// len_header of a section.
    SectionLenHeader,
    /// len_tag of a section.
    LenTag,
    /// len_beats of a grid.
    LenBeats,
    /// The bar position of a beat.
    BarPosition,
    /// The end of a grid; its len_tag and len_file follow.
    GridLength,
    /// The type of a cue list.
    CueListType,
    /// The count of a cue list.
    CueCount,
    /// The end of a cue list; its len_tag and len_file follow.
    CueListLength,
    /// The code of a cue.
    CueCode,
    /// The length that a cue gives.
    CueLength,
    /// The kind of a cue.
    CueKind,
    /// The hot cue number, the time or the loop time of a cue.
    CueNumbers,
    /// A byte of a cue list or a cue that no rule names, or of a point's loop
    /// time.
    CueUnjudged,
    /// The width that a waveform gives.
    WaveWidth,
    /// The count of a waveform.
    WaveCount,
    /// The end of a waveform; its len_tag and len_file follow.
    WaveLength,
    /// The entries of a waveform: their number or their width, which its
    /// numbers and its end follow.
    WaveEntries,
    /// A bad waveform before or behind one of its sort.
    WaveInserted,
    /// Some bytes anywhere.
    Bytes,
}

impl Kind {
    /// All kinds.
    pub const ALL: [Kind; 25] = [
        Kind::FileCode,
        Kind::FileLenHeader,
        Kind::LenFile,
        Kind::Cut,
        Kind::Extended,
        Kind::SectionCode,
        Kind::SectionLenHeader,
        Kind::LenTag,
        Kind::LenBeats,
        Kind::BarPosition,
        Kind::GridLength,
        Kind::CueListType,
        Kind::CueCount,
        Kind::CueListLength,
        Kind::CueCode,
        Kind::CueLength,
        Kind::CueKind,
        Kind::CueNumbers,
        Kind::CueUnjudged,
        Kind::WaveWidth,
        Kind::WaveCount,
        Kind::WaveLength,
        Kind::WaveEntries,
        Kind::WaveInserted,
        Kind::Bytes,
    ];

    /// Kinds about the file header and the file's length.
    fn of_file() -> &'static [Kind] {
        &Kind::ALL[..5]
    }

    /// Kinds about the envelopes of sections.
    fn of_sections() -> &'static [Kind] {
        &Kind::ALL[5..8]
    }

    /// Kinds about the grid.
    fn of_grid() -> &'static [Kind] {
        &Kind::ALL[8..11]
    }

    /// Kinds about cue lists.
    fn of_cue_lists() -> &'static [Kind] {
        &Kind::ALL[11..19]
    }

    /// Kinds about waveforms.
    fn of_waves() -> &'static [Kind] {
        &Kind::ALL[19..24]
    }
}

/// Damages a file in one way or in several, at times then its sections or its
/// length too.
///
/// ```
/// use sarvoltig_reference::{anlz::{damage::damage, generate}, rng::Rng};
///
/// let file = generate::demo();
/// assert_ne!(damage(&file, &mut Rng::new(1)), file);
/// ```
pub fn damage(file: &[u8], rng: &mut Rng) -> Vec<u8> {
    let mut bytes = file.to_vec();
    let (kinds, most) = match rng.below(24) {
        0..2 => (Kind::of_file(), 1),
        2..5 => (Kind::of_sections(), 2),
        5..8 => (Kind::of_grid(), 3),
        8..12 => (&[Kind::BarPosition][..], 3),
        12..17 => (Kind::of_cue_lists(), 2),
        17..22 => (Kind::of_waves(), 2),
        _ => (&Kind::ALL[..], 3),
    };
    for _ in 0..1 + rng.below(most) {
        apply(rng.pick(kinds), &mut bytes, rng);
    }
    if rng.chance(1, 12) {
        let kind = rng.pick(&[Kind::Extended, Kind::LenTag, Kind::LenFile]);
        apply(kind, &mut bytes, rng);
    }
    bytes
}

/// Damages a file in one way. Where the file has no such place, as a beat when
/// there is no grid, nothing changes.
///
/// ```
/// use sarvoltig_reference::{anlz::{damage::{apply, Kind}, generate}, rng::Rng};
///
/// let mut file = generate::demo();
/// apply(Kind::FileCode, &mut file, &mut Rng::new(2));
/// assert_ne!(file[..4], *b"PMAI");
/// ```
pub fn apply(kind: Kind, file: &mut Vec<u8>, rng: &mut Rng) {
    let mut target = Target::new(file, rng);
    match kind {
        Kind::FileCode => target.code(Some(0)),
        Kind::FileLenHeader => target.file_len_header(),
        Kind::LenFile => target.len_file(),
        Kind::Cut => target.cut(),
        Kind::Extended => target.extended(),
        Kind::SectionCode => {
            let place = target.section();
            target.code(place);
        }
        Kind::SectionLenHeader => target.section_len_header(),
        Kind::LenTag => target.len_tag(),
        Kind::LenBeats => target.len_beats(),
        Kind::BarPosition => target.bar_position(),
        Kind::GridLength => {
            let grid = target.grid();
            target.section_length(grid, BEAT);
        }
        Kind::Bytes => target.any_bytes(),
        _ => apply_to_lists_and_waves(kind, target),
    }
}

fn apply_to_lists_and_waves(kind: Kind, mut target: Target) {
    match kind {
        Kind::CueListType => target.cue_list_type(),
        Kind::CueCount => target.cue_count(),
        Kind::CueListLength => {
            let list = target.cue_list();
            target.section_length(list, CUE);
        }
        Kind::CueCode => {
            let entry = target.cue_entry();
            target.code(entry);
        }
        Kind::CueLength => target.cue_length(),
        Kind::CueKind => target.cue_kind(),
        Kind::CueNumbers => target.cue_numbers(),
        Kind::CueUnjudged => target.cue_unjudged(),
        Kind::WaveWidth => target.wave_width(),
        Kind::WaveCount => target.wave_count(),
        Kind::WaveLength => target.wave_length(),
        Kind::WaveEntries => target.wave_entries(),
        Kind::WaveInserted => target.wave_inserted(),
        _ => {}
    }
}
