//! Runs that ask ANLZ files: the cues and the entries of waveforms that they ask
//! for, counted.

use sarvoltig_reference::anlz::{cues, waveform, Cue, CuePosition, Waveform};
use sarvoltig_reference::model::{Refusal, Session};
use sarvoltig_reference::schedule::{anlz_run, Call, Reply, Run};

use crate::anlz::plain;
use crate::anlz_files::{check_situations, with_code, Situation};

type Answer = Result<Reply, Refusal>;

/// The calls of runs with the file that they ask and their answers.
fn answered(mut visit: impl FnMut(&[u8], &Call, Answer)) {
    for calls in (0..1000).map(anlz_run) {
        let mut run = Run::new(Session::new(Vec::new(), Vec::new()));
        for call in calls {
            if let Some(answer) = call.make(&mut run) {
                visit(run.anlz(), &call, answer.reply);
            }
        }
    }
}

/// A cue that is asked for.
struct AskedCue {
    k: u64,
    /// How many cues the file has up to the end of each list, by their length.
    ends: Vec<u64>,
    /// How many of them stand before the first bad list.
    good: u64,
    answer: Answer,
}

impl AskedCue {
    fn of(file: &[u8], k: u64, answer: Answer) -> AskedCue {
        let lists = with_code(file, b"PCOB");
        let ends = lists.iter().scan(0, |cues, list| {
            *cues += u64::from(list.len_tag / 0x38);
            Some(*cues)
        });
        let up_to = |end: u64| {
            let mut cut = file[..end as usize].to_vec();
            cut[0x08..0x0c].copy_from_slice(&(end as u32).to_be_bytes());
            cues(&cut).map_or(0, |cues| cues.len() as u64)
        };
        AskedCue {
            k,
            ends: ends.collect(),
            good: lists
                .iter()
                .map(|list| up_to(list.end()))
                .max()
                .unwrap_or(0),
            answer,
        }
    }

    fn count(&self) -> u64 {
        self.ends.last().copied().unwrap_or(0)
    }

    /// Whether the cue is answered, and so many cues stand in the lists up to
    /// one that is not the last.
    fn ends_a_list(&self, cues: u64) -> bool {
        let inner = self.ends.split_last().map_or(&[][..], |(_, inner)| inner);
        self.answer.is_ok() && cues > 0 && inner.contains(&cues)
    }
}

const CUES: [Situation<AskedCue>; 12] = [
    ("a point", 900, |asked| {
        let point = |cue: &Cue| matches!(cue.position, CuePosition::Point { .. });
        matches!(&asked.answer, Ok(Reply::Cue(cue)) if point(cue))
    }),
    ("a loop", 600, |asked| {
        let point = |cue: &Cue| matches!(cue.position, CuePosition::Point { .. });
        matches!(&asked.answer, Ok(Reply::Cue(cue)) if !point(cue))
    }),
    ("the first cue of a later list", 300, |asked| {
        asked.ends_a_list(asked.k)
    }),
    ("the last cue of a list before others", 450, |asked| {
        asked.k < asked.count() && asked.ends_a_list(asked.k + 1)
    }),
    ("the last cue", 700, |asked| {
        asked.answer.is_ok() && asked.k + 1 == asked.count()
    }),
    ("one past the last cue", 500, |asked| {
        asked.answer == plain(18) && asked.count() > 0 && asked.k == asked.count()
    }),
    ("cue 0 of empty lists", 200, |asked| {
        asked.answer == plain(18) && asked.k == 0 && !asked.ends.is_empty()
    }),
    ("cue 0 where there is no list", 600, |asked| {
        asked.answer == plain(18) && asked.k == 0 && asked.ends.is_empty()
    }),
    ("a cue's number with a bit above 16", 100, |asked| {
        asked.answer == plain(18) && asked.k >> 16 > 0 && asked.k & 0xffff < asked.count()
    }),
    ("a cue's number with a bit above 32", 100, |asked| {
        asked.answer == plain(18) && asked.k >> 32 > 0 && asked.k & 0xffff_ffff < asked.count()
    }),
    ("a good cue before a bad list", 100, |asked| {
        asked.answer == plain(26) && asked.k < asked.good
    }),
    ("26 for the greatest number", 60, |asked| {
        asked.answer == plain(26) && asked.k == u64::MAX
    }),
];

#[test]
fn runs_ask_for_cues_at_the_edges() {
    let mut all = Vec::new();
    answered(|file, call, answer| {
        if let Call::Cue { k } = *call {
            all.push(AskedCue::of(file, k, answer));
        }
    });
    check_situations(&CUES, all.into_iter());
}

/// An entry of a waveform that is asked for.
struct AskedEntry {
    sort: u64,
    k: u64,
    waveform: Result<Waveform, Refusal>,
    answer: Answer,
}

impl AskedEntry {
    fn count(&self) -> u64 {
        self.waveform.map_or(0, |waveform| waveform.count.into())
    }

    fn is_of_a_sort(&self) -> bool {
        (3..=5).contains(&self.sort)
    }
}

fn asked_entries() -> Vec<AskedEntry> {
    let mut all = Vec::new();
    answered(|file, call, answer| {
        if let Call::Wave { sort, k } = *call {
            all.push(AskedEntry {
                sort,
                k,
                waveform: waveform(file, sort),
                answer,
            });
        }
    });
    all
}

const ENTRIES: [Situation<AskedEntry>; 8] = [
    ("an entry inside", 40, |asked| {
        asked.answer.is_ok() && asked.k > 0 && asked.k + 1 < asked.count()
    }),
    ("the first entry", 40, |asked| {
        asked.answer.is_ok() && asked.k == 0
    }),
    ("the last entry", 40, |asked| {
        asked.answer.is_ok() && asked.k + 1 == asked.count()
    }),
    ("one past the last entry", 40, |asked| {
        asked.answer == plain(18) && asked.count() > 0 && asked.k == asked.count()
    }),
    ("an entry's number with a bit above 32", 25, |asked| {
        asked.answer == plain(18) && asked.k >> 32 > 0 && asked.k & 0xffff_ffff < asked.count()
    }),
    ("no such section", 700, |asked| asked.waveform == plain(18)),
    ("27 for a small number", 35, |asked| {
        asked.answer == plain(27) && asked.k < 2
    }),
    ("27 for the greatest number", 8, |asked| {
        asked.answer == plain(27) && asked.k == u64::MAX
    }),
];

#[test]
fn runs_ask_for_entries_at_the_edges() {
    for sort in [3, 4, 5] {
        let asked = asked_entries().into_iter();
        check_situations(&ENTRIES, asked.filter(|asked| asked.sort == sort));
    }
}

const ABSENT_SORTS: [Situation<AskedEntry>; 8] = [
    ("sort 0", 100, |asked| asked.sort == 0),
    ("sort 2", 100, |asked| asked.sort == 2),
    ("sort 6", 100, |asked| asked.sort == 6),
    ("the greatest number", 100, |asked| asked.sort == u64::MAX),
    ("a sort in the low 8 bits", 500, |asked| {
        !asked.is_of_a_sort() && (3..=5).contains(&(asked.sort as u8))
    }),
    ("a sort in the low 32 bits", 350, |asked| {
        !asked.is_of_a_sort() && (3..=5).contains(&(asked.sort as u32))
    }),
    ("an absent sort and 20", 150, |asked| {
        !asked.is_of_a_sort() && asked.answer == plain(20)
    }),
    ("an absent sort and 21", 90, |asked| {
        !asked.is_of_a_sort() && asked.answer == plain(21)
    }),
];

#[test]
fn runs_ask_for_absent_sorts() {
    check_situations(&ABSENT_SORTS, asked_entries().into_iter());
}
