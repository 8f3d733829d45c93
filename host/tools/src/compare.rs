//! Comparison: the same calls on the library and on the reference, with every answer and all memory.

use crate::library::Library;
use sarvoltig_reference::model::Session;
use sarvoltig_reference::schedule::{Call, Run};

/// Bytes of an image that are compared for each call, on the average.
const COMPARED: usize = 1 << 18;

/// Makes the calls on both. The first difference, in words, if there is one. A long image is not compared after every
/// call, but every so often and before it is given up.
///
/// ```
/// use sarvoltig_reference::schedule::random_run;
///
/// assert_eq!(sarvoltig_tools::compare::difference(&random_run(1)), None);
/// ```
#[must_use]
pub fn difference(calls: &[Call]) -> Option<String> {
    let mut library = Library::default();
    let mut run = Run::new(Session::new(Vec::new(), Vec::new()));
    let mut due = 0;
    for (number, call) in (1..).zip(calls) {
        let expected = call.make(&mut run);
        let found = library.make(call);
        let session = run.session();
        due += COMPARED;
        let given_up = matches!(calls.get(number), None | Some(Call::Lend { .. }));
        let compared = due >= session.image().len() || given_up;
        let same = found.as_ref() == Ok(&expected)
            && library.map() == session.map()
            && library.list() == run.list()
            && library.anlz() == run.anlz()
            && (!compared || library.image() == session.image());
        if compared {
            due = 0;
        }
        if !same {
            let call = call.to_line().unwrap_or_else(|| format!("{call:?}"));
            return Some(format!(
                "call {number}, {call}: expected {expected:?}, found {found:?}"
            ));
        }
    }
    None
}

/// Compares the runs of these seeds. The first that differs, if one does.
///
/// ```
/// use sarvoltig_reference::schedule::anlz_run;
/// use sarvoltig_tools::compare::first_difference;
///
/// assert_eq!(first_difference(anlz_run, 0..100), None);
/// ```
#[must_use]
pub fn first_difference(
    run: impl Fn(u64) -> Vec<Call>,
    seeds: impl IntoIterator<Item = u64>,
) -> Option<(u64, String)> {
    seeds
        .into_iter()
        .find_map(|seed| difference(&run(seed)).map(|words| (seed, words)))
}
