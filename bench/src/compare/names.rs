//! The name finder against the model, in work space between guards. The file's boards
//! are those that are expected: upstream's, which the model's must equal, or the
//! model's alone where a byte order mark stands. Upstream has no finder.

use super::{
    guards::{bytes, held_words, words},
    same, Same,
};
use crate::{
    expected,
    model::{
        self,
        names::{self as model_names, Found},
    },
};
use lin_host_rust::{
    files::{enough_places, find_name, find_name_in},
    Refusal,
};
use oracle::lin::LinData;

/// What the finder is to find, or refusal 1 or 2.
type Want = Result<Found, Refusal>;

/// The boards of a file that opens, and none of another.
fn boards(text: &[u8]) -> Result<Vec<LinData>, String> {
    if model::open(text).is_err() {
        return Ok(Vec::new());
    }
    expected::file(&String::from_utf8_lossy(text))
}

fn want(text: &[u8], boards: &[LinData], name: &[u8]) -> Want {
    let (_, name) = model_names::asked(text, name)?;
    Ok(model_names::among(boards, name))
}

/// The finder in so many places that hold a pattern: its answer; what is lent to be
/// read, and after a refusal the places too, as they were.
fn lent(text: &[u8], name: &[u8], places: usize, want: Want) -> Same {
    let want = want.and_then(|found| found.within(places));
    let before = held_words(places);
    let mut file = bytes("text", text);
    let mut sought = bytes("name", name);
    let mut work = words("work space", &before);
    let got = find_name_in(file.lent(), sought.lent(), work.lent());
    same(&format!("finder in {places} places"), got, want)?;
    file.holds(text)?;
    sought.holds(name)?;
    match want {
        Ok(_) => work.kept(),
        Err(_) => work.holds(&before),
    }
}

/// The finder in work space of its own, in just the places needed, and in one less.
fn found(text: &[u8], name: &[u8], want: Want) -> Same {
    let own = want.map(|found| found.boards);
    same("finder", find_name(text, name), own)?;
    let needed = want.map_or(0, |found| found.places);
    same("enough", needed <= enough_places(text, name), true)?;
    lent(text, name, needed, want)?;
    lent(text, name, needed.saturating_sub(1), want)
}

/// The same in no places, in one more than needed, in as many as are always enough,
/// and about as many as a single walk over the file asks for.
fn found_in_any(text: &[u8], name: &[u8], want: Want) -> Same {
    found(text, name, want)?;
    let needed = want.map_or(0, |found| found.places);
    let enough = enough_places(text, name);
    let sought = String::from_utf8_lossy(name);
    let once = enough.min(model_names::mapped(&sought).len() + 3 * text.len() / 2);
    let all = [
        0,
        needed + 1,
        once.saturating_sub(1),
        once,
        once + 1,
        enough,
    ];
    all.into_iter()
        .try_for_each(|places| lent(text, name, places, want))
}

/// The finder for these names in a file of these boards.
pub(super) fn among<'a>(
    text: &[u8],
    boards: &[LinData],
    all: impl IntoIterator<Item = &'a [u8]>,
) -> Same {
    let sought = |name: &[u8]| found(text, name, want(text, boards, name)).map_err(named(name));
    all.into_iter().try_for_each(sought)
}

/// A difference with the name that was looked for.
fn named(name: &[u8]) -> impl FnOnce(String) -> String + '_ {
    move |difference| format!("{difference}, for {:?}", String::from_utf8_lossy(name))
}

/// The finder for each of these names over any bytes.
pub fn names(text: &[u8], all: &[&[u8]]) -> Same {
    among(text, &boards(text)?, all.iter().copied())
}

/// The finder for one name over any bytes, in work space of several lengths.
pub fn name(text: &[u8], name: &[u8]) -> Same {
    let want = want(text, &boards(text)?, name);
    found_in_any(text, name, want).map_err(named(name))
}

/// The finder for one name over any bytes, in so many places.
pub fn name_in(text: &[u8], name: &[u8], places: usize) -> Same {
    let want = want(text, &boards(text)?, name);
    lent(text, name, places, want).map_err(named(name))
}
