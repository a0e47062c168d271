//! Written boards, lists of appends, play texts and equality against what is
//! expected and the plain book. Every output stands between guards.

use super::{
    boards::same_boards,
    file,
    guards::{self, held},
    same, Same,
};
use crate::{
    expected,
    log::{self, Log},
    upstream,
};
use lin_host_rust::{
    boards::Card,
    writer::{self, Appender, Gathered, Lent},
    LinAnswer, Refusal, LIMIT,
};
use oracle::lin::{parse_lin, LinData};

/// A call on an output that stands between guards.
fn guarded(out: &mut [u8], call: impl FnOnce(&mut [u8]) -> LinAnswer) -> Result<LinAnswer, String> {
    let mut buffer = guards::bytes("output", out);
    let answer = call(buffer.lent());
    out.copy_from_slice(buffer.lent());
    buffer.holds(out)?;
    Ok(answer)
}

fn same_outputs(what: &str, got: &[u8], want: &[u8]) -> Same {
    if got == want {
        return Ok(());
    }
    let shown = |bytes: &[u8]| bytes.escape_ascii().to_string();
    same(what, shown(got), shown(want))
}

/// An append to an output of `len` bytes of which some are used: answer and
/// output are those of the append in plain Rust. Without used bytes it is `write_lin`.
pub fn append(lent: Lent, len: usize, used: u64) -> Same {
    let (mut got, mut want) = (held(len), held(len));
    let wanted = log::append(lent, &mut want, used)?;
    let what = format!("{used} used of {len}");
    let answer = guarded(&mut got, |out| lent.append_numbers(out, used))?;
    same(&what, answer.read(), wanted)?;
    same_outputs(&what, &got, &want)?;
    if used == 0 {
        let mut got = held(len);
        let answer = guarded(&mut got, |out| lent.write_numbers(out))?;
        same(&what, answer.read(), wanted)?;
        same_outputs(&what, &got, &want)?;
    }
    Ok(())
}

/// A board written in outputs that just fit, are longer and are a byte
/// smaller, or refused in any; and as the safe wrapper writes it.
pub fn written(lent: Lent) -> Same {
    if log::refusal(&[lent], false).is_some() {
        append(lent, 0, 0)?;
        append(lent, 3, 4)?;
        return append(lent, 2_000, 5);
    }
    let board = upstream::data(lent);
    let text = expected::written(&board)?;
    let n = text.len();
    append(lent, n, 0)?;
    append(lent, n + 9, 0)?;
    append(lent, n + 9, 9)?;
    append(lent, n + 9, 10)?;
    append(lent, n - 1, 0)?;
    append(lent, 7, 8)?;
    let got = writer::write_lin(&upstream::board(&board));
    if n <= LIMIT {
        return same("as a text", got, Ok(text));
    }
    same("as a text", got, Err(Refusal::OutputTooSmall(n as u64)))
}

/// Appends one after another to an output that holds these bytes at first:
/// each as the plain book answers it, which has all that the output then holds
/// but its last bytes; and both readers find the log's boards in it.
pub fn appends(first: Vec<u8>, calls: &[Gathered]) -> Same {
    let mut log = Log::new(first.len());
    let mut file = Appender::over(first.clone());
    let mut out = guards::bytes("output", &first);
    let mut used = 0;
    for (k, call) in calls.iter().enumerate() {
        let at = |d: String| format!("call {k}: {d}");
        let got = call.lent().append(out.lent(), used);
        same("answer", got, log.enter(call.lent()).map_err(at)?).map_err(at)?;
        used = got.unwrap_or(used);
        let rest = &first[log.bytes.len()..];
        out.holds(&[&log.bytes, rest].concat()).map_err(at)?;
        same("appender", file.append_lent(call.lent()), got).map_err(at)?;
        same_outputs("appender", file.bytes(), &log.bytes).map_err(at)?;
        same_outputs("appender", file.output(), out.lent()).map_err(at)?;
    }
    found(file.bytes(), &log)
}

/// Both readers find the log's boards in the used bytes.
fn found(bytes: &[u8], log: &Log) -> Same {
    let text = std::str::from_utf8(bytes).map_err(|e| e.to_string())?;
    let read = expected::file(text)?;
    same("boards", read.len(), log.boards.len())?;
    for (k, (got, want)) in read.iter().zip(&log.boards).enumerate() {
        same_boards(got, want).map_err(|d| format!("board {k}: {d}"))?;
    }
    file(bytes)
}

/// The text of a play in an output of `len` bytes: upstream's, or refused by 8
/// or 7; and as the safe wrapper gives it.
pub fn play_text(cards: &[u8], len: usize) -> Same {
    let text = upstream_play(cards);
    let within = |room: usize| match &text {
        Ok(text) if text.len() > room => Err(Refusal::OutputTooSmall(text.len() as u64)),
        Ok(text) => Ok(text.as_str()),
        Err(refusal) => Err(*refusal),
    };
    let (mut got, mut want) = (held(len), held(len));
    let fitting = within(len.min(LIMIT));
    if let Ok(text) = fitting {
        want[..text.len()].copy_from_slice(text.as_bytes());
    }
    let answer = guarded(&mut got, |out| writer::play_text_numbers(cards, out))?;
    same(
        "answer",
        answer.read(),
        fitting.map(|text| text.len() as u64),
    )?;
    same_outputs("output", &got, &want)?;

    let play: Option<Vec<Card>> = cards.iter().map(|c| Card::new(*c)).collect();
    let Some(play) = play else {
        // no such play can be made
        return Ok(());
    };
    let wrapped = writer::play_text(&play);
    same(
        "as a text",
        wrapped.as_deref(),
        within(LIMIT).as_ref().map(|t| *t),
    )
}

fn upstream_play(cards: &[u8]) -> Result<String, Refusal> {
    if cards.iter().any(|c| *c > 51) {
        return Err(Refusal::OutOfRange);
    }
    let Ok(fresh) = parse_lin("");
    let board = LinData {
        play: cards.iter().map(|c| upstream::card_of(*c)).collect(),
        ..fresh
    };
    Ok(board.format_cardplay_by_trick())
}

/// Whether each of two boards equals the other, and itself, as expected.
pub fn equality(one: Lent, two: Lent) -> Same {
    for (what, a, b) in [
        ("first, second", one, two),
        ("second, first", two, one),
        ("first, first", one, one),
        ("second, second", two, two),
    ] {
        let want = match log::refusal(&[a, b], false) {
            Some(refusal) => Err(refusal),
            None => Ok(expected::equal(&upstream::data(a), &upstream::data(b))?),
        };
        same(what, a.same(b), want)?;
    }
    Ok(())
}
