//! The finder, and what must hold of its answers: the count with places of work space to
//! spare and with exactly enough, the words beyond the lent ones as they were; refusal 7
//! with one place less, and all work space as it was. (Document 02, N3)

use super::*;

/// The places that are lent where there are some to spare.
pub const TO_SPARE: u32 = 4_000;

/// The blocks `SOUGHT` and `SOUGHT_ALL`, with the groups of their cases: places to spare,
/// exactly enough, one less.
pub fn define(s: &mut Steps, first: usize) {
    s.set(ALL_WORK, &[MOST_WORK]);
    s.block(NO_STEPS, |_| ());
    s.block(WORK_KEPT, |b| b.agree(WORK, MARK_WORD, ALL_WORK, 0, ZERO));
    s.block(NAME_COUNTED, |b| {
        b.call(Call::FindName);
        b.is(ANSWER, &[0, 0]);
        b.same(ANSWER + 2, HAVING);
        nothing_more(b);
        b.copy(REST_WORK, ALL_WORK, 1, 1);
        b.sub(REST_WORK, LENT_WORK);
        b.agree(WORK, MARK_WORD, REST_WORK, 0, LENT_WORK);
    });
    s.block(SOUGHT, |b| {
        b.set(LENT_WORK, &[TO_SPARE]);
        b.go(NAME_COUNTED);
        b.case(first);
    });
    s.block(SOUGHT_ALL, |b| {
        b.go(SOUGHT);
        b.copy(LENT_WORK, PLACES_OF, 1, 1);
        b.go(NAME_COUNTED);
        b.case(first + 1);
        b.jump_if(NO_STEPS, PLACES_OF, 0);
        b.sub(LENT_WORK, ONE);
        b.call(Call::FindName);
        b.is(ANSWER, &[7, 0]);
        b.same(ANSWER + 2, PLACES_OF);
        nothing_more(b);
        b.go(WORK_KEPT);
        b.case(first + 2);
    });
}

/// The answer has a number, a kind and a value of 32 bits, and no more.
fn nothing_more(b: &mut Steps) {
    b.is(ANSWER + 3, &[0; 5]);
    b.is(HIGH, &[0; 8]);
}

/// So many boards have the lent name.
pub fn finds(s: &mut Steps, having: usize) {
    s.set(HAVING, &[having as u32]);
    s.go(SOUGHT);
}

/// So many boards have the lent name, and the call needs so many places.
pub fn finds_in(s: &mut Steps, having: usize, places: usize) {
    assert!(places <= TO_SPARE as usize);
    s.set(HAVING, &[having as u32, places as u32]);
    s.go(SOUGHT_ALL);
}

/// The finder refuses so, and the work space stays.
pub fn refuses(s: &mut Steps, number: u32, carried: u64) {
    s.call(Call::FindName);
    s.answer(number, 0, carried);
    s.go(WORK_KEPT);
}
