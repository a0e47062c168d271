//! Texts for md: dealers, hands, and the field of East. (Document 01, section
//! Board, md)

use super::traps::visible;
use crate::{random::Rng, texts};

/// Three hands of 13 cards, which leave a fourth.
pub const THREE: &str = "SAQ3HKT92DJ74C865,SK75HAJ6DQT82CK94,SJT98H843DAK5CAQ2";

/// The last two of them, with the comma before each.
const TWO: &str = ",SK75HAJ6DQT82CK94,SJT98H843DAK5CAQ2";

/// Every visible first character after a good md, and some like a dealer.
pub fn dealers() -> Vec<String> {
    const ODD: &str = "| |٣|３|³|③|𝟑|é|\u{FFFE}3|3\u{301}|\u{301}3|\t3|,3|33|3,|+3|03";
    let odd = ODD.split('|').map(str::to_string);
    let all = visible().map(String::from).chain(odd);
    all.map(|first| format!("md|2SA,HK,DQ,CJ|md|{first}HA,D2|"))
        .collect()
}

/// What follows a dealer.
const HANDS: &[&str] = &[
    "1SA",
    "SA",
    "S1A",
    "SS A",
    "AKS",
    "A,KS2",
    "SA,K,Q,J",
    "SA,,,",
    ",,,SA",
    "SA,SA,SA,SA",
    "SAA,HKKK,D2222,C",
    "SA,SK,SQ,SJ,ST",
    "SA,SK,SQ,,ST",
    "S10",
    "ST",
    "sakqjt98765432",
    "sAhKdQcJ",
    "SAHSK",
    "SAHDC",
    "shdc",
    "NA",
    "S\u{301}A",
    "SA\u{301}K",
    "\u{15A}A",
    "S\u{15A}A",
    "\u{17F}A",
    "ＳＡ",
    "♠A",
    "S A\tK\nQ",
    "S-A.K/Q",
    "HA,\u{A0},\u{3000}SK,\u{FFFE}DQ",
    "!SA!",
    "S…,,,",
    "SAKQJT98765432,HAKQJT98765432,DAKQJT98765432",
    "SAKQJT98765432HA,,",
];

/// An md of suits, ranks, commas and other letters by chance.
fn by_chance(rng: &mut Rng) -> String {
    const LETTERS: &[u8] = b"SSHHDDCCshdcAAKQJT98765432akqjt01xN,,, -";
    let n = rng.below(40);
    let value: String = (0..n).map(|_| char::from(*rng.pick(LETTERS))).collect();
    format!("md|{}{value}|", rng.below(5))
}

/// Hands, deals that replace a deal, and hands by chance.
pub fn hands() -> Vec<String> {
    let rng = &mut Rng::new(4);
    let mut all: Vec<String> = (0..150).map(|_| by_chance(rng)).collect();
    for hand in HANDS {
        all.push(format!("md|1{hand}|"));
        all.push(format!("md|4C2,D2,H2,S2|md|3{hand}|"));
        all.push(format!("md|2{hand}|md|1{THREE}|md|0SA|"));
        all.push(format!("md|2{THREE}|md|1{hand}|"));
    }
    all
}

/// What follows three hands of 13 cards.
const AFTER: &[&str] = &[
    "",
    ",",
    ",x",
    ",S",
    ",SA",
    ",S642",
    ",S642HQ75D963CJT73",
    ",\u{FFFE}",
    ", ",
    ",\t\n\u{A0}\u{2003}\u{3000}",
    ",\0",
    ",-",
    ",1",
    ",!",
    ",,",
    ",,SA",
    ", ,SA",
    ",x,",
    ",,,,,,",
];

/// Up to three hands of `SA` alone, each held 12, 13 or 14 times.
fn repeated() -> Vec<String> {
    let hands = [12, 13, 14].map(|n| format!("S{},", "A".repeat(n)));
    let all = texts::words(&hands.each_ref().map(String::as_str), 3);
    all.iter().map(|hands| format!("md|2{hands}|")).collect()
}

/// Fields of East beside three hands of 13 cards, and lengths near 13, with
/// cards repeated: 269 is 13 and 256.
pub fn east() -> Vec<String> {
    let (many, kings) = ("A".repeat(269), "K".repeat(13));
    let mut all: Vec<String> = AFTER.iter().map(|f| format!("md|1{THREE}{f}|")).collect();
    all.extend(AFTER.iter().map(|f| format!("md|3,,,SA|md|4{THREE}{f}|")));
    all.extend(repeated());
    all.push(format!("md|1H{many},H{many},H{many}|"));
    all.push(format!("md|1H{many},S{kings},S{kings}|"));
    all.push(format!("md|1S{kings},S{kings},S{kings},x|"));
    all.push(format!("md|1{THREE}|md|1{THREE}H7|"));
    all.push(format!("md|1SAKQJT987654322{TWO}|"));
    all.push(format!("md|1SAKQJT98765433{TWO}|"));
    all
}
