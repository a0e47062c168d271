//! Inputs of linlist: files with and without qx, lines, and what is refused.

use crate::{boards, random::Rng, records, texts};

/// Tokens to make files of.
const TOKENS: &[&str] = &[
    "qx|o1|",
    "qx||",
    " QX |c2|",
    "mn|Club game|",
    "pn|a,b,c,d|",
    "pn||",
    "md|1SAK,SQJ,ST9|",
    "md|2SAKQJT98765432,HAKQJT98765432,DAKQJT98765432|",
    "md|3SAAA,,,CA|",
    "md|4|",
    "md|0SA|",
    "Md| 3SAKhqjd2c3 |",
    "sv|n|",
    "sv|ew|",
    "sv|Both|",
    "sv|x|",
    "mb|1C!|",
    "mb|p|an|weak|",
    "an|alone|",
    "pc|SA|",
    "pc|sa|pc|SA|",
    "pc|x|",
    "mc|9|",
    "mc|0|",
    "mc| 255 |",
    "mc|256|",
    "rh||ah|Board 1|",
    "pg||",
    "zz|\n|",
    "\n",
    "\r\n",
    " \t\n",
    "\n\n",
    "|",
    "é|ü|",
];

/// Texts in which a rule of document 01 decides which boards there are.
const NAMED: &[&str] = &[
    "a|b\nqx|c|d|",
    "hello\n\n  \nworld\n",
    "x\r\ny\u{85}z\u{2028}w\rv\n\u{3000}\n\u{200B}",
    "md|1|qx|a|md|2|qx|b|pc|SA|qx|c|md|3|",
    "mn|t|pn|a|qx|o1|md|1|mn|u|pn|b|qx|o2|md|2|",
    "md|1|mn|t|sv|n|pn|b|qx|o2|md|2|",
    "md|1|mn|t|qx|a|mn|u|qx|b|md|2|",
    "qx|a|md|0|qx|b|md|0SA,HK|",
    "qx|a|md|1|md",
    "qx|a|md|1",
    "qx|a",
    "qx|a|mc|9|\nmd|4SA|\nsv|e|\n",
    "md|1SAAAAAAAAAAAAA,SAAAAAAAAAAAAA,SAAAAAAAAAAAAA|",
    "mb|p|mb|p|mb|p|\npc|SA|pc|SA|\nmc|+009|\nmc|x|\n",
];

/// A file of drawn tokens.
fn drawn(rng: &mut Rng, most: usize) -> String {
    (0..rng.below(most))
        .map(|_| *rng.pick(TOKENS))
        .collect::<String>()
}

/// The same without a qx token.
fn unmarked(rng: &mut Rng, most: usize) -> String {
    drawn(rng, most).replace("qx", "qy").replace("QX", "QY")
}

/// Hands, calls and cards in numbers that pass 9, 99 and 999.
fn many_of_each() -> String {
    let hand = |n| format!("S{}", "A".repeat(n));
    let md = [9, 10, 99, 1000].map(hand).join(",");
    let calls = "mb|p|".repeat(100);
    let cards = "pc|SA|".repeat(1001);
    format!("qx|o1|md|1{md}|{calls}{cards}mc|100|")
}

pub fn inputs() -> Vec<Vec<u8>> {
    let mut all: Vec<String> = NAMED.iter().map(|t| t.to_string()).collect();
    all.extend(texts::NAMED.iter().map(|t| t.to_string()));
    all.push(many_of_each());
    all.push("a\n".repeat(120));
    all.push("qx||md|1|".repeat(110));

    let rng = &mut Rng::new(1);
    all.extend((0..250).map(|_| drawn(rng, 40)));
    all.extend((0..120).map(|_| unmarked(rng, 30)));
    all.extend((1..=6).map(|n| records::file(rng, 2 * n)));
    all.extend((1..=6).map(|n| records::lines(rng, 2 * n)));
    all.extend((1..=6).map(|n| records::movie(rng, 4 * n)));
    all.extend((0..100).map(|_| texts::mixture(rng, 20)));
    let boards = boards::texts().into_iter().filter(|t| t.len() < 200);
    all.extend(boards.step_by(20));

    let file = records::file(rng, 2);
    let mut bytes: Vec<Vec<u8>> = all.into_iter().map(String::into_bytes).collect();
    bytes.extend((1..=60).map(|n| texts::damaged(rng, file.as_bytes(), n / 10 + 1)));
    bytes.extend((0..40).map(|_| texts::bytes(rng, 12)));
    bytes.extend([super::LIMIT - 1, super::LIMIT, super::LIMIT + 1].map(full));
    bytes
}

/// A file of so many bytes: two boards, with a long value between.
pub fn full(bytes: usize) -> Vec<u8> {
    let (front, back) = ("qx|o1|md|1SA|nt|", "|qx|o2|md|2HK,,DQ|sv|b|mc|13|\n");
    let long = bytes - front.len() - back.len();
    format!("{front}{}{back}", " ".repeat(long)).into_bytes()
}
