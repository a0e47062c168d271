//! The runs of linlist that the gate makes: what stands on its standard
//! input, and in the files that test_listing lists by the same code.

use super::{files::full, printed, vectors, LIMIT};
use crate::texts::BYTE_ORDER_MARK;

/// Every dealer and vulnerability; mn and pn before a qx, and not directly
/// before; parts without md; claims, repeated cards, implied hands.
const MANY: &str = "\
mn|Club game - 2026.09.14|pn|Alice,Bob,Chloé,Dan|qx|o1,BOARD 1|rh||ah|Board 1|\
md|3SAKHQJDT9C8765432,SQJHAKD8765432CT9,ST98765432HT98CAKQ|sv|0|mb|1C!|an|16+|mb|p|pc|SA|pc|s2|pc|x|mc|9|pg||
qx|c1|md|1SAAA,SA,,SKK|sv|n|mb|p|mc|0|pg||
mn|Team match|pn|Eve|qx|o2|md|2,,|sv|e|mc|x|pg||
qx|o3|at|no deal here|mb|1N|pc|HA|
mn|moved back|sv|b|pn|Frank|qx|o4|md|4SA,HA,DA,CA|sv|b|mb|1S|mb|d|mb|r!!|pc|CA|pc|CA|pc|CA|mc|+007|pg||
mn|t|pn|a,b|qx|o5|md|0SK|sv|both|mc|256|md|2SAKQJT98765432,HAKQJT98765432,DAKQJT98765432|mc|255|
 Mn |twice|qX|o6|MD| 1s2h3 |SV| EW |
qx|last|md|3SA|md";

/// A board for each line, lines of white space between, one without md.
const LINES: &str = "\
pn|Alice,Bob,Chloé,Dan|md|1SAK,HAK|sv|n|mb|1C|pc|SA|mc|1|pg||\r
\r
md|2|sv|e|\n \t\u{3000}\nhello\nmd|4SAAAA,SKKKKK|mb|p|mb|p|\rmb|p|\nmc|12|";

const EXAMPLE: &str = "qx|o1|md|3SAK,SQJ,ST9|mb|1C!|pc|SA|mc|9|";

/// The runs of test_listing, in its order: a file's name and its bytes. A byte order mark
/// in front of the first command, which upstream's trim does not know, changes no board
/// (document 02, N2).
pub fn inputs() -> Vec<(&'static str, Vec<u8>)> {
    let mut over_ill = full(LIMIT + 1);
    over_ill[0] = 0xFF;
    vec![
        ("many", MANY.into()),
        ("lines", LINES.into()),
        ("empty", Vec::new()),
        ("ill", [MANY.as_bytes(), b"\xE2\x82"].concat()),
        ("full", full(LIMIT)),
        ("over", full(LIMIT + 1)),
        ("over_ill", over_ill),
        ("marked", format!("{BYTE_ORDER_MARK}{MANY}").into()),
    ]
}

/// The files of both programs, by their places below crates/.
pub fn files() -> Vec<(String, Vec<u8>)> {
    let mut out = vec![
        ("linlist/stdin".to_string(), EXAMPLE.into()),
        (
            "linlist/stdout".to_string(),
            printed(EXAMPLE.as_bytes()).into(),
        ),
    ];
    let mut said = String::new();
    for (name, bytes) in inputs() {
        let listed = bytes.strip_prefix("\u{FEFF}".as_bytes()).unwrap_or(&bytes);
        said += &format!("{name}\n{}", printed(listed));
        out.push((format!("test_listing/data/{name}.lin"), bytes));
    }
    said += &format!("listings {} ok\n", vectors().cases());
    out.push(("test_listing/stdout".to_string(), said.into()));
    out
}
