//! Writes the upstream's answers, Python's about names with accents, and the cases by hand,
//! as vector files: `oracle SUBJECT DIR`; and the stored runs of linlist:
//! `oracle runs CRATES`.

use oracle::{
    accents, annotation, appends, boards, by_hand, equality, files, listing, pbn, tokens, utf8,
    vectors::Vectors, writer,
};
use std::{env, fs, io, path::Path, process::ExitCode};

struct Subject {
    name: &'static str,
    about: &'static str,
    vectors: fn() -> Vectors,
}

const SUBJECTS: &[Subject] = &[
    Subject {
        name: "tokens",
        about: "tokens and trailing text, by LinDocument::parse",
        vectors: tokens::vectors,
    },
    Subject {
        name: "utf8",
        about: "the longest well-formed start, by std::str::from_utf8",
        vectors: utf8::vectors,
    },
    Subject {
        name: "boards",
        about: "every field of one board, by parse_lin",
        vectors: boards::vectors,
    },
    Subject {
        name: "files",
        about: "every board of a file and names found in it, by parse_lin_file",
        vectors: files::vectors,
    },
    Subject {
        name: "listing",
        about: "what linlist prints, by parse_lin_file",
        vectors: listing::vectors,
    },
    Subject {
        name: "writer",
        about: "a board written and its play as text, by write_lin and format_cardplay_by_trick",
        vectors: writer::vectors,
    },
    Subject {
        name: "equality",
        about: "whether two boards are equal, by LinData's ==",
        vectors: equality::vectors,
    },
    Subject {
        name: "appends",
        about: "lists of append calls by a plain book, whose text parse_lin_file reads",
        vectors: appends::vectors,
    },
    Subject {
        name: "annotation",
        about: "the text of a raw annotation with notes, by from_board with one call",
        vectors: annotation::vectors,
    },
    Subject {
        name: "pbn",
        about: "the board made of a PBN record, by from_board",
        vectors: pbn::vectors,
    },
    Subject {
        name: "accents",
        about: "no answers of upstream: names that are the same, by Python's unicodedata",
        vectors: accents::vectors,
    },
    Subject {
        name: "by_hand",
        about:
            "no answers of upstream: refusals, auctions and the like, by hand from the documents",
        vectors: by_hand::vectors,
    },
];

/// The bytes of a file that the program `test_replay` has room for.
#[cfg(test)]
const MOST_BYTES: usize = 1_310_720;

fn main() -> ExitCode {
    let args: Vec<String> = env::args().skip(1).collect();
    let [name, dir] = args.as_slice() else {
        return usage();
    };
    let path = Path::new(dir);
    let done = match SUBJECTS.iter().find(|s| s.name == name) {
        Some(subject) => write(subject, path),
        None if name == "runs" => write_runs(path),
        None => return usage(),
    };
    match done {
        Ok(()) => ExitCode::SUCCESS,
        Err(fault) => {
            eprintln!("{dir}: {fault}");
            ExitCode::FAILURE
        }
    }
}

fn usage() -> ExitCode {
    eprintln!("usage: oracle SUBJECT DIR, which writes DIR/SUBJECT.bin");
    for s in SUBJECTS {
        eprintln!("  {:11}{}", s.name, s.about);
    }
    eprintln!("or oracle runs CRATES, which writes the runs of linlist below CRATES");
    ExitCode::from(2)
}

fn write(subject: &Subject, dir: &Path) -> io::Result<()> {
    let vectors = (subject.vectors)();
    fs::create_dir_all(dir)?;
    vectors.save(&dir.join(subject.name).with_extension("bin"))?;
    println!("{}.bin: {} bytes", subject.name, vectors.bytes().len());
    Ok(())
}

/// What linlist and test_listing are run on, and what they must print.
fn write_runs(crates: &Path) -> io::Result<()> {
    for (name, bytes) in listing::runs::files() {
        let file = crates.join(&name);
        fs::create_dir_all(file.parent().expect("a folder"))?;
        fs::write(file, &bytes)?;
        println!("{name}: {} bytes", bytes.len());
    }
    Ok(())
}

#[cfg(test)]
mod tests {
    use super::{listing, MOST_BYTES, SUBJECTS};
    use oracle::texts::BYTE_ORDER_MARK;
    use std::{fs, path::Path};

    /// The vectors that the replay programs have are those of the generator.
    #[test]
    fn stored_vectors_are_fresh() {
        let crates = Path::new(env!("CARGO_MANIFEST_DIR")).join("../crates");
        for s in SUBJECTS {
            let program = match s.name {
                "listing" => "test_listing",
                _ => "test_replay",
            };
            let file = crates.join(format!("{program}/data/{}.bin", s.name));
            let stored = fs::read(&file).unwrap();
            assert!(stored.len() <= MOST_BYTES);
            assert!(stored == (s.vectors)().bytes(), "{}", file.display());
        }
    }

    /// Upstream is asked about no text with a byte order mark (document 02, N2): no file
    /// of its answers has the bytes of one. Well-formed starts are those of the standard
    /// library.
    #[test]
    fn no_answer_of_upstream_has_a_mark() {
        let mut buffer = [0; 3];
        let mark = BYTE_ORDER_MARK.encode_utf8(&mut buffer).as_bytes();
        for s in SUBJECTS
            .iter()
            .filter(|s| !["utf8", "accents", "by_hand"].contains(&s.name))
        {
            let bytes = (s.vectors)();
            assert!(bytes.bytes().windows(3).all(|w| w != mark), "{}", s.name);
        }
    }

    /// The stored runs and what is expected of them are those of the generator.
    #[test]
    fn stored_runs_are_fresh() {
        let crates = Path::new(env!("CARGO_MANIFEST_DIR")).join("../crates");
        for (name, bytes) in listing::runs::files() {
            let stored = fs::read(crates.join(&name)).unwrap();
            assert!(stored == bytes, "{name}");
        }
    }
}
