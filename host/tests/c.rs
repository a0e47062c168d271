//! The C program `examples/copy.c`, compiled with the header and linked with the
//! archive: what it copies is what the wrapper appends, and what it is refused is
//! what the wrapper is refused.

use lin_host_rust::{files, writer::Appender, Refusal, LIMIT};
use std::{
    ffi::OsStr,
    fs,
    io::Write,
    path::{Path, PathBuf},
    process::{Command, Output, Stdio},
    sync::OnceLock,
};

const HERE: &str = env!("CARGO_MANIFEST_DIR");

fn lesson() -> PathBuf {
    Path::new(HERE).join("../samples/lesson.lin")
}

/// The program, which is compiled once.
fn program() -> &'static Path {
    static PROGRAM: OnceLock<PathBuf> = OnceLock::new();
    PROGRAM.get_or_init(|| {
        let here = Path::new(HERE);
        let program = Path::new(env!("CARGO_TARGET_TMPDIR")).join("copy");
        let cc = Command::new("cc")
            .args([
                "-std=c11",
                "-O1",
                "-Wall",
                "-Wextra",
                "-Werror",
                "-pedantic",
            ])
            .arg("-I")
            .arg(here.join("include"))
            .arg(here.join("examples/copy.c"))
            .arg(Path::new(env!("LIN_HOST_ARCHIVE_DIR")).join("liblin_host.a"))
            .arg("-o")
            .arg(&program)
            .output()
            .expect("the C compiler cc");
        let said = String::from_utf8_lossy(&cc.stderr);
        assert!(cc.status.success(), "cc: {said}");
        program
    })
}

/// Runs the program with these arguments and these bytes as its standard input.
fn run<S: AsRef<OsStr>>(arguments: &[S], input: &[u8]) -> Output {
    let mut copy = Command::new(program())
        .args(arguments)
        .stdin(Stdio::piped())
        .stdout(Stdio::piped())
        .stderr(Stdio::piped())
        .spawn()
        .expect("the program");
    let mut to = copy.stdin.take().expect("a pipe");
    // It ends without reading all of a text that is too long.
    std::thread::scope(|scope| {
        scope.spawn(move || to.write_all(input));
        copy.wait_with_output().expect("the program")
    })
}

/// The boards of a text, appended by the wrapper to an output of the limit's
/// length, or the first refusal.
fn appended(text: &[u8]) -> Result<Vec<u8>, Refusal> {
    let mut file = Appender::new(LIMIT);
    for (_, board) in files::read_boards(text)? {
        file.append(&board)?;
    }
    Ok(file.bytes().to_vec())
}

/// The program does with a text what the wrapper does, and tells the call that
/// was refused.
fn copied(text: &[u8], refusing: &str) -> Output {
    let done = run::<&str>(&[], text);
    let said = String::from_utf8_lossy(&done.stderr);
    match appended(text) {
        Ok(bytes) => {
            assert!(done.stdout == bytes, "another copy; {said}");
            assert_eq!((done.status.code(), &*said, refusing), (Some(0), "", ""));
        }
        Err(refusal) => {
            let (number, value) = (refusal.number(), refusal.carried().unwrap_or(0));
            let line = format!("{refusing}: refusal {number}, value {value}\n");
            assert_eq!((done.status.code(), &*said), (Some(1), &*line));
            assert!(done.stdout.is_empty());
        }
    }
    done
}

#[test]
fn a_lesson() {
    let text = fs::read(lesson()).expect("the sample");
    let done = copied(&text, "");
    assert_eq!(files::count_boards(&text), Ok(4));
    assert_eq!(files::count_boards(&done.stdout), Ok(4));
    let named = run(&[lesson()], b"");
    assert_eq!(named.status.code(), Some(0));
    assert_eq!(named.stdout, done.stdout);
    // written boards are copied as they are
    assert_eq!(copied(&done.stdout, "").stdout, done.stdout);
}

#[test]
fn other_texts() {
    copied(b"", "");
    copied(b"qx|a|", "");
    copied(b"hello", "");
    copied("md|1SA|mb|1C!|an|é|\n\n \nmc|9|pc|HK|\nx".as_bytes(), "");
    copied("pn|José,,李雷|md|1|qx|b|md|2|pc|SA|pc|S|".as_bytes(), "");
    copied("mb||".repeat(LIMIT / 5).as_bytes(), "");
    copied("pc|SA|".repeat(LIMIT / 8).as_bytes(), "");
}

#[test]
fn refusals() {
    copied(&vec![b' '; LIMIT + 1], "lin_open_boards");
    copied(&vec![b'|'; 3 * LIMIT], "lin_open_boards");
    copied(b"md|1|\xFF", "lin_open_boards");
    // more than an output has room for, of as many calls or boards as a text has
    copied("mb||".repeat(LIMIT / 4).as_bytes(), "lin_append");
    copied("x\n".repeat(LIMIT / 2).as_bytes(), "lin_append");
}

#[test]
fn a_wrong_call() {
    assert_eq!(run(&["one", "two"], b"").status.code(), Some(2));
    let none = run(&[lesson().join("none")], b"");
    assert_eq!((none.status.code(), none.stdout.len()), (Some(1), 0));
    assert!(!none.stderr.is_empty());
}
