//! Builds the programs of c/ and tests/empty.c as C99, with the headers and the archives, and compares what they print. Compiles each
//! header alone as C99, C17 and C++17. The compilers are CC and CXX, or cc and c++; both are needed.
use std::path::{Path, PathBuf};
use std::process::Command;

const HERE: &str = env!("CARGO_MANIFEST_DIR");
const WARNINGS: [&str; 4] = ["-Wall", "-Wextra", "-pedantic", "-Werror"];
const HEADERS: [&str; 4] = [
    "pollendrift.h",
    "pollendrift_owned.h",
    "pollendrift_depth.h",
    "pollendrift_json.h",
];

/// A compiler: its language, the variable that names it, and its name else.
type Compiler = [&'static str; 3];
const C: Compiler = ["C", "CC", "cc"];
const CPP: Compiler = ["C++", "CXX", "c++"];

fn compile([language, variable, usual]: Compiler, arguments: impl FnOnce(&mut Command)) {
    let name = std::env::var_os(variable).unwrap_or_else(|| usual.into());
    let mut command = Command::new(&name);
    arguments(command.args(WARNINGS));
    let done = command.output().unwrap_or_else(|e| {
        panic!(
            "This test needs a {language} compiler, and {} does not start: {e}. Install one, or name it in {variable}.",
            Path::new(&name).display()
        )
    });
    assert!(
        done.status.success(),
        "{}",
        String::from_utf8_lossy(&done.stderr)
    );
}

/// Compiles each header alone.
fn headers(compiler: Compiler, language: &str, standard: &str) {
    for header in HEADERS {
        compile(compiler, |c| {
            c.args([standard, "-x", language, "-fsyntax-only"])
                .arg(Path::new(HERE).join("include").join(header));
        });
    }
}

/// Builds a program.
fn build(source: &str) -> PathBuf {
    let source = Path::new(HERE).join(source);
    let name = source.file_stem().expect("a source has a name");
    let program = Path::new(env!("CARGO_TARGET_TMPDIR")).join(name);
    compile(C, |c| {
        c.args(["-std=c99", "-I"])
            .arg(Path::new(HERE).join("include"))
            .arg(&source)
            .args(std::env::split_paths(env!("POLLENDRIFT_ARCHIVE")))
            .arg("-o")
            .arg(&program);
    });
    program
}

/// Runs a program: what it prints, what it says of an error, and its status.
fn run(program: &Path, arguments: &[&str]) -> (String, String, Option<i32>) {
    let ran = Command::new(program)
        .args(arguments)
        .output()
        .expect("the program starts");
    let text = |bytes: &[u8]| String::from_utf8_lossy(bytes).into_owned();
    (text(&ran.stdout), text(&ran.stderr), ran.status.code())
}

/// Runs a program that ends well, and compares what it prints with a file.
fn prints(source: &str, expected: &str) {
    let expected = std::fs::read_to_string(Path::new(HERE).join(expected)).expect(expected);
    assert_eq!(run(&build(source), &[]), (expected, String::new(), Some(0)));
}

#[test]
fn headers_as_c99() {
    headers(C, "c", "-std=c99");
}

#[test]
fn headers_as_c17() {
    headers(C, "c", "-std=c17");
}

#[test]
fn headers_as_cpp17() {
    headers(CPP, "c++", "-std=c++17");
}

#[test]
fn listing() {
    prints("c/listing.c", "../tests/lists/listing.expected");
}

#[test]
fn batch() {
    prints("c/batch.c", "c/batch.expected");
}

#[test]
fn owned() {
    prints("c/owned.c", "c/owned.expected");
}

#[test]
fn depth() {
    prints("c/depth.c", "c/depth.expected");
}

#[test]
fn json() {
    let expected =
        std::fs::read_to_string(Path::new(HERE).join("c/json.expected")).expect("c/json.expected");
    assert_eq!(
        run(&build("c/json.c"), &["--sample"]),
        (expected, String::new(), Some(0))
    );
}

/// Each time the program ends with a reason.
#[test]
fn short() {
    let program = build("c/short.c");
    let reasons = [
        (
            "single",
            "snapshot: refused 3, 2022 words for records and 2023 are needed\n",
        ),
        (
            "records",
            "batch: 11 with 0 done, 2022 words for records and 12 for reports; 2023 and 12 are enough\n",
        ),
        (
            "reports",
            "batch: 11 with 0 done, 2023 words for records and 11 for reports; 2023 and 12 are enough\n",
        ),
        (
            "answers",
            "batch: 13 with 0 done, 0 words for answers and each takes 3\n",
        ),
        (
            "call",
            "batch: 12 with 0 done, 9 is the number of no call\n",
        ),
        (
            "limit",
            "subscribe 2: refused 18, a limit of 33 and 1 to 32 are taken\n",
        ),
    ];
    for (what, reason) in reasons {
        assert_eq!(
            run(&program, &[what]),
            (String::new(), reason.to_owned(), Some(1)),
            "{what}"
        );
    }
}

/// Lists of length 0, and the counts.
#[test]
fn empty() {
    let ran = run(&build("tests/empty.c"), &[]);
    assert_eq!(ran, (String::new(), String::new(), Some(0)));
}
