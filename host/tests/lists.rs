//! The call lists of tests/lists through the public API: the listing of document 01, the worked points and others. What the replay
//! program has to write is what comes out here, but for the numbers of book events.
#[path = "../examples/records/calls.rs"]
mod calls;

use std::path::Path;

/// The expected line without the number of a record.
fn without_number(line: &str) -> String {
    let mut words: Vec<&str> = line.split(' ').collect();
    if words[0] == "put" {
        words.remove(3);
    }
    words.join(" ")
}

fn run(name: &str) {
    let folder = Path::new(env!("CARGO_MANIFEST_DIR")).join("../tests/lists");
    let read = |end| std::fs::read_to_string(folder.join(name.to_owned() + end)).expect(name);
    let mut desk = calls::Desk::new();
    let wrote: Vec<String> = read(".calls")
        .lines()
        .flat_map(|line| desk.call(line).expect(name))
        .collect();
    let expected: Vec<String> = read(".expected").lines().map(without_number).collect();
    assert_eq!(wrote, expected, "{name}");
}

#[test]
fn listing_of_document_01() {
    run("listing");
}

#[test]
fn every_list() {
    let folder = Path::new(env!("CARGO_MANIFEST_DIR")).join("../tests/lists");
    let mut count = 0;
    for entry in std::fs::read_dir(folder).expect("tests/lists") {
        let path = entry.expect("an entry").path();
        let name = path
            .file_stem()
            .and_then(|name| name.to_str())
            .expect("a name");
        if path.extension().is_some_and(|end| end == "calls") {
            run(name);
            count += 1;
        }
    }
    assert!(count >= 20, "only {count} lists were found");
}
