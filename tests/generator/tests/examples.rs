//! The files in examples/ are the generator's. WRITE_EXAMPLES=1 writes them anew.

use generator::example::{self, BlockSet};
use reference::pack;
use std::fs;
use std::path::{Path, PathBuf};

fn folder() -> PathBuf {
    Path::new(env!("CARGO_MANIFEST_DIR")).join("../../examples")
}

#[test]
fn the_files_are_as_generated() {
    for (name, contents) in example::files() {
        let path = folder().join(name);
        if std::env::var("WRITE_EXAMPLES").is_ok_and(|value| value == "1") {
            fs::write(&path, &contents).unwrap();
        }
        let stored = fs::read(&path).unwrap_or_else(|error| panic!("{name}: {error}"));
        assert!(
            stored == contents,
            "examples/{name} is not what the generator makes: run this test with WRITE_EXAMPLES=1"
        );
    }
    let readme = fs::read_to_string(folder().join("README.md")).expect("examples/README.md");
    assert!(
        readme.contains(example::SETTING),
        "the setting in README.md"
    );
}

/// Blocks that need no round, blocks that need a few, and one that fails; what is decoded is what
/// was sent.
fn shows_every_end(set: &BlockSet) {
    let (mut at_once, mut later, mut failed) = (0, 0, 0);
    let expected = set.expected();
    for (line, sent) in expected.lines().skip(1).zip(set.sent()) {
        let fields: Vec<&str> = line.split(' ').collect();
        match (fields[1], fields[2].parse::<usize>().unwrap()) {
            ("decoded", rounds) => {
                let bytes = pack(&sent);
                let word: String = bytes.iter().map(|byte| format!("{byte:02x}")).collect();
                assert_eq!(fields[5], word, "block {}", fields[0]);
                if rounds == 0 {
                    at_once += 1;
                } else if rounds >= 2 {
                    later += 1;
                }
            }
            (end, _) => {
                assert_eq!(end, "failed");
                failed += 1;
            }
        }
    }
    assert!(at_once >= 2 && later >= 5 && failed == 1, "{expected}");
}

#[test]
fn the_blocks_show_every_end() {
    shows_every_end(&example::of_tanner155());
    shows_every_end(&example::of_irregular504());
}
