//! Line files of sheets that samples/ has as words: `words` makes the same, and
//! `text` a line file that makes them again.

mod support {
    pub mod run;
}

use std::fs;
use std::path::{Path, PathBuf};

use support::run::{run, to_bytes};

fn root() -> PathBuf {
    Path::new(env!("CARGO_MANIFEST_DIR")).join("..")
}

/// The words of a text of decimal numbers with comments.
fn typed(name: &str) -> Vec<u8> {
    let text = fs::read_to_string(root().join("samples").join(name)).unwrap();
    let said = text.lines().map(|line| line.split('#').next().unwrap());
    let numbers = said.flat_map(str::split_whitespace);
    to_bytes(
        &numbers
            .map(|word| word.parse().unwrap())
            .collect::<Vec<u32>>(),
    )
}

#[test]
fn line_files_make_the_words_of_the_samples() {
    for name in ["sheet-a.txt", "dryer.txt"] {
        let file = root().join("command/tests/lines").join(name);
        let ran = run(&["words", file.to_str().unwrap()], &[]);
        assert_eq!((ran.status, ran.out), (0, typed(name)), "{name}");
    }
}

#[test]
fn a_text_of_words_makes_them_again() {
    let sheets = [
        "sheet-a",
        "sheet-p7",
        "dryer",
        "dryer-recorder",
        "dryer-fitted",
        "line16",
    ];
    for name in sheets {
        let words = typed(&format!("{name}.txt"));
        for tick in [&[][..], &["--tick", "0.1ms"], &["--tick", "7 us"]] {
            let text = run(&[&["text", "-"], tick].concat(), &words);
            assert_eq!(text.status, 0, "{name}");
            let again = run(&["words", "-"], &text.out);
            assert_eq!((again.status, again.out), (0, words.clone()), "{name}");
        }
    }
}
