//! A generated line with its files, and how a subcommand is asked about it.

use std::fs;
use std::path::{Path, PathBuf};

use super::hold::equal;
use super::json::{read_output, Json};
use super::lines::{head_statements, lay_out, line, node_statements, Line, Node, Stream};
use super::numbers::numbers;
use super::random::Random;
use super::run::{run, Ran};

/// A line and its files: the line's text comes on standard input, and the
/// recorder's, if the last node is one, is in the folder.
pub struct Case {
    pub line: Line,
    pub text: String,
    pub recorder: Option<String>,
    /// The line's text without budgets.
    pub bare: String,
    folder: PathBuf,
}

impl Case {
    pub fn new(random: &mut Random, folder: &Path) -> Case {
        let numbers = numbers(random);
        let line = line(random, &numbers);
        let with_recorder = line.nodes.len() > 1 && random.one_in(6);
        let own = line.nodes.len() - usize::from(with_recorder);
        let mut statements = head_statements(random, &line);
        let mut bare = statements.clone();
        for node in &line.nodes[..own] {
            statements.extend(node_statements(random, node, true));
            bare.extend(node_statements(random, node, false));
        }
        let recorder = line.nodes.last().filter(|_| with_recorder);
        let recorder = recorder.map(|node| node_statements(random, node, true));
        Case {
            text: lay_out(random, &statements),
            recorder: recorder.map(|statements| lay_out(random, &statements)),
            bare: lay_out(random, &bare),
            folder: folder.to_path_buf(),
            line,
        }
    }

    pub fn file(&self, name: &str) -> String {
        self.folder.join(name).to_string_lossy().into_owned()
    }

    /// Puts a text into a file of the folder. Some file systems are slow to write
    /// over a file, so an older one goes first.
    pub fn put(&self, name: &str, text: &str) -> String {
        let file = self.file(name);
        let _ = fs::remove_file(&file);
        fs::write(&file, text).unwrap();
        file
    }

    /// Runs a subcommand on a text of the line, with the recorder if there is one.
    pub fn ask_about(&self, text: &str, args: &[&str]) -> Ran {
        let recorder = self.file("recorder.txt");
        let mut all = args.to_vec();
        if self.recorder.is_some() {
            all.extend(["--with", &recorder]);
        }
        run(&all, text.as_bytes())
    }

    pub fn ask(&self, args: &[&str]) -> Ran {
        self.ask_about(&self.text, args)
    }

    /// The same for an answer in JSON, beside which nothing is said.
    pub fn ask_json(&self, text: &str, args: &[&str]) -> Result<(u8, Json), String> {
        let ran = self.ask_about(text, &[args, &["--json"]].concat());
        let err = String::from_utf8_lossy(&ran.err);
        equal("standard error beside JSON", err.as_ref(), "")?;
        Ok((ran.status, read_output(&ran.out)?))
    }
}

/// Whether the ticks rank a node's streams as their exact durations do.
pub fn order_kept(node: &Node) -> bool {
    let by_exact = |stream: &Stream| (stream.deadline.exact, stream.period.exact);
    let by_ticks = |stream: &Stream| (stream.deadline.ticks, stream.period.ticks);
    let mut exact: Vec<usize> = (0..node.streams.len()).collect();
    let mut ticks = exact.clone();
    exact.sort_by_key(|&at| by_exact(&node.streams[at]));
    ticks.sort_by_key(|&at| by_ticks(&node.streams[at]));
    exact == ticks
}
