//! The example files, each made from its description by the library's writer.

use std::collections::HashMap;
use std::fs;
use std::path::{Path, PathBuf};

use mwelitunga::{Dependence, Loop, Operation, Use};

/// What a description has said so far.
#[derive(Default)]
struct Description<'a> {
    /// The number of each slot that has a name.
    slots: HashMap<&'a str, i32>,
    /// The number of each operation, by its name.
    operations: HashMap<&'a str, usize>,
    described: Loop,
}

impl<'a> Description<'a> {
    /// Takes a line's words. A line that is wrong ends the test.
    fn take(&mut self, words: &[&'a str]) {
        match *words {
            [] => (),
            ["slot", name, slot] => {
                self.slots.insert(name, number(slot));
            }
            ["op", name, "latency", latency, ref uses @ ..] => {
                self.operations
                    .insert(name, self.described.operations.len());
                let uses = uses.iter().map(|word| self.used(word)).collect();
                self.described.operations.push(Operation {
                    latency: number(latency),
                    uses,
                });
            }
            ["dep", from, "->", to, ref given @ ..] => {
                let dependence = self.dependence(from, to, given);
                self.described.dependences.push(dependence);
            }
            _ => panic!("no line of a description: {words:?}"),
        }
    }

    /// A use, `SLOT:CYCLES`, with the slot's name or number.
    fn used(&self, word: &str) -> Use {
        let (slot, duration) = word.split_once(':').expect("a use has a colon");
        let named = self.slots.get(slot).copied();
        Use {
            slot: named.unwrap_or_else(|| number(slot)),
            duration: number(duration),
        }
    }

    /// A dependence between two operations, with what is given of delay and distance.
    fn dependence(&self, from: &str, to: &str, given: &[&str]) -> Dependence {
        let from = self.operations[from];
        let mut dependence = Dependence {
            from,
            to: self.operations[to],
            delay: self.described.operations[from].latency,
            distance: 0,
        };
        for pair in given.chunks(2) {
            match *pair {
                ["delay", delay] => dependence.delay = number(delay),
                ["distance", distance] => dependence.distance = number(distance),
                _ => panic!("no part of a dependence: {pair:?}"),
            }
        }
        dependence
    }
}

fn number(word: &str) -> i32 {
    word.parse()
        .unwrap_or_else(|_| panic!("no number: {word:?}"))
}

/// The loop of a description, in the form of `docs/FORMAT.md`.
fn described(text: &str) -> Loop {
    let mut description = Description::default();
    for line in text.lines() {
        let code = line.split('#').next().unwrap_or("");
        let words: Vec<&str> = code.split_whitespace().collect();
        description.take(&words);
    }
    description.described
}

/// The files of `examples/` with an extension.
fn examples(extension: &str) -> Vec<PathBuf> {
    let folder = Path::new(env!("CARGO_MANIFEST_DIR")).join("../../examples");
    let entries = fs::read_dir(folder).expect("the examples are there");
    let paths = entries.map(|entry| entry.expect("an entry can be read").path());
    paths
        .filter(|path| path.extension().is_some_and(|found| found == extension))
        .collect()
}

#[test]
fn every_example_is_what_its_description_makes() {
    let descriptions = examples("txt");
    for path in &descriptions {
        let text = fs::read_to_string(path).expect("a description is text");
        let described = described(&text);
        let file = fs::read(path.with_extension("loop")).expect("a description has its file");
        assert_eq!(described.to_file().as_deref(), Ok(&file[..]), "{path:?}");
        assert_eq!(Loop::from_file(&file), Ok(described), "{path:?}");
    }
    let number = descriptions.len();
    assert!(number >= 7, "{number} descriptions");
    assert_eq!(examples("loop").len(), number);
}
