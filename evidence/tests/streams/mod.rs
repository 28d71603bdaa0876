//! Vectors of the change requests: streams of numbers, and the lines expected of them.

// no test uses all of it
#![allow(dead_code)]

use plain::sites::Site;
use std::path::{Path, PathBuf};

/// A family of vectors: the streams of `crates/check_FAMILY` and what that program prints; or, where SURVEY_REQUESTS
/// names a folder, the files FAMILY/NAME.in there and, beside each, NAME.out.
pub struct Vectors {
    pub streams: Vec<(String, Numbers)>,
    pub expected: String,
}

fn text(path: &Path) -> String {
    std::fs::read_to_string(path).unwrap_or_else(|e| panic!("{}: {e}", path.display()))
}

pub fn vectors(family: &str) -> Vectors {
    let (inputs, expected) = match std::env::var_os("SURVEY_REQUESTS") {
        Some(folder) => {
            let folder = PathBuf::from(folder).join(family);
            let entries = std::fs::read_dir(&folder).unwrap_or_else(|e| panic!("{}: {e}", folder.display()));
            let mut inputs: Vec<PathBuf> = entries
                .map(|entry| entry.unwrap().path())
                .filter(|path| path.extension().is_some_and(|e| e == "in"))
                .collect();
            inputs.sort();
            let expected = inputs.iter().map(|path| text(&path.with_extension("out"))).collect();
            (inputs, expected)
        }
        None => {
            let folder = Path::new(env!("CARGO_MANIFEST_DIR")).join(format!("../crates/check_{family}"));
            let args = text(&folder.join("args"));
            let names = args.lines().filter(|name| name.ends_with(".in"));
            (names.map(|name| folder.join("data").join(name)).collect(), text(&folder.join("stdout")))
        }
    };
    assert!(!inputs.is_empty(), "no vectors of {family}");
    let stream = |path: &PathBuf| (path.file_name().unwrap().to_string_lossy().into_owned(), Numbers::of(&text(path)));
    Vectors { streams: inputs.iter().map(stream).collect(), expected }
}

impl Vectors {
    /// The lines of all cases, each said by a function of the stream's name, are those expected. Returns the number of
    /// cases.
    pub fn hold(self, mut say: impl FnMut(&str, &mut Numbers, &mut String)) -> usize {
        let (mut said, mut cases) = (String::new(), 0);
        for (name, mut numbers) in self.streams {
            for _ in 0..numbers.next::<usize>() {
                say(&name, &mut numbers, &mut said);
                cases += 1;
            }
            assert!(numbers.0.is_empty(), "{name} has numbers left");
        }
        for (line, (ours, theirs)) in said.lines().zip(self.expected.lines()).enumerate() {
            assert_eq!(ours, theirs, "line {}", line + 1);
        }
        assert_eq!(said, self.expected);
        cases
    }
}

/// The numbers of a stream, the last one first.
pub struct Numbers(Vec<i64>);

impl Numbers {
    fn of(text: &str) -> Numbers {
        let mut numbers: Vec<i64> = text.split_ascii_whitespace().map(|word| word.parse().unwrap()).collect();
        numbers.reverse();
        Numbers(numbers)
    }

    pub fn next<T: TryFrom<i64>>(&mut self) -> T {
        T::try_from(self.0.pop().unwrap()).ok().unwrap()
    }

    /// Its length, and then its numbers.
    pub fn list<T: TryFrom<i64>>(&mut self) -> Vec<T> {
        let length: usize = self.next();
        (0..length).map(|_| self.next()).collect()
    }

    /// The unit count, the words and the levels of a table.
    pub fn site(&mut self) -> Site {
        Site { units: self.next(), table: self.list(), levels: self.list() }
    }
}

/// Numbers of a line, with a space between them.
pub fn line<T: ToString>(numbers: impl IntoIterator<Item = T>) -> String {
    let words: Vec<String> = numbers.into_iter().map(|number| number.to_string()).collect();
    words.join(" ") + "\n"
}
