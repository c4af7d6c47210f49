//! Reads the vectors: inputs on file with the outcomes that are expected of them, in a directory for each landing.

use crate::operation::{Input, Sizes};
use std::collections::BTreeSet;
use std::fs;
use std::path::{Path, PathBuf};

/// The last landing.
const LAST: usize = 14;

/// An input on file.
pub struct Vector {
    /// Its path below the directory of all vectors, as `changed.tsv` names it.
    pub name: String,
    pub input: Input,
    /// What is expected of it: the columns behind its name.
    pub columns: Vec<String>,
}

/// The directory of all vectors, beside this crate.
pub fn directory() -> PathBuf {
    beside("vectors")
}

/// The least number on file of what has this name.
pub fn floor(name: &str) -> usize {
    let lines = table(&beside("floors.tsv"));
    let line = lines.iter().find(|line| line[0] == name).unwrap_or_else(|| panic!("floors.tsv has no line {name}"));
    line[1].parse().expect("a number of vectors")
}

/// A path beside this crate.
fn beside(name: &str) -> PathBuf {
    Path::new(env!("CARGO_MANIFEST_DIR")).join("..").join(name)
}

/// The directories of landings that are there, the oldest first.
fn levels(root: &Path) -> Vec<String> {
    let names = std::iter::once("base".to_string()).chain((1..=LAST).map(|landing| format!("L{landing}")));
    names.filter(|level| root.join(level).is_dir()).collect()
}

/// The vectors of an operation at all levels: each with the columns of the last `changed.tsv` that names it, else of its
/// own `expected.tsv`.
pub fn load(root: &Path, operation: &str, folders: &[&str], endings: &[&str]) -> Vec<Vector> {
    load_but("", root, operation, folders, endings)
}

/// As `load`, but without the changes of one landing.
pub fn load_but(landing: &str, root: &Path, operation: &str, folders: &[&str], endings: &[&str]) -> Vec<Vector> {
    let mut vectors: Vec<Vector> = Vec::new();
    for level in levels(root) {
        if level != landing {
            change(&mut vectors, &root.join(&level).join("changed.tsv"), operation);
        }
        for folder in folders {
            let path = if folder.is_empty() { level.clone() } else { format!("{level}/{folder}") };
            vectors.extend(folder_vectors(root, &path, endings));
        }
    }
    vectors
}

/// Puts the columns of a `changed.tsv` in the place of earlier ones.
fn change(vectors: &mut [Vector], path: &Path, operation: &str) {
    for mut line in existing_table(path).into_iter().filter(|line| line[0] == operation) {
        let vector = vectors.iter_mut().find(|vector| vector.name == line[1]);
        let vector = vector.unwrap_or_else(|| panic!("{}: no earlier vector {}", path.display(), line[1]));
        vector.columns = line.split_off(2);
    }
}

/// The vectors of one folder, by its path below the root; every file has a line in its `expected.tsv`.
fn folder_vectors(root: &Path, path: &str, endings: &[&str]) -> Vec<Vector> {
    let directory = root.join(path);
    let lines = existing_table(&directory.join("expected.tsv"));
    let names: BTreeSet<&String> = lines.iter().map(|line| &line[0]).collect();
    let found: usize = endings.iter().map(|ending| files(&directory, ending).len()).sum();
    assert!(names.len() == lines.len() && found == lines.len() * endings.len(), "{path}: one line for each vector");
    lines.into_iter().map(|line| vector(&directory, path, endings, line)).collect()
}

/// The vector of a line: its only file, or the files that its name and each ending give.
fn vector(directory: &Path, path: &str, endings: &[&str], mut line: Vec<String>) -> Vector {
    let parts = match endings {
        [_] => vec![read(&directory.join(&line[0]))],
        _ => endings.iter().map(|ending| read(&directory.join(format!("{}.{ending}", line[0])))).collect(),
    };
    let columns = line.split_off(1);
    Vector { name: format!("{path}/{}", line[0]), input: Input { parts, ..Input::default() }, columns }
}

/// Every directory of vectors must be a landing's, and every folder in it one of those that are read.
pub fn demand_known(root: &Path, folders: &[&str]) {
    let levels = levels(root);
    for level in directories(root) {
        assert!(levels.contains(&level), "{level}: no landing has this name");
        for folder in directories(&root.join(&level)) {
            assert!(folders.contains(&folder.as_str()), "{level}/{folder}: no operation reads this folder");
        }
    }
}

/// The lines of `base/buffers.tsv`: tickets with buffers of the sizes named, and the program's lines.
pub fn buffers(root: &Path) -> Vec<Vector> {
    let number = |field: &String| field.parse().expect("the size of a buffer");
    let vector = |line: Vec<String>| Vector {
        name: format!("base/buffers.tsv {}", line.join(" ")),
        input: Input {
            parts: vec![read(&root.join("base").join(&line[0]))],
            sizes: Sizes { work: number(&line[1]), answer: number(&line[2]) },
            ..Input::default()
        },
        columns: vec![line[3].clone()],
    };
    table(&root.join("base/buffers.tsv")).into_iter().map(vector).collect()
}

/// The examples, by name.
pub fn examples() -> Vec<(String, Vec<u8>)> {
    tickets_below(&beside("../examples"))
}

/// The tickets of a directory and of those below it.
fn tickets_below(directory: &Path) -> Vec<(String, Vec<u8>)> {
    let here = files(directory, "ticket").into_iter().map(|path| (path.display().to_string(), read(&path)));
    let below = entries(directory).into_iter().filter(|path| path.is_dir()).flat_map(|path| tickets_below(&path));
    here.chain(below).collect()
}

/// The entries of a directory, by name; none when it is not there.
fn entries(directory: &Path) -> Vec<PathBuf> {
    let entries = fs::read_dir(directory).into_iter().flatten();
    let mut paths: Vec<PathBuf> = entries.map(|entry| entry.expect("an entry of the directory").path()).collect();
    paths.sort();
    paths
}

/// The files of a directory with an ending, by name.
fn files(directory: &Path, ending: &str) -> Vec<PathBuf> {
    let paths = entries(directory).into_iter();
    paths.filter(|path| path.extension().is_some_and(|found| found == ending)).collect()
}

/// The names of a directory's directories.
fn directories(directory: &Path) -> Vec<String> {
    let paths = entries(directory).into_iter().filter(|path| path.is_dir());
    paths.map(|path| path.file_name().expect("a name").to_string_lossy().into_owned()).collect()
}

/// The lines of a table that need not be there.
fn existing_table(path: &Path) -> Vec<Vec<String>> {
    if path.is_file() {
        table(path)
    } else {
        Vec::new()
    }
}

/// The lines of a file, each cut at its tabs.
fn table(path: &Path) -> Vec<Vec<String>> {
    let text = String::from_utf8(read(path)).expect("a table is text");
    text.lines().map(|line| line.split('\t').map(str::to_string).collect()).collect()
}

fn read(path: &Path) -> Vec<u8> {
    fs::read(path).unwrap_or_else(|error| panic!("{}: {error}", path.display()))
}

#[cfg(test)]
mod tests {
    use super::*;

    /// A directory of its own below the system's folder for such, with these files; it is gone after the test.
    struct Tree {
        root: PathBuf,
    }

    impl Tree {
        fn new(name: &str, files: &[(&str, &str)]) -> Tree {
            let root = std::env::temp_dir().join(format!("nuldwich-{}-{name}", std::process::id()));
            for (path, text) in files {
                let path = root.join(path);
                fs::create_dir_all(path.parent().expect("a folder")).expect("a folder");
                fs::write(path, text).expect("a file");
            }
            Tree { root }
        }

        /// The names of an operation's vectors with their columns.
        fn load(&self, operation: &str, folders: &[&str], endings: &[&str]) -> Vec<(String, Vec<String>)> {
            let vectors = load(&self.root, operation, folders, endings);
            vectors.into_iter().map(|vector| (vector.name, vector.columns)).collect()
        }
    }

    impl Drop for Tree {
        fn drop(&mut self) {
            fs::remove_dir_all(&self.root).expect("the tree is there");
        }
    }

    /// Two levels: the later one changes one vector of each operation and has a vector more.
    const TWO_LEVELS: [(&str, &str); 10] = [
        ("base/expected.tsv", "a.ticket\tverdict none\t\nb.ticket\tverdict strings|end\t0a08\n"),
        ("base/a.ticket", "A"),
        ("base/b.ticket", "B"),
        ("base/judge/expected.tsv", "c\tall met\n"),
        ("base/judge/c.question", "Q"),
        ("base/judge/c.answer", "R"),
        ("L3/changed.tsv", "check\tbase/b.ticket\trefused 3 at 5\t\tcore\njudge\tbase/judge/c\tunmet 0\t0600\n"),
        ("L3/check/expected.tsv", "d.ticket\trefused 4 at 1\t\n"),
        ("L3/check/d.ticket", "D"),
        ("L3/README", ""),
    ];

    fn words(columns: &[&str]) -> Vec<String> {
        columns.iter().map(|column| column.to_string()).collect()
    }

    #[test]
    fn a_later_level_changes_what_is_expected() {
        let tree = Tree::new("changes", &TWO_LEVELS);
        let checked = tree.load("check", &["", "check"], &["ticket"]);
        let expected = vec![
            ("base/a.ticket".to_string(), words(&["verdict none", ""])),
            ("base/b.ticket".to_string(), words(&["refused 3 at 5", "", "core"])),
            ("L3/check/d.ticket".to_string(), words(&["refused 4 at 1", ""])),
        ];
        assert_eq!(checked, expected);
        let judged = tree.load("judge", &["judge"], &["question", "answer"]);
        assert_eq!(judged, vec![("base/judge/c".to_string(), words(&["unmet 0", "0600"]))]);
        let vectors = load(&tree.root, "judge", &["judge"], &["question", "answer"]);
        assert_eq!(vectors[0].input.parts, [b"Q".to_vec(), b"R".to_vec()]);
        demand_known(&tree.root, &["check", "judge"]);
    }

    #[test]
    fn the_last_level_that_names_a_vector_decides() {
        let mut files = TWO_LEVELS.to_vec();
        files.push(("L10/changed.tsv", "check\tbase/b.ticket\trefused 8 at 2\t\tcore\n"));
        files.push(("L4/changed.tsv", "check\tbase/b.ticket\trefused 9 at 2\t\n"));
        let tree = Tree::new("last", &files);
        assert_eq!(tree.load("check", &["", "check"], &["ticket"])[1].1, words(&["refused 8 at 2", "", "core"]));
    }

    #[test]
    #[should_panic(expected = "base: one line for each vector")]
    fn a_file_without_a_line_is_a_fault() {
        let tree = Tree::new("file", &[&TWO_LEVELS[..], &[("base/e.ticket", "E")]].concat());
        tree.load("check", &["", "check"], &["ticket"]);
    }

    #[test]
    #[should_panic(expected = "no earlier vector base/e.ticket")]
    fn a_change_of_no_vector_is_a_fault() {
        let tree = Tree::new("change", &[&TWO_LEVELS[..], &[("L4/changed.tsv", "check\tbase/e.ticket\t\n")]].concat());
        tree.load("check", &["", "check"], &["ticket"]);
    }

    #[test]
    #[should_panic(expected = "L3/check: no operation reads this folder")]
    fn a_folder_that_is_not_read_is_a_fault() {
        demand_known(&Tree::new("folder", &TWO_LEVELS).root, &["judge"]);
    }
}
