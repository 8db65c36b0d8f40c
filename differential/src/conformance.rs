//! The conformance books: what is printed for each must be its stored answer, and
//! where a report is stored, its whole report.

use std::collections::BTreeSet;
use std::fs;
use std::path::Path;

use crate::proved_prints;
use crate::sides::Side;

/// What every name in the index has, and what some have besides.
const PARTS: [&str; 3] = ["book", "answer", "md"];
const REPORT: &str = "report";
/// What is said of the whole set.
const ABOUT: &str = "README.md";

pub fn run(folder: &Path) -> Result<(), String> {
    let index = read(&folder.join("index"))?;
    let index = String::from_utf8(index).map_err(|_| "the index is no text".to_string())?;
    let names: Vec<&str> = index.lines().collect();
    let mut wrong = malformed(&index);
    wrong.extend(misplaced(folder, &names)?);
    let mut reports = 0;
    for name in &names {
        let stored = |part: &str| read(&folder.join(file_name(name, part)));
        let (Ok(book), Ok(answer)) = (stored("book"), stored("answer")) else {
            continue; // Said already.
        };
        let printed = [proved_prints::answer(&book), reference::printed(&book)];
        wrong.extend(differing(name, "prints", printed, &answer));
        if folder.join(file_name(name, REPORT)).exists() {
            reports += 1;
            let printed = [
                proved_prints::reports(&book),
                reference::printed_reports(&book),
            ];
            wrong.extend(match stored(REPORT) {
                Ok(report) => differing(name, "reports", printed, &report),
                Err(words) => vec![words],
            });
        }
    }
    if reports == 0 {
        wrong.push("no book has a report".to_string());
    }
    if !wrong.is_empty() {
        return Err(wrong.join("\n"));
    }
    let books = names.len();
    println!(
        "{books} books, each answered as stored by both; {reports} reports, each as stored by both"
    );
    Ok(())
}

fn file_name(name: &str, part: &str) -> String {
    format!("{name}.{part}")
}

/// Where what the proved library and the second implementation print is not what is
/// stored.
fn differing(
    name: &str,
    does: &str,
    [proved, reference]: [Vec<u8>; 2],
    stored: &[u8],
) -> Vec<String> {
    [(Side::Proved, proved), (Side::Reference, reference)]
        .into_iter()
        .filter(|(_, printed)| printed != stored)
        .map(|(side, printed)| {
            let side = side.name();
            format!("{name}: {side} {does} {}", difference(&printed, stored))
        })
        .collect()
}

fn read(file: &Path) -> Result<Vec<u8>, String> {
    fs::read(file).map_err(|error| format!("{}: {error}", file.display()))
}

/// What keeps a reader of lines from the names of the index: a last line that
/// is not ended is dropped by some, a carriage return is part of the name to some.
fn malformed(index: &str) -> Vec<String> {
    let mut wrong = Vec::new();
    if !index.ends_with('\n') {
        wrong.push("the index does not end in a line feed".to_string());
    }
    if index.contains('\r') {
        wrong.push("the index has a carriage return".to_string());
    }
    if index.lines().any(str::is_empty) {
        wrong.push("the index has an empty line".to_string());
    }
    wrong
}

/// Names twice in the index, files that are missing, files of no name, and
/// comments that say nothing.
fn misplaced(folder: &Path, names: &[&str]) -> Result<Vec<String>, String> {
    let mut wrong = Vec::new();
    let mut due = BTreeSet::new();
    for name in names {
        for part in PARTS {
            let file = file_name(name, part);
            match fs::metadata(folder.join(&file)) {
                Ok(found) if found.is_file() => {
                    if part == "md" && found.len() == 0 {
                        wrong.push(format!("{file} is empty"));
                    }
                }
                _ => wrong.push(format!("{file} is missing")),
            }
            if !due.insert(file) && part == PARTS[0] {
                wrong.push(format!("{name} stands twice in the index"));
            }
        }
        due.insert(file_name(name, REPORT));
    }
    wrong.extend(of_no_name(folder, &due)?);
    if names.is_empty() {
        wrong.push("the index names no book".to_string());
    }
    Ok(wrong)
}

/// Files like those of a book that are not due.
fn of_no_name(folder: &Path, due: &BTreeSet<String>) -> Result<Vec<String>, String> {
    let mut wrong = Vec::new();
    let entries = fs::read_dir(folder).map_err(|error| format!("{}: {error}", folder.display()))?;
    for entry in entries {
        let file = entry.map_err(|error| error.to_string())?.file_name();
        let file = file.to_string_lossy().into_owned();
        let part = file.rsplit_once('.').map(|(_, part)| part);
        let is_part = |part: &str| PARTS.contains(&part) || part == REPORT;
        let of_a_book = part.is_some_and(is_part) && file != ABOUT;
        if of_a_book && !due.contains(&file) {
            wrong.push(format!("{file} is not in the index"));
        }
    }
    Ok(wrong)
}

/// The first line that differs.
fn difference(printed: &[u8], answer: &[u8]) -> String {
    let mut printed = crate::line::lines(printed);
    let mut answer = crate::line::lines(answer);
    let mut number = 1;
    loop {
        let (one, other) = (printed.next(), answer.next());
        if one != other {
            let shown = |line: Option<&[u8]>| match line {
                Some(line) => format!("'{}'", line.escape_ascii()),
                None => "no line".to_string(),
            };
            let (one, other) = (shown(one), shown(other));
            return format!("{one} in line {number}, stored is {other}");
        }
        number += 1;
    }
}

#[cfg(test)]
mod tests {
    use std::path::PathBuf;

    use super::*;

    const REPORTED: &[u8] = b"REPORT\t2\n1\tEXPOSURE\t900\n1\tREST\t900\n1\tWEIGHTED\t675\n";

    /// A folder with two books and one report, removed at the end of its test.
    struct Folder(PathBuf);

    impl Folder {
        fn new(name: &str) -> Self {
            let id = std::process::id();
            let folder = Folder(std::env::temp_dir().join(format!("differential-{name}-{id}")));
            fs::create_dir_all(&folder.0).expect("a new folder");
            folder.write("index", b"one\ntwo\n");
            folder.write("README.md", b"Two books.\n");
            let books: [(&str, &[u8]); 2] = [
                ("one", b"CRM\t1\nD\t900\t4\t0\t978\t3\t1\t90\t1\t0\t0\n"),
                ("two", b"CRM\t2\nD\t900\t4\t0\t0\t978\t3\t1\t90\t1\t0\t0\n"),
            ];
            for (name, book) in books {
                folder.write(&format!("{name}.book"), book);
                folder.write(&format!("{name}.answer"), b"RESULT\t1\n1\t0\t900\t675\n");
                folder.write(&format!("{name}.md"), b"Retail.\n");
            }
            folder.write("two.report", REPORTED);
            folder
        }

        fn write(&self, file: &str, bytes: &[u8]) {
            fs::write(self.0.join(file), bytes).expect("a file is written");
        }

        /// What is wrong once a file is written (or, without bytes, removed).
        fn wrong(name: &str, file: &str, bytes: Option<&[u8]>) -> String {
            let folder = Folder::new(name);
            assert_eq!(run(&folder.0), Ok(()));
            match bytes {
                Some(bytes) => folder.write(file, bytes),
                None => fs::remove_file(folder.0.join(file)).expect("a file is removed"),
            }
            run(&folder.0).expect_err("a wrong set passes")
        }
    }

    impl Drop for Folder {
        fn drop(&mut self) {
            let _ = fs::remove_dir_all(&self.0);
        }
    }

    #[test]
    fn wrong_answers() {
        for answer in [
            b"RESULT\t1\n1\t0\t900\t674\n" as &[u8],
            b"RESULT\t1\n1\t0\t900\t675",
            b"RESULT\t1\n1\t0\t900\t675\n\n",
            b"RESULT\t1\r\n1\t0\t900\t675\n",
            b"RESULT\t1\n",
            b"",
        ] {
            let wrong = Folder::wrong("answers", "two.answer", Some(answer));
            assert!(wrong.contains("two: proved prints"), "{wrong}");
            assert!(wrong.contains("two: reference prints"), "{wrong}");
            assert!(!wrong.contains("one"), "{wrong}");
        }
    }

    #[test]
    fn wrong_reports() {
        let changed = |from: &str, to: &str| {
            let right = String::from_utf8_lossy(REPORTED);
            right.replacen(from, to, 1).into_bytes()
        };
        for report in [
            changed("675", "674"),
            changed("\t2", "\t1"),
            changed("1\tREST", "2\tREST"),
            changed("\n", "\r\n"),
            changed("675\n", "675"),
            [REPORTED, b"\n"].concat(),
            b"RESULT\t1\n1\t0\t900\t675\n".to_vec(),
            Vec::new(),
        ] {
            let wrong = Folder::wrong("reports", "two.report", Some(&report));
            assert!(wrong.contains("two: proved reports"), "{wrong}");
            assert!(wrong.contains("two: reference reports"), "{wrong}");
            assert!(!wrong.contains("one"), "{wrong}");
        }
        // One more, of a book that has none.
        let wrong = Folder::wrong("reports", "one.report", Some(b""));
        assert!(wrong.contains("one: proved reports"), "{wrong}");
        let wrong = Folder::wrong("reports", "two.report", None);
        assert_eq!(wrong, "no book has a report");
    }

    #[test]
    fn a_report_that_is_no_file() {
        let folder = Folder::new("no-file");
        fs::create_dir(folder.0.join("one.report")).expect("a new folder");
        let wrong = run(&folder.0).expect_err("a wrong set passes");
        assert!(wrong.contains("one.report: "), "{wrong}");
    }

    #[test]
    fn missing_files() {
        for file in ["one.book", "one.answer", "one.md"] {
            let wrong = Folder::wrong("missing", file, None);
            assert_eq!(wrong, format!("{file} is missing"));
        }
        assert!(Folder::wrong("missing", "index", None).contains("index: "));
    }

    #[test]
    fn files_of_no_name() {
        for file in ["three.book", "three.answer", "three.md", "three.report"] {
            let wrong = Folder::wrong("unlisted", file, Some(b"x"));
            assert_eq!(wrong, format!("{file} is not in the index"));
        }
        let wrong = Folder::wrong("unlisted", "two.md", Some(b""));
        assert_eq!(wrong, "two.md is empty");
    }

    #[test]
    fn wrong_indexes() {
        for (index, due) in [
            (b"one\ntwo" as &[u8], "not end in a line feed"),
            (b"one\n\ntwo\n", "an empty line"),
            (b"one\ntwo\n\n", "an empty line"),
            (b"one\r\ntwo\r\n", "a carriage return"),
            (b"one\n", "two.book is not in the index"),
            (b"one\ntwo\none\n", "one stands twice"),
            (b"one\ntwo \n", "two .book is missing"),
            (b"one\ntwo\nthree\n", "three.book is missing"),
            (b"", "names no book"),
            (b"one\ntwo\n\xff\n", "no text"),
        ] {
            let wrong = Folder::wrong("indexes", "index", Some(index));
            assert!(wrong.contains(due), "{wrong}");
        }
    }

    #[test]
    fn first_difference() {
        assert_eq!(
            difference(b"a\nb\n", b"a\n"),
            "'b\\n' in line 2, stored is no line"
        );
    }
}
