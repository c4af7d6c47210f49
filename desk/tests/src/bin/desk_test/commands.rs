//! Every command of the program, on good and on bad input: exit status, and what is printed.

use crate::{count, files, read};
use compare::report::Report;
use desk_tests::valid::is_json;
use library::Verdict;
use nuldwich_reference::judging::unmet;
use std::fs;
use std::path::{Path, PathBuf};
use std::process::{Command, Output, Stdio};

/// A folder of its own for files, and the program.
struct Desk<'a> {
    program: &'a Path,
    root: PathBuf,
    folder: PathBuf,
}

/// What is due of a run: the words behind the program, the status, and what standard output and error contain.
pub type Case = (&'static str, i32, &'static str, &'static str);

const COMMANDS: [&str; 10] = ["ask", "check", "judge", "show", "draw", "bytes", "text", "same", "smt", "from-smt"];

/// How many files a command takes at the least.
fn operands(command: &str) -> usize {
    if ["judge", "same"].contains(&command) {
        2
    } else {
        1
    }
}

/// Words that stand for themselves, but that `E` is examples/, `V` tests/vectors/, and `T` the folder with the files below.
const CASES: [Case; 98] = [
    ("", 2, "", "usage: nuldwich COMMAND"),
    ("--help", 0, "usage: nuldwich COMMAND", ""),
    ("sing", 2, "", "there is no command sing"),
    ("check E/example1.ticket", 0, "no solution; constraints that took part: 0 to 2\n(by the proved library)\n", ""),
    ("check E/example4.ticket", 0, "example4.ticket: strings\n", ""),
    ("check E/example4-code1.ticket", 1, "refused 12 at record 4: the model breaks an arithmetic fact\n", ""),
    ("check E/empty.ticket", 1, "refused 3 at record 0", ""),
    ("check T/long", 1, "refused 2 at record 0: the ticket or question has over 32,768 bytes\n", ""),
    ("check T/none", 2, "none: cannot be read: ", ""),
    ("check E/example4-code1.ticket T/none E/example4.ticket", 2, "       1  cannot be read\n       3  tickets\n", ""),
    ("check E", 1, "      10  strings\n", ""),
    ("check E/office", 0, "       5  no solution\n       5  strings\n      10  tickets\n(each verdict by", ""),
    ("check T/empty", 2, "", "empty: no file below this directory ends in .ticket"),
    ("check --need E/office/09-four-wards.ticket", 0, "; needs steps 264, facts 41, pending 11\n", ""),
    ("check --need E/empty.ticket", 1, "; the need is refused 3 at record 0", ""),
    ("check T/rules.txt", 1, " is complete (this is text, not records)\n", ""),
    ("check - ", 1, "-: refused 3 at record 0", ""),
    ("check --json --need E", 1, "\"refused_by_number\":{\"3\":1,", ""),
    ("check --json T/none", 2, "\"verdict\":\"cannot be read\"", ""),
    ("judge T/rules.txt T/met.txt", 0, "the proved library says: all conditions are met\n", ""),
    ("judge T/rules.txt T/unmet.txt", 1, "rules.txt:4: 7 <= len(donor) <= 12 (7 <= len(donor))\n", ""),
    ("judge T/rules.txt T/unmet.txt", 1, "rules.txt:5: ward != \"J\"\n", ""),
    ("judge T/rules.txt T/unmet.txt", 1, "rules.txt:6: k = number(donor)\n", ""),
    ("judge T/rules.txt T/unmet.txt", 1, "(7 <= len(donor))\n    but len(donor) = 4\n", ""),
    ("judge T/rules.txt T/unmet.txt", 1, "\n    but ward = \"J\"\n", ""),
    ("judge T/rules.txt T/unmet.txt", 1, "\n    but k = 123, number(donor) = -1\n", ""),
    ("judge T/case.txt T/case-answer.txt", 1, "case.txt:3: x = upper(y)\n    but x = \"aB\", upper(y) = \"AB\"\n", ""),
    (
        "judge T/case.txt T/case-answer.txt",
        1,
        "case.txt:4: y = decimal(k)\n    but y = \"aB\", decimal(k) = \"\"\n",
        "",
    ),
    ("judge T/case.txt T/case-answer.txt", 1, "case.txt:5: code(z) <= 'A'\n    but code(z) = 66 ('B')\n", ""),
    ("judge T/case.txt T/case-answer.txt", 1, "case.txt:6: x <= z\n    but x = \"aB\", z = \"B\"\n", ""),
    ("judge E/example4.ticket T/plain.txt", 1, "\n    but len(x0) = 1, code(x0) = 97 ('a')\n", ""),
    ("judge --json T/rules.txt T/unmet.txt", 1, "\"values\":[{\"of\":\"len(donor)\",\"words\":\"4\"}]", ""),
    ("judge --json T/rules.txt T/unmet.txt", 1, "\"line\":4,", ""),
    ("judge --json T/rules.txt T/met.txt", 0, "{\"verdict\":\"met\",\"by\":\"the proved library\"}\n", ""),
    ("judge T/rules.txt T/outside.txt", 1, "the answer is refused 16 at record 0: ", ""),
    ("judge T/rules.txt T/outside.txt", 1, " (donor)\n", ""),
    ("judge --json T/rules.txt T/outside.txt", 1, "\"of\":\"answer\",\"number\":16,", ""),
    ("judge T/rules.txt T/few.txt", 2, "", "few.txt:2:1: no value is given for k"),
    ("judge T/wrong.txt T/met.txt", 2, "", "wrong.txt:3:5: y is not declared"),
    ("judge T/latin1.txt T/met.txt", 2, "", "latin1.txt:2:6: the text is not in UTF-8 here"),
    ("judge T/huge.txt T/met.txt", 2, "", "huge.txt: a text has at most 1048576 bytes"),
    ("judge E/example4.ticket T/plain.txt", 1, "  condition 1: len(x0) - code(x0) - 1 >= 0\n", ""),
    ("judge E/example4.ticket T/met.txt", 2, "", "donor; the fields of a ticket are x0, x1, .. and i0, i1, .."),
    ("judge T/chain.txt T/minus.txt", 1, "chain.txt:2: 3 >= i + 1 > 0 > -i  # \"<\" (0 > -i)\n    but i = -1\n", ""),
    ("judge T/chain.txt T/two.txt", 1, "chain.txt:2: 3 >= i + 1 > 0 > -i  # \"<\" (3 >= i + 1)\n    but i = 3\n", ""),
    ("judge E/example4.ticket T/one.answer", 0, "all conditions are met", ""),
    ("judge E/example4.ticket T/rules.bin", 1, "the answer is refused 15 at record 0: ", ""),
    ("judge T/cut T/met.txt", 1, "the question is refused 3 at record 0: ", ""),
    ("judge --json T/cut T/met.txt", 1, "\"of\":\"question\",\"number\":3,", ""),
    ("judge T/129.txt T/129-answer.txt", 1, "the question is refused 10 at record 129: ", ""),
    ("show E/example4.ticket", 0, "the proved checker says: verdict strings\n", ""),
    ("show E/example4-code1.ticket", 1, "the proved checker says: refused 12 at 4\n", ""),
    ("show --json E/example1.ticket", 0, "\"account_agrees\":true", ""),
    ("show T/long", 1, "the proved checker says: refused 2 at 0\n", ""),
    ("show --names E/office/07-parity-of-checks.txt E/office/07-parity-of-checks.ticket", 0, "fact 0: c1 ≉ c2\n", ""),
    ("show --names T/rules.txt E/five-strings.ticket", 2, "", "rules.txt: this is not the question of the ticket"),
    ("show --names T/none E/five-strings.ticket", 2, "", "none: "),
    ("draw --names E/office/07-parity-of-checks.txt E/office/07-parity-of-checks.ticket", 0, ">c1 ≉ c2<", ""),
    (
        "draw --names E/office/07-parity-of-checks.txt E/office/07-parity-of-checks.ticket",
        0,
        "<p>These lines took part:</p>\n<ul class=\"lines\">\n<li><span class=\"line\">line 8: code(c1) + code(c2) = 2*k + 1</span></li>\n\
         <li><span class=\"line\">line 9: ",
        "",
    ),
    (
        "draw --names E/office/07-parity-of-checks.txt E/office/07-parity-of-checks.ticket",
        0,
        "<mark>took part</mark> <span class=\"line\">line 9: code(c1) - code(c2) = 2*m</span></p>",
        "",
    ),
    ("draw --names T/turned.txt E/sum.ticket", 0, "2·i − 1 ≥ 0</span> <mark>took part</mark> <span class=\"line\">line 3: 4*i &gt;= 2<", ""),
    ("draw E/sum.ticket", 0, "<dt>A-Conf</dt><dd>", ""),
    ("draw E/example4-code1.ticket", 1, "refused 12 at 4", ""),
    ("draw E/example4.ticket -o T/none/out", 2, "", "none/out: "),
    ("draw T/empty", 2, "", "empty: "),
    (
        "draw T/rules.txt -o T/rules.html",
        2,
        "",
        "this is text, not a ticket. A question's ticket is written by\n  nuldwich ask -o ",
    ),
    ("show T/rules.txt", 2, "", "rules.ticket "),
    ("check T/rules.html", 2, "rules.html: cannot be read: ", ""),
    (
        "text --names E/office/03-check-letter-clash.txt E/office/03-check-letter-clash.ticket",
        0,
        "\ncheck != text_1\n",
        "",
    ),
    ("smt T/rules.bin", 0, "(check-sat)\n", ""),
    ("smt T/cut", 2, "", "cut: record 0: the bytes stop within a record"),
    ("smt T/rules.txt -o T/none/out", 2, "", "none/out: "),
    ("from-smt T/rules.bin", 2, "", "rules.bin: these are records, not text"),
    ("from-smt T/rules.txt", 2, "", "rules.txt:1:1: "),
    ("bytes T/rules.txt -o T/out", 0, "", ""),
    ("bytes T/wrong.txt", 2, "", "wrong.txt:3:5: y is not declared"),
    ("bytes E/example1.ticket", 2, "", "example1.ticket: these are records, not text"),
    ("bytes T/rules.txt -o T/none/out", 2, "", "none/out: "),
    ("bytes T/rules.txt -o", 2, "", "-o takes a FILE\nusage: nuldwich bytes"),
    ("text E/sum.ticket", 0, "i0 = 0\n2*i0 - 1 >= 0\nclaim no solution\nSum 1*[1] over 2\n", ""),
    ("text T/rules.bin", 0, "x2 = \"J\"\nx1 != x2\nlen(x0) - 7 >= 0\n-len(x0) + 12 >= 0\ni0 = number(x0)\n", ""),
    ("text T/rules.txt", 2, "", "rules.txt: these are no records"),
    ("text T/cut", 2, "", "cut: record 0: the bytes stop within a record"),
    ("text T/long", 2, "", "long: record 0: there are over 32768 bytes"),
    ("text V/L3/check/checking-refuses-kind-11-with-4.ticket", 2, "", ": a ticket has no constraints of kind 11"),
    ("same T/rules.txt T/rules.bin", 0, "the proved library says: the same\n", ""),
    (
        "same E/example1.ticket E/example2.ticket",
        1,
        "the proved library does not find them the same; they may still",
        "",
    ),
    (
        "same T/rules.txt T/moved.txt",
        1,
        "same solutions\ntake care: they are compared by place, not by name, and donor is string 1 of ",
        "",
    ),
    ("same T/rules.txt T/moved.txt", 1, "rules.txt and string 2 of ", ""),
    ("same --json T/rules.txt T/moved.txt", 1, "{\"verdict\":\"not found the same\",\"by\":\"the proved library\"}\n", ""),
    ("same E/example1.ticket T/cut", 1, "cut: refused 3 at record 0: ", ""),
    ("same --json T/cut T/cut", 1, "{\"verdict\":\"refused\",\"which\":1,\"number\":3,\"record\":0,", ""),
    ("same --json T/rules.txt T/rules.txt", 0, "{\"verdict\":\"same\",\"by\":\"the proved library\"}\n", ""),
    ("same --json E/example1.ticket E/example2.ticket", 1, "\"verdict\":\"not found the same\"", ""),
    ("same T/wrong.txt T/rules.txt", 2, "", "wrong.txt:3:5: "),
    ("same T/rules.txt T/wrong.txt", 2, "", "wrong.txt:3:5: "),
    ("same T/rules.txt", 2, "", "a file is missing\nusage: nuldwich same"),
    ("same T/rules.txt T/rules.txt T/rules.txt", 2, "", "too many files are named"),
];

pub fn compare(program: &Path, root: &Path, report: &mut Report) {
    let folder = std::env::temp_dir().join(format!("nuldwich-desk-{}", std::process::id()));
    let desk = Desk { program, root: root.to_path_buf(), folder };
    desk.write_files();
    for case in CASES.iter().chain(&crate::asked::CASES) {
        desk.compare_case(case, report);
    }
    for command in COMMANDS {
        desk.compare_common(command, report);
    }
    desk.compare_full(report);
    desk.compare_unmoved(report);
    desk.compare_many(report);
    desk.compare_round_trips(report);
    desk.compare_judgements(report);
    fs::remove_dir_all(&desk.folder).unwrap_or_else(|error| panic!("{}: {error}", desk.folder.display()));
}

impl Desk<'_> {
    fn write(&self, name: &str, bytes: impl AsRef<[u8]>) {
        let path = self.folder.join(name);
        fs::write(&path, bytes).unwrap_or_else(|error| panic!("{}: {error}", path.display()));
    }

    fn write_files(&self) {
        fs::create_dir_all(self.folder.join("empty")).unwrap_or_else(|error| panic!("{error}"));
        let rules = "strings donor ward\nintegers k\n\n7 <= len(donor) <= 12\nward != \"J\"\nk = number(donor)\n";
        self.write("rules.txt", rules);
        self.write("moved.txt", rules.replace("strings donor ward", "strings ward donor"));
        self.write("turned.txt", "alphabet 1\nintegers i\n4*i >= 2\ni = 0\n");
        self.write("renamed.txt", "strings a b\nintegers k\n");
        self.write("rules.bin", text::read(rules).map(|written| written.to_bytes()).unwrap_or_default());
        self.write("met.txt", "donor = \"1234567\" # seven\nward = \"K\"\nk = 1234567\n");
        self.write("unmet.txt", "donor = \"0123\"\nward = \"J\"\nk = 123\n");
        self.write("outside.txt", "donor = \"\\u{30000}\"\nward = \"J\"\nk = 123\n");
        self.write("few.txt", "donor = \"1234567\"\nward = \"K\"\n");
        self.write("plain.txt", "x0 = \"a\"\n");
        self.write("one.answer", [&[4, 0, 0, 0, 9, 0, 0, 0, 0, 0, 0, 0, 0, 0, 10, 0][..], &ticket::END].concat());
        self.write("wrong.txt", "strings x\n\nx = y\n");
        self.write("latin1.txt", b"strings x\nx = \"\xe9\"\n");
        self.write("huge.txt", "#".repeat((1 << 20) + 1));
        self.write("long", [0; 40_000]);
        self.write("cut", [8, 0, 0, 0, 1, 0, 5]);
        self.write("129.txt", format!("integers i\n{}", "i = 1\n".repeat(129)));
        self.write("129-answer.txt", "i = 1\n");
        self.write("chain.txt", "integers i\n3 >= i + 1 > 0 > -i  # \"<\"\n");
        self.write("two.txt", "i = 3\n");
        self.write("minus.txt", "i = -1\n");
        let free = "strings a b c d e\na = b\nb != c\na != \"ABCDE\"\nlen(a) = 5\nlen(c) = 5\nlen(d) = 1\ne = \"\"\n";
        self.write("free.txt", free);
        let lengths = "len(x) = 1\nlen(y) = 1\nlen(z) = 1\n";
        self.write("tight.txt", format!("alphabet 2\nstrings x y z\nx != y\ny != z\n{lengths}"));
        self.write("nothing.txt", "# nothing\n");
        self.write("return.txt", "# a rule\rstrings x\rx = \"A\"\r");
        self.write("windows.txt", "strings x\r\nx = \"A\"\r\nx != \"A\"\r\n");
        self.write("marked.txt", "\u{feff}strings x\nx = \"A\"\nx != \"A\"\n");
        let case = "strings x y z\nintegers k\nx = upper(y)\ny = decimal(k)\ncode(z) <= 'A'\nx <= z\n";
        self.write("case.txt", case);
        self.write("case-answer.txt", "x = \"aB\"\ny = \"aB\"\nz = \"B\"\nk = -1\n");
        self.write("longest.txt", "strings a\nlen(a) >= 65\n");
    }

    fn run(&self, words: &[String]) -> Output {
        let mut command = Command::new(self.program);
        command.args(words).stdin(Stdio::null()).output().unwrap_or_else(|error| panic!("the program: {error}"))
    }

    /// The words of a case, with paths put in.
    fn words(&self, words: &str) -> Vec<String> {
        let (examples, vectors) = (self.root.join("examples"), self.root.join("tests/vectors"));
        let path = |word: &str| match (word.chars().next(), word.get(1..2)) {
            (Some('E'), None | Some("/")) => format!("{}{}", examples.display(), &word[1..]),
            (Some('V'), Some("/")) => format!("{}{}", vectors.display(), &word[1..]),
            (Some('T'), Some("/")) => format!("{}{}", self.folder.display(), &word[1..]),
            _ => word.to_string(),
        };
        words.split_whitespace().map(path).collect()
    }

    fn compare_case(&self, (words, status, out, error): &Case, report: &mut Report) {
        let run = self.run(&self.words(words));
        let (said, told) = (String::from_utf8_lossy(&run.stdout), String::from_utf8_lossy(&run.stderr));
        let json = words.contains("--json");
        let holds = run.status.code() == Some(*status)
            && said.contains(out)
            && told.contains(error)
            && (*status != 2 || !error.is_empty() || !said.is_empty())
            && (*status == 2 || told.is_empty())
            && (!json || is_json(&said));
        count(report, "command", holds, || format!("{words}: {:?}\n{said}{told}", run.status));
    }

    /// What holds of every command: help, and files and options that are not there.
    fn compare_common(&self, command: &str, report: &mut Report) {
        let mut holds = |words: &[&str], status: i32, due: &str| {
            let run = self.run(&[&[command], words].concat().iter().map(|word| word.to_string()).collect::<Vec<_>>());
            let said = if status == 0 { run.stdout } else { run.stderr };
            let said = String::from_utf8_lossy(&said).into_owned();
            let holds = run.status.code() == Some(status) && said.contains(due);
            count(report, "command", holds, || format!("{command} {words:?}: {:?}\n{said}", run.status));
        };
        holds(&["--help"], 0, &format!("usage: nuldwich {command} "));
        holds(&[], 2, &format!("a file is missing\nusage: nuldwich {command} "));
        holds(&["--sing", "x"], 2, &format!("there is no option --sing\nusage: nuldwich {command} "));
        if command != "check" {
            holds(&vec!["/nowhere/at all"; operands(command)], 2, "/nowhere/at all: ");
            holds(&vec!["/"; operands(command)], 2, "/: ");
        }
    }

    /// Standard output or error that takes nothing more: status 2, and no panic.
    fn compare_full(&self, report: &mut Report) {
        let full = || fs::OpenOptions::new().write(true).open("/dev/full");
        let Ok(nothing) = full() else { return };
        let run = Command::new(self.program).arg("--help").stdout(nothing).stderr(Stdio::null()).status();
        count(report, "command", run.is_ok_and(|status| status.code() == Some(2)), || "output full".to_string());
        let Ok(nothing) = full() else { return };
        let run = Command::new(self.program).arg("ask").stdout(Stdio::null()).stderr(nothing).status();
        count(report, "command", run.is_ok_and(|status| status.code() == Some(2)), || "error full".to_string());
    }

    /// Two texts without a name at different places: no word about places.
    fn compare_unmoved(&self, report: &mut Report) {
        for (words, lines) in
            [("T/moved.txt T/renamed.txt", 1), ("T/rules.txt T/rules.txt", 1), ("T/rules.txt T/moved.txt", 2)]
        {
            let run = self.run(&self.words(&format!("same {words}")));
            let said = String::from_utf8_lossy(&run.stdout).into_owned();
            count(report, "command", said.lines().count() == lines, || format!("same {words}: {said}"));
        }
    }

    /// All vectors at once: a line for each ticket, in their order, with the library's verdict.
    fn compare_many(&self, report: &mut Report) {
        let vectors = self.root.join("tests/vectors");
        let run = self.run(&["check".to_string(), vectors.display().to_string()]);
        let said = String::from_utf8_lossy(&run.stdout).into_owned();
        let mut lines = said.lines();
        for path in files(&vectors).iter().filter(|path| path.extension() == Some("ticket".as_ref())) {
            let due = match library::check(&read(path)).verdict() {
                Verdict::NoSolution { .. } => "no solution; ".to_string(),
                Verdict::Strings { .. } => "strings".to_string(),
                Verdict::Refused(refusal) => format!("refused {} at record {}: ", refusal.number, refusal.record),
            };
            let line = lines.next().unwrap_or_default();
            let holds = line.starts_with(&format!("{}: {due}", path.display()));
            count(report, "ticket of many", holds, || format!("{line}, not {due}"));
        }
        count(report, "command", lines.next() == Some(""), || "there are more lines than tickets".to_string());
    }

    /// Text and bytes through the program: the ticket comes back, from a file and from standard output.
    fn compare_round_trips(&self, report: &mut Report) {
        let (words, bytes) = (self.folder.join("out.txt"), self.folder.join("out.ticket"));
        let [words, bytes] = [words, bytes].map(|path| path.display().to_string());
        for path in
            files(&self.root.join("examples/office")).iter().filter(|path| path.extension() == Some("ticket".as_ref()))
        {
            let source = path.display().to_string();
            let runs = [["text", &source, "-o", &words], ["bytes", &words, "-o", &bytes]];
            let done = runs.iter().all(|run| self.run(&run.map(str::to_string)).status.success());
            let printed = self.run(&["bytes", &words].map(str::to_string)).stdout;
            let again = self.run(&["text", &bytes].map(str::to_string)).stdout;
            let ticket = read(path);
            let holds =
                done && read(Path::new(&bytes)) == ticket && printed == ticket && read(Path::new(&words)) == again;
            count(report, "command", holds, || format!("{source}: text and bytes"));
        }
    }

    /// Of every answer on file the constraints that are not met, all of them, are the reference's.
    fn compare_judgements(&self, report: &mut Report) {
        for question in
            files(&self.root.join("tests/vectors")).iter().filter(|path| path.extension() == Some("question".as_ref()))
        {
            let answer = question.with_extension("answer");
            let due = unmet(&read(question), &read(&answer)).map(|mut numbers| {
                numbers.sort_unstable();
                numbers
            });
            let Ok(due) = due else { continue };
            let paths = [question, &answer].map(|path| path.display().to_string());
            let run = self.run(&["judge", "--json", &paths[0], &paths[1]].map(str::to_string));
            let said = String::from_utf8_lossy(&run.stdout).into_owned();
            let mut numbers: Vec<usize> = said.split("\"constraint\":").skip(1).filter_map(leading).collect();
            numbers.sort_unstable();
            let holds = numbers == due && run.status.code() == Some(i32::from(!due.is_empty())) && is_json(&said);
            count(report, "judgement", holds, || format!("{}: {said}, not {due:?}", paths[0]));
        }
    }
}

/// The number that a text begins with.
fn leading(text: &str) -> Option<usize> {
    text.split(|one: char| !one.is_ascii_digit()).next()?.parse().ok()
}
