//! `nuldwich smt` and `nuldwich from-smt`, on good and on bad input.

use compare::report::Report;
use desk_tests::common::{count, files_ending, read};
use desk_tests::runs::Runs;
use std::path::Path;

pub fn compare(program: &Path, root: &Path, report: &mut Report) {
    let runs = Runs::of(program, "smt");
    for path in files_ending(&root.join("examples/office"), "txt") {
        compare_office(&runs, &path, report);
    }
    let rules = runs.write("rules.txt", "strings donor\nintegers k\nk = number(donor)\nlen(donor) >= 7 # seven\n");
    let upper = runs.write("upper.txt", "strings x y\n\ny = upper(x)\n");
    let lower = runs.write("lower.txt", "strings x y\nx = lower(y)\n");
    let wrong = runs.write("wrong.txt", "strings x\nx = y\n");
    let cut = runs.write("cut", [8, 0, 0, 0, 1, 0, 5]);
    let other = runs.write("other.smt2", "(declare-const x String)\n(assert\n  (= x (str.++ x \"A\")))\n");
    let latin1 = runs.write("latin1.smt2", b"; caf\xe9\n");
    let ticket = root.join("examples/example4.ticket").display().to_string();
    let nowhere = runs.folder.join("none/out").display().to_string();
    runs.compare(&["smt", &rules], 0, "; len(donor) >= 7 # seven\n(assert (>= (str.len donor) 7))\n", "", report);
    runs.compare(&["smt", &ticket], 0, "(assert (>= (str.to_code x0) 0))\n", "", report);
    runs.compare(&["smt", &upper], 2, "", "upper.txt:3: y = upper(x): SMT-LIB has no function upper", report);
    runs.compare(&["smt", &lower], 2, "", "lower.txt:2: x = lower(y): SMT-LIB has no function lower", report);
    runs.compare(&["smt", &wrong], 2, "", "wrong.txt:2:5: y is not declared", report);
    runs.compare(&["smt", &cut], 2, "", "cut: record 0: the bytes stop", report);
    runs.compare(&["smt", &rules, "-o", &nowhere], 2, "", "none/out: ", report);
    runs.compare(&["from-smt", &other], 2, "", "other.smt2:3:8: (str.++ ..) does not fit a question", report);
    runs.compare(&["from-smt", &ticket], 2, "", "example4.ticket: these are records, not text", report);
    runs.compare(&["from-smt", &latin1], 2, "", "latin1.smt2:1:6: the text is not in UTF-8 here", report);
}

/// Through the program, from file to file: the library finds the question the same.
fn compare_office(runs: &Runs, path: &Path, report: &mut Report) {
    let source = path.display().to_string();
    let (script, words) = (runs.folder.join("out.smt2"), runs.folder.join("out.txt"));
    let [script, words] = [script, words].map(|path| path.display().to_string());
    let done = runs.run(&["smt", &source, "-o", &script]).status.success()
        && runs.run(&["from-smt", &script, "-o", &words]).status.success();
    let printed = runs.run(&["smt", &source]).stdout;
    let holds = done && runs.run(&["same", &source, &words]).status.success() && printed == read(Path::new(&script));
    count(report, "command", holds, || format!("{source}: smt and from-smt"));
}
