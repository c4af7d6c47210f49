//! Conditions as they are written and read, and files that do not fit, with line, column and the beginning of the reason.

use compare::report::Report;
use desk_tests::common::count;

/// A condition, and what is asserted for it.
const WRITTEN: [(&str, &str); 19] = [
    ("x = y", "(= x y)"),
    ("x != y", "(not (= x y))"),
    ("x = \"\"", "(= x \"\")"),
    ("x = \"A\\u{0}é\"", "(= x \"A\\u{0}\\u{e9}\")"),
    ("x = \"\\\"\\\\\"", "(= x \"\\u{22}\\u{5c}\")"),
    ("x != \"J\"", "(not (= x \"J\"))"),
    ("len(x) >= 7", "(>= (str.len x) 7)"),
    ("len(x) <= 7", "(<= (str.len x) 7)"),
    ("code(x) = -1", "(= (str.to_code x) (- 1))"),
    ("code(x) != 'A'", "(not (= (str.to_code x) 65))"),
    ("2*k - 3*len(x) + 4 >= 0", "(>= (+ (* 2 k) 4) (* 3 (str.len x)))"),
    ("2*k - 3*len(x) - 4 = 0", "(= (* 2 k) (+ (* 3 (str.len x)) 4))"),
    ("k + m >= -5", "(>= (+ k m) (- 5))"),
    ("-k - m != 5", "(not (= (+ k m) (- 5)))"),
    ("0 >= 1", "(<= 0 (- 1))"),
    ("x <= y", "(str.<= x y)"),
    ("x >= \"B\"", "(str.<= \"B\" x)"),
    ("x = decimal(k)", "(= x (str.from_int k))"),
    ("k = number(x)", "(= k (ite (= x (str.from_int (str.to_int x))) (str.to_int x) (- 1)))"),
];

/// A name, and its symbol.
const SYMBOLS: [(&str, &str); 8] = [
    ("donor", "donor"),
    ("_a.b9", "_a.b9"),
    ("größe", "|größe|"),
    ("let", "|let|"),
    ("push", "|push|"),
    ("and", "|and'|"),
    ("str.len", "|str.len'|"),
    ("union", "|union'|"),
];

/// Assertions, and the conditions that they come to, a `;` between any two.
const READ: [(&str, &str); 37] = [
    ("(= x y)", "x = y"),
    ("(= x y \"A\")", "x = y; y = \"A\""),
    ("(distinct x y)", "x != y"),
    ("(distinct k m 3)", "k != m; k != 3; m != 3"),
    ("(not (distinct x y))", "x = y"),
    ("(not (= \"A\" x))", "\"A\" != x"),
    ("(not (not (= x y)))", "x = y"),
    ("(and (= x y) true (and (< k m) (> k 1)))", "x = y; k < m; k > 1"),
    ("(and)", ""),
    ("true", ""),
    ("false", "0 = 1"),
    ("(not true)", "0 = 1"),
    ("(not false)", ""),
    ("(= \"A\" \"A\")", ""),
    ("(= \"A\" \"B\")", "0 = 1"),
    ("(not (<= k m))", "k > m"),
    ("(not (< k m))", "k >= m"),
    ("(not (>= k m))", "k < m"),
    ("(not (> k m))", "k <= m"),
    ("(<= 0 k m 9)", "0 <= k; k <= m; m <= 9"),
    ("(>= (+ k (* 2 (str.len x)) (- 3)) 0)", "k + 2*len(x) - 3 >= 0"),
    ("(= (- k m 1 (str.to_code y)) (* k 2 (- 3)))", "k - m - code(y) - 1 = -6*k"),
    ("(= (* (+ k 1) 2) (- (- m)))", "2*k + 2 = m"),
    ("(= (- k k) 0)", "0 = 0"),
    ("(= k (str.len \"AB\") )", "k = 2"),
    ("(= k (+ (str.to_code \"A\") (str.to_code \"\")))", "k = 64"),
    ("(= x \"a\"\"b\\u{41}\\u0042\\u{2FFFF}\")", "x = \"a\\\"bAB\\u{2ffff}\""),
    ("(= x \"\\u{30000}\")", "x = \"\\\\u{30000}\""),
    ("(= x \"\\u{}\\u00\\x\")", "x = \"\\\\u{}\\\\u00\\\\x\""),
    ("(let ((a (str.len x)) (b 3)) (let ((a (+ a b))) (= a k)))", "len(x) + 3 = k"),
    ("(let ((c (= x y))) (not c))", "x != y"),
    ("(let ((x y) (y x)) (= x \"A\"))", "y = \"A\""),
    ("(! (= x y) :named rule)", "x = y"),
    ("(str.<= x y \"B\")", "x <= y; y <= \"B\""),
    ("(= (str.from_int k) x)", "decimal(k) = x"),
    ("(= k (ite (= x (str.from_int (str.to_int x))) (str.to_int x) (- 1)))", "k = number(x)"),
    ("; a remark ( \" |\n (= |x| |y|)", "x = y"),
];

/// The declarations of every case below: three lines.
const HEAD: &str = "(declare-fun x () String) (declare-const y String)\n(declare-const k Int)\n(declare-const m Int)\n";

/// A fourth line that does not fit.
const MISTAKES: [(&str, &str); 62] = [
    ("(assert (or (= x y) (= k m)))", "4:9: (or ..) does not fit a question: its conditions hold"),
    ("(assert (=> (= x y) (= k m)))", "4:9: (=> ..) does not fit"),
    ("(assert (not (and (= x y) (= k m))))", "4:9: (not ..) does not fit a question: the opposite of several"),
    ("(assert (= x (str.++ y \"A\")))", "4:14: (str.++ ..) does not fit a question"),
    ("(assert (= (str.at x 0) y))", "4:12: (str.at ..) does not fit"),
    ("(assert (= k (+ 1 (str.indexof x y 0))))", "4:19: (str.indexof ..) does not fit"),
    ("(assert (str.prefixof x y))", "4:9: (str.prefixof ..) does not fit"),
    ("(assert (ite (= x y) (= k 1) (= k 2)))", "4:9: (ite ..) does not fit"),
    ("(assert (= k (ite (= x y) 1 2)))", "4:14: (ite ..) does not fit"),
    ("(assert (= k (ite (= x (str.from_int (str.to_int y))) (str.to_int x) (- 1))))", "4:14: (ite ..) does not"),
    ("(assert (= k (str.to_int x)))", "4:14: (str.to_int ..) does not fit a question: it takes leading zeros"),
    ("(assert (not (str.<= x y)))", "4:9: (not ..) does not fit a question: this condition has no opposite"),
    ("(assert (not (= x (str.from_int k))))", "4:9: (not ..) does not fit a question: this condition has no"),
    ("(assert (= y (str.from_int (+ k 1))))", "4:28: (+ ..) does not fit a question: str.from_int"),
    ("(assert (str.< x y))", "4:9: (str.< ..) does not fit"),
    ("(assert (str.<= \"A\" \"B\"))", "4:9: (str.<= ..) does not fit"),
    ("(assert (= x k))", "4:9: (= ..) does not fit a question: these two are not compared so"),
    ("(assert (< x y))", "4:9: (< ..) does not fit a question: these two"),
    ("(assert (= (= x y) true))", "4:12: (= ..) does not fit a question: a number or a string"),
    ("(assert (= k 1.5))", "4:14: 1.5 does not fit"),
    ("(assert (= k #x1f))", "4:14: #x1f does not fit"),
    ("(assert (= (* k m) 0))", "4:12: (* ..) does not fit a question: a product has one variable"),
    ("(assert (= (div k 2) 0))", "4:12: (div ..) does not fit"),
    ("(assert (= (+ x 1) 0))", "4:15: x does not fit a question: a sum of numbers"),
    ("(assert (= (str.len k) 0))", "4:21: k does not fit a question: a string variable"),
    ("(assert (= z 0))", "4:12: z is not declared"),
    ("(assert k)", "4:9: a condition is due here"),
    ("(assert (f x))", "4:9: (f ..) does not fit"),
    ("(assert ((_ divisible 2) k))", "4:9: ( .. ) does not fit"),
    ("(assert (forall ((z Int)) (= z k)))", "4:9: (forall ..) does not fit"),
    ("(assert ())", "4:9: ( .. ) does not fit"),
    ("(assert (= k))", "4:9: (= ..) does not fit"),
    ("(assert)", "4:1: (assert) does not fit"),
    ("(let)", "4:1: (let) does not fit"),
    ("(assert (let ((a 1) b) (= a k)))", "4:21: b does not fit"),
    ("(assert (let 3 (= k 1)))", "4:14: 3 does not fit"),
    ("(assert (let ((a 1)) (= a k)))\n(assert (= a k))", "5:12: a is not declared"),
    ("(assert (str.in_re x (re.+ (re.range \"a\" \"z\"))))", "4:22: (re.+ ..) does not fit a question: it has (re.*"),
    ("(assert (str.in_re x (re.* (re.range \"a\" \"z\"))))", "4:22: (re.* ..) does not fit"),
    ("(assert (str.in_re \"A\" re.all))", "4:20: \"A\" does not fit"),
    ("(assert (not (str.in_re x (re.* (re.range \"\\u{0}\" \"a\")))))", "4:9: (not ..) does not fit"),
    ("(assert (str.in_re x (re.* (re.range \"\\u{0}\" \"a\"))))", "1:27: a question has one alphabet for all"),
    ("(assert (= k 9999999999999999999))", "4:14: this number is too large"),
    ("(assert (= k 1000000001))", "4:9: the number 1000000001 passes 1000000000"),
    ("(assert (= (* 9999999999 9999999999 k) 0))", "4:12: a number becomes too large"),
    ("(assert (= (+ 9223372036854775807 1) k))", "4:12: a number becomes too large"),
    ("(assert (= k (- (- 9223372036854775807) 2)))", "4:14: a number becomes too large"),
    ("(assert (= k (- (- (- 9223372036854775807) 1))))", "4:14: a number becomes too large"),
    ("(assert (= k \"é\"))", "4:15: in SMT-LIB this character is written as"),
    ("(assert (= x \"A))", "4:14: this string has no closing"),
    ("(assert (= |x y))", "4:12: this symbol has no closing"),
    ("(assert (= x y)", "4:1: this ( is not closed"),
    ("(assert (= x y)))", "4:17: this ) closes nothing"),
    ("x", "4:1: x does not fit"),
    ("(declare-fun f (Int) Int)", "4:1: (declare-fun ..) does not fit a question: its variables take no"),
    ("(declare-const b Bool)", "4:18: Bool does not fit a question: its variables are of the sorts"),
    ("(declare-const x Int)", "4:16: x is declared twice"),
    ("(declare-const 3 Int)", "4:16: a symbol is due"),
    ("(define-fun f () Int 3)", "4:1: (define-fun ..) does not fit"),
    ("(push 1)", "4:1: (push ..) does not fit"),
    ("(check-sat-assuming (b))", "4:1: (check-sat-assuming ..) does not fit"),
    ("(reset)", "4:1: (reset) does not fit"),
];

pub fn compare(report: &mut Report) {
    for (condition, due) in WRITTEN {
        let question = format!("strings x y\nintegers k m\n{condition}\n");
        compare_written(&question, &format!("(assert {due})"), report);
    }
    for (name, symbol) in SYMBOLS {
        let question = format!("strings {name}\n{name} = \"A\"\n");
        compare_written(&question, &format!("(declare-const {symbol} String)\n(assert (= {symbol} \"A\"))"), report);
    }
    for (assertion, due) in READ {
        let lines: Vec<&str> = due.split("; ").filter(|line| !line.is_empty()).collect();
        compare_read(&format!("{HEAD}(assert {assertion})"), &lines, report);
    }
    for (line, due) in MISTAKES {
        compare_mistake(&format!("{HEAD}{line}\n"), due, report);
    }
    compare_limits(report);
    compare_files(report);
}

fn compare_written(question: &str, due: &str, report: &mut Report) {
    let script = text::read(question).ok().and_then(|written| smt::write(&written, &[]).ok());
    let holds = script.as_ref().is_some_and(|script| script.ends_with(&format!("\n{due}\n(check-sat)\n")));
    count(report, "wording", holds, || format!("{question}gives {script:?}, not {due}"));
}

fn compare_read(script: &str, due: &[&str], report: &mut Report) {
    let text = smt::read(script);
    let head = ["alphabet 196608", "strings x y", "integers k m"];
    let holds = text.as_ref().is_ok_and(|text| text.lines().eq(head.iter().chain(due).copied()));
    count(report, "wording", holds, || format!("{script} gives {text:?}, not {due:?}"));
}

fn compare_mistake(script: &str, due: &str, report: &mut Report) {
    let found = smt::read(script);
    let holds = found.as_ref().is_err_and(|mistake| mistake.to_string().starts_with(due));
    count(report, "mistake", holds, || format!("{script} gives {found:?}, not {due}"));
}

/// What passes the limits of a question is told at its place in the file.
fn compare_limits(report: &mut Report) {
    let strings: String = (0..17).map(|x| format!("(declare-const s{x} String)\n")).collect();
    compare_mistake(&strings, "17:1: a question has at most 16 variables", report);
    let asserted = |count: usize, term: &str| format!("{HEAD}{}", format!("(assert {term})\n").repeat(count));
    compare_mistake(&asserted(129, "(= x y)"), "132:9: a question has at most 128 conditions", report);
    compare_mistake(&asserted(200, "(= x y)"), "148:9: a question has at most 128 conditions", report);
    compare_read(&asserted(128, "(= x y)"), &["x = y"; 128], report);
    compare_mistake(&asserted(1, &format!("(and{})", " (= x y)".repeat(129))), "4:9: a question has at most", report);
    compare_mistake(&asserted(1, &format!("(<{})", " k".repeat(131))), "4:9: a question has at most", report);
    compare_mistake(&asserted(1, &format!("(distinct{})", " k".repeat(18))), "4:9: a question has at most", report);
    let texts: String = (0..16).map(|text| format!("(assert (= x \"{text}\"))\n")).collect();
    compare_mistake(&format!("{HEAD}{texts}"), "19:9: there are at most 15 different texts", report);
    let unlike: String = (0..15).map(|text| format!("(assert (not (= x \"{text}\")))\n")).collect();
    compare_mistake(&format!("{HEAD}{unlike}"), "18:9: this takes a string of its own", report);
    let long = format!("(assert (= x \"{}\"))", "A".repeat(65));
    compare_mistake(&format!("{HEAD}{long}"), "4:14: a text has at most 64 characters", report);
    let deep = format!("(assert {}k", "(- ".repeat(100_000));
    compare_mistake(&format!("{HEAD}{deep}"), "4:1206: terms stand over 400 deep", report);
    let doubled: String = (0..100).map(|_| "(let ((c (and c c))) ").collect();
    let doubled = format!("{HEAD}(assert (let ((c (= x y))) {doubled}c{}))", ")".repeat(100));
    compare_mistake(&doubled, "4:184: a question has at most 128 conditions", report);
}

/// Whole files: alphabets, names, and what is skipped.
fn compare_files(report: &mut Report) {
    let mut compare = |script: &str, due: &str| {
        let text = smt::read(script);
        count(report, "wording", text.as_deref() == Ok(due), || format!("{script} gives {text:?}, not {due}"));
    };
    compare("", "alphabet 196608\n");
    compare("(set-info :nuldwich-alphabet 5)", "alphabet 5\n");
    compare("(exit)\n(push 1)", "alphabet 196608\n");
    compare(
        "(set-logic QF_SLIA)(set-option :produce-models true)(check-sat)(get-model)(get-value (x))(echo \"(\")",
        "alphabet 196608\n",
    );
    let within = |last: &str| format!("(assert (str.in_re x (re.* (re.range \"\\u{{0}}\" \"{last}\"))))\n");
    let x = "(declare-const x String)\n";
    compare(&format!("{x}{}", within("a")), "alphabet 98\nstrings x\n");
    compare(&format!("{x}{}", within("\\u{0}")), "alphabet 1\nstrings x\n");
    compare(&format!("{x}{}(declare-const y String)", within("\\u{2ffff}")), "alphabet 196608\nstrings x y\n");
    compare(
        "(declare-const |a b| String)(declare-const a-b Int)(declare-const strings Int)(declare-const |9| Int)(declare-const |let| Int)",
        "# a_b stands for a b\n# a_b_2 stands for a-b\n# strings_2 stands for strings\n# _9 stands for 9\n# let stands for |let|\n\
         alphabet 196608\nstrings a_b\nintegers a_b_2 strings_2 _9 let\n",
    );
    let twice = format!("{x}{}{}", within("a"), within("b"));
    compare_mistake(&twice, "3:9: a question has one alphabet", report);
}
