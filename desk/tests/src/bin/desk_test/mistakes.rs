//! Texts that are wrong, with line, column and the beginning of the reason.

use crate::count;
use compare::report::Report;
use text::Written;

/// The declarations of every case: three lines.
const HEAD: &str = "alphabet 128\nstrings x y\nintegers i k\n";

const CASES: [(&str, &str); 85] = [
    ("x", "4:2: a relation is due"),
    ("x =", "4:4: a number or a variable"),
    ("x = z", "4:5: z is not declared"),
    ("x = y y", "4:7: the condition ends before this; a further condition goes on a line of its own"),
    ("x + 1 = 2", "4:1: x is a string; len(x) and code(x) are numbers, and texts cannot be joined"),
    ("x = \"A\" + y", "4:9: texts cannot be joined"),
    ("\"A\" + y = x", "4:5: texts cannot be joined"),
    ("x[1] = \"A\"", "4:2: a condition cannot speak of a part of a text"),
    ("x contains \"A\"", "4:3: a condition cannot speak of a part of a text"),
    ("1 + x = 2", "4:5: x is a string"),
    ("x = 3", "4:3: a string is compared with a number"),
    ("\"A\" = 3", "4:5: a string is compared"),
    ("\"A\" = \"A\"", "4:5: one side at least"),
    ("x < y", "4:3: strings are compared by"),
    ("x < \"A\"", "4:3: strings are compared by"),
    ("x = \"A", "4:5: this text has no closing"),
    ("x = \"\\q\"", "4:6: behind \\"),
    ("x = \"\\u{110000000}\"", "4:6: behind \\"),
    ("x = \"\\u{80}\"", "4:3: the character 128 is not below"),
    ("i = 'AB'", "4:5: one character stands"),
    ("i = ''", "4:5: one character stands"),
    ("i = '", "4:5: one character stands"),
    ("i = 99999999999999999999", "4:5: this number is too large"),
    ("i = 1000000001", "4:3: the number 1000000001 passes 1000000000"),
    ("1000000001*i >= 0", "4:14: the number 1000000001 passes 1000000000"),
    ("9999999999*9999999999*i = 0", "4:12: a number becomes too large"),
    ("-code(\"AB\")*4611686018427387904*2 = i", "4:2: a number becomes too large"),
    ("9223372036854775807 = -2", "4:21: a number becomes too large"),
    ("i*k = 0", "4:3: a product has one variable"),
    ("len(i) = 0", "4:5: i is not declared as string"),
    ("len x = 0", "4:1: len is not declared"),
    ("len(x = 0", "4:7: ) is due"),
    ("size(x) = 0", "4:1: there is no function size"),
    ("x = upper(i)", "4:11: i is not declared as string"),
    ("x = decimal(y)", "4:13: y is not declared as integer"),
    ("x != upper(y)", "4:3: upper, lower, number and decimal"),
    ("3 = number(x)", "4:3: number(..) is compared"),
    ("i = upper(x)", "4:3: upper(..), lower(..)"),
    ("x == y", "4:3: == has no meaning here: write ="),
    ("i ≤ 3", "4:3: ≤ has no meaning here: write <="),
    ("x = “A”", "4:5: “ has no meaning here: write \""),
    ("i = 1.5", "4:6: . has no meaning here: numbers are whole"),
    ("// x", "4:1: // has no meaning here: a remark begins with #"),
    ("2i = 4", "4:2: a letter stands behind a number"),
    ("strings 1st", "4:10: a letter stands behind a number"),
    ("string z", "4:1: string is not declared; a declaration begins with strings"),
    ("x = A", "4:5: A is not declared by a line \"strings A\" or \"integers A\" above; a text stands in quotes"),
    ("i = 1 and k = 2", "4:7: the condition ends before this; a further"),
    ("code(x) = \"A\"", "4:9: a string is compared with a number here; len(x), code(x) and 'A' are numbers"),
    (
        "x = \"A\" or x = \"B\"",
        "4:9: there is no \"or\" here: all lines are to be met together; ask once for each case, and letters",
    ),
    ("x = \"A\" OR \"B\"", "4:9: there is no \"or\" here"),
    ("x or y = \"A\"", "4:3: there is no \"or\" here"),
    ("i = 1 v k = 2", "4:7: the condition ends before this"),
    (
        "if x = y then i = 1",
        "4:1: there is no \"if\" here: all lines are to be met together; ask once for each case, with",
    ),
    ("if(i = 1)", "4:1: there is no \"if\" here"),
    ("x = y then i = 1", "4:7: there is no \"then\" here"),
    ("x in (\"A\", \"B\")", "4:3: there is no \"in\" here: all lines are to be met together"),
    ("not x = y", "4:1: there is no \"not\" here: write !="),
    ("i = 1 & k = 2", "4:7: & has no meaning here: a further condition goes on a line of its own"),
    ("i = 1, k = 2", "4:6: the condition ends before this"),
    ("i = 1,000", "4:6: numbers are whole and written without separators"),
    ("1,000 <= i", "4:2: numbers are whole and written without separators"),
    ("strings a, b", "4:10: names are separated by spaces"),
    ("5 >= i <= 8", "4:8: <= points against a sign before it: the signs of a chain point in one direction"),
    ("5 < i = k > 3", "4:11: > points against a sign before it"),
    ("x <= y >= x", "4:8: >= points against"),
    ("i @ 3", "4:3: '@' has no meaning"),
    ("alphabet 5", "4:10: the alphabet is said once"),
    ("strings", "4:8: a name is due"),
    ("strings 3", "4:9: a name is due"),
    ("strings claim", "4:9: claim cannot be a name"),
    ("integers x", "4:10: x is declared twice"),
    ("integers a b c d e f g h j l m n o p q", "4:38: there are at most 16 integers"),
    ("literal \"\"", "4:9: a literal is declared once"),
    ("literal \"A\"|literal \"A\"", "5:9: a literal is declared once"),
    ("literal x", "4:9: a text is due"),
    ("claim", "4:6: claim no solution or claim strings"),
    ("claim strings", "4:14: a model is due"),
    ("x <= y|claim no solution", "5:1: a ticket has no conditions on case"),
    ("claim no solution|x = y", "5:1: a step begins with its rule"),
    ("claim no solution|model", "5:1: a step begins with its rule"),
    ("claim no solution|Sum 1*[70000]", "5:8: this number is 0 to 65535"),
    ("claim no solution|Sum 1*[0] over 0", "5:16: a divisor is 1 to"),
    ("claim no solution|Card x", "5:6: Card takes 2 to 16"),
    ("claim strings|C-Valid x", "5:10: the child taken is due"),
];

/// What stands behind `claim strings` and a line `model`.
const MODELS: [(&str, &str); 5] = [
    ("", "5:1: the model has no value for i"),
    ("3 = i", "6:1: an integer, len(..) or code(..)"),
    ("i = 100000001", "6:5: a value is within"),
    ("i = 1|i = 1", "7:1: this has a value already"),
    ("i = x", "6:5: a number is due"),
];

/// Answers to the question of the declarations.
const ANSWERS: [(&str, &str); 9] = [
    ("", "1:1: no value is given for x"),
    ("x = \"A\"|y = \"\"|i = 3", "3:1: no value is given for k"),
    ("x = 3", "1:5: a text is due"),
    ("i = \"A\"", "1:5: a number is due"),
    ("z = 3", "1:1: the question has no variable z"),
    ("i = 3|i = 4", "2:1: i has a value already"),
    ("i = 3 4", "1:7: nothing more"),
    ("i = 1,000", "1:6: numbers are whole and written without separators"),
    ("3 = i", "1:1: the name of a variable"),
];

pub fn compare(report: &mut Report) {
    for (lines, due) in CASES {
        compare_one(report, lines, due, text::read(&format!("{HEAD}{}", lines.replace('|', "\n"))).map(|_| ()));
    }
    for (lines, due) in MODELS {
        let whole = format!("{HEAD}claim strings\nmodel\n{}", lines.replace('|', "\n"));
        compare_one(report, lines, due, text::read(&whole).map(|_| ()));
    }
    let asked = text::read(HEAD).unwrap_or_else(|mistake| panic!("{mistake}"));
    for (lines, due) in ANSWERS {
        compare_one(report, lines, due, answered(lines, &asked));
    }
    let crowded = "strings a b c d e f g h i j k l m n o p\na != \"J\"\n";
    compare_one(report, crowded, "2:3: this takes a string of its own", text::read(crowded).map(|_| ()));
    let texts: String = (0..16).map(|number| format!("x = \"{number}\"\n")).collect();
    compare_one(
        report,
        "16 texts",
        "17:3: there are at most 15",
        text::read(&format!("strings x\n{texts}")).map(|_| ()),
    );
    let either = "strings x\nx = \"A\" | x = \"B\"\n";
    compare_one(report, either, "2:9: there is no \"or\" here", text::read(either).map(|_| ()));
    let long = format!("strings x\nx = \"{}\"\n", "a".repeat(65));
    compare_one(report, "65 characters", "2:3: a text has at most 64", text::read(&long).map(|_| ()));
}

fn answered(lines: &str, asked: &Written) -> Result<(), text::Mistake> {
    text::read_answer(&lines.replace('|', "\n"), asked).map(|_| ())
}

fn compare_one(report: &mut Report, words: &str, due: &str, read: Result<(), text::Mistake>) {
    let said = read.map_err(|mistake| mistake.to_string());
    let holds = said.as_ref().is_err_and(|said| said.starts_with(due));
    count(report, "mistake", holds, || format!("{words:?} gives {said:?}, not {due:?}"));
}
