//! What a text says, by the text that is printed of its bytes.

use crate::count;
use compare::report::Report;
use text::{question_text, Names};

/// The declarations of every case.
const HEAD: &str = "alphabet 128\nstrings x y number\nintegers i k\n";

/// Lines behind these declarations, and what is printed of them behind `integers`. Helpers are x3, x4.
const CASES: [(&str, &str); 36] = [
    ("x = y", "x0 = x1"),
    ("x != y", "x0 != x1"),
    ("x = \"AB\"", "x0 = \"AB\""),
    ("\"AB\" = x", "x0 = \"AB\""),
    ("x = \"\"", "x0 = \"\""),
    ("x != \"\"", "len(x0) - 1 >= 0"),
    ("x != \"J\"", "x3 = \"J\"|x0 != x3"),
    ("x != \"J\"|y != \"J\"", "x3 = \"J\"|x0 != x3|x1 != x3"),
    ("\"J\" != x|y != \"K\"|x = y", "x0 = x1|x3 = \"J\"|x0 != x3|x4 = \"K\"|x1 != x4"),
    ("x = y = number", "x0 = x1|x1 = x2"),
    ("7 <= len(x) <= 12", "len(x0) - 7 >= 0|-len(x0) + 12 >= 0"),
    ("12 >= len(x) >= 7", "-len(x0) + 12 >= 0|len(x0) - 7 >= 0"),
    ("7 < len(x) < 12", "len(x0) - 8 >= 0|-len(x0) + 11 >= 0"),
    ("12 > len(x) > 7", "-len(x0) + 11 >= 0|len(x0) - 8 >= 0"),
    ("'A' <= code(x)", "code(x0) - 65 >= 0"),
    ("code(x) = '\\''", "code(x0) - 39 = 0"),
    ("code(x) != '\\u{7f}'", "code(x0) - 127 != 0"),
    ("2*len(x) - k + 3 >= 0", "-i1 + 2*len(x0) + 3 >= 0"),
    ("len(x)*2 = 2*3*k + i", "-i0 - 6*i1 + 2*len(x0) = 0"),
    ("i + i + k - k = 4", "2*i0 - 4 = 0"),
    ("i - i = 0", "0 = 0"),
    ("1 != 2", "-1 != 0"),
    ("len(\"AB\") = i", "-i0 + 2 = 0"),
    ("code(\"A\") + code(\"AB\") = i", "-i0 + 64 = 0"),
    ("1000000000*i >= -1000000000", "1000000000*i0 + 1000000000 >= 0"),
    ("len(number) = 1|i = number(number)", "len(x2) - 1 = 0|i0 = number(x2)"),
    ("x = upper(y)|lower(y) = x", "x0 = upper(x1)|x0 = lower(x1)"),
    ("x = decimal(k)|x <= y|x >= y", "x0 = decimal(i1)|x0 <= x1|x1 <= x0"),
    ("x <= \"M\"|\"A\" <= x", "x3 = \"M\"|x4 = \"A\"|x0 <= x3|x4 <= x0"),
    ("i = 1|x = y|i = number(x)|x != y", "x0 = x1|x0 != x1|i0 - 1 = 0|i0 = number(x0)"),
    ("literal \"B\"|x = \"A\"|y = \"B\"", "literal \"B\"|literal \"A\"|x0 = \"A\"|x1 = \"B\""),
    ("literal \"A\"|literal \"B\"|x = \"A\"|y = \"B\"", "x0 = \"A\"|x1 = \"B\""),
    ("literal \"A\"", "literal \"A\""),
    ("x = \"\\\"\\\\\\u{1f} #\"  # a remark", "x0 = \"\\\"\\\\\\u{1f} #\""),
    ("", ""),
    ("# a remark|  |x=y", "x0 = x1"),
];

pub fn compare(report: &mut Report) {
    for (lines, due) in CASES {
        let said = said(lines);
        count(report, "wording", said.as_deref() == Ok(due), || format!("{lines:?} says {said:?}, not {due:?}"));
    }
    let full = "strings a b c d e f g h i j k l m n o p\np = \"J\"\na != \"J\"\n";
    let printed = text::read(full).map(|written| question_text(&written.question, &Names::plain(&written.question)));
    let shares = printed.as_deref().is_ok_and(|text| text.ends_with("\nx15 = \"J\"\nx0 != x15\n"));
    count(report, "wording", shares, || format!("without room for a helper: {printed:?}"));
    let windows = text::read("\u{feff}alphabet 2\r\nstrings x\r\n");
    count(report, "wording", windows.is_ok_and(|w| w.question.n == 2 && w.question.p == 1), || "\\r\\n".to_string());
}

fn said(lines: &str) -> Result<String, String> {
    let written = text::read(&format!("{HEAD}{}", lines.replace('|', "\n"))).map_err(|mistake| mistake.to_string())?;
    let printed = question_text(&written.question, &Names::plain(&written.question));
    Ok(printed.lines().skip(3).collect::<Vec<_>>().join("|"))
}
