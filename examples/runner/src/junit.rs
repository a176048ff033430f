//! A report in the form of JUnit.

use crate::running::Ran;
use std::collections::BTreeMap;
use test_select::BinaryId;

/// The report: a suite for each binary.
pub fn report(ran: &BTreeMap<&BinaryId, Vec<&Ran>>) -> String {
    let mut text = String::from("<?xml version=\"1.0\" encoding=\"UTF-8\"?>\n<testsuites>\n");
    for (id, tests) in ran {
        let failed = tests.iter().filter(|it| !it.passed).count();
        let name = escaped(&id.0);
        text += &format!("  <testsuite name=\"{name}\" tests=\"{}\" failures=\"{failed}\">\n", tests.len());
        for it in tests {
            text += &case(it);
        }
        text += "  </testsuite>\n";
    }
    text + "</testsuites>\n"
}

fn case(it: &Ran) -> String {
    let (binary, test) = (escaped(&it.binary.0), escaped(&it.test.0));
    let head = format!("    <testcase classname=\"{binary}\" name=\"{test}\" time=\"{:.3}\"", it.seconds);
    if it.passed {
        return head + "/>\n";
    }
    head + &format!("><failure>{}</failure></testcase>\n", escaped(&it.output))
}

/// The text, as XML has it: what XML cannot hold is left out.
fn escaped(text: &str) -> String {
    let mut found = String::new();
    for c in text.chars() {
        match c {
            '&' => found += "&amp;",
            '<' => found += "&lt;",
            '>' => found += "&gt;",
            '"' => found += "&quot;",
            '\t' | '\n' => found.push(c),
            _ if c.is_control() => {}
            _ => found.push(c),
        }
    }
    found
}
