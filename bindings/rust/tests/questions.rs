//! Questions on the worked example of the README.

use test_select::{changed, run, BinaryId, Feature, Files, Question, Refusal, TestName};

const RECORD: &str = include_str!("../../../examples/optional_dependency/record.json");
const CHOICE: &str = include_str!("../../../examples/optional_dependency/choice.json");
const WINDOWS: &str = include_str!("../../../examples/optional_dependency/windows.json");
const LISTINGS: &str = include_str!("../../../examples/optional_dependency/listings.json");

fn full() -> Question {
    Question::new(RECORD).choice(CHOICE)
}

fn tests_of(question: &Question) -> Vec<String> {
    let tests = question.tests(LISTINGS).expect("an answer");
    tests.iter().map(|(id, name)| format!("{id} {name}")).collect()
}

#[test]
fn tests_that_run() {
    assert_eq!(tests_of(&Question::new(RECORD)), ["app one", "util two"]);
    assert_eq!(tests_of(&full()), ["app one", "app::net get", "util two", "util::wide lanes"]);
    assert_eq!(tests_of(&full().filter("package(app) and not test(one)")), ["app::net get"]);
    let windows = full().table(WINDOWS).filter("rdeps(util)");
    assert_eq!(tests_of(&windows), ["util two"]);
    assert_eq!(tests_of(&windows.declared()), ["app one", "app::net get", "util two"]);
}

#[test]
fn binaries_to_ask() {
    let asked = full().filter("package(=util)").binaries();
    assert_eq!(asked, Ok(vec![BinaryId("util".into()), BinaryId("util::wide".into())]));
}

#[test]
fn order_and_certificates() {
    assert_eq!(full().order(), Ok(vec!["util".to_string(), "app".to_string()]));
    assert_eq!(full().account(), Ok(vec![0, 1, 2, 3, 8, 9]));
    let simd = Feature { package: "util".into(), name: Some("simd".into()) };
    let explained = full().explain(&simd).expect("an answer").expect("it is on");
    assert_eq!(explained.rules, [2, 3, 8, 9]);
    assert!(full().check(&explained.file).expect("a verdict").accepted);
    assert_eq!(Question::new(RECORD).explain(&simd), Ok(None));
    let verdict = full().check(r#"{"rules":[0]}"#).expect("a verdict");
    assert!(!verdict.accepted);
}

#[test]
fn filters_for_a_change() {
    assert_eq!(changed(RECORD, &[], &["util/src/lib.rs"]), Ok("rdeps(=util)".to_string()));
    assert_eq!(changed(RECORD, &["*.md"], &["util/README.md"]), Ok("none()".to_string()));
    assert_eq!(changed(RECORD, &[], &["../x"]), Err(Refusal::NotBelow("../x".into())));
}

#[test]
fn refusals() {
    let lacking = full().tests("{}");
    assert_eq!(lacking, Err(Refusal::Lister("app".into())));
    let refused = full().filter("test(").binaries();
    assert!(matches!(refused, Err(Refusal::Filter(_))));
    assert_eq!(Question::new("{").order(), Err(Refusal::BadJson("record.json".into())));
    let words = ["test_select", "order", "--record", "absent"];
    let output = run(&words, &Files::new());
    assert_eq!((output.status, output.stderr), (1, b"cannot read absent\n".to_vec()));
    let output = run(&["test_select", "nothing"], &Files::new());
    assert_eq!((output.status, output.stdout), (2, Vec::new()));
}

/// A report of more than there is room for at first.
#[test]
fn a_long_report() {
    let names: Vec<String> = (0..20_000).map(|it| format!("\"t{it:05}\"")).collect();
    let listings = format!(r#"{{"app":[{}],"util":[]}}"#, names.join(","));
    let tests = Question::new(RECORD).tests(listings).expect("an answer");
    assert_eq!(tests.len(), 20_000);
    assert_eq!(tests[19_999], (BinaryId("app".into()), TestName("t19999".into())));
}
