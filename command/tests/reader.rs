//! The tests' own reader of JSON: what it takes, and that it takes nothing else.

mod support {
    pub mod json;
}

use support::json::{read, read_output, Json};

fn text(text: &str) -> Json {
    Json::Text(text.to_string())
}

#[test]
fn values_are_read() {
    let fields = vec![
        (
            "a".to_string(),
            Json::List(vec![Json::Null, Json::Number(-12)]),
        ),
        ("b".to_string(), Json::Object(vec![])),
    ];
    let said = read(r#"{ "a" : [null, -12], "b":{} }"#);
    assert_eq!(said, Ok(Json::Object(fields)));
    assert_eq!(read("[]"), Ok(Json::List(vec![])));
    assert_eq!(read("true"), Ok(Json::Bool(true)));
    assert_eq!(read("0"), Ok(Json::Number(0)));
    assert_eq!(
        read(r#""\"\\\/\n\u0007é\u00e9""#),
        Ok(text("\"\\/\n\u{7}éé"))
    );
    assert_eq!(read(r#""\ud83d\ude00""#), Ok(text("\u{1f600}")));
}

#[test]
fn other_texts_are_not() {
    let texts = [
        "",
        " 1",
        "1 ",
        "01",
        "-0",
        "+1",
        "1.0",
        "1e3",
        "--1",
        "9223372036854775808",
        "nul",
        "True",
        "[1,]",
        "[,1]",
        "[1 2]",
        "[1",
        "{\"a\":1,}",
        "{\"a\"}",
        "{a:1}",
        "{\"a\":1,\"a\":1}",
        "{\"a\" 1}",
        "\"",
        "\"a",
        "\"\\x\"",
        "\"\\u12\"",
        "\"\\u12g4\"",
        "\"\\ud83d\"",
        "\"\\ude00\"",
        "\"a\nb\"",
        "'a'",
        "1 1",
        "{}{}",
        "// a\n1",
    ];
    for text in texts {
        assert!(read(text).is_err(), "{text:?} was read");
    }
    assert!(read(&"[".repeat(100_000)).is_err());
}

#[test]
fn an_output_is_an_object_and_a_line_feed() {
    assert_eq!(read_output(b"{}\n"), Ok(Json::Object(vec![])));
    for bytes in [&b"{}"[..], b"{}\n\n", b"[]\n", b"{\"\xff\":1}\n", b"\n"] {
        assert!(read_output(bytes).is_err(), "{bytes:?} was read");
    }
}
