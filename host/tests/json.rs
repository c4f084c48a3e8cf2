//! Keys and canonical bytes of JSON messages.
use pollendrift::{canonical_bytes, EventKey, JsonRefusal};

fn key(message: &str) -> Result<EventKey, JsonRefusal> {
    EventKey::of_json(message.as_bytes())
}

#[test]
fn a_key_is_that_of_the_canonical_bytes() {
    for message in ["null", "[1,2,3]", r#"{"a":{"b":"c"}}"#, "\"\u{1F600}\""] {
        let bytes = canonical_bytes(message.as_bytes()).unwrap();
        assert_eq!(key(message), Ok(EventKey::of_bytes(&bytes)));
    }
}

#[test]
fn the_spelling_does_not_count() {
    let one = key(r#"{"a":1,"b":["x",null]}"#);
    assert_eq!(one, key("{ \"b\" : [ \"\\u0078\" , null ] ,\n\"a\" : 1 }"));
    assert_eq!(one, key(r#"{"a":2,"b":["x",null],"\u0061":1}"#));
    assert_ne!(one, key(r#"{"a":1,"b":[null,"x"]}"#));
}

#[test]
fn refusals() {
    assert_eq!(key("{"), Err(JsonRefusal::Text));
    assert_eq!(EventKey::of_json(&[]), Err(JsonRefusal::Text));
    assert_eq!(EventKey::of_json(b"\"\xC0\x80\""), Err(JsonRefusal::Text));
    assert_eq!(EventKey::of_json(&[b' '; 32_769]), Err(JsonRefusal::Text));
    assert_eq!(key("[0.5]"), Err(JsonRefusal::Number));
    assert_eq!(
        key(&format!("{}{}", "[".repeat(17), "]".repeat(17))),
        Err(JsonRefusal::Depth)
    );
    assert_eq!(canonical_bytes(b"-0"), Err(JsonRefusal::Number));
    assert_eq!(JsonRefusal::Depth.number(), 17);
}

#[test]
fn the_longest_messages() {
    let bytes = canonical_bytes(format!("[{}[]]", "[],".repeat(10_921)).as_bytes()).unwrap();
    assert_eq!(bytes.len(), 9 + 9 * 10_922);
    assert!(canonical_bytes(&[&[b'"'][..], &[b'a'; 32_766], b"\""].concat()).is_ok());
}
