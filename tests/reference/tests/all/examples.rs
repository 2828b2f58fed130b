//! The sources of examples/: what each is meant to be.

use reference::front::translate_front;

fn judged(name: &str) -> (u32, usize, usize) {
    let path = format!("{}/../../examples/{name}.x", env!("CARGO_MANIFEST_DIR"));
    let source = std::fs::read(path).unwrap();
    let outcome = translate_front(&source, 4096, 49408);
    (outcome.status, outcome.place, source.len())
}

#[test]
fn rules_are_accepted() {
    for name in ["count", "empty_pallet", "total", "search", "label", "checksum"] {
        let (status, place, _) = judged(name);
        assert_eq!((status, place), (0, 0), "{name}");
    }
}

#[test]
fn bad_ones_are_refused_at_their_last_token() {
    let (status, place, length) = judged("semicolon");
    assert_eq!((status, place), (6, length - "}\n".len()));
    let (status, place, length) = judged("undeclared");
    assert_eq!((status, place), (8, length - "boxs\n".len()));
}
