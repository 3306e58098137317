//! The four Rust files are the published ones, byte for byte.

mod support;

use support::sha256_hex;

#[test]
fn digests_of_known_messages() {
    let empty = "e3b0c44298fc1c149afbf4c8996fb92427ae41e4649b934ca495991b7852b855";
    let abc = "ba7816bf8f01cfea414140de5dae2223b00361a396177a9cb410ff61f20015ad";
    let million = "cdc76e5c9914fb9281a1c7e284d73e67f1809a48a497200e046d39ccc7112cd0";
    assert_eq!(sha256_hex(b""), empty);
    assert_eq!(sha256_hex(b"abc"), abc);
    assert_eq!(sha256_hex(&[b'a'; 1_000_000]), million);
}

#[test]
fn parser_is_unchanged() {
    assert_eq!(
        sha256_hex(include_bytes!("../src/xsd/parser.rs")),
        "9f88de8059badab7e3aa3b5b06ae62464e32c18d428d10504abd697e7769a397"
    );
}

#[test]
fn schema_types_are_unchanged() {
    assert_eq!(
        sha256_hex(include_bytes!("../src/xsd/types.rs")),
        "a6b2bf9dc266a0713e3cc41147d1a613351f019dd82c43a86d684cebbe5cd1ea"
    );
}

#[test]
fn lowering_is_unchanged() {
    assert_eq!(
        sha256_hex(include_bytes!("../src/ir/lower.rs")),
        "c7f929bfd7cfef4d127d73aecfc7f588057176c76b5b2db9474a9b5b5109469c"
    );
}

#[test]
fn graph_types_are_unchanged() {
    assert_eq!(
        sha256_hex(include_bytes!("../src/ir/types.rs")),
        "7eb6328975897932fe142c4448a60d2cbe6572e57fcc4680d8242f44d3e24997"
    );
}
