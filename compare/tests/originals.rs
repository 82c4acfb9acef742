//! The originals are what their recorded digests say, and the compiler reads them with one line
//! appended.

use std::{fs, path::Path};

use judge::{compiled, sha256};

fn original(name: &str) -> Vec<u8> {
    let folder = Path::new(env!("CARGO_MANIFEST_DIR")).join("original");
    fs::read(folder.join(name)).expect("original")
}

fn sums() -> String {
    String::from_utf8(original("SHA256SUMS")).expect("text")
}

#[test]
fn digests_follow_the_standard() {
    let empty = "e3b0c44298fc1c149afbf4c8996fb92427ae41e4649b934ca495991b7852b855";
    let abc = "ba7816bf8f01cfea414140de5dae2223b00361a396177a9cb410ff61f20015ad";
    let two_blocks = "248d6a61d20638b8e5c026930c3e6039a33ce45964ff2167f6ecedd419db06c1";
    assert_eq!(sha256::hex(b""), empty);
    assert_eq!(sha256::hex(b"abc"), abc);
    let message = b"abcdbcdecdefdefgefghfghighijhijkijkljklmklmnlmnomnopnopq";
    assert_eq!(sha256::hex(message), two_blocks);
}

#[test]
fn originals_have_their_recorded_digests() {
    for name in ["lib.rs", "walls.rs", "walls/search.rs"] {
        let mut bytes = original(name);
        let sums = sums();
        let recorded = sha256::recorded(&sums, name).expect("a recorded digest");
        assert_eq!(sha256::hex(&bytes), recorded, "{name}");
        let middle = bytes.len() / 2;
        bytes[middle] ^= 1;
        assert_ne!(sha256::hex(&bytes), recorded, "{name} with one bit altered");
    }
}

#[test]
fn one_line_is_appended_and_nothing_else() {
    assert_eq!(compiled::WALLS.as_bytes(), original("walls.rs"));
    let appended = compiled::SEARCH
        .as_bytes()
        .strip_prefix(&original("walls/search.rs")[..]);
    assert_eq!(appended, Some(compiled::APPENDED.as_bytes()));
    assert_eq!(compiled::APPENDED, "pub mod probe;\n");
}
