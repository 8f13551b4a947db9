//! The parts of the build script that can be tried without cargo. tools/build-script tries all of it.

#[path = "../sys/build/archive.rs"]
mod archive;
#[path = "../sys/build/sha256.rs"]
mod sha256;

/// The first three are NIST's; the others, which end a block in every way, are sha256sum's.
#[test]
fn hashes_are_those_of_sha256() {
    let of = |text: &str| sha256::hex(text.as_bytes());
    assert_eq!(of(""), EMPTY);
    assert_eq!(of("abc"), ABC);
    let two_blocks = "abcdbcdecdefdefgefghfghighijhijkijkljklmklmnlmnomnopnopq";
    assert_eq!(of(two_blocks), TWO_BLOCKS);
    for (count, hash) in LETTERS_A {
        assert_eq!(of(&"a".repeat(count)), hash, "{count} letters");
    }
}

const EMPTY: &str = "e3b0c44298fc1c149afbf4c8996fb92427ae41e4649b934ca495991b7852b855";
const ABC: &str = "ba7816bf8f01cfea414140de5dae2223b00361a396177a9cb410ff61f20015ad";
const TWO_BLOCKS: &str = "248d6a61d20638b8e5c026930c3e6039a33ce45964ff2167f6ecedd419db06c1";
const LETTERS_A: [(usize, &str); 7] = [
    (
        55,
        "9f4390f8d30c2dd92ec9f095b65e2b9ae9b0a925a5258e241c9f1e910f734318",
    ),
    (
        56,
        "b35439a4ac6f0948b6d6f9e3c6af0f5f590ce20f1bde7090ef7970686ec6738a",
    ),
    (
        63,
        "7d3e74a05d7db15bce4ad9ec0658ea98e3f06eeecf16b4c6fff2da457ddc2f34",
    ),
    (
        64,
        "ffe054fe7ae0cb6dc65c3af9b61d5209f439851db43d0ba5997337df154668eb",
    ),
    (
        119,
        "31eba51c313a5c08226adf18d4a359cfdfd8d2e816b13f4af952f7ea6584dcfb",
    ),
    (
        120,
        "2f3d335432c70b580af0e8e1b3674a7c020d683aa5f73aaaedfdc55af904c21c",
    ),
    (
        1000,
        "41edece42d63e8d9bf515a9ba6932e1c20cbc9f5a5d134645adb5db1b9737ea3",
    ),
];

/// An archive of an index and nothing else, with these names.
fn archive_of(names: &[&str]) -> Vec<u8> {
    let mut index = (names.len() as u32).to_be_bytes().to_vec();
    index.resize(4 + 4 * names.len(), 7);
    for name in names {
        index.extend(name.bytes().chain([0]));
    }
    let mut archive = b"!<arch>\n".to_vec();
    archive.extend(format!("{:<16}{:<32}{:<10}`\n", "/", 0, index.len()).bytes());
    archive.extend(index);
    archive
}

#[test]
fn a_function_is_found_by_its_whole_name() {
    let archive = archive_of(&["sheafsledge_is_utf8", "sheafsledge_boundary_12"]);
    assert!(archive::defines(&archive, "sheafsledge_is_utf8"));
    assert!(archive::defines(&archive, "sheafsledge_boundary_12"));
    assert!(!archive::defines(&archive, "sheafsledge_boundary_1"));
    assert!(!archive::defines(&archive, "boundary_12"));
}

#[test]
fn what_is_no_archive_has_no_function() {
    let whole = archive_of(&["f"]);
    let cuts = (0..whole.len()).map(|end| &whole[..end]);
    for bytes in cuts.chain([&b"sheafsledge_boundary_1"[..], b"!<arch>\nf\0f\0"]) {
        assert!(!archive::defines(bytes, "f"));
    }
    let mut endless = whole.clone();
    endless[68..72].copy_from_slice(&[255; 4]);
    assert!(!archive::defines(&endless, "f"));
}

#[test]
fn the_mark_of_no_proof_is_seen() {
    assert!(archive::is_unproved(b"!<arch>\n..rattle unproved\0.."));
    assert!(!archive::is_unproved(b"!<arch>\n..rattle logic=064d\0.."));
}
