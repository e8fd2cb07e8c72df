//! What `--draft` says, reckoned from the sizes, and its picture against the stored one.

use std::process::Command;

/// Of K connections over elements of N bytes: an element has D = N - 4 bytes of data in eight pieces, the job that follows has five of
/// them on each connection, and the card loses two of the five.
fn says(k: usize, n: usize) {
    let output = Command::new(env!("CARGO_BIN_EXE_plate"))
        .args(["--draft", "--connections", &k.to_string(), "--element", &n.to_string()])
        .output()
        .unwrap();
    let said = String::from_utf8(output.stdout).unwrap();
    assert!(output.status.success(), "{said}{}", String::from_utf8_lossy(&output.stderr));
    let (d, piece) = (n - 4, (n - 4) / 8);
    let lines: Vec<&str> = said.lines().map(str::trim).collect();
    let reckoned = [
        format!("aborted by the host when {} bytes were sent and {} were read", k * (d + d / 2), k * (d / 2)),
        format!("bytes of the draft in the elements then: {} of {}", k * d, k * d),
        format!("the job that follows: {} bytes, of which the card loses {} on purpose", k * 5 * piece, k * 2 * piece),
    ];
    for line in &reckoned {
        assert!(lines.contains(&line.as_str()), "{line:?} is not in\n{said}");
    }
    let after: Vec<&str> = lines.iter().skip_while(|line| !line.starts_with("with the proved open")).copied().collect();
    let blank = format!("the lost bytes are blank, from byte {piece}: ");
    let shown = format!("the first is byte {piece}: ");
    assert_eq!(after[1..3], ["bytes of the draft in the elements after it: 0", "bytes of the draft in the plate: 0"]);
    assert!(after[3].starts_with(&blank) && !after[3][blank.len()..].contains(|c: char| c.is_lowercase()), "{said}");
    assert_eq!(after[4], "with an open that does not zero (a stand-in, not the proved one):");
    assert_eq!(after[5], format!("bytes of the draft in the elements after it: {}", k * d));
    assert_eq!(after[6], format!("bytes of the draft in the plate: {}", k * 2 * piece));
    assert!(after[7].starts_with(&shown) && after[7][shown.len()..].contains("-the-keel;"), "{said}");
}

#[test]
fn no_byte_of_the_draft() {
    says(4, 4100);
    says(1, 260);
    says(3, 3001);
    says(16, 65_540);
}

#[test]
fn the_picture_is_the_stored_one() {
    let path = std::env::temp_dir().join(format!("plate-draft-{}.svg", std::process::id()));
    let run = Command::new(env!("CARGO_BIN_EXE_plate")).args(["--draft", "--picture"]).arg(&path).output().unwrap();
    assert!(run.status.success());
    let drawn = std::fs::read_to_string(&path).unwrap();
    std::fs::remove_file(&path).unwrap();
    assert!(drawn == include_str!("../draft.svg"), "draft.svg is another picture: draw it again with --draft --picture draft.svg");
}
