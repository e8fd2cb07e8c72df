//! The command itself: without words, or with wrong ones, it says how it is used.

use std::io::Write;
use std::process::{Command, Output, Stdio};

fn model(words: &[&str], input: &str) -> Output {
    let mut child = Command::new(env!("CARGO_BIN_EXE_model"))
        .args(words)
        .stdin(Stdio::piped())
        .stdout(Stdio::piped())
        .stderr(Stdio::piped())
        .spawn()
        .unwrap();
    // A command that takes no input may end before it is written.
    let _ = child.stdin.take().unwrap().write_all(input.as_bytes());
    child.wait_with_output().unwrap()
}

fn text(bytes: &[u8]) -> String {
    String::from_utf8(bytes.to_vec()).unwrap()
}

#[test]
fn wrong_words_say_how_it_is_used() {
    for (words, why) in [
        (&[] as &[&str], "no command is named"),
        (&["paint"], "`paint` is no command"),
        (&["run", "list"], "`run` does not take these words"),
        (&["generate", "1", "noise"], "`noise` is no KIND"),
        (&["generate", "x", "traffic"], "`x` is no number"),
        (&["generate", "1", "orders", "one"], "two files"),
        (&["compare", "prog", "long"], "`long` is no number"),
        (&["pair", "--break", "luck"], "PREMISE is one of: "),
        (&["traces"], "`traces` does not take these words"),
    ] {
        let output = model(words, "");
        assert_eq!(output.status.code(), Some(2), "{words:?}");
        assert!(output.stdout.is_empty(), "{words:?}");
        let said = text(&output.stderr);
        assert!(said.lines().next().unwrap().contains(why), "{said}");
        assert!(said.contains("How the model is used:"), "{said}");
    }
}

#[test]
fn help_is_asked_for() {
    for word in ["help", "--help", "-h"] {
        let output = model(&[word], "");
        assert_eq!(output.status.code(), Some(0));
        assert!(output.stderr.is_empty());
        let said = text(&output.stdout);
        for command in [
            "run", "picture", "pcap", "count", "generate", "compare", "pair", "traces",
        ] {
            assert!(said.contains(&format!("\nmodel {command} ")), "{command}");
        }
    }
}

#[test]
fn the_commands_on_a_list() {
    let list = "link 1 1\nopen 1 5 6 1 8 1 0 0 0 0 0 0 0 0\nshutdown 1\n";
    let output = model(&["run"], list);
    assert!(text(&output.stdout).starts_with("link count 0 out -\nopen\nshutdown message FE2C0001"));
    let output = model(&["picture"], list);
    assert!(text(&output.stdout).starts_with("<svg "));
    let output = model(&["pcap"], list);
    assert_eq!(output.stdout[..4], [0x0A, 0x0D, 0x0D, 0x0A]);
    let said = "1 packet: 1 with cursors (CDC), 0 on links (LLC), 0 of set-up (CLC)\n";
    assert_eq!(text(&output.stderr), said);
}
