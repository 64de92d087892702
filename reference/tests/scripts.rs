//! The hand-written scripts: every reply is as it was worked out, in both
//! languages.

use reference::generator::script;
use reference::script::{answer, lines_of, Language};
use std::fs;
use std::path::{Path, PathBuf};

/// A folder of the repository.
fn folder(name: &str) -> PathBuf {
    Path::new(env!("CARGO_MANIFEST_DIR")).join("..").join(name)
}

/// A folder's scripts: each one's name, its lines and its replies.
fn scripts(folder: &Path) -> Vec<(String, Vec<u8>, String)> {
    let mut found = Vec::new();
    for entry in fs::read_dir(folder).unwrap() {
        let path = entry.unwrap().path();
        if path.extension().is_some_and(|extension| extension == "in") {
            let name = path.file_stem().unwrap().to_string_lossy().into_owned();
            let replies = fs::read_to_string(path.with_extension("out")).unwrap();
            found.push((name, fs::read(&path).unwrap(), replies));
        }
    }
    found
}

/// Whether a script has a line that begins with a letter of `calls` alone, for
/// peek, clear, the judge or the trap switch.
fn has_letter_of_calls(script: &[u8]) -> bool {
    lines_of(script)
        .iter()
        .any(|line| matches!(line.first(), Some(b'k' | b'c' | b'j' | b't')))
}

#[test]
fn the_papers_example() {
    let script =
        "s,16,2,1\np,0,0,8,2,32\no\nw,0,0,003d010000000100\ng,0,0\nr,0,5\nl,0\nx,0,3,1\ng,1,0\n";
    let replies = "o,0\nw,0\ng,0\nr,0,1,2,0,0\nl,0,2,0,6,0,0,0,0\nx,0,0\ng,1\n";
    assert_eq!(answer(Language::Panes, script.as_bytes()), replies);
}

#[test]
fn scripts_reply_as_written() {
    let folder = folder("crates/vectors");
    let list = fs::read_to_string(folder.join("README.md")).unwrap();
    let scripts = scripts(&folder.join("data"));
    assert!(scripts.len() >= 30);
    for (name, script, replies) in scripts {
        assert_eq!(answer(Language::Panes, &script), replies, "script {name}");
        if !has_letter_of_calls(&script) {
            assert_eq!(answer(Language::Calls, &script), replies, "script {name}");
        }
        assert!(list.contains(&format!("`{name}`")), "{name} is not listed");
    }
}

#[test]
fn scripts_of_calls_reply_as_written() {
    let folder = folder("tests/calls");
    let list = fs::read_to_string(folder.join("README.md")).unwrap();
    let scripts = scripts(&folder);
    assert!(scripts.len() >= 21);
    for (name, script, replies) in scripts {
        assert_eq!(answer(Language::Calls, &script), replies, "script {name}");
        assert!(list.contains(&format!("`{name}`")), "{name} is not listed");
    }
}

/// "A malformed line … prints ? and does nothing": the papers have no letter
/// for peek, clear, the judge and the trap switch.
#[test]
fn panes_takes_no_peek_clear_judge_or_switch() {
    let opened = "s,8,2,1\np,0,0,8,2,16\no\ng,0,2\n";
    let script = format!("{opened}k,0,0\nj,0,4\nj,0,5\nt,0,1\nt,0,2\nc,0\nl,0\n");
    let replies = "o,0\ng,0\n?\n?\n?\n?\n?\n?\nl,0,1,0,2,0,0,0,0\n";
    assert_eq!(answer(Language::Panes, script.as_bytes()), replies);
    let replies = "o,0\ng,0\nk,0,0\nj,0,20,4\nj,3\nt,0\nt,33\nc,0\nl,0,0,0,0,0,0,0,0\n";
    assert_eq!(answer(Language::Calls, script.as_bytes()), replies);
}

/// The language of `panes` is part of that of `calls`.
#[test]
fn scripts_of_panes_are_scripts_of_calls() {
    let mut compared = 0;
    for seed in 1..=200 {
        let text = script(Language::Panes, seed);
        if !has_letter_of_calls(&text) {
            let replies = answer(Language::Panes, &text);
            assert_eq!(answer(Language::Calls, &text), replies, "seed {seed}");
            compared += 1;
        }
    }
    assert!(compared > 150);
}

/// No line makes the program fail, whatever its bytes.
#[test]
fn strange_bytes_are_malformed() {
    for byte in 0..=255u8 {
        let script = [b's', b',', byte, b',', b'2', b',', b'1', b'\n'];
        let replies = answer(Language::Panes, &script);
        match byte {
            b'0'..=b'9' => assert_eq!(replies, ""),
            b'\n' => assert_eq!(replies, "?\n?\n"),
            _ => assert_eq!(replies, "?\n"),
        }
    }
}
