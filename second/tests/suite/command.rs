//! The command line, run as a program.

use std::io::Write;
use std::process::{Command, Stdio};

/// What the program writes to standard output.
fn run(arguments: &[&str], input: &[u8]) -> Vec<u8> {
    let program = env!("CARGO_BIN_EXE_second");
    let mut child = Command::new(program)
        .args(arguments)
        .stdin(Stdio::piped())
        .stdout(Stdio::piped())
        .spawn()
        .expect("the program starts");
    child.stdin.take().expect("it has an input").write_all(input).expect("it reads its input");
    child.wait_with_output().expect("it ends").stdout
}

fn batch(texts: &[&[u8]]) -> Vec<u8> {
    let mut bytes = Vec::new();
    for text in texts {
        bytes.extend([0, 0, (text.len() / 256) as u8, (text.len() % 256) as u8]);
        bytes.extend(*text);
    }
    bytes
}

#[test]
fn sheet() {
    let out =
        run(&["sheet"], b"min([12, 3, 15])\nsum([12, 3, 15]) / count([12, 3, 15])\n3-2\ntrue and true\n");
    assert_eq!(out, b"line type value\n1 integer 3\n2 real 10.000\n3 refused 3\n4 refused 5\n");
}

#[test]
fn examine() {
    assert_eq!(run(&["examine"], b"plan :: a; end plan."), b"loads\n");
    assert_eq!(run(&["examine"], b""), b"refused 3 0\n");
    assert_eq!(run(&["examine"], b"plan :: a;\n!"), b"refused 2 11\n");
}

#[test]
fn batches() {
    let input = batch(&[b"plan :: a; end plan.", b"", &[b' '; 300], b"\xff"]);
    assert_eq!(run(&["examine-many"], &input), b"loads\nrefused 3 0\nrefused 3 300\nrefused 1 0\n");
    let input = batch(&[b"plan :: a; 'b' \"c\" 1 1. 1.e1", b"", b"a !"]);
    let expected =
        b"tokens w:0:4 y:5:2 a:8:1 y:9:1 q:11:3 s:15:3 i:19:1 f:21:2 x:24:4\ntokens\nrefused 2 2\n";
    assert_eq!(run(&["tokens-many"], &input), expected);
}

#[test]
fn a_batch_that_is_cut_off_is_an_error() {
    assert_eq!(second::batch::texts(b""), Ok(vec![]));
    assert_eq!(second::batch::texts(b"\0\0\0\x02ab\0\0\0\0"), Ok(vec![&b"ab"[..], b""]));
    assert!(second::batch::texts(b"\0\0\0\x02a").is_err());
    assert!(second::batch::texts(b"\0\0").is_err());
}

#[test]
fn generators_write_what_they_are_asked_for() {
    let lines = run(&["lines", "7", "50"], b"");
    assert_eq!(lines.iter().filter(|byte| **byte == b'\n').count(), 50);
    let answers = run(&["examine-many"], &run(&["guidelines", "7", "20"], b""));
    assert_eq!(answers.iter().filter(|byte| **byte == b'\n').count(), 20);
    let answers = run(&["tokens-many"], &run(&["texts", "7", "20"], b""));
    assert_eq!(answers.iter().filter(|byte| **byte == b'\n').count(), 20);
}

#[test]
fn replay() {
    let input = batch(&[b"load 19\nplan :: a;end plan.\nrun 256 1024\nrow 0 0 6\n", b"rows\n", b""]);
    assert_eq!(run(&["replay"], &input), b"loaded\nquiet 2\ncompleted\n--\nrefused 7 0\n--\n--\n");
}

#[test]
fn scripts_are_replayed() {
    let answers = run(&["replay"], &run(&["scripts", "7", "20"], b""));
    assert_eq!(answers.split(|byte| *byte == b'\n').filter(|line| *line == b"--").count(), 20);
}

#[test]
fn transcript() {
    let folder = concat!(env!("CARGO_MANIFEST_DIR"), "/../examples/scripts");
    let (guideline, script) = (format!("{folder}/bound.pf"), format!("{folder}/bound.script"));
    let told = String::from_utf8(run(&["transcript", &guideline, &script], b"")).expect("it is text");
    assert!(told.starts_with("> load "));
    assert!(told
        .contains("\n  cycle 1, at 0 s\n    initialised: task 1 (lift)\n    started: task 0 (the root)\n"));
    assert!(told.ends_with("> rows\n  refused 7 0\n"));
}
