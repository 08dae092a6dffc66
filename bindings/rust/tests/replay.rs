//! The proved replay, called from Rust.

use std::fs;
use std::path::Path;
use std::thread;

use slack::{Answer, Cause, Refusal, Short, answers, replay, replay_into, room};

/// The example of document 01.
const SCRIPT: &[u8] = b"B\t0\nW\t0\t3\t35\nC\t0\tu\nB\t0\nR\t0\t3\nC\t0\tl\n";
const ANSWERS: &[u8] = b"1\t0\t1\n2\t0\t1\n3\t0\t8\n4\t0\t2\n5\t0\t35\n6\t0\t3\n";

/// A file of the repository.
fn file(name: &str) -> Vec<u8> {
    let path = Path::new(env!("CARGO_MANIFEST_DIR"))
        .join("../..")
        .join(name);
    fs::read(&path).unwrap_or_else(|why| panic!("{}: {why}", path.display()))
}

#[test]
fn the_example() {
    assert_eq!(replay(SCRIPT), ANSWERS);
}

/// The answers to what the gate runs the replay program on, one script after the other.
fn the_program_s_answers() -> Vec<u8> {
    let names = String::from_utf8(file("crates/replay/args")).unwrap();
    let mut answers = Vec::new();
    for name in names.lines() {
        let script = match name {
            "-" => file("crates/replay/stdin"),
            _ => file(&format!("crates/replay/data/{name}")),
        };
        answers.extend(replay(&script));
    }
    answers
}

#[test]
fn the_program_s_scripts() {
    assert!(the_program_s_answers() == file("crates/replay/stdout"));
}

#[test]
fn the_scripts_among_the_examples() {
    let folder = Path::new(env!("CARGO_MANIFEST_DIR")).join("../../examples");
    let mut count = 0;
    for entry in fs::read_dir(folder).expect("the examples") {
        let path = entry.expect("an example").path();
        if path.extension().is_some_and(|end| end == "script") {
            let script = fs::read(&path).expect("a script");
            let answers = fs::read(path.with_extension("out")).expect("its answers");
            assert!(replay(&script) == answers, "{}", path.display());
            count += 1;
        }
    }
    assert!(count >= 11, "{count} scripts");
}

#[test]
fn a_last_line_without_a_line_feed() {
    let (script, _) = SCRIPT.split_at(SCRIPT.len() - 1);
    assert_eq!(replay(script), ANSWERS);
}

#[test]
fn seventeen_begins() {
    let script: String = (0..17).map(|i| format!("B\t{}\n", i % 16)).collect();
    let begun: String = (1..=16).map(|n| format!("{n}\t0\t{n}\n")).collect();
    assert_eq!(
        replay(script.as_bytes()),
        (begun + "17\t21\t0\n").as_bytes()
    );
}

#[test]
fn a_cut_commit_and_recovery() {
    let script = b"B\t0\nW\t0\t3\t35\nC\t0\tu\t4\nV\nB\t0\nR\t0\t3\nR\t0\t4294967295\n";
    let answers = b"1\t0\t1\n2\t0\t1\n3\t18\t4\n4\t0\t0\n5\t0\t2\n6\t0\t-\n7\t23\t0\n";
    assert_eq!(replay(script), answers);
}

#[test]
fn nothing_and_bad_lines() {
    assert_eq!(replay(b""), b"");
    assert_eq!(replay(b"\n"), b"1\t2\t0\n");
    let script = b"\xff\0\nB\t16\nB\t0";
    assert_eq!(replay(script), b"1\t2\t0\n2\t2\t0\n3\t0\t1\n");
}

#[test]
fn the_room_is_105_bytes_a_line_feed_and_105_more() {
    assert_eq!(room(b""), 105);
    assert_eq!(room(b"V"), 105);
    assert_eq!(room(SCRIPT), 7 * 105);
}

#[test]
fn a_buffer_with_the_room_and_one_byte_too_short() {
    let mut out = vec![b'#'; room(SCRIPT)];
    assert_eq!(replay_into(SCRIPT, &mut out), Ok(ANSWERS.len()));
    assert_eq!(&out[..ANSWERS.len()], ANSWERS);
    assert!(out[ANSWERS.len()..].iter().all(|&byte| byte == b'#'));
    let room = room(SCRIPT);
    let mut short = vec![b'#'; room - 1];
    let why = Short {
        room,
        len: room - 1,
    };
    assert_eq!(replay_into(SCRIPT, &mut short), Err(why));
    assert!(short.iter().all(|&byte| byte == b'#'));
    assert_eq!(replay_into(SCRIPT, &mut []), Err(Short { room, len: 0 }));
    assert_eq!(
        why.to_string(),
        "a buffer of 734 bytes, where 735 are asked for"
    );
}

/// An empty script has no answers, and a short buffer is told from it.
#[test]
fn an_empty_script_into_a_buffer() {
    assert_eq!(replay_into(b"", &mut [0; 105]), Ok(0));
    assert_eq!(
        replay_into(b"", &mut [0; 104]),
        Err(Short {
            room: 105,
            len: 104
        })
    );
}

#[test]
fn the_vector_is_no_longer_than_the_answers() {
    let answers = replay(SCRIPT);
    assert_eq!(answers.capacity(), answers.len());
}

#[test]
fn typed_answers() {
    let script = b"B\t0\nR\t0\t3\nR\t0\t4294967295\nW\t0\t3\t35\nC\t0\tu\t4";
    let mut typed = answers(script);
    assert_eq!(typed.len(), 5);
    let first = Answer {
        line: 1,
        number: 0,
        value: Some(1),
        cause: None,
    };
    assert_eq!(typed.next(), Some(first));
    assert_eq!(typed.len(), 4);
    let rest: Vec<_> = typed
        .by_ref()
        .map(|a| (a.line, a.number, a.value))
        .collect();
    assert_eq!(
        rest,
        [
            (2, 0, None),
            (3, 23, Some(0)),
            (4, 0, Some(1)),
            (5, 18, Some(4))
        ]
    );
    assert_eq!(typed.next(), None);
    assert_eq!(answers(b"").next(), None);
}

/// Written again, the typed answers are the text, for all that the gate runs.
#[test]
fn typed_answers_are_the_text() {
    let script = file("crates/replay/stdin");
    let text: String = answers(&script)
        .map(|answer| format!("{answer}\n"))
        .collect();
    assert!(text.as_bytes() == replay(&script));
    assert_eq!(answers(&script).count(), answers(&script).len());
}

#[test]
fn a_result_is_the_value_or_the_refusal() {
    let results: Vec<_> = answers(b"B\t0\nR\t0\t3\nR\t0\t4294967295")
        .map(|a| a.result())
        .collect();
    assert_eq!(results[..2], [Ok(Some(1)), Ok(None)]);
    assert_eq!(results[2].unwrap_err().number(), 23);
}

/// Test 13 refuses the first, whose only read was replaced; the second met a busy guard. No other answer has a cause.
#[test]
fn a_conflict_names_its_test_and_its_place() {
    let script = b"B\t0\nW\t0\t3\t415\nC\t0\tl\n\
        B\t1\nB\t2\nR\t2\t3\nW\t1\t3\t421\nW\t2\t3\t418\nC\t1\tl\nC\t2\tl\nB\t3\nF\t7\tB\t0\nC\t3\tu\n";
    let caused: Vec<_> = answers(script)
        .filter(|answer| answer.cause.is_some())
        .collect();
    let told: Vec<_> = caused.iter().map(|a| (a.line, a.number, a.cause)).collect();
    let serial = Cause { test: 13, place: 0 };
    let busy = Cause { test: 0, place: 0 };
    assert_eq!(told, [(10, 7, Some(serial)), (13, 7, Some(busy))]);
    let text = caused[0].to_string();
    assert_eq!(text.split('\t').count(), 5);
    assert!(text.ends_with("\t13\t0"), "{text}");
}

/// A key is a minute of the year: the last is written, the next refused.
#[test]
fn an_impossible_minute_is_refused() {
    let script = b"B\t0\nW\t0\t3\t527040\nL\t0\t527040\nW\t0\t3\t527039\nL\t0\t527039";
    let told: Vec<_> = answers(script)
        .map(|answer| (answer.number, answer.value))
        .collect();
    assert_eq!(
        told[1..],
        [(31, Some(0)), (31, Some(0)), (0, Some(1)), (0, Some(1))]
    );
}

/// Each number's texts are those of the page, cell by cell.
#[test]
fn the_refusals_are_those_of_the_page() {
    let page = String::from_utf8(file("docs/NUMBERS.md")).unwrap();
    for number in (1..=28).chain([31]) {
        let refusal = Refusal::new(number).expect("a refusal");
        let row = format!(
            "| {number} | {} | {} |",
            refusal.meaning(),
            refusal.advice()
        );
        assert!(page.lines().any(|line| line == row), "{row}");
        assert!(!refusal.meaning().is_empty() && !refusal.advice().is_empty());
        let shown = refusal.to_string();
        assert_eq!(
            shown,
            format!("{number}: {} {}", refusal.meaning(), refusal.advice())
        );
    }
    assert_eq!(Refusal::new(0), None);
    // the numbers of calls that are not built
    assert_eq!(Refusal::new(29), None);
    assert_eq!(Refusal::new(30), None);
    assert_eq!(Refusal::new(32), None);
    assert_eq!(Refusal::new(255), None);
}

#[test]
fn each_replay_starts_from_the_empty_store_on_any_thread() {
    let threads: Vec<_> = (0..4).map(|_| thread::spawn(|| replay(SCRIPT))).collect();
    for thread in threads {
        assert_eq!(thread.join().expect("a replay doesn't panic"), ANSWERS);
    }
}

/// The scripts fill every slot, and a commit among them makes all the stores that one can.
fn all_is_answered_on(kind: thread::Builder) {
    let thread = kind.spawn(the_program_s_answers).expect("a thread");
    let answers = thread.join().expect("a replay doesn't panic");
    assert!(answers == file("crates/replay/stdout"));
}

/// 2 MB, unless RUST_MIN_STACK says otherwise.
#[test]
fn a_thread_of_default_size_is_enough() {
    all_is_answered_on(thread::Builder::new());
}

#[test]
fn half_a_megabyte_of_stack_is_enough() {
    all_is_answered_on(thread::Builder::new().stack_size(512 * 1024));
}
