//! A library that strays (`stray.c`) behind the same `box.c`: each of its faults is reported, and none where it makes none.

use std::fs;
use std::panic::{catch_unwind, AssertUnwindSafe};
use std::path::{Path, PathBuf};
use std::process::{Command, Stdio};

use second::comparer::{Comparer, Outcome};
use second::paper::{TABLE_A_ANSWER, TABLE_A_BLOCK};
use second::served::Served;
use second::steps::WORK_NUMBERS;

/// Table A's payload begins behind `#212`, that of its answer behind `#17`.
const PAYLOAD: usize = 4;
const ANSWER_PAYLOAD: usize = 3;
/// More than is needed, so that there is something to leave.
const AREA_BYTES: usize = 20;
const LENT_NUMBERS: usize = 20_000;

/// A step with its input, as the paper has it.
type Case = (&'static str, fn(&mut Comparer) -> Outcome);

const OPEN: Case = ("open", |c| c.open(&TABLE_A_BLOCK));
const FRAME: Case = ("frame", |c| c.frame(&TABLE_A_ANSWER[ANSWER_PAYLOAD..], AREA_BYTES));
const FRAME_REFUSED: Case = ("frame, refused", |c| c.frame(&TABLE_A_ANSWER[ANSWER_PAYLOAD..], 9));
const CHECK: Case = ("check", |c| c.check(&TABLE_A_BLOCK[PAYLOAD..]));
const COMPARE: Case = ("compare", |c| c.compare(&[1, 0], &[1, 1]));
const HANDLE: Case = ("handle", |c| c.handle(&TABLE_A_BLOCK, AREA_BYTES, LENT_NUMBERS));
const HANDLE_EXACTLY: Case =
    ("handle, all lent is used", |c| c.handle(&TABLE_A_BLOCK, TABLE_A_ANSWER.len(), WORK_NUMBERS));
const HANDLE_REFUSED: Case = ("handle, refused", |c| c.handle(&[], AREA_BYTES, LENT_NUMBERS));

/// Builds a box of that name whose library makes one fault, and gives the command that runs it.
fn stray_box(fault: &str, name: &str) -> Vec<String> {
    let here = Path::new(env!("CARGO_MANIFEST_DIR"));
    let tools = here.join("../tools");
    let program = Path::new(env!("CARGO_TARGET_TMPDIR")).join(name);
    let built = Command::new(tools.join("x86-cc"))
        .arg("--alone")
        .arg(&program)
        .args([here.join("box.c"), here.join("stray.c")])
        .arg(format!("-DSTRAY={fault}"))
        .output()
        .expect("tools/x86-cc starts");
    assert!(built.status.success(), "{}", String::from_utf8_lossy(&built.stderr));
    [tools.join("x86"), program].map(|path: PathBuf| path.display().to_string()).to_vec()
}

/// What is reported of a step, by the box's guards or by the comparer; nothing where all is well.
fn report(command: &[String], (_, step): Case) -> String {
    let served = Served::start(command).expect("the box starts");
    match catch_unwind(AssertUnwindSafe(|| step(&mut Comparer::new(&served)))) {
        Ok(Ok(())) => String::new(),
        Ok(Err(difference)) => difference.what,
        Err(panic) => panic.downcast_ref::<String>().expect("it says why").clone(),
    }
}

fn reported(fault: &str, cases: &[Case], expected: &str) {
    let command = stray_box(fault, fault);
    for &case in cases {
        let (name, _) = case;
        let report = report(&command, case);
        assert!(report.ends_with(expected), "{fault}, {name}: reported '{report}'");
        assert_eq!(report.is_empty(), expected.is_empty(), "{fault}, {name}: '{report}'");
    }
}

#[test]
fn a_library_that_does_not_stray() {
    let cases =
        [OPEN, FRAME, FRAME_REFUSED, CHECK, COMPARE, HANDLE, HANDLE_EXACTLY, HANDLE_REFUSED];
    reported("NOTHING", &cases, "");
}

#[test]
fn by_the_input() {
    let cases = [OPEN, FRAME, FRAME_REFUSED, CHECK, COMPARE, HANDLE, HANDLE_EXACTLY];
    reported("BEFORE_INPUT", &cases, "it wrote before the input");
    reported("IN_INPUT", &cases, "it wrote in the input");
    reported("BEHIND_INPUT", &cases, "it wrote behind the input");
}

#[test]
fn by_the_second_input() {
    reported("BEFORE_SECOND_INPUT", &[COMPARE], "it wrote before the second input");
    reported("IN_SECOND_INPUT", &[COMPARE], "it wrote in the second input");
    reported("BEHIND_SECOND_INPUT", &[COMPARE], "it wrote behind the second input");
}

#[test]
fn by_the_area() {
    let cases = [FRAME, FRAME_REFUSED, HANDLE, HANDLE_EXACTLY, HANDLE_REFUSED];
    reported("BEFORE_AREA", &cases, "it wrote before the area");
    reported("BEHIND_AREA", &cases, "it wrote behind the area");
}

#[test]
fn by_the_work_area() {
    let cases = [HANDLE, HANDLE_EXACTLY, HANDLE_REFUSED];
    reported("BEFORE_WORK", &cases, "it wrote before the work area");
    reported("BEHIND_WORK", &cases, "it wrote behind the work area");
}

#[test]
fn inside_what_is_lent() {
    reported("BEHIND_BLOCK", &[FRAME, HANDLE], "place 10 of the area was touched");
    reported("BEHIND_USED_WORK", &[HANDLE], "place 16384 of the work area was touched");
}

#[test]
fn on_a_refusal() {
    let cases = [FRAME_REFUSED, HANDLE_REFUSED];
    reported("REFUSED_AREA", &cases, "place 0 of the area was touched");
    reported("REFUSED_WORK", &[HANDLE_REFUSED], "place 0 of the work area was touched");
}

// ---- a library that hangs ----

/// The command with a shell before it that leaves its process's number in a file.
fn with_number(command: &[String], file: &Path) -> Vec<String> {
    let script = r#"echo $$ >"$0" && exec "$@""#;
    let mut with = ["sh", "-c", script].map(String::from).to_vec();
    with.push(file.display().to_string());
    with.extend_from_slice(command);
    with
}

/// Whether the process is still there; if so it is ended, for a test that fails leaves nothing behind either.
fn stays(file: &Path) -> bool {
    let number = fs::read_to_string(file).expect("the shell has left its number");
    let stays = Path::new("/proc").join(number.trim()).exists();
    if stays {
        Command::new("kill").args(["-9", number.trim()]).status().expect("kill starts");
    }
    stays
}

/// What the program that compares says of such a library; the library's process must end with it.
fn said_of(fault: &str, words: &[&str]) -> String {
    let file = Path::new(env!("CARGO_TARGET_TMPDIR")).join(format!("{fault}.number"));
    let run = Command::new(env!("CARGO_BIN_EXE_compare"))
        .args(words)
        .arg("--")
        .args(with_number(&stray_box(fault, &format!("{fault}.compared")), &file))
        // The library's process would have it too, and nobody is to wait for that one.
        .stderr(Stdio::null())
        .output()
        .expect("the program that compares starts");
    let said = String::from_utf8_lossy(&run.stdout).into_owned();
    assert_eq!(run.status.code(), Some(1), "{said}");
    assert_eq!(said.matches("DIFFERENCE").count(), 1, "{said}");
    assert!(!stays(&file), "the library's process is still there");
    said
}

#[test]
fn a_library_that_hangs_ends_with_the_run() {
    let said = said_of("HANGING", &["--seconds", "0", "--patience", "1"]);
    assert!(said.contains("open: does not return"), "{said}");
}

#[test]
fn a_library_that_strays_ends_the_run() {
    let said = said_of("BEHIND_INPUT", &["--seconds", "0"]);
    assert!(said.contains("it wrote behind the input"), "{said}");
}
