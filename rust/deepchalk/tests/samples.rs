//! Document 01's samples 4, 6, 7, 8 and the bounds of 9 that concern records and schedules, through
//! the library.

mod compare;

use compare::Comparison;
use deepchalk::{replay, simulate, End, Ran, Refusal, STEP_BYTES};
use reference::cases;

/// The case's answer and the trace steps that were written.
fn run(name: &str) -> (Result<Ran, Refusal>, Vec<Vec<u8>>) {
    let cases = cases::all();
    let case = cases
        .iter()
        .find(|case| case.name == name)
        .expect("the case is there");
    let mut trace = vec![0xee; case.schedule.len() * STEP_BYTES];
    let answer = simulate(&case.set(), &case.map(), &case.schedule, &mut trace);
    match answer {
        Ok(_) => assert_eq!(replay(&case.set(), &case.map(), &trace), answer),
        Err(_) => assert!(trace.iter().all(|&byte| byte == 0xee)),
    }
    let steps = trace.chunks(STEP_BYTES).map(<[u8]>::to_vec).collect();
    (answer, steps)
}

fn accu(step: &[u8]) -> u16 {
    u16::from_le_bytes([step[8], step[9]])
}

fn ran(steps: u16, end: End) -> Result<Ran, Refusal> {
    Ok(Ran { steps, end })
}

fn refused(number: u8, place: u32) -> Result<Ran, Refusal> {
    Err(Refusal::new(number, place).expect("1 to 17"))
}

#[test]
fn sample_4() {
    let (answer, steps) = run("sample 4 jump to itself");
    assert_eq!(answer, ran(3, End::Code(3)));
    assert_eq!(steps[1][..8], [0, 9, 0, 0, 0, 0, 0, 0]);
}

#[test]
fn sample_6() {
    let (_, steps) = run("sample 6 ADDI at 65535");
    assert_eq!([accu(&steps[1]), accu(&steps[2])], [65_535, 0]);
    let (_, steps) = run("sample 6 MULI at 300");
    assert_eq!([accu(&steps[1]), accu(&steps[2])], [300, 24_464]);
    // Code 2 where JNZNS jumps.
    assert_eq!(run("sample 6 JNZNS at 32767").0, ran(3, End::Code(2)));
    assert_eq!(run("sample 6 JNZNS at 0").0, ran(3, End::Code(1)));
    assert_eq!(run("sample 6 JNZNS at 32768").0, ran(3, End::Code(1)));
}

#[test]
fn sample_7() {
    let (answer, steps) = run("sample 7 CAS");
    assert_eq!(answer, ran(5, End::Code(0)));
    assert_eq!(accu(&steps[3]), 1);
    assert_eq!(steps[3][16..], [1, 0, 4, 0, 10, 0, 0, 0]);
    assert_eq!(accu(&steps[4]), 10);
}

#[test]
fn sample_8() {
    assert_eq!(run("sample 8 FENCE with full 1").0, refused(12, 1));
    let (answer, steps) = run("sample 8 CHECK with full 1");
    assert_eq!(answer, ran(5, End::Code(0)));
    // CHECK, number 19, with full 1; the flush writes 7 at 3.
    assert_eq!((steps[2][1], steps[2][7]), (19, 1));
    assert_eq!(steps[4][16..], [1, 0, 3, 0, 7, 0, 0, 0]);
}

#[test]
fn sample_9() {
    assert_eq!(run("sample 9 32 statements").0, ran(32, End::Code(0)));
    assert_eq!(run("sample 9 33 statements").0, refused(9, 0));
    assert_eq!(run("sample 9 64 steps").0, ran(64, End::Open));
    assert_eq!(run("sample 9 65 steps").0, refused(17, 0));
}

#[test]
fn all_cases_agree_with_the_second_simulator() {
    let mut comparison = Comparison::new();
    for case in cases::all() {
        let (set, map) = (case.set(), case.map());
        let room = case.schedule.len() * STEP_BYTES;
        let _ = comparison.simulate(&set, &map, &case.schedule, room);
        let trace = testing::schedules::trace_of(&set, &map, &case.schedule);
        let _ = comparison.replay(&set, &map, &trace);
    }
}

#[test]
fn empty_buffers() {
    assert_eq!(simulate(&[], &[], &[], &mut []), refused(9, 0));
    assert_eq!(replay(&[], &[], &[]), refused(9, 0));
    let halt = [0, 17, 0, 0, 0, 0, 0, 0];
    assert_eq!(simulate(&halt, &[], &[], &mut []), ran(0, End::Open));
    assert_eq!(replay(&halt, &[], &[]), ran(0, End::Open));
}
