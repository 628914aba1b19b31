//! The run tally as paper 02's E1 tells it: each refusal is a test of its own, and the first that holds in the paper's order is the number.

/// As in C: a list is a slice of these.
#[repr(C)]
#[derive(Clone, Copy, Debug, Default, PartialEq, Eq)]
pub struct Case {
    pub id: u32,
    pub state: u32,
}

/// What a report returns, field by field as the header has it.
#[repr(C)]
#[derive(Clone, Copy, Debug, Default, PartialEq, Eq)]
pub struct Report {
    pub number: u32,
    pub passed: u32,
    pub failed: u32,
    pub broken: u32,
    pub not_run: u32,
}

pub const NOT_RUN: u32 = 0;
pub const RUNNING: u32 = 1;
pub const PASSED: u32 = 2;
pub const FAILED: u32 = 3;
pub const BROKEN: u32 = 4;

pub const START: u32 = 1;
pub const PASS: u32 = 2;
pub const FAIL: u32 = 3;
pub const CRASH: u32 = 4;
pub const END: u32 = 5;

pub const LONGEST: usize = 65_535;

fn running(cases: &[Case]) -> Option<&Case> {
    cases.iter().find(|case| case.state == RUNNING)
}

fn listed(cases: &[Case], id: u32) -> Option<&Case> {
    cases.iter().find(|case| case.id == id)
}

/// 15: a list too long, not ascending, or in a state no events lead to.
pub fn not_legal(cases: &[Case], mark: u8) -> bool {
    let runs = cases.iter().filter(|case| case.state == RUNNING).count();
    let reached = match mark {
        0 => runs <= 1,
        1 => runs == 0,
        _ => false,
    };
    cases.len() > LONGEST
        || cases.windows(2).any(|pair| pair[0].id >= pair[1].id)
        || cases.iter().any(|case| case.state > BROKEN)
        || !reached
}

/// 11: an unknown event or id; crash and end name no case.
fn unknown(cases: &[Case], event: u32, id: u32) -> bool {
    match event {
        START | PASS | FAIL => listed(cases, id).is_none(),
        CRASH | END => false,
        _ => true,
    }
}

/// 12: the start of a case already started, or while one runs.
fn not_startable(cases: &[Case], event: u32, id: u32) -> bool {
    let started = listed(cases, id).is_some_and(|case| case.state != NOT_RUN);
    event == START && (started || running(cases).is_some())
}

/// 13: a verdict or a crash with none running, or a verdict for another case.
fn not_running(cases: &[Case], event: u32, id: u32) -> bool {
    match (event, running(cases)) {
        (PASS | FAIL, Some(case)) => case.id != id,
        (PASS | FAIL | CRASH, None) => true,
        _ => false,
    }
}

/// All the refusals that hold of an event, as they are judged: 15, 14, 11, 12, 13.
pub fn refusals(cases: &[Case], mark: u8, event: u32, id: u32) -> Vec<u32> {
    let tests = [
        (15, not_legal(cases, mark)),
        (14, mark == 1),
        (11, unknown(cases, event, id)),
        (12, not_startable(cases, event, id)),
        (13, not_running(cases, event, id)),
    ];
    tests.into_iter().filter(|(_, holds)| *holds).map(|(number, _)| number).collect()
}

/// Feeds one event; a refusal changes nothing.
pub fn event(cases: &mut [Case], mark: &mut u8, event: u32, id: u32) -> u32 {
    if let Some(number) = refusals(cases, *mark, event, id).first() {
        return *number;
    }
    let now = cases.iter_mut().find(|case| if event == START { case.id == id } else { case.state == RUNNING });
    if let Some(case) = now {
        case.state = match event {
            START => RUNNING,
            PASS => PASSED,
            FAIL => FAILED,
            _ => BROKEN,
        };
    }
    if event == END {
        *mark = 1;
    }
    0
}

pub fn report(cases: &[Case], mark: u8) -> Report {
    if not_legal(cases, mark) {
        return Report { number: 15, ..Report::default() };
    }
    let mut report = Report::default();
    for case in cases {
        match case.state {
            NOT_RUN => report.not_run += 1,
            PASSED => report.passed += 1,
            FAILED => report.failed += 1,
            _ => report.broken += 1,
        }
    }
    report
}

/// What accepted events say of a case, from the events alone.
pub fn told(id: u32, accepted: &[(u32, u32)]) -> u32 {
    let Some(start) = accepted.iter().position(|event| *event == (START, id)) else { return NOT_RUN };
    let closing = accepted[start..].iter().find_map(|(event, named)| match *event {
        PASS if *named == id => Some(PASSED),
        FAIL if *named == id => Some(FAILED),
        CRASH | END => Some(BROKEN),
        _ => None,
    });
    closing.unwrap_or(RUNNING)
}
