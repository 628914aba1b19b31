//! Wrong tallies, each with one fault, that the comparison must tell from the model.

use super::calls::{Calls, STAND_IN};
use super::model::{self, Case, Report, BROKEN, CRASH, END, FAIL, FAILED, PASS, RUNNING, START};
use crate::model::calls::Returned;

type Event = fn(&mut [Case], &mut u8, u32, u32) -> Returned;
type Reporting = fn(&[Case], u8) -> Report;

pub const FAULTS: [(&str, Calls); 14] = [
    ("a running case counts as passed", reporting(running_passes)),
    ("a case not run counts as passed", reporting(not_run_passes)),
    ("a refused report counts", reporting(refused_counts)),
    ("the report takes any mark", reporting(|cases, mark| model::report(cases, u8::from(mark == 1)))),
    ("end closes as failed", feeding(|cases, mark, event, id| closes_as_failed(END, cases, mark, event, id))),
    ("crash closes as failed", feeding(|cases, mark, event, id| closes_as_failed(CRASH, cases, mark, event, id))),
    ("a verdict for another case is taken", feeding(any_verdict)),
    ("a start while one runs is taken", feeding(two_running)),
    ("12 and 13 are exchanged", feeding(exchanged)),
    ("11 is judged before 14", feeding(|cases, mark, event, id| judged_first(11, cases, mark, event, id))),
    ("14 is judged before 15", feeding(|cases, mark, event, id| judged_first(14, cases, mark, event, id))),
    ("13 is judged before 11", feeding(|cases, mark, event, id| judged_first(13, cases, mark, event, id))),
    ("a refused end sets the mark", feeding(refused_end)),
    ("a list of 65,535 is too long", feeding(one_case_less)),
];

const fn reporting(report: Reporting) -> Calls {
    Calls { event: STAND_IN.event, report }
}

const fn feeding(event: Event) -> Calls {
    Calls { event, report: STAND_IN.report }
}

fn running_passes(cases: &[Case], mark: u8) -> Report {
    let mut report = model::report(cases, mark);
    if report.number == 0 && cases.iter().any(|case| case.state == RUNNING) {
        report.broken -= 1;
        report.passed += 1;
    }
    report
}

fn not_run_passes(cases: &[Case], mark: u8) -> Report {
    let report = model::report(cases, mark);
    Report { passed: report.passed + report.not_run, not_run: 0, ..report }
}

fn refused_counts(cases: &[Case], mark: u8) -> Report {
    let report = model::report(cases, mark);
    Report { broken: if report.number == 0 { report.broken } else { 1 }, ..report }
}

fn closes_as_failed(by: u32, cases: &mut [Case], mark: &mut u8, event: u32, id: u32) -> Returned {
    let running = cases.iter().position(|case| case.state == RUNNING);
    let number = model::event(cases, mark, event, id);
    if let (0, true, Some(at)) = (number, event == by, running) {
        assert_eq!(cases[at].state, BROKEN);
        cases[at].state = FAILED;
    }
    (number, 0, 0)
}

fn any_verdict(cases: &mut [Case], mark: &mut u8, event: u32, id: u32) -> Returned {
    let runs = cases.iter().find(|case| case.state == RUNNING).map(|case| case.id);
    let listed = cases.iter().any(|case| case.id == id);
    let named = if matches!(event, PASS | FAIL) && listed { runs.unwrap_or(id) } else { id };
    (model::event(cases, mark, event, named), 0, 0)
}

fn two_running(cases: &mut [Case], mark: &mut u8, event: u32, id: u32) -> Returned {
    let number = model::event(cases, mark, event, id);
    if let (12, Some(case)) = (number, cases.iter_mut().find(|case| case.id == id && case.state == 0)) {
        case.state = START;
        return (0, 0, 0);
    }
    (number, 0, 0)
}

fn exchanged(cases: &mut [Case], mark: &mut u8, event: u32, id: u32) -> Returned {
    match model::event(cases, mark, event, id) {
        12 => (13, 0, 0),
        13 => (12, 0, 0),
        number => (number, 0, 0),
    }
}

fn judged_first(first: u32, cases: &mut [Case], mark: &mut u8, event: u32, id: u32) -> Returned {
    if model::refusals(cases, *mark, event, id).contains(&first) {
        return (first, 0, 0);
    }
    (model::event(cases, mark, event, id), 0, 0)
}

fn refused_end(cases: &mut [Case], mark: &mut u8, event: u32, id: u32) -> Returned {
    let number = model::event(cases, mark, event, id);
    if event == END {
        *mark = 1;
    }
    (number, 0, 0)
}

fn one_case_less(cases: &mut [Case], mark: &mut u8, event: u32, id: u32) -> Returned {
    if cases.len() == model::LONGEST {
        return (15, 0, 0);
    }
    (model::event(cases, mark, event, id), 0, 0)
}
