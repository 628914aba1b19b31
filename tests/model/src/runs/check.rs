//! Feeds the same events to the calls under test and to the model, and compares numbers, lists, marks and reports.

use super::calls::Calls;
use super::model::{self, Case, CRASH, END, FAIL, LONGEST, NOT_RUN, PASS, RUNNING, START};
use crate::random::Random;
use std::collections::BTreeMap;

/// Records beside the list that a call must not touch, on both sides.
const MARGIN: usize = 3;
const POISON: Case = Case { id: 0xA5A5_A5A5, state: 0x5A5A_5A5A };

/// Lengths that are tried in order; the last two are too long.
const LENGTHS: [usize; 7] = [0, 1, 2, LONGEST - 1, LONGEST, LONGEST + 1, LONGEST + 4465];

/// Pairs of refusals that can hold of one event, as the number given and the one that it comes before.
const PRECEDENCES: [(u32, u32); 9] =
    [(15, 14), (15, 11), (15, 12), (15, 13), (14, 11), (14, 12), (14, 13), (11, 12), (11, 13)];

/// What a damage does to a list and a mark that are legal.
type Damage = fn(&mut Vec<Case>, &mut u8, &mut Random);
const DAMAGES: [Damage; 7] = [
    |cases, _, random| with_two(cases, random, |one, other| std::mem::swap(&mut one.id, &mut other.id)),
    |cases, _, random| with_two(cases, random, |one, other| other.id = one.id),
    |cases, _, random| with_one(cases, random, |case, random| case.state = random.within(5, u32::MAX)),
    |cases, _, random| with_two(cases, random, |one, other| (one.state, other.state) = (RUNNING, RUNNING)),
    |_, mark, random| *mark = random.within(2, 255) as u8,
    |cases, mark, random| {
        *mark = 1;
        with_one(cases, random, |case, _| case.state = RUNNING);
    },
    |cases, _, random| with_one(cases, random, |case, random| *case = Case { id: random.within(0, u32::MAX), ..*case }),
];

fn with_one(cases: &mut [Case], random: &mut Random, change: fn(&mut Case, &mut Random)) {
    if !cases.is_empty() {
        let at = random.below(cases.len());
        change(&mut cases[at], random);
    }
}

fn with_two(cases: &mut [Case], random: &mut Random, change: fn(&mut Case, &mut Case)) {
    if cases.len() > 1 {
        let at = 1 + random.below(cases.len() - 1);
        let (before, from) = cases.split_at_mut(at);
        change(&mut before[at - 1], &mut from[0]);
    }
}

/// A run of the calls under test: the list between records that are not lent, and the mark.
struct Lent {
    space: Vec<Case>,
    mark: u8,
}

impl Lent {
    fn new(cases: &[Case], mark: u8) -> Lent {
        let margin = [POISON; MARGIN];
        Lent { space: [&margin, cases, &margin].concat(), mark }
    }

    fn cases(&mut self) -> &mut [Case] {
        let end = self.space.len() - MARGIN;
        &mut self.space[MARGIN..end]
    }
}

pub struct Check {
    calls: Calls,
    counts: BTreeMap<(&'static str, u32), u64>,
    pub compared: u64,
}

type Checked = Result<(), String>;

impl Check {
    pub fn new(calls: Calls) -> Check {
        Check { calls, counts: BTreeMap::new(), compared: 0 }
    }

    fn note(&mut self, title: &'static str, number: u32) {
        *self.counts.entry((title, number)).or_default() += 1;
    }

    fn note_event(&mut self, cases: &[Case], refusals: &[u32], event: u32) {
        self.note("event, by number", refusals.first().copied().unwrap_or(0));
        if let Some((first, others)) = refusals.split_first() {
            for other in others {
                self.note("judged first and also true", first * 100 + other);
            }
        } else {
            let runs = cases.iter().any(|case| case.state == RUNNING);
            self.note("accepted, by event and whether one runs", event * 10 + u32::from(runs));
        }
    }

    /// Feeds one event to both; gives whether it is accepted.
    fn feed(&mut self, lent: &mut Lent, event: u32, id: u32) -> Result<bool, String> {
        let before = lent.cases().to_vec();
        let refusals = model::refusals(&before, lent.mark, event, id);
        self.note_event(&before, &refusals, event);
        let (mut cases, mut mark) = (before.clone(), lent.mark);
        let number = model::event(&mut cases, &mut mark, event, id);
        let mut given = lent.mark;
        let said = (self.calls.event)(lent.cases(), &mut given, event, id);
        self.compared += 1;
        let whole = Lent::new(&cases, mark).space;
        if said != (number, 0, 0) || given != mark || lent.space != whole {
            let shown = if before.len() < 20 { format!("{before:?}") } else { format!("{} cases", before.len()) };
            return Err(format!(
                "event {event} {id} on {shown}, mark {}: {said:?}, not {number}; or list or mark",
                lent.mark
            ));
        }
        lent.mark = given;
        Ok(number == 0)
    }

    fn report(&mut self, lent: &mut Lent) -> Checked {
        let before = lent.space.clone();
        let mark = lent.mark;
        let wanted = model::report(lent.cases(), mark);
        let said = (self.calls.report)(lent.cases(), mark);
        self.compared += 1;
        self.note("report, by number", wanted.number);
        if said != wanted || lent.space != before {
            return Err(format!(
                "report on {} cases, mark {mark}: {said:?}, not {wanted:?}",
                before.len() - 2 * MARGIN
            ));
        }
        Ok(())
    }

    /// Every list of at most three records over three ids and six states, every mark, every event, every id.
    pub fn every_small_run(&mut self) -> Checked {
        const KINDS: usize = 18;
        for length in 0..=3 {
            for code in 0..KINDS.pow(length) {
                let record = |at: u32| code / KINDS.pow(at) % KINDS;
                let case = |kind: usize| Case { id: 1 + (kind / 6) as u32, state: (kind % 6) as u32 };
                let cases: Vec<Case> = (0..length).map(|at| case(record(at))).collect();
                for mark in 0..=2 {
                    self.report(&mut Lent::new(&cases, mark))?;
                    for (event, id) in (0..=6).flat_map(|event| (0..=3).map(move |id| (event, id))) {
                        self.feed(&mut Lent::new(&cases, mark), event, id)?;
                    }
                }
            }
        }
        Ok(())
    }

    /// Lists at the ends of the range of lengths, with a damage at each end and in the middle.
    pub fn every_length(&mut self) -> Checked {
        for length in LENGTHS {
            self.note("list of this length", length as u32);
            let cases: Vec<Case> = (0..length as u32).map(|at| Case { id: 2 * at + 1, state: NOT_RUN }).collect();
            let last = cases.last().map_or(0, |case| case.id);
            let mut lent = Lent::new(&cases, 0);
            let events = [
                (START, last),
                (PASS, last),
                (START, 1),
                (FAIL, last),
                (CRASH, 9),
                (START, last + 1),
                (END, 0),
                (START, 3),
            ];
            for (event, id) in events {
                self.report(&mut lent)?;
                self.feed(&mut lent, event, id)?;
            }
            for at in [0, length / 2, length.saturating_sub(1)] {
                let Some(case) = cases.get(at) else { continue };
                let before = at.checked_sub(1).map_or(u32::MAX, |before| cases[before].id);
                for wrong in [Case { state: 5, ..*case }, Case { id: before, ..*case }] {
                    let mut damaged = Lent::new(&cases, 0);
                    damaged.cases()[at] = wrong;
                    self.report(&mut damaged)?;
                    self.feed(&mut damaged, START, last)?;
                }
            }
        }
        Ok(())
    }

    /// A new run, any events, some calls on damaged copies; at the end each case is as the accepted events say.
    pub fn history(&mut self, random: &mut Random) -> Checked {
        let cases = new_list(random);
        let mut lent = Lent::new(&cases, 0);
        let mut accepted = Vec::new();
        for _ in 0..(20 + 3 * cases.len()).min(400) {
            let (event, id) = next_event(random, lent.cases());
            if self.feed(&mut lent, event, id)? {
                accepted.push((event, id));
            }
            match random.below(20) {
                0 | 1 => self.report(&mut lent)?,
                2 => self.damaged(&mut lent, random)?,
                _ => (),
            }
        }
        self.as_told(&mut lent, &cases, &accepted)
    }

    fn damaged(&mut self, lent: &mut Lent, random: &mut Random) -> Checked {
        let kind = random.below(DAMAGES.len());
        let (mut cases, mut mark) = (lent.cases().to_vec(), lent.mark);
        DAMAGES[kind](&mut cases, &mut mark, random);
        let legal = !model::not_legal(&cases, mark);
        self.note("damaged, by kind and whether still legal", kind as u32 * 10 + u32::from(legal));
        let mut copy = Lent::new(&cases, mark);
        self.report(&mut copy)?;
        let (event, id) = next_event(random, &cases);
        self.feed(&mut copy, event, id).map(|_| ())
    }

    fn as_told(&mut self, lent: &mut Lent, cases: &[Case], accepted: &[(u32, u32)]) -> Checked {
        let told = cases.iter().map(|case| Case { state: model::told(case.id, accepted), ..*case });
        let told: Vec<Case> = told.collect();
        let ended = accepted.iter().any(|(event, _)| *event == END);
        if lent.cases() != told || lent.mark != u8::from(ended) {
            return Err(format!("the accepted events {accepted:?} say otherwise"));
        }
        let mark = lent.mark;
        let report = (self.calls.report)(lent.cases(), mark);
        let sum = report.passed + report.failed + report.broken + report.not_run;
        self.compared += 1;
        self.note("history, by whether it ended", u32::from(ended));
        if report.number != 0 || sum as usize != cases.len() {
            return Err(format!("the four of {report:?} are not {} cases", cases.len()));
        }
        Ok(())
    }

    /// Prints all counts, and gives what must be met and never was.
    pub fn missing(&self) -> Vec<String> {
        for ((title, number), count) in &self.counts {
            println!("{title} {number}: {count}");
        }
        let mut wanted: Vec<(&'static str, u32)> = Vec::new();
        wanted.extend([0, 11, 12, 13, 14, 15].map(|number| ("event, by number", number)));
        wanted.extend([0, 15].map(|number| ("report, by number", number)));
        wanted.extend(PRECEDENCES.map(|(first, other)| ("judged first and also true", first * 100 + other)));
        wanted.extend([10, 21, 31, 41, 50, 51].map(|number| ("accepted, by event and whether one runs", number)));
        wanted.extend(LENGTHS.map(|length| ("list of this length", length as u32)));
        wanted.extend((0..DAMAGES.len() as u32).map(|kind| ("damaged, by kind and whether still legal", kind * 10)));
        wanted.extend([0, 1].map(|ended| ("history, by whether it ended", ended)));
        let never = wanted.into_iter().filter(|what| !self.counts.contains_key(what));
        never.map(|(title, number)| format!("{title} {number}")).collect()
    }
}

/// Ascending ids, the least and the greatest number among them now and then.
fn new_list(random: &mut Random) -> Vec<Case> {
    let length = random.pick(&[0, 1, 2, 3, 7, 30, 120]);
    let mut ids: Vec<u32> = (0..length).map(|_| random.within(0, u32::MAX)).collect();
    ids.sort_unstable();
    ids.dedup();
    ids.into_iter().map(|id| Case { id, state: NOT_RUN }).collect()
}

/// Mostly an event that is accepted; else any event with any id.
fn next_event(random: &mut Random, cases: &[Case]) -> (u32, u32) {
    let listed = |random: &mut Random| if cases.is_empty() { 0 } else { cases[random.below(cases.len())].id };
    if random.chance(1) {
        return (END, listed(random));
    }
    if random.chance(30) {
        let event = random.pick(&[0, START, PASS, FAIL, CRASH, 6, u32::MAX]);
        let id = if random.chance(70) { listed(random) } else { random.within(0, u32::MAX) };
        return (event, id);
    }
    match cases.iter().find(|case| case.state == RUNNING) {
        Some(case) => (random.pick(&[PASS, PASS, FAIL, CRASH]), case.id),
        None => (START, listed(random)),
    }
}
