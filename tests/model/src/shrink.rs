//! Makes a history that shows a difference as short as can be, as long as it still shows one.

use crate::library::Library;
use crate::model::bridge::{Bridge, VlanRow};
use crate::model::image::BLOCK;
use crate::model::message::{read, write_request, LONGEST};
use crate::model::names::GROWING;
use crate::player::play;
use crate::step::{History, Step};
use std::time::{Duration, Instant};

struct Shrinker {
    library: Library,
    best: History,
    until: Instant,
}

pub fn shrink(library: Library, history: History, most: Duration) -> History {
    let mut shrinker = Shrinker { library, best: history, until: Instant::now() + most };
    loop {
        let steps = shrinker.best.steps.len();
        let octets = shrinker.octets();
        shrinker.drop_steps();
        shrinker.simpler_start();
        shrinker.simpler_steps();
        let smaller = shrinker.best.steps.len() < steps || shrinker.octets() < octets;
        if !smaller || Instant::now() > shrinker.until {
            return shrinker.best;
        }
    }
}

impl Shrinker {
    /// Takes a history that still shows a difference, without the steps after it.
    fn take(&mut self, mut history: History) -> bool {
        if Instant::now() > self.until {
            return false;
        }
        match play(self.library, &history) {
            Ok(()) => false,
            Err(failure) => {
                history.steps.truncate(failure.step);
                self.best = history;
                true
            }
        }
    }

    fn octets(&self) -> usize {
        let of_step = |step: &Step| match step {
            Step::Poke { octets, .. } => octets.len(),
            Step::Call { request, .. } => request.len(),
            Step::Reset { block_len } => usize::from(*block_len != BLOCK),
            Step::Pair { first, second, .. } => first.len() + second.len() + 1,
        };
        let rows: usize = GROWING.iter().map(|table| self.best.start.rows(*table)).sum();
        rows + self.best.steps.iter().map(of_step).sum::<usize>()
    }

    /// Leaves out runs of steps, long ones first.
    fn drop_steps(&mut self) {
        self.take(self.best.clone());
        let mut run = self.best.steps.len().div_ceil(2);
        while run > 0 {
            let mut at = 0;
            while at < self.best.steps.len() {
                let mut history = self.best.clone();
                history.steps.drain(at..(at + run).min(history.steps.len()));
                if !self.take(history) {
                    at += run;
                }
            }
            run /= 2;
        }
    }

    /// A fresh bridge, or one with fewer rows, to start from.
    fn simpler_start(&mut self) {
        let start = self.best.start.clone();
        let fresh = start.made_fresh();
        self.with_start(fresh.clone());
        self.with_start(Bridge { settings: fresh.settings.clone(), ..self.best.start.clone() });
        self.with_start(Bridge { vlan_deletes: 0, ..self.best.start.clone() });
        self.with_start(Bridge { vlans: fresh.vlans, ..self.best.start.clone() });
        self.with_start(with_empty_rows(self.best.start.clone()));
        self.with_start(Bridge { statics: fresh.statics, ..self.best.start.clone() });
        self.with_start(Bridge { pairs: fresh.pairs, ..self.best.start.clone() });
        for id in start.vlans.into_keys() {
            let mut fewer = self.best.start.clone();
            fewer.vlans.remove(&id);
            self.with_start(fewer);
        }
        for index in start.statics.into_keys() {
            let mut fewer = self.best.start.clone();
            fewer.statics.remove(&index);
            self.with_start(fewer);
        }
        for index in start.pairs.into_keys() {
            let mut fewer = self.best.start.clone();
            fewer.pairs.remove(&index);
            self.with_start(fewer);
        }
    }

    fn with_start(&mut self, start: Bridge) {
        if start != self.best.start {
            self.take(History { start, steps: self.best.steps.clone() });
        }
    }

    fn simpler_steps(&mut self) {
        for at in (0..self.best.steps.len()).rev() {
            let mut tried = 0;
            // A step that was taken is made simpler again from the first way on.
            while let Some(step) = self.best.steps.get(at) {
                let Some(simpler) = simpler(step).into_iter().nth(tried) else { break };
                let mut history = self.best.clone();
                history.steps.splice(at..=at, simpler);
                tried = if self.take(history) { 0 } else { tried + 1 };
            }
        }
    }
}

/// The same VLAN rows, with nothing in them.
fn with_empty_rows(mut bridge: Bridge) -> Bridge {
    for row in bridge.vlans.values_mut() {
        *row = VlanRow { active: row.active, ..VlanRow::default() };
    }
    bridge
}

/// Steps that may stand in the place of a step.
fn simpler(step: &Step) -> Vec<Vec<Step>> {
    match step {
        Step::Poke { .. } | Step::Reset { block_len: BLOCK } => Vec::new(),
        Step::Reset { .. } => vec![vec![Step::Reset { block_len: BLOCK }]],
        Step::Pair { first, second, .. } => {
            let (first, second) = (Step::call(first.clone()), Step::call(second.clone()));
            vec![vec![first.clone(), second.clone()], vec![second, first]]
        }
        Step::Call { request, block_len, room_len } => {
            let mut simpler = Vec::new();
            if (*block_len, *room_len) != (BLOCK, LONGEST) {
                simpler.push(vec![Step::call(request.clone())]);
            }
            let (block_len, room_len) = (*block_len, *room_len);
            let fewer = with_fewer_bindings(request);
            simpler.extend(fewer.into_iter().map(|request| vec![Step::Call { request, block_len, room_len }]));
            simpler
        }
    }
}

/// The request without one of its bindings, for each; damaged requests are left as they are.
fn with_fewer_bindings(request: &[u8]) -> Vec<Vec<u8>> {
    let Ok(request) = read(request) else { return Vec::new() };
    let without = |at| {
        let mut fewer = request.clone();
        fewer.bindings.remove(at);
        write_request(&fewer)
    };
    (0..request.bindings.len()).map(without).collect()
}
