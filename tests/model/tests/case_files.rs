//! A case file that is written says what the model does: it is read again and played.

use refbridge_model::case_file::case_file;
use refbridge_model::generate::{scripts, start};
use refbridge_model::library::STAND_IN;
use refbridge_model::model::calls;
use refbridge_model::player::{Failure, Player};
use refbridge_model::random::Random;
use refbridge_model::step::History;
use refbridge_model::tally::Tally;
use refbridge_model::Bridge;

fn hex(text: &str) -> Vec<u8> {
    (0..text.len()).step_by(2).map(|at| u8::from_str_radix(&text[at..at + 2], 16).unwrap()).collect()
}

/// What the player keeps between lines: the block, the lengths for the next call, and what the last call said.
struct Replay {
    block: Vec<u8>,
    size: usize,
    room: usize,
    said: String,
}

impl Replay {
    fn call(&mut self, request: &[u8]) {
        let (mut given, mut room) = (self.block.clone(), vec![0; self.room]);
        given.resize(self.size, 0);
        self.said = match calls::answer(&mut given, request, &mut room) {
            (0, count, _) => {
                let octets: String = room[..count as usize].iter().map(|octet| format!("{octet:02X}")).collect();
                format!("-> octets {octets}")
            }
            (refusal @ 4..=8, _, offset) => format!("-> refused {refusal} at {offset}"),
            (refusal, _, _) => format!("-> refused {refusal}"),
        };
        if self.size == self.block.len() {
            self.block = given;
        }
        (self.size, self.room) = (32768, 1472);
    }

    fn reset(&mut self) {
        let mut given = self.block.clone();
        given.resize(self.size, 0);
        self.said = match calls::reset(&mut given) {
            (0, _, _) => "-> accepted".to_string(),
            (refusal, _, _) => format!("-> refused {refusal}"),
        };
        if self.size == self.block.len() {
            self.block = given;
        }
        (self.size, self.room) = (32768, 1472);
    }

    fn set_up(&mut self, ports: &str, options: &[&str], address: &str) {
        let address = hex(&address.replace(':', ""));
        let option = |word: &str| {
            let place = options.iter().position(|other| *other == word);
            place.map_or(1, |place| options[place + 1].parse().unwrap())
        };
        let fresh = Bridge::fresh(ports.parse().unwrap(), option("edition"), option("device"), &address);
        self.block = fresh.unwrap().image();
    }

    fn line(&mut self, line: &str) {
        let words: Vec<&str> = line.split(' ').collect();
        match words[..] {
            ["#", ..] => {}
            ["bridge", ports, address, ref options @ ..] => self.set_up(ports, options, address),
            ["poke", offset, octets] => {
                let (offset, octets): (usize, Vec<u8>) = (offset.parse().unwrap(), hex(octets));
                self.block[offset..offset + octets.len()].copy_from_slice(&octets);
            }
            ["size", octets] => self.size = octets.parse().unwrap(),
            ["room", octets] => self.room = octets.parse().unwrap(),
            ["reset"] => self.reset(),
            ["raw", request] => self.call(&hex(request)),
            ["->", ..] => assert_eq!(line, self.said),
            _ => panic!("no line of a case file: {line}"),
        }
    }
}

#[test]
fn case_files_are_replayed() {
    for seed in 0..40 {
        let mut random = Random::new(seed);
        let fresh = start::fresh(&mut random);
        let start = if seed % 2 == 0 { fresh } else { start::filled(&mut random, fresh) };
        let mut history = History { start, steps: Vec::new() };
        let mut tally = Tally::default();
        let mut player = Player::start(STAND_IN, &history.start, &mut tally).unwrap();
        for _ in 0..20 {
            for step in scripts::script(&mut random, player.twin.bridge.as_ref().unwrap()).1 {
                player.play(&step).unwrap();
                history.steps.push(step);
            }
        }
        let failure =
            Failure { difference: "none".into(), step: history.steps.len(), block: player.twin.block.clone() };
        let mut replay = Replay { block: Vec::new(), size: 32768, room: 1472, said: String::new() };
        case_file(&history, &failure).lines().for_each(|line| replay.line(line));
        assert_eq!(replay.block[..], player.twin.block[..]);
    }
}
