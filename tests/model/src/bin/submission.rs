//! Writes a submission: case files of a thousand cases each, with the answers that the model gives.
//!
//!     submission FOLDER FILES
//!
//! A file has four bridges, one at least of each device, each with a set-up, the requests of the differential test's scripts, timers and set-ups that
//! are refused, and at the end a walk over everything. A request that can be read is written as the command that makes it.

use refbridge_model::case_file::{bridge_line, hex, write_poke, MOST_OCTETS};
use refbridge_model::generate::{scripts, start};
use refbridge_model::library::Returned;
use refbridge_model::model::calls;
use refbridge_model::model::image::BLOCK;
use refbridge_model::model::message::{read, Content, Kind, Request, LONGEST};
use refbridge_model::model::names::{SOURCE_ROUTING, TRANSPARENT};
use refbridge_model::random::Random;
use refbridge_model::step::Step;
use refbridge_model::Bridge;
use std::fs;
use std::process::ExitCode;

const BRIDGES: usize = 4;
const CASES: usize = 250;
const MOST_BLOCK: usize = 40960;
const MOST_ROOM: usize = 4096;

/// One case file as it is written, and the block that its bridge has come to. The prelude is what the next case is given
/// first: octets of the block, lengths of block and room.
struct Writer {
    lines: Vec<String>,
    prelude: Vec<String>,
    cases: usize,
    block: Vec<u8>,
}

fn main() -> ExitCode {
    let words: Vec<String> = std::env::args().skip(1).collect();
    let [folder, files] = &words[..] else {
        eprintln!("usage: submission FOLDER FILES");
        return ExitCode::from(2);
    };
    let mut random = Random::new(20_240_611);
    for file in 1..=files.parse().expect("a number of files") {
        let path = format!("{folder}/part-{file:02}.txt");
        fs::write(&path, write_file(&mut random)).expect("a file that can be written");
    }
    ExitCode::SUCCESS
}

fn write_file(random: &mut Random) -> String {
    let mut writer = Writer { lines: Vec::new(), prelude: Vec::new(), cases: 0, block: vec![0; BLOCK] };
    for bridge in 0..BRIDGES {
        let device = [TRANSPARENT, SOURCE_ROUTING].get(bridge).copied().unwrap_or_else(|| start::device(random));
        writer.write_bridge(random, device, bridge + 1 == BRIDGES);
    }
    writer.lines.join("\n") + "\n"
}

impl Writer {
    /// A bridge's cases; one that fills begins with sets until a table is full.
    fn write_bridge(&mut self, random: &mut Random, device: u32, fills: bool) {
        let last = self.cases + CASES - 1;
        self.set_up(start::ports(random), start::edition(random), device, &start::address(random));
        if fills {
            let steps = scripts::fill(random, &self.bridge());
            self.play(&steps);
        }
        while self.cases < last {
            self.write_some(random, last - self.cases);
        }
        self.walk();
    }

    /// Some cases, at most so many.
    fn write_some(&mut self, random: &mut Random, most: usize) {
        match random.below(40) {
            0 => {
                let refused =
                    [(0, 1, 1), (65, 2, 2), (4_000_000_000, 1, 1), (4, 0, 1), (4, 3, 2), (4, 1, 0), (4, 2, 3)];
                let (ports, edition, device) = random.pick(&refused);
                self.set_up(ports, edition, device, &start::address(random));
            }
            1 => self.timer("to256ths", random.within(0, 25_650), calls::to_256ths),
            2 => self.timer("tohundredths", random.within(0, 65_600), calls::to_hundredths),
            _ => {
                let (_, steps) = scripts::script(random, &self.bridge());
                if steps.iter().all(fits) && steps.iter().map(calls_of).sum::<usize>() <= most {
                    self.play(&steps);
                }
            }
        }
    }

    fn bridge(&self) -> Bridge {
        Bridge::from_block(&self.block).expect("scripts leave a legal block")
    }

    /// A case of one command, titled by the command's word.
    fn case(&mut self, command: String) {
        self.cases += 1;
        let title = command.split(' ').next().unwrap_or_default();
        self.lines.push(format!("case {} {title}", self.cases));
        self.lines.append(&mut self.prelude);
        self.lines.push(command);
    }

    fn expect(&mut self, words: String) {
        self.lines.push(format!("-> {words}"));
    }

    fn set_up(&mut self, ports: u32, edition: u32, device: u32, address: &[u8]) {
        self.case(bridge_line(ports, edition, device, address));
        match calls::set_up(&mut self.block, ports, edition, device, address).0 {
            0 => self.expect("accepted".to_string()),
            refusal => self.expect(format!("refused {refusal}")),
        }
    }

    fn timer(&mut self, command: &str, number: u32, convert: fn(u32) -> Returned) {
        self.case(format!("{command} {number}"));
        let returned = convert(number);
        match returned.0 {
            0 => self.expect(format!("value {}", returned.1)),
            refusal => self.expect(format!("refused {refusal}")),
        }
    }

    fn walk(&mut self) {
        let (bridge, mut name, mut instances) = (self.bridge(), vec![0, 0], 0);
        loop {
            let next = bridge.next_binding(&name);
            if next.content == Content::EndOfMibView {
                break;
            }
            name = next.name;
            instances += 1;
        }
        self.case("walk dot1dBridge".to_string());
        self.expect(format!("instances {instances}"));
    }

    fn play(&mut self, steps: &[Step]) {
        for step in steps {
            match step {
                Step::Poke { offset, octets } => {
                    self.block[*offset..offset + octets.len()].copy_from_slice(octets);
                    write_poke(&mut self.prelude, *offset, octets);
                }
                Step::Call { request, block_len, room_len } => self.call(request, *block_len, *room_len),
                Step::Reset { block_len } => self.reset(*block_len),
                Step::Pair { first, second, room_lens } => {
                    self.call(first, BLOCK, room_lens[0]);
                    self.call(second, BLOCK, room_lens[1]);
                }
            }
        }
    }

    fn size(&mut self, block_len: usize) {
        if block_len != BLOCK {
            self.prelude.push(format!("size {block_len}"));
        }
    }

    fn reset(&mut self, block_len: usize) {
        self.size(block_len);
        self.case("reset".to_string());
        let mut given = self.block.clone();
        given.resize(block_len, 0);
        match calls::reset(&mut given).0 {
            0 => {
                self.expect("accepted".to_string());
                self.block = given;
            }
            refusal => self.expect(format!("refused {refusal}")),
        }
    }

    fn call(&mut self, octets: &[u8], block_len: usize, room_len: usize) {
        self.size(block_len);
        if room_len != LONGEST {
            self.prelude.push(format!("room {room_len}"));
        }
        let request = read(octets).ok().filter(|request| !request.bindings.is_empty());
        self.case(request.as_ref().map_or_else(|| format!("raw {}", hex(octets)), command));
        let (mut given, mut room) = (self.block.clone(), vec![0; room_len]);
        given.resize(block_len, 0);
        let returned = calls::answer(&mut given, octets, &mut room);
        match (returned.0, &request) {
            (0, Some(request)) => self.expect_answer(request, room[14], room[15]),
            (0, None) => self.expect(format!("octets {}", hex(&room[..returned.1 as usize]))),
            (refusal @ 4..=8, _) => self.expect(format!("refused {refusal} at {}", returned.2)),
            (refusal, _) => self.expect(format!("refused {refusal}")),
        }
        if block_len == BLOCK {
            self.block = given;
        }
    }

    /// What a request that has bindings is answered, while the block is still the one before.
    fn expect_answer(&mut self, request: &Request, status: u8, index: u8) {
        if status != 0 {
            return self.expect(format!("status {status} index {index}"));
        }
        if request.kind == Kind::Set {
            return self.expect("accepted".to_string());
        }
        let bridge = self.bridge();
        for asked in &request.bindings {
            let answered = if request.kind == Kind::Get {
                bridge.get_binding(&asked.name)
            } else {
                bridge.next_binding(&asked.name)
            };
            self.expect(format!("{} = {}", dotted(&answered.name), written(&answered.content)));
        }
    }
}

fn calls_of(step: &Step) -> usize {
    match step {
        Step::Poke { .. } => 0,
        Step::Call { .. } | Step::Reset { .. } => 1,
        Step::Pair { .. } => 2,
    }
}

/// A case file holds only so long a request, block and room.
fn fits(step: &Step) -> bool {
    match step {
        Step::Call { request, block_len, room_len } => {
            request.len() <= MOST_OCTETS && *block_len <= MOST_BLOCK && *room_len <= MOST_ROOM
        }
        Step::Reset { block_len } => *block_len <= MOST_BLOCK,
        _ => true,
    }
}

/// The command of a case file that makes a request.
fn command(request: &Request) -> String {
    let (word, sets) = match request.kind {
        Kind::Get => ("get", false),
        Kind::GetNext => ("next", false),
        Kind::Set => ("set", true),
    };
    let mut words = vec![word.to_string()];
    for binding in &request.bindings {
        let value = if sets { format!("={}", written(&binding.content)) } else { String::new() };
        words.push(dotted(&binding.name) + &value);
    }
    words.join(" ")
}

fn dotted(name: &[u32]) -> String {
    name.iter().map(|sub_id| format!(".{sub_id}")).collect()
}

fn written(content: &Content) -> String {
    match content {
        Content::Null => String::new(),
        Content::Integer(number) => format!("integer:{number}"),
        Content::Unsigned(number) => format!("unsigned:{number}"),
        Content::Counter(number) => format!("counter:{number}"),
        Content::String(octets) => format!("hex:{}", hex(octets)),
        Content::NoSuchObject => "noSuchObject".to_string(),
        Content::NoSuchInstance => "noSuchInstance".to_string(),
        Content::EndOfMibView => "endOfMibView".to_string(),
    }
}
