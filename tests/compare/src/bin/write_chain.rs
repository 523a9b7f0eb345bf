//! Writes a chain of answers of a growing log to one boot agent: `write_chain DIRECTORY`. In the order of their names, each folder has
//! what the agent is given, the line that it must print, `outcome`, and what it must keep then, `state` and `value`.

use compare::base::{settings, Plan};
use compare::case::{Answer, Inputs};
use compare::program;
use honest_log::model::{Exchange, Kind, Response, State};
use honest_log::{ContentRule, Log, Question};
use second::sha256::sha256;
use std::env;
use std::fs;
use std::io;
use std::path::PathBuf;

const LABEL: &[u8] = b"turbine-7";
const HOUR: u64 = 3_600_000;

/// The key of the stand-in for the chip (agent/chip.c).
const BENCH_KEY: &[u8] = b"bench key, known to all";

/// What each refusal means: a table with a row for its number.
const REFUSALS: &str = include_str!("../../../../docs/REFUSALS.md");

/// What the agent says where the chip does not approve.
const UNSIGNED: &str = "refused: the chip does not approve the log's signature\n";

/// The refusal of a signed text that is another one.
const SIGNED_TEXT: u8 = 15;

fn main() -> io::Result<()> {
    let directory = env::args().nth(1).expect("usage: write_chain DIRECTORY");
    let mut chain = Chain::new(PathBuf::from(directory));
    chain.first_key()?;
    chain.growth()?;
    chain.other_inputs()?;
    chain.another_log()?;
    chain.end()
}

/// A log of 40 hours and what the agent keeps.
struct Chain {
    directory: PathBuf,
    log: Log,
    state: State,
    value: Option<Vec<u8>>,
    answers: u8,
}

/// The honest log with these contents.
fn log(seed: u64) -> Log {
    let mut plan = Plan::new(
        LABEL,
        40,
        &[(0, 0), (2, 1), (5, 2), (14, 3), (21, 4), (33, 5)],
    );
    plan.pace = HOUR;
    plan.contents = ContentRule {
        seed,
        shortest: 20,
        longest: 40,
    };
    plan.log()
}

/// The answers, honest ones and those that must be refused.
impl Chain {
    /// Before anything is kept.
    fn first_key(&mut self) -> io::Result<()> {
        let mut inputs = Inputs::of(&self.search(6));
        inputs.response.pop();
        self.refuse("cut short", 5, &inputs)?;
        self.accept("first search", self.search(6))?;
        self.accept("monitoring", self.monitor(8))
    }

    fn growth(&mut self) -> io::Result<()> {
        let old = self.search(11);
        self.accept("search", old.clone())?;

        let mut foreign = Inputs::of(&self.search(12));
        foreign.identifier[15] ^= 1;
        self.refuse("foreign identifier", 6, &foreign)?;

        let mut replayed = Inputs::of(&self.search(12));
        replayed.response = old.response.text();
        replayed.signed = old.signed_text();
        self.refuse("replayed", 6, &replayed)?;

        let mut other_kind = Inputs::of(&self.monitor(12));
        other_kind.kind = Kind::Search;
        self.refuse("monitoring for a search", 6, &other_kind)?;

        self.refuse("log of an hour ago", 7, &Inputs::of(&self.search(10)))?;

        let next = self.search(12);
        let inputs = Inputs::of(&next);
        let mut signature = signature(&inputs.signed);
        signature[0] ^= 1;
        self.refuse_unsigned("bad signature", &inputs, &signature)?;
        self.refuse_unsigned("no signature", &inputs, &[])?;
        self.refuse_unsigned(
            "long signature",
            &inputs,
            &[signature, vec![0; 300]].concat(),
        )?;
        self.accept("search again", next)?;
        self.accept("monitoring of the same log", self.monitor(12))
    }

    fn other_inputs(&mut self) -> io::Result<()> {
        let honest = self.search(13);
        let on_inputs: [(&str, u8, fn(&mut Inputs)); 6] = [
            ("settings too long", 1, |i| i.settings.resize(2_049, 0)),
            ("settings of another suite", 2, |i| i.settings[1] = 2),
            ("sheet not whole", 4, |i| i.sheet.truncate(35)),
            ("sheet with too few records", 10, |i| i.sheet.truncate(36)),
            ("clock of tomorrow", 11, |i| i.clock += 25 * HOUR),
            ("clock of yesterday", 11, |i| i.clock -= 25 * HOUR),
        ];
        for (name, number, change) in on_inputs {
            let mut inputs = Inputs::of(&honest);
            change(&mut inputs);
            self.refuse(name, number, &inputs)?;
        }
        let on_response: [(&str, u8, fn(&mut Response)); 4] = [
            ("short identifier", 5, |r| r.identifier.truncate(15)),
            ("spare node", 9, |r| r.nodes.push([0; 32])),
            ("damaged lookup", 12, |r| {
                r.entries[0].lookups[0].siblings[0][0] ^= 1
            }),
            ("damaged node under what is kept", 14, |r| {
                r.nodes[0][0] ^= 1
            }),
        ];
        for (name, number, change) in on_response {
            let mut damaged = honest.clone();
            change(&mut damaged.response);
            self.refuse(name, number, &Inputs::of(&damaged))?;
        }
        self.accept("undamaged", honest)
    }

    fn another_log(&mut self) -> io::Result<()> {
        let older = self.log.search_target(&self.question(14), 1);
        let older = older.expect("the log has entries").exchange;
        self.refuse("older version", 8, &Inputs::of(&older))?;

        let hidden = self.log.search_target(&self.question(16), 2);
        let hidden = hidden.expect("the log has entries").exchange;
        self.refuse("newest version hidden", 13, &Inputs::of(&hidden))?;

        let mut damaged = self.search(16);
        damaged.response.nodes[0][0] ^= 1;
        self.refuse("damaged node", SIGNED_TEXT, &Inputs::of(&damaged))?;

        let forged = log(2);
        let forgery = forged.search(&self.question(14));
        let forgery = forgery.expect("the label has versions").exchange;
        self.refuse("forged history", 14, &Inputs::of(&forgery))?;

        // Of 16 entries only the last is shown: what was kept is used and not compared, and gives another root.
        let unseen = forged.search(&self.question(16));
        let unseen = unseen.expect("the label has versions").exchange;
        self.refuse(
            "forged history, nothing old shown",
            SIGNED_TEXT,
            &Inputs::of(&unseen),
        )
    }

    fn end(&mut self) -> io::Result<()> {
        self.accept("search of 16", self.search(16))?;
        self.accept("monitoring of 23", self.monitor(23))?;
        self.accept("search of 23", self.search(23))?;
        self.accept("monitoring of 32", self.monitor(32))?;
        self.accept("search of 40", self.search(40))?;
        self.accept("monitoring of 40", self.monitor(40))
    }
}

/// Asking and writing.
impl Chain {
    fn new(directory: PathBuf) -> Chain {
        Chain {
            directory,
            log: log(1),
            state: State::new(LABEL),
            value: None,
            answers: 0,
        }
    }

    /// A question half a minute after the last of so many entries; each has its own identifier.
    fn question(&self, size: u64) -> Question {
        Question {
            identifier: sha256(&[self.answers])[..16].to_vec(),
            clock: self.log.entry(size - 1).time + 30_000,
            settings: settings(),
            state: self.state.clone(),
            size,
        }
    }

    fn search(&self, size: u64) -> Exchange {
        let answer = self.log.search(&self.question(size));
        answer.expect("the label has versions").exchange
    }

    fn monitor(&self, size: u64) -> Exchange {
        let answer = self.log.monitor(&self.question(size));
        answer.expect("the log has entries").exchange
    }

    /// An answer that must be accepted.
    fn accept(&mut self, name: &str, exchange: Exchange) -> io::Result<()> {
        let inputs = Inputs::of(&exchange);
        let answer = program::plain(&inputs.files());
        assert_eq!(answer, Answer::of(0, &exchange), "{name}");
        let Answer::Accepted(acceptance) = answer else {
            unreachable!("it is the accepted one");
        };
        let line = format!(
            "accepted: {}, tree size {}\n",
            exchange.kind.word(),
            acceptance.size
        );
        self.state = exchange.new_state;
        self.value = acceptance.value.or(self.value.take());
        self.write(name, &inputs, &signature(&inputs.signed), &line)
    }

    /// An answer that must be refused with a number, signed by the log. Where the log has signed another text, the chip refuses.
    fn refuse(&mut self, name: &str, number: u8, inputs: &Inputs) -> io::Result<()> {
        let answer = program::plain(&inputs.files());
        assert_eq!(answer, Answer::Refused(number), "{name}");
        let line = match number {
            SIGNED_TEXT => UNSIGNED.to_string(),
            number => refusal(number),
        };
        self.write(name, inputs, &signature(&inputs.signed), &line)
    }

    /// An answer that must be refused for its signature alone.
    fn refuse_unsigned(&mut self, name: &str, inputs: &Inputs, signature: &[u8]) -> io::Result<()> {
        let answer = program::plain(&inputs.files());
        assert!(matches!(answer, Answer::Accepted(_)), "{name}");
        self.write(name, inputs, signature, UNSIGNED)
    }

    /// The folder of the next answer.
    fn write(
        &mut self,
        name: &str,
        inputs: &Inputs,
        signature: &[u8],
        line: &str,
    ) -> io::Result<()> {
        self.answers += 1;
        let folder = self.directory.join(format!("{:02} {name}", self.answers));
        fs::create_dir_all(&folder)?;
        let put = |name: &str, bytes: &[u8]| fs::write(folder.join(name), bytes);
        put("request", &inputs.request())?;
        put("response", &inputs.response)?;
        put("settings", &inputs.settings)?;
        put("sheet", &inputs.sheet)?;
        put("signature", signature)?;
        put("outcome", line.as_bytes())?;
        if self.state.size > 0 {
            put("state", &self.state.text())?;
        }
        match &self.value {
            Some(value) => put("value", value),
            None => Ok(()),
        }
    }
}

/// The bench signature of a text (agent/chip.c).
fn signature(text: &[u8]) -> Vec<u8> {
    sha256(&[BENCH_KEY, text].concat()).to_vec()
}

/// The line of a refusal.
fn refusal(number: u8) -> String {
    let start = format!("| {number} | ");
    let row = REFUSALS.lines().find(|line| line.starts_with(&start));
    let said = row.and_then(|row| row.split(" | ").nth(2));
    let said = said.expect("a row with a sentence");
    format!("refused {number}: {said}\n")
}
