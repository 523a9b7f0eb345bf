//! Measures the proved calls for responses and the plain ones on the same inputs, long ones and hostile ones, in one
//! run; both must answer the same. Of the proved ones it also measures the stack.

use bench::inputs::Inputs;
use bench::{answers, hostile, library, stack, Random};
use honest_log::model::{Exchange, Kind};
use second::calls::{self, Arguments};
use second::limits;
use std::hint::black_box;
use std::process::exit;
use std::time::{Duration, Instant};

/// The lengths of the long responses; the last is the longest that a call takes.
const LENGTHS: [usize; 3] = [100_000, 500_000, limits::RESPONSE];
const RUNS: usize = 15;
/// Short calls are made so often that a run takes about this long.
const RUN: Duration = Duration::from_micros(500);
const MOST_CALLS: u128 = 1_000;
/// The bits of an answer that are the number.
const NUMBER: u64 = 0xff;

/// The calls that are measured.
#[derive(Clone, Copy, PartialEq, Eq)]
enum Call {
    Search,
    Monitor,
    SignedText,
}

impl Call {
    /// The two for an input: the one that judges the response, and the one for its signed text.
    fn both(inputs: &Inputs) -> [Call; 2] {
        match inputs.kind {
            Kind::Search => [Call::Search, Call::SignedText],
            Kind::Monitor => [Call::Monitor, Call::SignedText],
        }
    }

    /// The call and its inputs in a few words.
    fn name(self, inputs: &Inputs) -> String {
        let (word, name) = (inputs.kind.word(), &inputs.name);
        match self {
            Call::Search | Call::Monitor => format!("{word} {name}"),
            Call::SignedText => format!("signed {word} {name}"),
        }
    }

    /// What of an answer is shown: the number; for a signed text all of it, which is a length or a number.
    fn shown(self, answer: u64) -> u64 {
        match self {
            Call::Search | Call::Monitor => answer & NUMBER,
            Call::SignedText => answer,
        }
    }

    /// What must be shown: the number, or the length of the signed text where no check before 15 refuses.
    fn due(self, inputs: &Inputs) -> u64 {
        match (self, inputs.number) {
            (Call::SignedText, 0 | 15 | 16) => inputs.signed_text.len() as u64,
            (_, number) => number,
        }
    }
}

/// What a call is lent, and what it answered.
#[derive(PartialEq, Eq)]
struct Reply {
    answer: u64,
    output: Vec<u8>,
    new_state: Vec<u8>,
    buffer: Vec<u8>,
}

impl Reply {
    fn new() -> Reply {
        Reply {
            answer: u64::MAX,
            output: vec![0xee; limits::VALUE],
            new_state: vec![0xee; limits::STATE_TEXT],
            buffer: vec![0xee; limits::SIGNED_TEXT],
        }
    }
}

/// The three calls of the proved or of the plain side.
struct Side {
    search: fn(&Arguments, &[u8], &mut [u8], &mut [u8]) -> u64,
    monitor: fn(&Arguments, &[u8], &mut [u8]) -> u64,
    signed_text: fn(u32, &Arguments, &mut [u8], u64) -> u64,
}

const PROVED: Side = Side {
    search: library::search,
    monitor: library::monitor,
    signed_text: library::signed_text,
};

const PLAIN: Side = Side {
    search: calls::search,
    monitor: calls::monitor,
    signed_text: calls::signed_text,
};

impl Side {
    /// Makes a call.
    fn make(&self, call: Call, inputs: &Inputs, reply: &mut Reply) {
        let (arguments, signed) = (&inputs.arguments(), &inputs.signed_text);
        let (output, new_state) = (&mut reply.output, &mut reply.new_state);
        reply.answer = match call {
            Call::Search => (self.search)(arguments, signed, output, new_state),
            Call::Monitor => (self.monitor)(arguments, signed, new_state),
            Call::SignedText => {
                let kind = match inputs.kind {
                    Kind::Search => 0,
                    Kind::Monitor => 1,
                };
                (self.signed_text)(kind, arguments, &mut reply.buffer, 0)
            }
        };
    }
}

/// Compares the answers and all lent bytes, and what is shown of them with what is due.
fn compare(call: Call, inputs: &Inputs) {
    let (mut one, mut other) = (Reply::new(), Reply::new());
    PROVED.make(call, inputs, &mut one);
    PLAIN.make(call, inputs, &mut other);
    if one != other || call.shown(one.answer) != call.due(inputs) {
        eprintln!(
            "calls: {}, {} bytes: proved {:#x}, plain {:#x}, due {}",
            call.name(inputs),
            inputs.response.len(),
            one.answer,
            other.answer,
            call.due(inputs)
        );
        exit(1);
    }
}

/// The time of a call that is made so many times.
fn time(side: &Side, call: Call, inputs: &Inputs, reply: &mut Reply, times: u32) -> Duration {
    let start = Instant::now();
    for _ in 0..times {
        side.make(call, black_box(inputs), black_box(reply));
    }
    start.elapsed()
}

/// The best times of a proved and of a plain call, in seconds; they take turns, so that both meet
/// the same state of the machine.
fn best(call: Call, inputs: &Inputs) -> (f64, f64) {
    let mut reply = Reply::new();
    let sides = [PROVED, PLAIN];
    // How many calls make a run.
    let times = [0, 1].map(|which| {
        let one = time(&sides[which], call, inputs, &mut reply, 1);
        (RUN.as_nanos() / one.as_nanos().max(1)).clamp(1, MOST_CALLS) as u32
    });
    let mut best = [f64::INFINITY; 2];
    for _ in 0..RUNS {
        for which in 0..2 {
            let run = time(&sides[which], call, inputs, &mut reply, times[which]);
            best[which] = best[which].min(run.as_secs_f64() / f64::from(times[which]));
        }
    }
    (best[0], best[1])
}

/// Measures the time of a call and prints its line.
fn measure(call: Call, inputs: &Inputs, stack: usize) {
    let (proved, plain) = best(call, inputs);
    let length = inputs.response.len();
    println!(
        "{:<62} {length:>9} {:>6} {:>11.2} {:>11.2} {:>7.3} {:>8.3} {stack:>7}",
        call.name(inputs),
        call.due(inputs),
        proved * 1e6,
        plain * 1e6,
        proved / plain,
        proved * 1e9 / length as f64,
    );
}

/// Long answers, hostile responses beside them, and answers of the largest logs.
fn all_inputs() -> Vec<Inputs> {
    let long: [(&str, fn(usize) -> Exchange); 5] = [
        ("with long lookups", answers::long_lookups),
        ("with forty entries", answers::many_entries),
        ("with long lookups", answers::long_monitoring),
        ("with many versions", answers::many_versions),
        ("with many entries", answers::many_paths),
    ];
    let mut list = Vec::new();
    for (name, answer) in long {
        list.extend(LENGTHS.map(|length| Inputs::of(name, 0, &answer(length))));
    }
    let mut random = Random::new();
    let mut hostile = LENGTHS.map(|length| hostile::inputs(length, &mut random).into_iter());
    // The three lengths of each kind one under the other.
    while let [Some(short), Some(middle), Some(longest)] = hostile.each_mut().map(Iterator::next) {
        list.extend([short, middle, longest]);
    }
    list.push(hostile::versions());
    list.extend(answers::large_logs());
    list
}

fn main() {
    println!(
        "{:<62} {:>9} {:>6} {:>11} {:>11} {:>7} {:>8} {:>7}",
        "call", "bytes", "answer", "proved us", "plain us", "ratio", "ns/byte", "stack"
    );
    let mut largest = [0; 3];
    for inputs in all_inputs() {
        for call in Call::both(&inputs) {
            compare(call, &inputs);
            let mut reply = Reply::new();
            let stack = stack::used(&mut || PROVED.make(call, &inputs, &mut reply));
            largest[call as usize] = stack.max(largest[call as usize]);
            // Both calls make the same checks before 15: a line for each is only printed where all pass.
            if call != Call::SignedText || inputs.number == 0 {
                measure(call, &inputs, stack);
            }
        }
    }
    let [search, monitor, signed_text] = largest;
    println!(
        "largest stack in bytes: search {search}, monitor {monitor}, signed text {signed_text} (a call that does nothing: {})",
        stack::used(&mut || ())
    );
}
