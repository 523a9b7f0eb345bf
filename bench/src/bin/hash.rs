//! Compares the proved SHA-256 with the plain one, then measures both in one run.
//! With the argument `compare` it only compares.

use bench::{library, Random};
use second::sha256::sha256;
use std::hint::black_box;
use std::process::exit;
use std::time::{Duration, Instant};

const MIB: usize = 1 << 20;
const SHORT: usize = 65;
const COUNT: usize = 20_000;
const RUNS: usize = 9;

/// The proved function in the shape of the plain one.
fn proved(message: &[u8]) -> [u8; 32] {
    let mut digest = [0; 32];
    library::sha256(message, &mut digest);
    digest
}

fn fail(what: &str, length: usize) -> ! {
    eprintln!("hash: {what}, message of {length} bytes");
    exit(1);
}

/// Compares the digests of one message, and checks the bytes that must not change.
fn compare(message: &[u8]) {
    let expected = sha256(message);
    // Two fillings, so that a byte of the digest that is not written cannot pass by chance.
    for filling in [0x00, 0xff] {
        // Exactly enough room and more than enough: the bytes after the digest stay.
        for room in [32, 40] {
            let mut buffer = [filling; 48];
            if library::sha256(message, &mut buffer[..room]) != 32 {
                fail(
                    &format!("the answer is not 32 with {room} bytes of room"),
                    message.len(),
                );
            }
            if buffer[..32] != expected {
                fail("the digests differ", message.len());
            }
            if buffer[32..] != [filling; 16] {
                fail("bytes after the digest have changed", message.len());
            }
        }
        // Too little room: nothing is written.
        for room in [0, 1, 31] {
            let mut buffer = [filling; 48];
            if library::sha256(message, &mut buffer[..room]) != 0 {
                fail(
                    &format!("the answer is not 0 with {room} bytes of room"),
                    message.len(),
                );
            }
            if buffer != [filling; 48] {
                fail(
                    &format!("bytes have changed with {room} bytes of room"),
                    message.len(),
                );
            }
        }
    }
}

fn compare_all(random: &mut Random) {
    let mut lengths: Vec<usize> = (0..=300).collect();
    lengths.extend((0..1000).map(|_| (random.next() % 5001) as usize));
    lengths.push(MIB);
    let mut compared = 0;
    for length in lengths {
        compare(&random.bytes(length));
        compared += 1;
    }
    println!("compared: {compared} messages, no difference");
}

/// The time to hash all messages of `length` bytes that lie one after the other in `messages`.
fn time(hash: fn(&[u8]) -> [u8; 32], messages: &[u8], length: usize) -> Duration {
    let start = Instant::now();
    for message in messages.chunks_exact(length) {
        black_box(hash(black_box(message)));
    }
    start.elapsed()
}

/// The best times of the proved and of the plain function; they take turns, so that both meet
/// the same state of the machine.
fn best(messages: &[u8], length: usize) -> (f64, f64) {
    let (mut best_proved, mut best_plain) = (Duration::MAX, Duration::MAX);
    for _ in 0..RUNS {
        best_proved = best_proved.min(time(proved, messages, length));
        best_plain = best_plain.min(time(sha256, messages, length));
    }
    (best_proved.as_secs_f64(), best_plain.as_secs_f64())
}

fn measure_all(random: &mut Random) {
    // The buffers are filled here, before the measurement: they are warm, and nothing clears
    // them between the runs.
    let long = random.bytes(MIB);
    let short = random.bytes(SHORT * COUNT);

    let (proved, plain) = best(&long, MIB);
    let speed = |seconds: f64| MIB as f64 / seconds / 1e6;
    println!(
        "1 MiB: proved {:.1} MB/s, plain {:.1} MB/s, time proved/plain {:.3}",
        speed(proved),
        speed(plain),
        proved / plain
    );

    let (proved, plain) = best(&short, SHORT);
    let each = |seconds: f64| seconds / COUNT as f64 * 1e9;
    println!(
        "{SHORT} bytes: proved {:.1} ns, plain {:.1} ns a message, time proved/plain {:.3}",
        each(proved),
        each(plain),
        proved / plain
    );
}

fn main() {
    let arguments: Vec<String> = std::env::args().skip(1).collect();
    let only_compare = match arguments.as_slice() {
        [] => false,
        [word] if word == "compare" => true,
        _ => {
            eprintln!("usage: hash [compare]");
            exit(2);
        }
    };
    let mut random = Random::new();
    compare_all(&mut random);
    if !only_compare {
        measure_all(&mut random);
    }
}
