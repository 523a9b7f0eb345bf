//! Compares the proved ladders with the plain ones: the answer, the versions, and every byte that must not change.

use bench::{library, Random};
use second::calls::ladder;
use std::process::exit;

const ROOM: usize = 264;

/// Calls both functions with the same room, and compares what they answer and leave.
fn compare(version: u32, room: usize, filling: u8) {
    let mut proved = [filling; ROOM + 8];
    let mut plain = proved;
    let answer = library::ladder(version, &mut proved[..room]);
    if answer != ladder(version, &mut plain[..room]) || proved != plain {
        eprintln!("ladder: a difference at version {version} with {room} bytes of room");
        exit(1);
    }
}

/// Small versions, those beside powers of two, the greatest ones, and others.
fn versions(random: &mut Random) -> Vec<u32> {
    let mut versions: Vec<u32> = (0..2000).collect();
    for power in 0..32 {
        versions.extend((0..4).map(|k| (1u32 << power).wrapping_add(k).wrapping_sub(2)));
    }
    versions.extend((0..4).map(|k| u32::MAX - k));
    versions.extend((0..20_000).map(|_| (random.next() >> 32) as u32));
    versions
}

fn main() {
    let mut random = Random::new();
    let versions = versions(&mut random);
    for &version in &versions {
        let length = ladder(version, &mut [0; ROOM]) as usize * 4;
        for room in [0, length.saturating_sub(1), length, length + 1, ROOM] {
            compare(version, room.min(ROOM), 0x00);
            compare(version, room.min(ROOM), 0xff);
        }
    }
    println!(
        "compared: ladders of {} versions, no difference",
        versions.len()
    );
}
