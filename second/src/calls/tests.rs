//! What the calls write and answer, and calls with damaged inputs.

use super::*;
use crate::example::{first_search, monitoring, second_search, Example};

#[test]
fn answers() {
    let example = second_search();
    let mut output = [0xee; 1024];
    let mut new_state = [0xee; 8192];
    let answer = search(
        &example.arguments(),
        &example.signed,
        &mut output,
        &mut new_state,
    );
    let length = example.new_state.len() as u64;
    assert_eq!(answer, 6 << 8 | length << 32);
    assert_eq!(&output[..7], b"second\xee");
    assert_eq!(&new_state[..length as usize], example.new_state);
    assert_eq!(new_state[length as usize], 0xee);

    let example = monitoring();
    let mut new_state = [0xee; 8192];
    let answer = monitor(&example.arguments(), &example.signed, &mut new_state);
    assert_eq!(answer, (example.new_state.len() as u64) << 32);
}

// An empty value fills no byte, not even of an empty room.
#[test]
fn empty_value() {
    let mut example = first_search();
    example.value_room = 0;
    assert_eq!(example.number(), 16);
    // With another value the commitment is another, so only the number tells.
    let example = example.with("\t6669727374\n", "\t-\n");
    assert_eq!(example.number(), 12);
}

#[test]
fn signed_text_room() {
    let example = second_search();
    let length = example.signed.len();
    let call = |room: usize, offset: u64| {
        let mut buffer = vec![0xee; room];
        let answer = signed_text(0, &example.arguments(), &mut buffer, offset);
        if answer == length as u64 {
            let start = offset as usize;
            assert_eq!(buffer[start..start + length], example.signed);
            buffer.drain(start..start + length);
        }
        assert!(buffer.iter().all(|&byte| byte == 0xee));
        answer
    };
    assert_eq!(length, 75);
    assert_eq!(call(75, 0), 75);
    assert_eq!(call(100, 25), 75);
    assert_eq!(call(100, 3), 75);
    assert_eq!(call(100, 26), 16);
    assert_eq!(call(74, 0), 16);
    assert_eq!(call(0, 0), 16);
    assert_eq!(call(100, 100), 16);
    assert_eq!(call(100, 101), 16);
    assert_eq!(call(100, u64::MAX), 16);
}

// The 49th pair is no matter of this call, and the room comes after the other numbers.
#[test]
fn signed_text_numbers() {
    let mut buffer = [0; 2088];
    let full = crate::example::full_map(0);
    assert_eq!(signed_text(0, &full.arguments(), &mut buffer, 0), 75);
    assert_eq!(buffer[..75], full.signed);
    let broken = second_search().with("head\t3", "head\t2");
    assert_eq!(signed_text(0, &broken.arguments(), &mut [], 9), 7);
}

#[test]
fn unknown_kinds() {
    let mut buffer = [0; 2088];
    let mut call =
        |kind: u32, example: &Example| signed_text(kind, &example.arguments(), &mut buffer, 0);
    let search = second_search();
    assert_eq!(call(0, &search), 75);
    assert_eq!(call(1, &search), 6);
    assert_eq!(call(2, &search), 6);
    assert_eq!(call(u32::MAX, &search), 6);
    assert_eq!(call(1, &monitoring()), 75);
    assert_eq!(call(0, &monitoring()), 6);
    assert_eq!(call(2, &search.clone().with("end\n", "end")), 5);
    assert_eq!(call(2, &search.clone().with_state("size", "Size")), 3);
    let mut short = search.clone();
    short.identifier.pop();
    assert_eq!(call(2, &short), 1);
}

#[test]
fn ladders() {
    let mut versions = [0xee; 257];
    assert_eq!(ladder(3, &mut versions), 6);
    let expected = [0, 1, 3, 7, 5, 4].map(u32::to_be_bytes).concat();
    assert_eq!(versions[..24], expected);
    assert!(versions[24..].iter().all(|&byte| byte == 0xee));
    assert_eq!(ladder(u32::MAX - 1, &mut versions), 64);
    assert_eq!(versions[252..], [0xff, 0xff, 0xff, 0xfe, 0xee]);

    let mut untouched = [0xee; 300];
    assert_eq!(ladder(u32::MAX, &mut untouched), 0);
    assert_eq!(ladder(u32::MAX - 1, &mut untouched[..255]), 0);
    assert_eq!(ladder(0, &mut untouched[..7]), 0);
    assert_eq!(ladder(0, &mut []), 0);
    assert!(untouched.iter().all(|&byte| byte == 0xee));
    assert_eq!(ladder(0, &mut untouched[..8]), 2);
}

/// A source of numbers that look random.
struct Random(u64);

impl Random {
    /// A number below a bound.
    fn below(&mut self, bound: usize) -> usize {
        self.0 ^= self.0 << 13;
        self.0 ^= self.0 >> 7;
        self.0 ^= self.0 << 17;
        (self.0 >> 11) as usize % bound.max(1)
    }

    /// Changes some bytes, at one place.
    fn damage(&mut self, bytes: &mut Vec<u8>) {
        let place = self.below(bytes.len() + 1);
        let length = self.below(70).min(bytes.len() - place);
        match self.below(8) {
            0 => bytes.truncate(place),
            1 => bytes.insert(place, self.below(256) as u8),
            2 => {
                bytes.drain(place..place + length);
            }
            3 => {
                let part = bytes[place..place + length].to_vec();
                bytes.splice(place..place, part);
            }
            4 => bytes.extend_from_within(place..place + length),
            5 if length > 0 => bytes[place] = b"0123456789abcdef\t\n-"[self.below(19)],
            _ if length > 0 => bytes[place] ^= 1 << self.below(8),
            _ => bytes.push(b'\n'),
        }
    }

    /// Swaps, repeats or drops a line, or changes the first number or the word in it.
    fn damage_line(&mut self, bytes: &mut Vec<u8>) {
        let mut lines: Vec<&[u8]> = bytes.split(|&byte| byte == b'\n').collect();
        let (one, other) = (self.below(lines.len()), self.below(lines.len()));
        let line = lines[one];
        let changed = self.with_other_field(line);
        match self.below(6) {
            0 => lines.swap(one, other),
            1 => lines.insert(other, line),
            2 => {
                lines.remove(one);
            }
            _ => lines[one] = &changed,
        }
        *bytes = lines.join(&b'\n');
    }

    /// A line with another word, or with another number in its first field.
    fn with_other_field(&mut self, line: &[u8]) -> Vec<u8> {
        let numbers: [&[u8]; 6] = [
            b"0",
            b"1",
            b"2",
            b"3",
            b"4294967295",
            b"18446744073709551615",
        ];
        let words: [&[u8]; 5] = [b"in", b"no", b"step", b"node", b"nl"];
        let mut fields: Vec<&[u8]> = line.split(|&byte| byte == b'\t').collect();
        if self.below(4) == 0 {
            fields[0] = words[self.below(words.len())];
        } else if fields.len() > 1 {
            fields[1] = numbers[self.below(numbers.len())];
        }
        fields.join(&b'\t')
    }
}

// Whatever the bytes, a call ends, all its forms agree, and a refusal changes no byte.
#[test]
fn damaged_inputs() {
    let mut random = Random(0x9e37_79b9_7f4a_7c15);
    let examples = [first_search(), monitoring(), second_search()];
    let mut seen = [0; 17];
    for _ in 0..12_000 {
        let mut example = examples[random.below(3)].clone();
        for _ in 0..=random.below(2) {
            match random.below(12) {
                0 => random.damage(&mut example.settings),
                1 => random.damage(&mut example.state),
                2 => random.damage_line(&mut example.state),
                3 => random.damage(&mut example.sheet),
                4 => random.damage(&mut example.signed),
                5 => example.clock = random.below(2000) as u64,
                6 => example.value_room = random.below(10),
                7 | 8 => random.damage(&mut example.response),
                _ => random.damage_line(&mut example.response),
            }
        }
        seen[example.answer().number as usize] += 1;
    }
    // All but the rare numbers were met.
    for number in [0, 2, 3, 4, 5, 6, 7, 8, 9, 10, 11, 12, 13, 14, 15, 16] {
        assert!(seen[number] > 0, "{number}: {seen:?}");
    }
}

// The largest responses of the cheapest lines end at once.
#[test]
fn largest_inputs() {
    let example = second_search();
    let text = String::from_utf8(example.response.clone()).unwrap();
    let (start, _) = text.split_once("step\t").unwrap();
    let root = "0".repeat(64);
    let entry = format!("entry\t0\t0\t{root}\n");
    for (before, line, number) in [
        ("", "step\t0\t-\n".to_string(), 9),
        ("", entry.clone(), 9),
        (&entry[..], "in\t0\t-\n".to_string(), 9),
        (&entry[..], format!("nl\t0\t{root}\t{root}\t-\n"), 9),
        ("", format!("node\t{root}\n"), 9),
        ("", "1".to_string(), 5),
        ("", "step\t".to_string(), 5),
    ] {
        let fixed = start.len() + before.len() + "end\n".len();
        let count = (limits::RESPONSE - fixed) / line.len();
        let mut long = example.clone();
        long.response = format!("{start}{before}{}end\n", line.repeat(count)).into_bytes();
        assert_eq!(long.answer().number, number, "{line:?}");
    }
}
