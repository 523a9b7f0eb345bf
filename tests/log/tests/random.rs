//! The generator and the rules that make contents and outputs up give the same in every run.

mod common;

use common::{CONTENTS, LABEL};
use honest_log::{ContentRule, Random, VrfRule};

#[test]
fn generator() {
    let mut random = Random::new(0);
    assert_eq!(random.next(), 0xe220_a839_7b1d_cdaf);
    assert_eq!(random.next(), 0x6e78_9e6a_a1b9_65f4);
    for _ in 0..1000 {
        assert!(random.below(7) < 7);
        assert!((3..=5).contains(&random.between(3, 5)));
    }
    random.between(0, u64::MAX);
    assert_eq!(Random::new(9).bytes(40), Random::new(9).bytes(40));
    assert_ne!(Random::new(9).digest(), Random::new(8).digest());
}

#[test]
fn contents() {
    let lengths: Vec<usize> = (0..200)
        .map(|v| CONTENTS.contents(LABEL, v).value.len())
        .collect();
    assert_eq!(lengths.iter().min(), Some(&CONTENTS.shortest));
    assert_eq!(lengths.iter().max(), Some(&CONTENTS.longest));
    let other = ContentRule {
        seed: 6,
        ..CONTENTS
    };
    assert_ne!(other.contents(LABEL, 1), CONTENTS.contents(LABEL, 1));
    assert_ne!(CONTENTS.contents(LABEL, 1), CONTENTS.contents(LABEL, 2));
    assert_ne!(CONTENTS.contents(b"", 1), CONTENTS.contents(LABEL, 1));
    assert_eq!(CONTENTS.contents(LABEL, 1), CONTENTS.contents(LABEL, 1));
}

#[test]
fn outputs() {
    let hashed = VrfRule::Hashed { seed: 1 };
    assert_ne!(hashed.output(LABEL, 0), hashed.output(LABEL, 1));
    assert_ne!(
        hashed.output(LABEL, 0),
        VrfRule::Hashed { seed: 2 }.output(LABEL, 0)
    );
    let table = VrfRule::table(LABEL, &[4, 5], &[[1; 32], [2; 32]], hashed.clone());
    assert_eq!(table.output(LABEL, 5), [2; 32]);
    assert_eq!(table.output(LABEL, 6), hashed.output(LABEL, 6));
    assert_eq!(table.output(b"", 5), hashed.output(b"", 5));
}
