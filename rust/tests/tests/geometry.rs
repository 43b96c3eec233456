//! Boxes, shifting and centring, with every kind of size list, pair and room.

use differential::damage::{damaged, noise};
use differential::generate::{in_swu, short_sign, sign, sizes};
use differential::interface::OFFSETS;
use differential::{cases, Both, Charset, Interface, Random, Tally, BOTH_SETS};
use std::collections::BTreeSet;

/// Most symbols sized, few unsized, many unsized, and lists of wrong lengths.
fn size_lists() -> Vec<Vec<u8>> {
    let mut random = Random::new(100_000);
    let all = sizes(&mut random, 0);
    let mut longer = all.clone();
    longer.push(9);
    let shorter = all[1..].to_vec();
    vec![
        all,
        sizes(&mut random, 40),
        sizes(&mut random, 3),
        vec![0; 125_184],
        vec![255; 125_184],
        shorter,
        longer,
        vec![],
        vec![1, 2],
    ]
}

/// Mostly the good list.
fn size_list<'a>(random: &mut Random, lists: &'a [Vec<u8>]) -> &'a [u8] {
    if random.once_in(2) {
        return &lists[0];
    }
    &lists[random.below(lists.len())]
}

fn text_in(random: &mut Random, set: Charset) -> Vec<u8> {
    let fsw = sign(random);
    let text = match set {
        Charset::Fsw => fsw,
        Charset::Swu => in_swu(&fsw).unwrap(),
    };
    if random.once_in(5) {
        return damaged(random, &text);
    }
    text
}

/// No room, one byte too few, just enough, and more.
fn rooms(random: &mut Random, needed: usize) -> [usize; 4] {
    let too_few = needed.saturating_sub(1);
    [0, too_few, needed, needed + random.between(1, 50)]
}

/// In the text written each symbol stands where it stood before.
fn stands_as_before(set: Charset, before: &[u8], written: &[u8]) {
    let (old, new) = (Both.read(set, before), Both.read(set, written));
    assert_eq!((old.1, new.1), ([0, 0], [0, 0]));
    assert_eq!(old.0[OFFSETS..], new.0[OFFSETS..]);
}

#[test]
fn boxes() {
    let lists = size_lists();
    for set in BOTH_SETS {
        let mut tally = Tally::default();
        cases(110_000, 30_000, |random| {
            let text = text_in(random, set);
            let (centre, answer) = Both.boxes(set, &text, size_list(random, &lists));
            assert_eq!(f64::from(centre[0]) * 2.0, answer[17] as f64);
            assert_eq!(f64::from(centre[1]) * 2.0, answer[18] as f64);
            tally.note(answer[0]);
        });
        tally.expect(&[0, 1, 2, 3, 4, 7, 8, 9]);
    }
}

/// The head serves x, head with trunk serves y, and the whole box either where its group has no
/// symbol.
#[test]
fn axes() {
    let lists = size_lists();
    let mut met = BTreeSet::new();
    cases(150_000, 10_000, |random| {
        let (_, answer) = Both.boxes(Charset::Fsw, &short_sign(random), &lists[0]);
        let (head, body, all) = (&answer[2..7], &answer[7..12], &answer[12..17]);
        let across = if head[0] == 1 { head } else { all };
        let down = if body[0] == 1 { body } else { all };
        assert_eq!(answer[17..], [across[1] + across[3], down[2] + down[4]]);
        met.insert((all[0], head[0], body[0], head == body));
    });
    let (no_symbol, neither) = ((0, 0, 0, true), (1, 0, 0, true));
    let (trunk, head, both) = ((1, 0, 1, false), (1, 1, 1, true), (1, 1, 1, false));
    assert_eq!(met, [no_symbol, neither, trunk, head, both].into());
}

#[test]
fn centring() {
    let lists = size_lists();
    for set in BOTH_SETS {
        let mut tally = Tally::default();
        cases(120_000, 16_000, |random| {
            let text = text_in(random, set);
            let sizes = size_list(random, &lists);
            for room in rooms(random, text.len()) {
                let mut out = vec![b'?'; room];
                let answer = Both.centred(set, &text, sizes, &mut out);
                tally.note(answer[0]);
                if answer[0] == 0 {
                    stands_as_before(set, &text, &out[..answer[2] as usize]);
                    centred_again(set, sizes, &out, answer);
                }
            }
        });
        tally.expect(&[0, 1, 2, 3, 4, 6, 7, 8, 9, 10]);
    }
}

/// The text that was written is centred again with the same room: the answer and the text are
/// the same, and in the memory as it was left no byte changes.
fn centred_again(set: Charset, sizes: &[u8], left: &[u8], answer: [u64; 3]) {
    let (text, rest) = left.split_at(answer[2] as usize);
    let mut again = left.to_vec();
    assert_eq!(Both.centred(set, text, sizes, &mut again), answer);
    assert_eq!(again, left);
    let mut fresh = vec![b'!'; left.len()];
    assert_eq!(Both.centred(set, text, sizes, &mut fresh), answer);
    assert_eq!(fresh, [text, &vec![b'!'; rest.len()]].concat());
}

fn step(random: &mut Random) -> i32 {
    match random.below(8) {
        0 => *random.pick(&[i32::MIN, i32::MIN + 1, i32::MAX - 1, i32::MAX]),
        1 => random.bits() as i32,
        2 => *random.pick(&[-500, -499, 499, 500, -65_536, 65_536, 65_535]),
        3 => random.between(0, 600) as i32 - 300,
        _ => random.between(0, 80) as i32 - 40,
    }
}

#[test]
fn shifting() {
    for set in BOTH_SETS {
        let mut tally = Tally::default();
        cases(130_000, 40_000, |random| {
            let text = text_in(random, set);
            let by = (step(random), step(random));
            for room in rooms(random, text.len()) {
                let mut out = vec![b'?'; room];
                let answer = Both.shift(set, &text, by, &mut out);
                tally.note(answer[0]);
                if answer[0] == 0 {
                    stands_as_before(set, &text, &out[..answer[2] as usize]);
                    let mut back = vec![0; text.len()];
                    let answer = Both.shift(set, &out[..text.len()], (-by.0, -by.1), &mut back);
                    assert_eq!((answer[0], &back), (0, &text));
                }
            }
        });
        tally.expect(&[0, 1, 2, 3, 4, 6, 10]);
    }
}

/// Every step that keeps a number within 250 to 749, and those just beyond.
#[test]
fn every_step() {
    for number in [250, 251, 500, 748, 749] {
        let text = format!("M{number}x500S10000500x{number}");
        for step in -502..=502 {
            let mut out = vec![0; text.len()];
            let answer = Both.shift(Charset::Fsw, text.as_bytes(), (step, 0), &mut out);
            let stays = (250..=749).contains(&(number + step)) && (-250..=249).contains(&step);
            assert_eq!(answer[0], if stays { 0 } else { 10 });
            Both.shift(Charset::Fsw, text.as_bytes(), (0, step), &mut out);
        }
    }
}

#[test]
fn noise_to_be_moved() {
    let lists = size_lists();
    cases(140_000, 6_000, |random| {
        let text = noise(random, 30);
        let sizes = size_list(random, &lists);
        let mut out = noise(random, 40);
        for set in BOTH_SETS {
            Both.boxes(set, &text, sizes);
            Both.centred(set, &text, sizes, &mut out);
            Both.shift(set, &text, (1, -1), &mut out);
        }
    });
}
