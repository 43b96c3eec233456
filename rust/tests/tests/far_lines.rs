//! Sorting and narrowing in any order where the listed lines lie far apart: between them stand long
//! lines that are no signs and are not listed, so that lines next to each other start more than
//! 65,535 bytes apart.

use differential::generate::dictionary_of;
use differential::lists::*;
use differential::{cases, Both, Charset, Edition, Interface, Random, BOTH_SETS};
use Edition::First;

/// A line that is no sign: no byte ends it, and it begins as a sign does.
fn long_line(length: usize) -> Vec<u8> {
    let mut line = b"AS10000M500x500".repeat(length / 15 + 1);
    line.truncate(length);
    line
}

/// Signs with prefixes, and long lines of these lengths at these places, from 0. Where a line is
/// long, no entry is to be listed.
struct Far {
    lines: Vec<Vec<u8>>,
    listed: Vec<u16>,
}

impl Far {
    fn new(random: &mut Random, set: Charset, count: usize, long: &[(usize, usize)]) -> Far {
        let mut lines: Vec<Vec<u8>> = (0..count)
            .map(|_| in_set(set, prefixed_sign(random, Prefixes::Few)))
            .collect();
        for &(place, length) in long {
            lines[place] = long_line(length);
        }
        let is_listed = |&entry: &u16| {
            let place = usize::from(entry) - 1;
            long.iter().all(|&(long, _)| long != place)
        };
        let listed = (1..=count as u16).filter(is_listed).collect();
        Far { lines, listed }
    }

    /// Sorts and narrows the signs in any order, then the sorted list.
    fn expect(&self, random: &mut Random, set: Charset) {
        let dictionary = dictionary_of(&self.lines);
        let mut list = self.listed.clone();
        random.shuffle(&mut list);
        expect_narrowed(set, &dictionary, &mut list.clone(), First, b"QT");
        expect_sorted(set, &dictionary, &mut list);
        expect_narrowed(set, &dictionary, &mut list, First, b"QAR100t386T");
        // Few of them, from all parts of the dictionary.
        let mut few = self.listed.clone();
        random.shuffle(&mut few);
        few.truncate(random.between(1, 6));
        expect_sorted(set, &dictionary, &mut few);
        expect_narrowed(set, &dictionary, &mut few, First, b"QT");
    }

    /// A long line is refused where it is listed, before and after any sign.
    fn expect_refused(&self, random: &mut Random, set: Charset, long: usize) {
        let dictionary = dictionary_of(&self.lines);
        let mut list = self.listed.clone();
        random.shuffle(&mut list);
        for place in [0, random.below(list.len() + 1), list.len()] {
            let mut lent = list.clone();
            lent.insert(place, long as u16 + 1);
            let (count, mut spare) = (lent.len(), vec![9; lent.len()]);
            let answer = Both.sort(set, &dictionary, &mut lent, count, &mut spare);
            assert_eq!(answer, [13, long as u64 + 1]);
            let answer = Both.narrow_sorted(set, &dictionary, &mut lent, count, First, b"QT");
            assert_eq!(answer, [13, long as u64 + 1, 0, 0]);
        }
    }
}

/// One long line at every place of the first 70 lines.
#[test]
fn one_long_line() {
    let mut random = Random::new(680_000);
    for set in BOTH_SETS {
        for place in 0..70 {
            let far = Far::new(&mut random, set, 70, &[(place, 100_000)]);
            far.expect(&mut random, set);
            far.expect_refused(&mut random, set, place);
        }
    }
}

/// The line after a long one starts so many bytes after the first line, the 32nd or the 33rd: 65,535
/// and 65,536 with those next to them.
#[test]
fn each_distance() {
    let mut random = Random::new(681_000);
    for set in BOTH_SETS {
        for first in [0, 31, 32] {
            for place in [first, first + 1, first + 2, first + 30, first + 31] {
                for distance in 65_530..65_542 {
                    let mut far = Far::new(&mut random, set, 70, &[(place, 0)]);
                    let before: usize = far.lines[first..place].iter().map(|l| l.len() + 1).sum();
                    far.lines[place] = long_line(distance - before - 1);
                    far.expect(&mut random, set);
                }
            }
        }
    }
}

/// Long lines between all signs, in pairs, and around them.
#[test]
fn many_long_lines() {
    let mut random = Random::new(682_000);
    for set in BOTH_SETS {
        for step in [2, 3, 5, 31, 32, 33] {
            for start in [0, 1, 2, 31, 32] {
                let long: Vec<(usize, usize)> =
                    (start..70).step_by(step).map(|at| (at, 100_000)).collect();
                Far::new(&mut random, set, 70, &long).expect(&mut random, set);
            }
        }
        let ends = [(0, 100_000), (1, 100_000), (69, 100_000)];
        Far::new(&mut random, set, 70, &ends).expect(&mut random, set);
    }
}

/// No line is very long, but 32 of them are: all but those named are lines of 3,000 bytes.
#[test]
fn long_together() {
    let mut random = Random::new(683_000);
    for set in BOTH_SETS {
        for signs in [
            [0, 31, 32],
            [0, 20, 22],
            [21, 22, 23],
            [30, 31, 63],
            [32, 54, 95],
        ] {
            let long: Vec<(usize, usize)> = (0..96)
                .filter(|place| !signs.contains(place))
                .map(|place| (place, 3_000))
                .collect();
            let far = Far::new(&mut random, set, 96, &long);
            for _ in 0..5 {
                far.expect(&mut random, set);
            }
        }
    }
}

/// Lengths and places of all kinds, and now and then a bad line among those listed.
#[test]
fn any_long_lines() {
    const LENGTHS: [usize; 10] = [
        0, 1, 30_000, 60_000, 65_000, 65_534, 65_535, 65_536, 100_000, 131_072,
    ];
    cases(684_000, 300, |random| {
        let set = *random.pick(&BOTH_SETS);
        let count = random.between(2, 140);
        let long: Vec<(usize, usize)> = (0..random.between(1, 6))
            .map(|_| (random.below(count), *random.pick(&LENGTHS)))
            .collect();
        let far = Far::new(random, set, count, &long);
        if far.listed.is_empty() {
            return;
        }
        far.expect(random, set);
        far.expect_refused(random, set, long[0].0);
    });
}

/// Among the most lines.
#[test]
fn among_the_most_lines() {
    let mut random = Random::new(685_000);
    let long = [1, 40, 30_000, 30_001, 65_500, 65_533].map(|place| (place, 100_000));
    for set in BOTH_SETS {
        let far = Far::new(&mut random, set, 65_535, &long);
        far.expect(&mut random, set);
        far.expect_refused(&mut random, set, 65_533);
    }
}
