//! Whole runs (document 01, "The dictionary and its list", with the search of document 02, Q-10):
//! a search, and then narrowing calls. The final list is stated from the dictionary and the
//! accepted queries; a reordering and the rewritten dictionary end alike. A run may mix editions
//! (document 02, Q-9). All calls of a run have one form: they narrow a list that rises, or one in
//! any order, which may have been sorted (document 02, Q-12).

use differential::damage::{damaged, noise};
use differential::editions::{query_about_in, query_in, wide_query_in};
use differential::generate::{dictionary, short_sign};
use differential::lists::stated_order;
use differential::{cases, Both, Charset, Edition, Interface, Random, EDITIONS};
use Charset::{Fsw, Swu};
use Edition::{First, Second};

/// What the list holds before a run, up to the line count. From the number that the search writes
/// nothing may change it.
const BEFORE: u16 = 33_333;
/// List memory beyond the line count, which nothing may change.
const BEYOND: [u16; 3] = [11_111, 0, 22_222];

/// How a run goes on from its search.
#[derive(Clone, Copy, Debug, PartialEq)]
enum Form {
    /// It narrows the list, which rises.
    Rising,
    /// It narrows the list in the order that the search left.
    InOrder,
    /// It sorts the list, and then narrows it in that order.
    Sorted,
}

const FORMS: [Form; 3] = [Form::Rising, Form::InOrder, Form::Sorted];

/// A query of a run, which keeps its edition wherever it stands.
#[derive(Clone)]
struct Asked {
    edition: Edition,
    text: Vec<u8>,
}

fn asked(edition: Edition, text: impl AsRef<[u8]>) -> Asked {
    let text = text.as_ref().to_vec();
    Asked { edition, text }
}

/// What a run leaves.
#[derive(Debug, PartialEq)]
struct Outcome {
    answers: Vec<[u64; 4]>,
    list: Vec<u16>,
    found: usize,
    dropped: u64,
    kept: usize,
}

impl Outcome {
    fn entries(&self) -> &[u16] {
        &self.list[..self.kept]
    }
}

/// Searches by the first query and narrows by each of the others in turn. A refused search leaves
/// the list as it was and starts no run.
fn run(
    form: Form,
    set: Charset,
    dictionary: &[u8],
    lines: usize,
    first: &Asked,
    others: &[Asked],
) -> Result<Outcome, [u64; 2]> {
    let mut list = vec![BEFORE; lines];
    list.extend(BEYOND);
    let before = list.clone();
    let answer = Both.search(set, dictionary, &mut list, first.edition, &first.text);
    if answer[0] != 0 {
        assert_eq!((list, &answer[2..]), (before, &[0, 0][..]));
        return Err([answer[0], answer[1]]);
    }
    assert_eq!(answer[2], lines as u64);
    let found = answer[3] as usize;
    if form == Form::Sorted {
        let mut spare = vec![BEFORE; found];
        let answer = Both.sort(set, dictionary, &mut list, found, &mut spare);
        assert_eq!((answer, spare), ([0, 0], vec![0; found]));
    }
    let mut outcome = Outcome {
        answers: vec![],
        list,
        found,
        dropped: 0,
        kept: found,
    };
    for Asked { edition, text } in others {
        let (list, count) = (&mut outcome.list, outcome.kept);
        let answer = match form {
            Form::Rising => Both.narrow(set, dictionary, list, count, *edition, text),
            _ => Both.narrow_sorted(set, dictionary, list, count, *edition, text),
        };
        if answer[0] == 0 {
            outcome.kept = answer[2] as usize;
        }
        outcome.dropped += answer[3];
        outcome.answers.push(answer);
    }
    Ok(outcome)
}

/// The entries of an FSW dictionary that meet all queries.
fn meeting<'a>(dictionary: &[u8], queries: impl Iterator<Item = &'a Asked> + Clone) -> Vec<u16> {
    let meets_all = |line: &[u8]| {
        let met = |query: &Asked| Both.verdict(Fsw, query.edition, &query.text, line)[2] == 1;
        queries.clone().all(met)
    };
    dictionary
        .split_inclusive(|&byte| byte == 10)
        .zip(1..)
        .filter(|(line, _)| meets_all(&line[..line.len() - 1]))
        .map(|(_, entry)| entry)
        .collect()
}

/// The entries that meet the search's query and all accepted ones, rising or in the order they were
/// sorted into, then zeros to the number that the search wrote, then what was there.
fn stated_list(
    form: Form,
    dictionary: &[u8],
    lines: usize,
    first: &Asked,
    others: &[Asked],
) -> Vec<u16> {
    let accepted: Vec<&Asked> = others
        .iter()
        .filter(|query| Both.read_query(query.edition, &query.text)[0] == 0)
        .collect();
    let mut list = meeting(dictionary, std::iter::once(first));
    if form == Form::Sorted {
        list = stated_order(Fsw, dictionary, &list);
    }
    let written = list.len();
    let kept = meeting(dictionary, accepted.into_iter());
    list.retain(|entry| kept.binary_search(entry).is_ok());
    list.resize(written, 0);
    list.resize(lines, BEFORE);
    list.extend(BEYOND);
    list
}

/// A query of any kind in any edition.
fn any_asked(random: &mut Random) -> Asked {
    let edition = *random.pick(&EDITIONS);
    let text = match random.below(8) {
        0 => noise(random, 6),
        1 => query_in(random, edition),
        2 => {
            let sought = wide_query_in(random, edition);
            damaged(random, &sought)
        }
        3 => {
            let sign = short_sign(random);
            query_about_in(random, edition, &sign)
        }
        _ => wide_query_in(random, edition),
    };
    Asked { edition, text }
}

/// A query to search by: most often one that many signs meet, so that some are left to narrow.
fn first_asked(random: &mut Random) -> Asked {
    if random.once_in(3) {
        return any_asked(random);
    }
    let edition = *random.pick(&EDITIONS);
    asked(edition, wide_query_in(random, edition))
}

/// Queries of all kinds, some of them more than once, now and then in another edition.
fn queries(random: &mut Random) -> Vec<Asked> {
    let mut queries: Vec<Asked> = (0..random.below(7)).map(|_| any_asked(random)).collect();
    if !queries.is_empty() && random.once_in(3) {
        let mut again = random.pick(&queries).clone();
        if random.once_in(2) {
            again.edition = *random.pick(&EDITIONS);
        }
        queries.push(again);
    }
    queries
}

/// The rewritten dictionary: the transcription of each line.
fn rewritten(dictionary: &[u8]) -> Vec<u8> {
    let mut other = vec![];
    for line in dictionary.split_inclusive(|&byte| byte == 10) {
        let mut out = vec![0; 4 * line.len()];
        let answer = Both.transcribe(Fsw, &line[..line.len() - 1], &mut out);
        assert_eq!(answer[0], 0);
        other.extend_from_slice(&out[..answer[2] as usize]);
        other.push(10);
    }
    other
}

/// A run from the search that the first query asks for, if it is accepted, held to what is stated
/// of it and to its reordering. Answers what it leaves.
fn checked_run(random: &mut Random, lines: usize) -> Result<Outcome, [u64; 2]> {
    let [fsw, swu] = dictionary(random, lines);
    assert_eq!(rewritten(&fsw), swu);
    let (first, queries) = (first_asked(random), queries(random));
    let form = *random.pick(&FORMS);
    let outcome = run(form, Fsw, &fsw, lines, &first, &queries);
    assert_eq!(outcome, run(form, Swu, &swu, lines, &first, &queries));
    let refusal = Both.read_query(first.edition, &first.text);
    let outcome = match refusal[0] {
        0 => outcome.expect("an accepted search starts a run"),
        _ => {
            assert_eq!(outcome, Err(refusal));
            return outcome;
        }
    };
    let stated = stated_list(form, &fsw, lines, &first, &queries);
    assert_eq!(outcome.list, stated, "{form:?}");
    assert_eq!(outcome.dropped, (outcome.found - outcome.kept) as u64);

    let mut order: Vec<usize> = (0..queries.len()).collect();
    random.shuffle(&mut order);
    let reordered: Vec<Asked> = order.iter().map(|&i| queries[i].clone()).collect();
    let reordered = run(form, Fsw, &fsw, lines, &first, &reordered)?;
    assert_eq!(reordered.list, outcome.list);
    assert_eq!(reordered.dropped, outcome.dropped);
    for (answer, &index) in reordered.answers.iter().zip(&order) {
        assert_eq!(answer[..2], outcome.answers[index][..2]);
    }
    Ok(outcome)
}

#[test]
fn runs() {
    let (mut refused, mut started_from_some, mut narrowed) = (0, 0, 0);
    cases(700_000, 15_000, |random| {
        let lines = *random.pick(&[0, 1, 2, 10, 40, 90]);
        match checked_run(random, lines) {
            Err(_) => refused += 1,
            Ok(outcome) => {
                let some = 0 < outcome.found && outcome.found < lines;
                started_from_some += usize::from(some);
                narrowed += usize::from(some && outcome.dropped > 0 && outcome.kept > 0);
            }
        }
    });
    assert!(refused > 1_000, "only {refused} searches were refused");
    assert!(
        started_from_some > 3_000,
        "only {started_from_some} searches found some but not all"
    );
    assert!(
        narrowed > 500,
        "only {narrowed} runs from such a search kept and dropped some"
    );
}

/// Every order of a few queries after one search. One text is asked in two editions, of which
/// only the second accepts it.
#[test]
fn every_reordering() {
    let mut random = Random::new(720_000);
    let [fsw, swu] = dictionary(&mut random, 300);
    let first = asked(Second(Fsw), "QR300t37eoS2ffuu");
    let mut queries = [
        asked(First, "QT"),
        asked(First, "QS100uuoR205t2fe"),
        asked(Second(Fsw), "QS100uuoR205t2fe"),
        asked(Second(Swu), "Q\u{40001}fro\u{40061}fr\u{1d906}\u{1d906}V90"),
        asked(Second(Swu), "QR\u{46001}\u{40001}"),
    ];
    for form in FORMS {
        let expected = expect_run(form, &fsw, &first, &queries);
        let mut orders = 0;
        each_order(&mut queries, 0, &mut |queries| {
            let outcome = run(form, Fsw, &fsw, 300, &first, queries).unwrap();
            assert_eq!(outcome.list, expected.list);
            assert_eq!(outcome.dropped, expected.dropped);
            assert_eq!(Ok(outcome), run(form, Swu, &swu, 300, &first, queries));
            orders += 1;
        });
        assert_eq!(orders, 120);
    }
}

/// The run of `every_reordering`, of whose queries the second and the last are refused.
fn expect_run(form: Form, fsw: &[u8], first: &Asked, queries: &[Asked]) -> Outcome {
    let expected = run(form, Fsw, fsw, 300, first, queries).unwrap();
    assert_eq!(expected.list, stated_list(form, fsw, 300, first, queries));
    let refusals = expected.answers.iter().map(|answer| (answer[0], answer[1]));
    assert!(refusals.eq([(0, 0), (1, 7), (0, 0), (0, 0), (5, 1)]));
    assert!(expected.found < 300, "the search passes some over");
    assert!(expected.kept > 0, "the run keeps some");
    for [_, _, kept, dropped] in [0, 2, 3].map(|accepted| expected.answers[accepted]) {
        assert!(kept > 0 && dropped > 0, "each query drops some");
    }
    expected
}

/// Whichever query a run starts from, the same entries are left; only the zeros end elsewhere. A
/// run from a search by `Q` leaves them too.
#[test]
fn every_start() {
    let mut random = Random::new(725_000);
    let [fsw, swu] = dictionary(&mut random, 300);
    let mut queries = [
        asked(First, "QT"),
        asked(First, "QR100t204"),
        asked(Second(Fsw), "QR205t37eoS100uu"),
        asked(Second(Swu), "QR\u{40001}\u{49001}\u{1d906}\u{1d906}V70"),
    ];
    for form in FORMS {
        let from_all = run(form, Fsw, &fsw, 300, &asked(First, "Q"), &queries).unwrap();
        assert_eq!(from_all.found, 300);
        assert!(from_all.kept > 0);
        let mut found = vec![];
        each_order(&mut queries, 0, &mut |queries| {
            let (first, others) = queries.split_first().unwrap();
            let outcome = run(form, Fsw, &fsw, 300, first, others).unwrap();
            assert_eq!(outcome.entries(), from_all.entries());
            assert_eq!(outcome.list, stated_list(form, &fsw, 300, first, others));
            found.push(outcome.found);
            assert_eq!(Ok(outcome), run(form, Swu, &swu, 300, first, others));
        });
        found.sort();
        found.dedup();
        assert!(found.len() > 1, "the searches find different numbers");
    }
}

/// Many lines, and the same run with its narrowing backwards.
#[test]
fn a_long_dictionary() {
    let mut random = Random::new(730_000);
    let lines = 20_000;
    let [fsw, swu] = dictionary(&mut random, lines);
    let first = asked(Second(Fsw), "QR100t1ffoS37euu");
    let mut queries = [
        asked(First, "Q"),
        asked(First, "QR100t2fe"),
        asked(Second(Fsw), "Q-"),
        asked(Second(Swu), "QTV0"),
        asked(Second(Fsw), "QS10000oS2ff00oS1000f"),
        asked(First, "QR100t204"),
    ];
    for form in FORMS {
        let outcome = run(form, Fsw, &fsw, lines, &first, &queries).unwrap();
        let stated = stated_list(form, &fsw, lines, &first, &queries);
        assert_eq!(outcome.list, stated);
        assert!(0 < outcome.kept && outcome.kept < outcome.found && outcome.found < lines);
        let in_swu = run(form, Swu, &swu, lines, &first, &queries);
        assert_eq!(Ok(&outcome), in_swu.as_ref());
        queries.reverse();
        let backwards = run(form, Fsw, &fsw, lines, &first, &queries).unwrap();
        assert_eq!(backwards.list, outcome.list);
        assert_eq!(backwards.dropped, outcome.dropped);
    }
}

/// A search whose query is refused, whatever would be asked after it.
#[test]
fn no_run_from_a_refused_search() {
    let mut random = Random::new(735_000);
    let [fsw, swu] = dictionary(&mut random, 20);
    let others = [asked(First, "Q"), asked(First, "QT")];
    for (first, refusal) in [
        (asked(First, ""), [2, 0]),
        (asked(First, "Q-"), [1, 1]),
        (asked(First, "QS100uuoS101uu"), [1, 7]),
        (asked(Second(Fsw), "QR204t100"), [5, 1]),
        (asked(Second(Swu), "QS10000"), [1, 1]),
    ] {
        for others in [&others[..], &[]] {
            for form in FORMS {
                assert_eq!(run(form, Fsw, &fsw, 20, &first, others), Err(refusal));
                assert_eq!(run(form, Swu, &swu, 20, &first, others), Err(refusal));
            }
        }
    }
}

fn each_order<T>(items: &mut [T], from: usize, visit: &mut impl FnMut(&[T])) {
    if from == items.len() {
        return visit(items);
    }
    for index in from..items.len() {
        items.swap(from, index);
        each_order(items, from + 1, visit);
        items.swap(from, index);
    }
}
