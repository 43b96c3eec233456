//! The worked examples of document 01 and of its open points, by all sides, but those of
//! dictionaries. Places in numbers are those of document 02, Q-5, and offsets those of its Q-8.
//! Queries are of the first edition.

use differential::generate::in_swu;
use differential::interface;
use differential::{Both, Charset, Edition, Interface};
use Charset::{Fsw, Swu};
use Edition::First;

const K: &[u8] = b"AS10000S20500M510x515S10000490x485S20500500x495";

type Refusal = (u64, u64);

fn refusal(answer: &[u64]) -> Refusal {
    (answer[0], answer[1])
}

fn key(text: &str) -> Refusal {
    refusal(&Both.key_to_code(text.as_bytes()))
}

fn fsw(text: impl AsRef<[u8]>) -> Refusal {
    refusal(&Both.read(Fsw, text.as_ref()).1)
}

fn swu(text: impl AsRef<[u8]>) -> Refusal {
    refusal(&Both.read(Swu, text.as_ref()).1)
}

/// The offsets of the prefix symbols and of the signbox symbols.
fn offsets(set: Charset, text: &[u8]) -> [Vec<u16>; 2] {
    let (record, answer) = Both.read(set, text);
    assert_eq!(answer, [0, 0]);
    let (prefix, symbols) = interface::offsets(&record);
    let used = |offsets: &[u16], count: u16| offsets[..count.into()].to_vec();
    [used(prefix, record[3]), used(symbols, record[4])]
}

/// The same in FSW and in SWU.
fn offsets_in_both(fsw: &[u8]) -> [[Vec<u16>; 2]; 2] {
    [offsets(Fsw, fsw), offsets(Swu, &in_swu(fsw).unwrap())]
}

fn query(text: impl AsRef<[u8]>) -> Refusal {
    refusal(&Both.read_query(First, text.as_ref()))
}

/// Refusal, place, met, unmet condition and the first two witnesses.
fn verdict(query: &str, sign: impl AsRef<[u8]>) -> [u64; 6] {
    let answer = Both.verdict(Fsw, First, query.as_bytes(), sign.as_ref());
    let transcribed = in_swu(sign.as_ref()).expect("the sign reads");
    assert_eq!(
        answer,
        Both.verdict(Swu, First, query.as_bytes(), &transcribed)
    );
    answer[..6].try_into().unwrap()
}

/// A size list with these sizes, and none for any other symbol.
fn sizes(known: &[(&str, u8, u8)]) -> Vec<u8> {
    let mut sizes = vec![0; 125_184];
    for &(key, width, height) in known {
        let code = Both.key_to_code(key.as_bytes())[2] as usize;
        sizes[2 * (code - 1)] = width;
        sizes[2 * (code - 1) + 1] = height;
    }
    sizes
}

/// The centred sign in FSW; in SWU it must be the same sign.
fn centred(sign: &str, sizes: &[u8]) -> Result<String, Refusal> {
    let room = sign.len();
    let written = |set, text: &[u8], room| {
        let mut out = vec![0; room];
        let answer = Both.centred(set, text, sizes, &mut out);
        match answer[0] {
            0 => Ok(out[..answer[2] as usize].to_vec()),
            _ => Err(refusal(&answer)),
        }
    };
    let in_fsw = written(Fsw, sign.as_bytes(), room);
    let in_other = written(Swu, &in_swu(sign.as_bytes()).unwrap(), 1_000);
    assert_eq!(in_fsw.clone().map(|text| in_swu(&text).unwrap()), in_other);
    in_fsw.map(|text| String::from_utf8(text).unwrap())
}

fn shifted(sign: &str, by: (i32, i32)) -> Result<String, Refusal> {
    let mut out = vec![0; sign.len()];
    let answer = Both.shift(Fsw, sign.as_bytes(), by, &mut out);
    match answer[0] {
        0 => Ok(String::from_utf8(out).unwrap()),
        _ => Err(refusal(&answer)),
    }
}

#[test]
fn symbol_codes() {
    assert_eq!(Both.key_to_code(b"S10019"), [0, 0, 26]);
    assert_eq!(Both.key_to_code(b"S2ea04"), [0, 0, 47_045]);
    assert_eq!(Both.key_to_code(b"S38b5f"), [0, 0, 62_592]);
    assert_eq!(Both.key_to_code(b"S00000"), [0, 0, 0]);
    assert_eq!(key("S38c00"), (1, 3));
    assert_eq!(key("S38b60"), (1, 4));
    assert_eq!(key("S3"), (2, 2));
    assert_eq!(key("S10000x"), (1, 6));
    assert_eq!(key("S10A00"), (1, 3));
    assert_eq!(key("S00001"), (1, 5));
    let mut out = [9; 6];
    assert_eq!(Both.code_to_char(1, &mut out), [0, 0, 4]);
    assert_eq!(out, [0xf1, 0x80, 0x80, 0x81, 9, 9]);
    assert_eq!(Both.code_to_key(62_593, &mut out), [15, 0, 0]);
    assert_eq!(Both.code_to_char(u64::MAX, &mut out), [15, 0, 0]);
    assert_eq!(Both.code_to_key(26, &mut out[..5]), [6, 6, 0]);
    assert_eq!(Both.code_to_key(26, &mut out), [0, 0, 6]);
    assert_eq!(&out, b"S10019");
}

#[test]
fn places_of_a_sign() {
    assert_eq!(fsw(""), (2, 0));
    assert_eq!(fsw("M250x25"), (2, 7));
    assert_eq!(fsw("M749x750"), (1, 5));
    assert_eq!(fsw("M500x500S37f00500x500"), (1, 11));
    assert_eq!(fsw("M500x500S38000500x500"), (1, 10));
    assert_eq!(fsw("M500x500S00000500x500"), (1, 9));
    assert_eq!(fsw("AS38700M500x500"), (1, 4));
    assert_eq!(fsw("AS38600M500x500"), (0, 0));
    assert_eq!(fsw("AM500x500"), (1, 1));
    assert_eq!(fsw("-"), (1, 0));
    assert_eq!(fsw("M500x500-"), (1, 8));
}

#[test]
fn limits_of_a_sign() {
    let prefix = |count| "A".to_string() + &"S10000".repeat(count);
    let signbox = |count| "M500x500".to_string() + &"S10000500x500".repeat(count);
    assert_eq!(fsw(prefix(33) + "M500x5y0"), (1, 204));
    assert_eq!(fsw(prefix(33)), (2, 199));
    assert_eq!(fsw(prefix(33) + "M500x500"), (3, 0));
    assert_eq!(fsw(prefix(33) + &signbox(65)), (3, 0));
    assert_eq!(fsw(prefix(32) + &signbox(65)), (4, 0));
    let longest = prefix(32) + &signbox(64);
    assert_eq!(longest.len(), 1_033);
    assert_eq!(fsw(&longest), (0, 0));
    let longest = in_swu(longest.as_bytes()).unwrap();
    assert_eq!(longest.len(), 912);
    assert_eq!(swu(longest), (0, 0));
}

#[test]
fn offsets_of_symbols() {
    let of_k = [[[1, 7], [21, 34]], [[4, 8], [24, 36]]];
    assert_eq!(offsets_in_both(K), of_k);
    let one_in_prefix = [[vec![1], vec![]], [vec![4], vec![]]];
    assert_eq!(offsets_in_both(b"AS10000M500x500"), one_in_prefix);
    let one_in_signbox = [[vec![], vec![8]], [vec![], vec![12]]];
    assert_eq!(offsets_in_both(b"M500x500S10000500x500"), one_in_signbox);

    let prefix = "S10000".repeat(32);
    let longest = format!("A{prefix}M500x500{}", "S10000500x500".repeat(64));
    let [in_fsw, in_swu] = offsets_in_both(longest.as_bytes());
    let last = |offsets: &Vec<u16>| offsets[offsets.len() - 1];
    assert_eq!(in_fsw.each_ref().map(last), [187, 1_020]);
    assert_eq!(in_swu.each_ref().map(last), [128, 900]);
}

#[test]
fn equal_in_both_sets_without_symbols() {
    let transcribed = in_swu(b"M500x500").unwrap();
    assert_eq!(Both.read(Fsw, b"M500x500"), Both.read(Swu, &transcribed));
    assert_eq!(offsets_in_both(b"M500x500"), [[[0; 0]; 2]; 2]);
}

#[test]
fn places_in_swu() {
    let sign = in_swu(b"M500x500").unwrap();
    assert_eq!(sign[..4], [0xf0, 0x9d, 0xa0, 0x83]);
    assert_eq!(swu(&sign), (0, 0));
    assert_eq!(swu([&sign[..], &[10]].concat()), (2, 13));
    assert_eq!(fsw("M500x500\n"), (1, 8));
    assert_eq!(swu([0xff]), (2, 1));
    assert_eq!(fsw([0xff]), (1, 0));
    assert_eq!(swu([&sign[..], b"M500", b"x"].concat()), (1, 12));
    assert_eq!(swu(&sign[..8]), (2, 8));
    let after_last = [0xf1, 0x8f, 0x92, 0x81];
    assert_eq!(refusal(&Both.char_to_code(&after_last)), (1, 0));
    assert_eq!(Both.char_to_code(&[0xf1, 0x8f, 0x92, 0x80])[2], 62_592);
}

/// The sign at the head of document 000, in both sets.
#[test]
fn the_drafts_own_sign() {
    let fsw = b"M548x535S10019452x474S10011476x465S2ea04481x501S2ea48459x509\
                S29b0b514x500S15a0a515x473S1eb20524x489";
    let swu = "𝠃𝤶𝤩񀀚𝣖𝣬񀀒𝣮𝣣񋟅𝣳𝤇񋠉𝣝𝤏񉨬𝤔𝤆񂇋𝤕𝣫񅡁𝤞𝣻";
    let mut out = vec![0; 200];
    let answer = Both.transcribe(Fsw, fsw, &mut out);
    assert_eq!(answer, [0, 0, swu.len() as u64]);
    assert_eq!(&out[..swu.len()], swu.as_bytes());
    let answer = Both.transcribe(Swu, swu.as_bytes(), &mut out);
    assert_eq!(answer, [0, 0, fsw.len() as u64]);
    assert_eq!(&out[..fsw.len()], fsw);
}

#[test]
fn places_of_a_query() {
    assert_eq!(query(""), (2, 0));
    assert_eq!(query("QR204t100"), (5, 1));
    assert_eq!(query("QR204t100x"), (1, 9));
    assert_eq!(query("QAR100t204R204t100T"), (5, 10));
    assert_eq!(query("QR100t100"), (0, 0));
    assert_eq!(query("QAT"), (1, 2));
    assert_eq!(query("QA"), (2, 2));
    assert_eq!(query("Q-"), (1, 1));
    assert_eq!(query("QV1234"), (1, 5));
    assert_eq!(query("QV"), (2, 2));
    for good in ["Q", "QT", "QV5", "QTV5", "QV0", "QV000", "QS38b00"] {
        assert_eq!(query(good), (0, 0), "{good}");
    }
    assert_eq!(query("QAS00000T"), (1, 3));
    assert_eq!(query("QS00000"), (1, 2));
    assert_eq!(query("QAS10000500x500T"), (1, 8));
    assert_eq!(query("QS10000T"), (1, 7));
    assert_eq!(query("QS38c00"), (1, 4));
    let reversed = "R204t100".repeat(33);
    assert_eq!(query(format!("QA{reversed}T")), (3, 0));
    assert_eq!(query(format!("Q{reversed}")), (4, 0));
    assert_eq!(query(format!("QA{reversed}T{reversed}")), (3, 0));
    assert_eq!(query(format!("Q{}", &reversed[8..])), (5, 1));
}

#[test]
fn verdicts() {
    assert_eq!(verdict("QAS100uuT", K), [0, 0, 1, 0, 0, 0]);
    assert_eq!(verdict("QAS20500T", K), [0, 0, 0, 0, 0, 0]);
    assert_eq!(verdict("QS100uu490x505", K), [0, 0, 1, 0, 1, 0]);
    assert_eq!(verdict("QS100uu490x506", K), [0, 0, 0, 1, 0, 0]);
    assert_eq!(verdict("QS100uu490x505V19", K), [0, 0, 0, 1, 0, 0]);
    assert_eq!(verdict("QS100uuS100uu", K), [0, 0, 1, 0, 1, 1]);
    assert_eq!(verdict("QS20500S10000", K), [0, 0, 1, 0, 2, 1]);
    assert_eq!(verdict("QS10000S20500", K), [0, 0, 1, 0, 1, 2]);
    assert_eq!(verdict("QAS10000S20500R100t38bT", K)[2..4], [0, 0]);
    assert_eq!(verdict("QAS10000S20500T", K)[2], 1);
    assert_eq!(verdict("QTS10000", K)[2..5], [1, 0, 1]);
    assert_eq!(verdict("QS38b00", K)[2..4], [0, 1]);
    let null = "AS00000M500x500";
    assert_eq!(verdict("QT", null)[2], 1);
    assert_eq!(verdict("QAR100t38bT", null)[2..4], [0, 0]);
    assert_eq!(verdict("QT", "M500x500")[2..4], [0, 0]);
    assert_eq!(verdict("Q", "M500x500")[2], 1);
    assert_eq!(verdict("QTS10000", "AS10000M500x500")[2..4], [0, 1]);
}

#[test]
fn verdict_refuses_the_query_first() {
    assert_eq!(refusal(&Both.verdict(Fsw, First, b"Qx", b"x")), (1, 1));
    assert_eq!(refusal(&Both.verdict(Fsw, First, b"Q", b"x")), (1, 0));
    assert_eq!(
        refusal(&Both.verdict(Fsw, First, b"QR204t100", b"x")),
        (5, 1)
    );
}

#[test]
fn centring() {
    let hand_and_mark = sizes(&[("S10000", 15, 30), ("S20500", 10, 10)]);
    assert_eq!(
        centred("M520x515S10000490x490S20500500x500", &hand_and_mark).unwrap(),
        "M510x515S10000490x485S20500500x495"
    );
    let head_and_trunk = sizes(&[("S2ff00", 36, 36), ("S36d00", 60, 20)]);
    assert_eq!(
        centred("M540x540S2ff00482x483S36d00470x520", &head_and_trunk).unwrap(),
        "M530x529S2ff00482x472S36d00470x509"
    );
    // 499.5 moves by 1 and 500.5 by 0.
    let odd = sizes(&[("S10000", 11, 11)]);
    assert_eq!(
        centred("M500x500S10000494x495", &odd).unwrap(),
        "M506x506S10000495x495"
    );
    assert_eq!(centred("M500x500", &odd), Err((9, 0)));
    assert_eq!(
        centred("M500x500S10000500x500S20500500x500", &odd),
        Err((8, 2))
    );
    assert_eq!(centred("M500x500", &odd[1..]), Err((7, 0)));
    let answer = Both.centred(Fsw, b"M500x5", &[], &mut []);
    assert_eq!(answer, [2, 6, 0]);
    let too_far = "M500x500S10000250x500S10000749x500";
    assert_eq!(centred(too_far, &odd), Err((10, 0)));
}

/// A head, a trunk or both beside a hand.
#[test]
fn centring_by_groups() {
    let sizes = sizes(&[("S2ff00", 36, 36), ("S36d00", 60, 20), ("S10000", 15, 30)]);
    let sign = "M560x560S2ff00490x483S36d00480x520S10000545x530";
    assert_eq!(
        centred(sign, &sizes).unwrap(),
        "M552x549S2ff00482x472S36d00472x509S10000537x519"
    );
    // Trunk without head: across by the whole box, down by the trunk.
    assert_eq!(
        centred("M535x540S36d00470x520S10000520x470", &sizes).unwrap(),
        "M533x510S36d00468x490S10000518x440"
    );
    let too_high = "M500x500S36d00470x250S10000490x700";
    assert_eq!(centred(too_high, &sizes), Err((10, 0)));
    // Head without trunk: both by the head.
    assert_eq!(
        centred("M550x560S2ff00490x480S10000535x530", &sizes).unwrap(),
        "M542x562S2ff00482x482S10000527x532"
    );
    // By the head alone this one would be refused.
    assert_eq!(
        centred("M500x500S2ff00482x250S36d00470x700", &sizes).unwrap(),
        "M530x735S2ff00482x265S36d00470x715"
    );
}

#[test]
fn boxes() {
    let sizes = sizes(&[("S2ff00", 36, 36), ("S36d00", 60, 20), ("S10000", 255, 255)]);
    let (centre, answer) = Both.boxes(Fsw, b"M540x540S2ff00482x483S36d00470x520", &sizes);
    assert_eq!(answer[..7], [0, 0, 1, 482, 483, 518, 519]);
    assert_eq!(answer[7..12], [1, 470, 483, 530, 540]);
    assert_eq!(answer[12..], [1, 470, 483, 530, 540, 1_000, 1_023]);
    assert_eq!(centre, [500.0, 511.5]);
    // Trunk without head: across by the whole box, down by the trunk.
    let (centre, answer) = Both.boxes(Fsw, b"M500x500S36d00470x520S10000749x749", &sizes);
    assert_eq!(answer[2..7], [0; 5]);
    assert_eq!(answer[7..12], [1, 470, 520, 530, 540]);
    assert_eq!(answer[12..17], [1, 470, 520, 1_004, 1_004]);
    assert_eq!(answer[17..], [1_474, 1_060]);
    assert_eq!(centre, [737.0, 530.0]);
    assert_eq!(Both.boxes(Fsw, b"M500x500", &sizes).1[..2], [9, 0]);
    assert_eq!(Both.boxes(Fsw, b"M500x500", &[]).1[..2], [7, 0]);
}

#[test]
fn shifting() {
    assert_eq!(shifted("M500x500", (-10, 0)).unwrap(), "M490x500");
    assert_eq!(shifted("M749x500", (1, 0)), Err((10, 0)));
    assert_eq!(shifted("M500x500", (i32::MAX, i32::MIN)), Err((10, 0)));
    assert_eq!(shifted("M500x500S10000250x500", (-1, 0)), Err((10, 0)));
    let mut out = [7; 8];
    assert_eq!(
        Both.shift(Fsw, b"M749x500", (1, 0), &mut out[..7]),
        [10, 0, 0]
    );
    assert_eq!(
        Both.shift(Fsw, b"M749x500", (0, 1), &mut out[..7]),
        [6, 8, 0]
    );
}
