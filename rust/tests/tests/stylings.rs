//! Worked stylings, in both sets (document 02, Q-1): what they read as, how they are written, and
//! where they are refused.

use differential::generate::in_swu;
use differential::{Both, Charset, Interface};
use Charset::{Fsw, Swu};

const SIGN: &str = "M500x500";

/// The answer to `SIGN` with this after it. In SWU it is the same, but for the four bytes by
/// which the sign is longer.
fn answer(styling: &str) -> [u64; 2] {
    let (_, record, answer) = Both.read_styled(Fsw, format!("{SIGN}{styling}").as_bytes());
    let mut text = in_swu(SIGN.as_bytes()).unwrap();
    text.extend(styling.bytes());
    let (_, record_in_swu, [number, place]) = Both.read_styled(Swu, &text);
    let by = if matches!(number, 1 | 2) { 4 } else { 0 };
    assert_eq!((&record, answer), (&record_in_swu, [number, place - by]));
    answer
}

/// The styling as it is written once it has been read.
fn rewritten(styling: &str) -> String {
    let (_, record, answer) = Both.read_styled(Fsw, format!("{SIGN}{styling}").as_bytes());
    assert_eq!(answer, [0, 0], "{styling}");
    let mut out = [b'?'; 200];
    let [0, 0, length] = Both.write_styling(&record.0, &mut out) else {
        panic!("{styling} is not written");
    };
    String::from_utf8(out[..length as usize].to_vec()).unwrap()
}

/// What is read, and what is written for it.
const WRITTEN: [(&str, &str); 24] = [
    (
        "-CP05G_lightblue_D_red,0f0_Z1.50-D01_red_Z01,2.00",
        "-CP05G_lightblue_D_red,0f0_Z1.5-D01_red_Z01,2",
    ),
    ("-", "-"),
    ("--", "-"),
    ("-C-", "-C"),
    ("-P00", "-P00"),
    ("-P01", "-P01"),
    ("-P99", "-P99"),
    ("-Z1", "-Z1"),
    ("-Z099.99", "-Z99.99"),
    ("-Z00000000000000000000000000000000.01", "-Z0.01"),
    ("-Z0.10", "-Z0.1"),
    ("-Z10", "-Z10"),
    ("-Z10.0-", "-Z10"),
    ("-Z15.7", "-Z15.7"),
    ("-G_fffg_", "-G_fffg_"),
    ("-G_FfF_", "-G_FfF_"),
    ("-G_ff0000_", "-G_ff0000_"),
    ("-G_f_", "-G_f_"),
    (
        "-G_abcdefabcdefabcdefabcdef_",
        "-G_abcdefabcdefabcdefabcdef_",
    ),
    ("-D_red,yellow_", "-D_red,yellow_"),
    ("--D01_red_D02_green_", "--D01_red_D02_green_"),
    (
        "--D01_red_D01_red_D00_f00,f00_",
        "--D01_red_D01_red_D00_f00,f00_",
    ),
    ("--Z03,2Z03,02.0Z99,00.5", "--Z03,2Z03,2Z99,0.5"),
    ("--D99_red,000_Z04,15.7", "--D99_red,000_Z04,15.7"),
];

#[test]
fn reading_and_writing() {
    for (styling, written) in WRITTEN {
        assert_eq!(answer(styling), [0, 0], "{styling}");
        assert_eq!(rewritten(styling), written);
        assert_eq!(rewritten(written), written);
    }
}

/// What follows the sign, of eight bytes, and the answer.
const REFUSED: [(&str, [u64; 2]); 44] = [
    ("", [2, 8]),
    ("x", [1, 8]),
    // No class names, no ID, no zoom but a number, no offset.
    ("-Zx", [1, 10]),
    ("--Z04,1.5,480x500", [1, 17]),
    ("---glowing!", [1, 10]),
    ("---!cursor!", [1, 10]),
    ("-C-D01_red_-x!", [1, 19]),
    // Colours.
    ("-G_f00g_", [1, 14]),
    ("-G_f0_", [1, 13]),
    ("-G_f000_", [1, 15]),
    ("-G_f0000_", [1, 16]),
    ("-G_0000000_", [1, 17]),
    ("-G_abcdef0_", [1, 17]),
    ("-G__", [1, 11]),
    ("-G_red,blue_", [1, 14]),
    ("-G_red", [2, 14]),
    ("-G", [2, 10]),
    ("-Gred_", [1, 10]),
    ("-G_light blue_", [1, 16]),
    ("-D_red,_", [1, 15]),
    ("-D_red,", [2, 15]),
    ("-D_red,blue,green_", [1, 19]),
    ("-D01_red_", [1, 10]),
    // Digits.
    ("-P", [2, 10]),
    ("-P1", [2, 11]),
    ("-P1C", [1, 11]),
    ("-P100", [1, 12]),
    ("-Z", [2, 10]),
    ("-Z1.", [2, 12]),
    ("-Z.5", [1, 10]),
    ("-Z1,5", [1, 11]),
    ("-Z1.5.0", [1, 13]),
    ("-Z-1", [1, 10]),
    ("--D1_red_", [1, 12]),
    ("--D_red_", [1, 11]),
    ("--Z01", [2, 13]),
    ("--Z01,", [2, 14]),
    ("--Z01.5", [1, 13]),
    ("--Z001,5", [1, 13]),
    // The order of the options.
    ("-P01C", [1, 12]),
    ("-CC", [1, 10]),
    ("-Z1C", [1, 11]),
    ("--Z01,2D01_red_", [1, 15]),
    ("--C", [1, 10]),
];

#[test]
fn places() {
    for (styling, expected) in REFUSED {
        if styling.starts_with('-') {
            assert_eq!(answer(styling), expected, "{styling}");
        }
        let text = format!("{SIGN}{styling}");
        assert_eq!(Both.read_styled(Fsw, text.as_bytes()).2, expected, "{text}");
        let mut out = [b'?'; 60];
        let transcribed = Both.transcribe_styled(Fsw, text.as_bytes(), &mut out);
        assert_eq!(transcribed, [expected[0], expected[1], 0]);
        assert_eq!(out, [b'?'; 60]);
    }
}

/// The sign comes first, with the places of Q-5, and a plain sign has no dash.
#[test]
fn places_in_the_sign() {
    let styled = |text: &str| Both.read_styled(Fsw, text.as_bytes()).2;
    assert_eq!(styled("M749x750-Zx"), [1, 5]);
    assert_eq!(styled("M500x50-"), [1, 5]);
    assert_eq!(styled("M500x50"), [2, 7]);
    assert_eq!(styled("M500x500S10000-"), [1, 14]);
    assert_eq!(styled("M500x500S1000050"), [2, 16]);
    assert_eq!(styled("M500x500S10000490x485"), [2, 21]);
    assert_eq!(styled("M500x500S10000490x485-"), [0, 0]);
    assert_eq!(styled("-C"), [1, 0]);
    assert_eq!(styled(""), [2, 0]);
    assert_eq!(Both.read(Fsw, b"M500x500-C").1, [1, 8]);
    // A padding of 750 is no coordinate: its third digit is the wrong byte.
    assert_eq!(styled("M500x500-P750"), [1, 12]);
}

/// Groups up to the end of the sign, then bytes from a dash on.
#[test]
fn places_in_swu() {
    let sign = in_swu(SIGN.as_bytes()).unwrap();
    let after = |length: usize, more: &[u8]| {
        let text = [&sign[..length], more].concat();
        Both.read_styled(Swu, &text).2
    };
    assert_eq!(after(12, b"-Zx"), [1, 14]);
    assert_eq!(after(12, b"-"), [0, 0]);
    assert_eq!(after(12, b""), [2, 12]);
    for length in 1..=3 {
        assert_eq!(after(12, &b"x-C"[..length]), [2, 12 + length as u64]);
    }
    assert_eq!(after(12, b"x-Cx"), [1, 12]);
    assert_eq!(after(8, b"-C"), [2, 10]);
    assert_eq!(after(8, b"-CCC"), [1, 8]);
    assert_eq!(after(11, b"-C"), [1, 8]);
    assert_eq!(after(0, b"-"), [2, 1]);
    let mut plain = sign.clone();
    plain.extend(b"-C");
    assert_eq!(Both.read(Swu, &plain).1, [2, 14]);
    plain.extend(b"P1");
    assert_eq!(Both.read(Swu, &plain).1, [1, 12]);
}

#[test]
fn zooms() {
    for zoom in [
        "0", "100", "1.500", "0.005", "0.00", "0.001", "99.999", "655.37",
    ] {
        assert_eq!(answer(&format!("-Z{zoom}")), [17, 0], "{zoom}");
        assert_eq!(answer(&format!("--Z01,{zoom}Z02,1")), [17, 0], "{zoom}");
    }
    for exponent in [8, 15, 16, 31, 32, 63, 64, 127] {
        let wrapped = (1_u128 << exponent) + 100;
        assert_eq!(answer(&format!("-Z{wrapped}")), [17, 0]);
        let (whole, rest) = (wrapped / 100, wrapped % 100);
        let expected = if whole < 100 { 0 } else { 17 };
        assert_eq!(answer(&format!("-Z{whole}.{rest:02}")), [expected, 0]);
    }
    for zeros in [0, 1, 19, 20, 39, 255, 256, 70_000] {
        let zeros = "0".repeat(zeros);
        assert_eq!(rewritten(&format!("-Z{zeros}1.50")), "-Z1.5");
        assert_eq!(answer(&format!("-Z{zeros}100")), [17, 0]);
        let end = SIGN.len() + zeros.len() + 3;
        assert_eq!(answer(&format!("-Z{zeros}1x")), [1, end as u64]);
    }
}

/// 17, 18 and 19 come in this order over the whole styling, after 1 and 2 and before 3 and 4.
#[test]
fn order_of_refusals() {
    let name = |length| "n".repeat(length);
    let styles = |count: usize| "Z01,2".repeat(count);
    assert_eq!(answer(&format!("-G_{}_", name(24))), [0, 0]);
    assert_eq!(answer(&format!("-G_{}_", name(25))), [18, 0]);
    assert_eq!(answer(&format!("-D_red,{}_", name(25))), [18, 0]);
    assert_eq!(answer(&format!("--D01_{}_", name(25))), [18, 0]);
    assert_eq!(answer(&format!("--D01_red,{}_", name(70_000))), [18, 0]);
    assert_eq!(answer(&format!("--{}", styles(64))), [0, 0]);
    assert_eq!(answer(&format!("--{}", styles(65))), [19, 0]);
    assert_eq!(answer(&format!("--D01_red_{}", styles(63))), [0, 0]);
    assert_eq!(answer(&format!("--D01_red_{}", styles(64))), [19, 0]);
    assert_eq!(answer(&format!("--{}", styles(65_536))), [19, 0]);
    assert_eq!(answer(&format!("--{}", "D01_red_".repeat(65))), [19, 0]);

    let long = format!("-G_{}_-", name(25));
    assert_eq!(answer(&format!("{long}{}", styles(65))), [18, 0]);
    assert_eq!(answer(&format!("{long}{}Z01,0", styles(65))), [17, 0]);
    let text = format!("{long}{}Z01,0", styles(65));
    assert_eq!(answer(&format!("{text}x")), [1, 8 + text.len() as u64]);
    assert_eq!(answer(&format!("{text}.")), [2, 9 + text.len() as u64]);

    let both_over = format!(
        "A{}M500x500{}",
        "S10000".repeat(33),
        "S10000500x500".repeat(65)
    );
    let styled = |sign: &str, styling: &str| {
        let text = format!("{sign}{styling}");
        Both.read_styled(Fsw, text.as_bytes()).2
    };
    assert_eq!(styled(&both_over, "-Z0"), [17, 0]);
    assert_eq!(styled(&both_over, &long), [18, 0]);
    assert_eq!(styled(&both_over, &format!("--{}", styles(65))), [19, 0]);
    assert_eq!(styled(&both_over, "-C"), [3, 0]);
    assert_eq!(styled(&both_over[199..], "-C"), [4, 0]);
    assert_eq!(styled(&both_over, "-c"), [1, both_over.len() as u64 + 1]);
    assert_eq!(styled(&both_over, ""), [2, both_over.len() as u64]);
}

/// Transcription leaves the styling's bytes as they are, but refuses what reading refuses.
#[test]
fn transcription() {
    let fsw = b"M500x500S10000490x485-CP05Z01.50-";
    let swu = [&in_swu(&fsw[..21]).unwrap()[..], b"-CP05Z01.50-"].concat();
    let length = swu.len() as u64;
    let mut out = vec![b'?'; swu.len() + 2];
    let short = &mut out[..swu.len() - 1];
    assert_eq!(Both.transcribe_styled(Fsw, fsw, short), [6, length, 0]);
    assert_eq!(Both.transcribe_styled(Fsw, fsw, &mut out), [0, 0, length]);
    assert_eq!(out, [&swu[..], b"??"].concat());
    let mut back = vec![b'?'; fsw.len()];
    let answer = Both.transcribe_styled(Swu, &swu, &mut back);
    assert_eq!(answer, [0, 0, fsw.len() as u64]);
    assert_eq!(back, fsw);
    let refused = b"M500x500-Z1.500";
    assert_eq!(Both.transcribe_styled(Fsw, refused, &mut []), [17, 0, 0]);
}

/// The numbers of one styling, each in its place.
#[test]
fn layout() {
    let text = b"M500x500-CP05G_blue_D_red,0f0_Z1.50-D01_abc_D02_d,E_Z99,2";
    let (sign, styling, answer) = Both.read_styled(Fsw, text);
    assert_eq!((answer, sign), ([0, 0], Both.read(Fsw, b"M500x500").0));
    let mut expected = [0; 3_472];
    expected[..5].copy_from_slice(&[1, 6, 150, 2, 3]);
    let mut put = |place: usize, colour: &str| {
        expected[place] = colour.len() as u16;
        for (place, byte) in expected[place + 1..].iter_mut().zip(colour.bytes()) {
            *place = byte.into();
        }
    };
    let colours = [
        (5, "blue"),
        (30, "red"),
        (55, "0f0"),
        (83, "abc"),
        (136, "d"),
        (161, "E"),
    ];
    for (place, colour) in colours {
        put(place, colour);
    }
    expected[80..83].copy_from_slice(&[1, 1, 0]);
    expected[133..136].copy_from_slice(&[1, 2, 0]);
    expected[186..189].copy_from_slice(&[2, 99, 200]);
    assert_eq!(styling.0, expected);
}
