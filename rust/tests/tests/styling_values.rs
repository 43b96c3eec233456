//! The wrapper's own values of stylings: read, written, and refused where no record holds them
//! (document 02, Q-1).

use differential::cases;
use differential::generate::{in_swu, short_sign};
use differential::stylings::styling;
use halofret::{read, read_styled, write_styling, Charset, Refusal};
use halofret::{Detail, Styling, SymbolStyle, Zoom, LONGEST_STYLING};
use Charset::{Fsw, Swu};

const BAD: Refusal = Refusal {
    number: 1,
    place: 0,
};

fn zoom(hundredths: u16) -> Option<Zoom> {
    Some(Zoom { hundredths })
}

fn detail(line: &str, fill: Option<&str>) -> Detail {
    Detail {
        line: line.into(),
        fill: fill.map(String::from),
    }
}

/// The text of a styling; a refused call has left the output as it was.
fn text_of(styling: &Styling) -> Result<String, Refusal> {
    let mut out = [b'?'; LONGEST_STYLING];
    let answer = write_styling(styling, &mut out);
    if answer.is_err() {
        assert_eq!(out, [b'?'; LONGEST_STYLING]);
    }
    answer.map(|length| String::from_utf8(out[..length].to_vec()).unwrap())
}

#[test]
fn all_options() {
    let expected = Styling {
        colorize: true,
        padding: Some(5),
        background: Some("lightblue".into()),
        detail: Some(detail("red", Some("0f0"))),
        zoom: zoom(150),
        symbols: vec![
            SymbolStyle::Detail {
                symbol: 1,
                detail: detail("red", None),
            },
            SymbolStyle::Zoom {
                symbol: 1,
                zoom: Zoom { hundredths: 200 },
            },
        ],
    };
    let sign = b"M500x500S10000490x485";
    let styling = b"-CP05G_lightblue_D_red,0f0_Z1.50-D01_red_Z01,2.00";
    for (set, sign) in [(Fsw, sign.to_vec()), (Swu, in_swu(sign).unwrap())] {
        let answer = read_styled(set, &[&sign[..], styling].concat()).unwrap();
        assert_eq!(answer, (read(set, &sign).unwrap(), expected.clone()));
    }
    let shortest = "-CP05G_lightblue_D_red,0f0_Z1.5-D01_red_Z01,2";
    assert_eq!(text_of(&expected).unwrap(), shortest);
}

#[test]
fn present_is_not_absent() {
    let read = |text: &[u8]| read_styled(Fsw, text).unwrap().1;
    assert_eq!(read(b"M500x500-"), Styling::default());
    assert_eq!(read(b"M500x500--"), Styling::default());
    assert_eq!(read(b"M500x500-P00").padding, Some(0));
    assert_eq!(read(b"M500x500-Z1").zoom, zoom(100));
    assert_eq!(text_of(&Styling::default()).unwrap(), "-");
}

#[test]
fn written_as_read() {
    let mut good = 0;
    cases(980_000, 6_000, |random| {
        let text = [short_sign(random), styling(random)].concat();
        if let Ok((_, styling)) = read_styled(Fsw, &text) {
            good += 1;
            let written = format!("M500x500{}", text_of(&styling).unwrap());
            assert_eq!(read_styled(Fsw, written.as_bytes()).unwrap().1, styling);
        }
    });
    assert!(good > 600, "{good}");
}

fn with_background(colour: &str) -> Styling {
    Styling {
        background: Some(colour.into()),
        ..Styling::default()
    }
}

fn with_symbols(symbols: Vec<SymbolStyle>) -> Styling {
    Styling {
        symbols,
        ..Styling::default()
    }
}

#[test]
fn colours_that_are_none() {
    let (longest, longer) = ("n".repeat(24), "n".repeat(25));
    assert_eq!(text_of(&with_background(&longest)).unwrap().len(), 28);
    let huge = "n".repeat(65_536 + 3);
    for colour in [
        "",
        "é",
        "light blue",
        "red_",
        "12",
        "12345",
        "1234567",
        "a\0",
    ] {
        assert_eq!(text_of(&with_background(colour)), Err(BAD), "{colour}");
    }
    for colour in ["", "a,b", &longer, &huge] {
        let details = [detail(colour, None), detail("red", Some(colour))];
        for detail in details {
            let whole = Styling {
                detail: Some(detail.clone()),
                ..Styling::default()
            };
            assert_eq!(text_of(&whole), Err(BAD));
            let one = with_symbols(vec![SymbolStyle::Detail { symbol: 1, detail }]);
            assert_eq!(text_of(&one), Err(BAD));
        }
        assert_eq!(text_of(&with_background(colour)), Err(BAD));
    }
}

#[test]
fn numbers_out_of_range() {
    let padded = |padding| Styling {
        padding: Some(padding),
        ..Styling::default()
    };
    assert_eq!(text_of(&padded(99)).unwrap(), "-P99");
    assert_eq!(
        [100, 255].map(padded).map(|s| text_of(&s)),
        [Err(BAD), Err(BAD)]
    );
    let zoomed = |hundredths| Styling {
        zoom: zoom(hundredths),
        ..Styling::default()
    };
    let style = |symbol, hundredths| SymbolStyle::Zoom {
        symbol,
        zoom: Zoom { hundredths },
    };
    for (hundredths, text) in [(1, "0.01"), (10, "0.1"), (9_999, "99.99")] {
        assert_eq!(text_of(&zoomed(hundredths)).unwrap(), format!("-Z{text}"));
    }
    for hundredths in [0, 10_000, 65_535] {
        assert_eq!(text_of(&zoomed(hundredths)), Err(BAD));
        assert_eq!(text_of(&with_symbols(vec![style(1, hundredths)])), Err(BAD));
    }
    assert_eq!(text_of(&with_symbols(vec![style(100, 1)])), Err(BAD));
}

#[test]
fn symbol_styles_out_of_order_or_too_many() {
    let zoom = SymbolStyle::Zoom {
        symbol: 0,
        zoom: Zoom { hundredths: 200 },
    };
    let colours = SymbolStyle::Detail {
        symbol: 99,
        detail: detail("red", None),
    };
    let ordered = with_symbols(vec![colours.clone(), zoom.clone()]);
    assert_eq!(text_of(&ordered).unwrap(), "--D99_red_Z00,2");
    let reversed = with_symbols(vec![zoom.clone(), colours]);
    assert_eq!(text_of(&reversed), Err(BAD));
    let many = |count| with_symbols(vec![zoom.clone(); count]);
    assert_eq!(text_of(&many(64)).unwrap().len(), 2 + 64 * 5);
    assert_eq!(text_of(&many(65)), Err(BAD));
    assert_eq!(text_of(&many(65_536 + 1)), Err(BAD));
}
