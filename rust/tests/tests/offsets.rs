//! Where symbols stand, as the wrapper tells it, and the equality of its signs (document 02, Q-8).

use differential::cases;
use differential::generate::{in_swu, short_sign};
use halofret::{read, Charset, Placed, Sign};
use Charset::{Fsw, Swu};

const K: &[u8] = b"AS10000S20500M510x515S10000490x485S20500500x495";

/// The sign read in FSW, and its transcription read in SWU.
fn in_both(fsw: &[u8]) -> [Sign; 2] {
    let swu = in_swu(fsw).unwrap();
    [read(Fsw, fsw).unwrap(), read(Swu, &swu).unwrap()]
}

#[test]
fn offsets_by_symbol() {
    let hand_at = |offset| Placed {
        code: 1,
        x: 490,
        y: 485,
        offset,
    };
    let mark_at = |offset| Placed {
        code: 25_057,
        x: 500,
        y: 495,
        offset,
    };
    let [fsw, swu] = in_both(K);
    assert_eq!(fsw.prefix(), [1, 25_057]);
    assert_eq!(fsw.prefix_offsets(), [1, 7]);
    assert!(fsw.symbols().eq([hand_at(21), mark_at(34)]));
    assert_eq!(swu.prefix(), [1, 25_057]);
    assert_eq!(swu.prefix_offsets(), [4, 8]);
    assert!(swu.symbols().eq([hand_at(24), mark_at(36)]));
}

/// Each of these differs from K in one thing, which equality but offsets still sees.
#[test]
fn equality_but_offsets() {
    let k = read(Fsw, K).unwrap();
    let others: [&[u8]; 8] = [
        b"S20500S10000M510x515S10000490x485S20500500x495",
        b"S10000M510x515S10000490x485S20500500x495",
        b"S10000S20500B510x515S10000490x485S20500500x495",
        b"S10000S20500M511x515S10000490x485S20500500x495",
        b"S10000S20500M510x515S10000490x485",
        b"S10000S20500M510x515S10000490x485S20501500x495",
        b"S10000S20500M510x515S10000490x485S20500501x495",
        b"S10000S20500M510x515S10000490x485S20500500x496",
    ];
    for other in others {
        for other in in_both(&[b"A", other].concat()) {
            assert!(!k.equals_but_offsets(&other), "{other:?}");
            assert_ne!(k, other);
        }
    }
}

#[test]
fn equality_across_sets() {
    let (mut with_symbols, mut without) = (0, 0);
    cases(80_000, 5_000, |random| {
        let text = short_sign(random);
        let [fsw, swu] = in_both(&text);
        assert!(fsw.equals_but_offsets(&swu) && swu.equals_but_offsets(&fsw));
        assert_eq!(read(Fsw, &text).unwrap(), fsw);
        if fsw.prefix().is_empty() && fsw.symbols().len() == 0 {
            assert_eq!(fsw, swu);
            without += 1;
        } else {
            assert_ne!(fsw, swu);
            with_symbols += 1;
        }
    });
    assert!(with_symbols > 1_000 && without > 100);
}
