//! Document 02, N12: the coin box.

use pack_reference::coin_box::{BoxOpening, CoinBox, Reply};
use pack_reference::Refusal;

const OPENING: BoxOpening =
    BoxOpening { n: 4, ta: 1, ts: 1, coins: &[0b101, 0, u32::MAX, 1 << 31], weights: &[1; 4] };

fn opened() -> CoinBox {
    CoinBox::open(&OPENING).unwrap()
}

#[test]
fn opened_as_a_printed_session_is() {
    let refused = [
        BoxOpening { n: 0, coins: &[], weights: &[], ..OPENING },
        BoxOpening { n: 17, coins: &[0; 17], weights: &[1; 17], ..OPENING },
        BoxOpening { n: 5, ..OPENING },
        BoxOpening { ta: 2, ..OPENING },
        BoxOpening { ta: 0, ts: 2, ..OPENING },
        BoxOpening { ta: 255, ts: 2, ..OPENING },
        BoxOpening { ts: u64::MAX, ..OPENING },
        BoxOpening { coins: &[0; 3], ..OPENING },
        BoxOpening { coins: &[0; 5], ..OPENING },
        BoxOpening { weights: &[1; 3], ..OPENING },
        BoxOpening { weights: &[1, 1, 1, 0], ..OPENING },
        BoxOpening { weights: &[1, 5, 1, 1], ..OPENING },
    ];
    for opening in refused {
        assert_eq!(CoinBox::open(&opening).err(), Some(Refusal::Settings), "{opening:?}");
    }
    let unnamed = CoinBox::open(&BoxOpening { ta: 255, ..OPENING });
    assert_eq!(unnamed.as_ref(), Ok(&opened()));
}

#[test]
fn the_request_that_completes_gets_the_bit() {
    let mut coin_box = opened();
    assert_eq!(coin_box.request(2, 1, 1), Ok(Reply::Sealed));
    assert_eq!(coin_box.request(4, 1, 1), Ok(Reply::Bit(true)));
    assert_eq!(coin_box.request(2, 1, 1), Ok(Reply::Bit(true)));
    assert_eq!(coin_box.request(1, 1, 1), Ok(Reply::Bit(true)));
    // Others stay sealed.
    for (vote, round) in [(1, 2), (1, 3), (2, 1), (4, 32)] {
        assert_eq!(coin_box.request(3, vote, round), Ok(Reply::Sealed), "{vote} in {round}");
    }
    let bits = [(1, 2, false), (1, 3, true), (2, 1, false), (4, 32, true)];
    for (vote, round, bit) in bits {
        assert_eq!(coin_box.request(1, vote, round), Ok(Reply::Bit(bit)), "{vote} in {round}");
    }
}

#[test]
fn repeats_count_once() {
    let mut coin_box = opened();
    for _ in 0..40 {
        assert_eq!(coin_box.request(3, 2, 7), Ok(Reply::Sealed));
    }
    assert_eq!(coin_box.request(1, 2, 7), Ok(Reply::Bit(false)));
}

#[test]
fn without_ta_the_first_request_gets_the_bit() {
    let mut coin_box = CoinBox::open(&BoxOpening { ta: 0, ..OPENING }).unwrap();
    assert_eq!(coin_box.request(3, 3, 32), Ok(Reply::Bit(true)));
}

#[test]
fn weights_count() {
    let opening = BoxOpening { ta: 2, ts: 2, weights: &[1, 2, 3, 1], ..OPENING };
    let mut coin_box = CoinBox::open(&opening).unwrap();
    // 2 and 1 make three; 3 has them alone.
    assert_eq!(coin_box.request(2, 1, 1), Ok(Reply::Sealed));
    assert_eq!(coin_box.request(1, 1, 1), Ok(Reply::Bit(true)));
    assert_eq!(coin_box.request(3, 1, 2), Ok(Reply::Bit(false)));
    assert_eq!(coin_box.request(1, 1, 3), Ok(Reply::Sealed));
    assert_eq!(coin_box.request(4, 1, 3), Ok(Reply::Sealed));
    assert_eq!(coin_box.request(2, 1, 3), Ok(Reply::Bit(true)));
}

#[test]
fn outside_the_layout() {
    let outside = [0, 5, 33, 255, 257, 1 << 32, u64::MAX];
    let mut coin_box = opened();
    for number in outside {
        assert_eq!(coin_box.request(number, 1, 1), Err(Refusal::Coin), "requester {number}");
        assert_eq!(coin_box.request(1, number, 1), Err(Refusal::Coin), "vote {number}");
        let round = if number == 5 { 33 } else { number };
        assert_eq!(coin_box.request(1, 1, round), Err(Refusal::Coin), "round {round}");
    }
    assert_eq!(coin_box, opened());
}

/// Numbers that follow from a seed.
fn numbers(seed: u64) -> impl FnMut(u64) -> u64 {
    let mut state = seed;
    move |end| {
        state = state.wrapping_mul(0x5851_f42d_4c95_7f2d).wrapping_add(0x1405_7b7e_f767_814f);
        (state >> 33) % end
    }
}

/// No answer depends on a coin that is still sealed (PROTOCOL 12.8).
#[test]
fn sealed_coins_change_no_answer() {
    let (mut kept, mut differing) = (0, 0);
    for seed in 0..400 {
        let mut below = numbers(seed);
        let weights: Vec<u8> = (0..4).map(|_| 1 + below(4) as u8).collect();
        let whole: u64 = weights.iter().map(|&weight| u64::from(weight)).sum();
        let ts = below(whole.div_ceil(2));
        let coins: Vec<u32> = (0..4).map(|_| below(1 << 32) as u32).collect();
        let opening = BoxOpening { n: 4, ta: 255, ts, coins: &coins, weights: &weights };
        let mut first = CoinBox::open(&opening).unwrap();
        let requests: Vec<[u64; 3]> = (0..120).map(|_| [below(6), below(6), below(34)]).collect();
        let answers: Vec<_> = requests.iter().map(|&[p, v, r]| first.request(p, v, r)).collect();
        // The other box has every coin turned over that is still sealed, and then one that is not.
        let told = |vote: u64, round: u64| {
            let about = |(request, answer): (&[u64; 3], &Result<Reply, Refusal>)| {
                request[1..] == [vote, round] && matches!(answer, Ok(Reply::Bit(_)))
            };
            requests.iter().zip(&answers).any(about)
        };
        let mut others = coins.clone();
        let mut shown = None;
        for (vote, round) in (1..=4).flat_map(|vote| (1..=32).map(move |round| (vote, round))) {
            if told(vote, round) {
                shown = Some((vote, round));
            } else {
                others[vote as usize - 1] ^= 1 << (round - 1);
            }
        }
        let answers_with = |coins: &[u32]| -> Vec<_> {
            let mut other = CoinBox::open(&BoxOpening { coins, ..opening }).unwrap();
            requests.iter().map(|&[p, v, r]| other.request(p, v, r)).collect()
        };
        assert_eq!(answers_with(&others), answers, "seed {seed}");
        kept += 1;
        if let Some((vote, round)) = shown {
            others[vote as usize - 1] ^= 1 << (round - 1);
            assert_ne!(answers_with(&others), answers, "seed {seed}");
            differing += 1;
        }
    }
    assert!(kept == 400 && differing > 100, "{differing}");
}
