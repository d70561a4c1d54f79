//! Why a cart does not move, beside #105's rule in its plainest form: chains of every length, a lane in the middle of one, every
//! cart in the records of random runs, and every refusal.
mod crossing;
mod numbers;

use crossing::{Crossing, Links};
use numbers::Numbers;
use oblakosh::{ask, why, NotMoved, Record, Refusal, CARTS, STEPS, ZONES};
use std::ops::Range;

const S: &[u8] = include_bytes!("../../../examples/S.sheet");
const A: &[u8] = b"\x01\x00\x0A\x02\x02\x00\x01\x02\x00\x01";
const B: &[u8] = b"\x01\x00\x0A\x02\x02\x00\x01\x02\x01\x00";
const CROSSINGS: usize = 400;
const SMALL_CROSSINGS: usize = 100;

/// The chain through the wrapper.
fn links(sheet: &[u8], plan: &[u8], record: Record, cart: usize) -> Result<Links, Refusal> {
    why(sheet, plan, record, cart).map(|chain| {
        let (carts, zones) = (chain.carts().to_vec(), chain.zones().to_vec());
        assert_eq!(chain.moves_out(), zones.len() + 1 == carts.len());
        Links { carts, zones }
    })
}

/// The record of these positions.
fn record(positions: &[u8]) -> Record {
    let mut position = [0; CARTS];
    position[..positions.len()].copy_from_slice(positions);
    let made = positions.iter().map(|k| u32::from(*k)).sum();
    Record { position, made }
}

#[test]
fn a_cart_that_may_move_is_a_chain_of_one() {
    for (positions, cart, zones) in [
        ([0, 0], 0, &[0][..]),
        ([1, 0], 0, &[1][..]),
        ([2, 0], 0, &[][..]),
        ([3, 0], 1, &[1][..]),
        ([3, 2], 1, &[][..]),
    ] {
        let expected = Links {
            carts: vec![cart as u8],
            zones: zones.to_vec(),
        };
        assert_eq!(links(S, A, record(&positions), cart), Ok(expected));
    }
}

#[test]
fn a_held_cart_is_held_by_the_next() {
    for (positions, zones) in [
        ([0, 0], &[1, 0][..]),
        ([1, 0], &[1, 1][..]),
        ([2, 0], &[1][..]),
    ] {
        let expected = Links {
            carts: vec![1, 0],
            zones: zones.to_vec(),
        };
        assert_eq!(links(S, A, record(&positions), 1), Ok(expected));
    }
}

/// Carts in a line, and their positions. Each stands in a zone of its own and wants that of the cart before it, and cart 0 wants out;
/// but the carts of this range are all on one lane, the first of them wanting the zone of the cart before it, if there is one.
fn line(carts: usize, on_lane: Range<usize>) -> (Crossing, Vec<usize>) {
    let waits = |cart: &usize| on_lane.contains(cart);
    let lane = |cart: usize| if waits(&cart) { on_lane.start } else { cart };
    let route = |cart: usize| match cart {
        0 => vec![0],
        _ if waits(&cart) => vec![cart - 1, cart],
        _ => vec![cart, cart - 1],
    };
    let crossing = Crossing {
        lanes: (0..carts).map(|cart| lane(cart) as u8).collect(),
        routes: (0..carts).map(route).collect(),
        lists: (0..carts)
            .map(|zone| (zone..carts.min(zone + 2)).collect())
            .collect(),
    };
    let at = (0..carts).map(|cart| usize::from(!waits(&cart))).collect();
    (crossing, at)
}

/// From every cart of the line the chain goes down to cart 0.
fn expect_line(carts: usize, on_lane: Range<usize>) {
    let (crossing, at) = line(carts, on_lane);
    let (sheet, plan) = (crossing.sheet(&mut Numbers(1)), crossing.plan());
    for cart in 0..carts {
        let expected = crossing.chain(&at, cart);
        assert_eq!(expected.carts, (0..=cart as u8).rev().collect::<Vec<u8>>());
        let told = links(&sheet, &plan, crossing.record(&at), cart);
        assert_eq!(told, Ok(expected));
    }
}

#[test]
fn chains_of_1_to_16_carts() {
    for carts in 1..=CARTS {
        expect_line(carts, 0..0);
    }
}

#[test]
fn a_lane_at_the_end_of_a_chain_and_in_the_middle() {
    for carts in 2..=CARTS {
        for start in 0..carts - 1 {
            for end in start + 2..=carts {
                expect_line(carts, start..end);
            }
        }
    }
}

#[test]
fn every_cart_in_the_records_of_random_runs() {
    let mut numbers = Numbers(105);
    let mut lengths = [0; CARTS + 1];
    for _ in 0..CROSSINGS {
        let crossing = Crossing::random(&mut numbers, CARTS, STEPS, ZONES);
        let crossing = if numbers.below(3) == 0 {
            crossing.listed_in_one_order(&mut numbers)
        } else {
            crossing.listed_as_driven(&mut numbers)
        };
        let (sheet, plan) = (crossing.sheet(&mut numbers), crossing.plan());
        let mut at = vec![0; crossing.carts()];
        while !crossing.all_out(&at) {
            let record = crossing.record(&at);
            let cart = numbers.below(crossing.carts());
            let told = links(&sheet, &plan, record, cart);
            match ask(&sheet, &plan, record, cart) {
                Err(NotMoved::Refused(refusal)) => assert_eq!(told, Err(refusal)),
                Err(NotMoved::Held(_)) => {
                    let chain = crossing.chain(&at, cart);
                    assert!(chain.carts.len() > 1);
                    lengths[chain.carts.len()] += 1;
                    assert_eq!(told, Ok(chain));
                }
                Ok(_) => {
                    assert_eq!(told, Ok(crossing.chain(&at, cart)));
                    assert_eq!(told.unwrap().carts, [cart as u8]);
                    lengths[1] += 1;
                    at[cart] += 1;
                }
            }
        }
    }
    println!("chains by length: {:?}", lengths);
    assert!(lengths[1..6].iter().all(|seen| *seen > 0));
}

/// The bytes with others at a place, or after their end.
fn changed(bytes: &[u8], at: usize, others: &[u8]) -> Vec<u8> {
    let mut bytes = bytes.to_vec();
    bytes.splice(
        at..bytes.len().min(at + others.len()),
        others.iter().copied(),
    );
    bytes
}

/// The bytes with their length in bytes 1 and 2.
fn measured(mut bytes: Vec<u8>) -> Vec<u8> {
    let length = bytes.len() as u16;
    bytes[1..3].copy_from_slice(&length.to_be_bytes());
    bytes
}

/// Each number, in its order, with its place and the cart and step told.
#[test]
fn refusals_1_to_25_and_never_26() {
    let of_sheet = |at, others: &[u8]| (changed(S, at, others), A.to_vec(), record(&[]), 0);
    let of_plan = |at, others: &[u8]| (S.to_vec(), changed(A, at, others), record(&[]), 0);
    let asked = |plan: &[u8], record, cart| (S.to_vec(), plan.to_vec(), record, cart);
    let one_lane = changed(S, 29, &[0]);
    let refused = [
        (
            (measured(S[..44].to_vec()), A.to_vec(), record(&[]), 0),
            (43, 2, 2),
        ),
        (of_sheet(0, &[2]), (0, 0, 0)),
        (of_sheet(2, &[0x2E]), (1, 0, 0)),
        (of_sheet(3, &[25]), (3, 0, 0)),
        (of_sheet(10, &[0xFF]), (10, 0, 0)),
        (of_sheet(12, &[17]), (12, 0, 0)),
        (of_sheet(29, &[16]), (29, 2, 0)),
        (of_sheet(14, &[0xFF]), (14, 1, 0)),
        (of_sheet(18, &[9]), (18, 1, 0)),
        (of_sheet(19, &[2]), (19, 1, 1)),
        (of_sheet(40, &[1]), (40, 2, 2)),
        (of_sheet(36, &[0xFF]), (36, 2, 1)),
        (
            (measured(changed(S, 45, &[0])), A.to_vec(), record(&[]), 0),
            (45, 0, 0),
        ),
        (
            (changed(&one_lane, 16, &[0xFF]), A.to_vec(), record(&[]), 0),
            (30, 2, 0),
        ),
        (asked(&measured(A[..9].to_vec()), record(&[]), 0), (9, 0, 0)),
        (of_plan(0, &[2]), (0, 0, 0)),
        (of_plan(2, &[11]), (1, 0, 0)),
        (of_plan(3, &[3]), (3, 0, 0)),
        (of_plan(6, &[0]), (6, 0, 0)),
        (
            asked(&measured(changed(A, 10, &[0])), record(&[]), 0),
            (10, 0, 0),
        ),
        ((one_lane, B.to_vec(), record(&[]), 0), (9, 0, 0)),
        (asked(B, record(&[]), 0), (0, 0, 0)),
        (asked(A, record(&[1, 1]), 0), (0, 0, 0)),
        (asked(A, record(&[3, 3]), 2), (0, 0, 0)),
        (asked(A, record(&[3, 3]), 0), (0, 0, 0)),
    ];
    for (number, ((sheet, plan, lent, cart), (place, of_cart, step))) in (1..).zip(refused) {
        let expected = Refusal {
            number,
            cart: of_cart,
            step,
            place,
        };
        assert_eq!(why(&sheet, &plan, lent, cart), Err(expected));
        let refused = Err(NotMoved::Refused(expected));
        assert_eq!(ask(&sheet, &plan, lent, cart), refused);
    }
    // 26 comes to moving next: why answers the chain.
    assert_eq!(ask(S, A, record(&[2, 0]), 1), Err(NotMoved::Held(1)));
    assert_eq!(why(S, A, record(&[2, 0]), 1).unwrap().carts(), [1, 0]);
}

/// All records of small crossings, those that no run reaches too, with every cart number up to 16.
#[test]
fn every_record_of_small_crossings() {
    let mut numbers = Numbers(26);
    let mut seen = [0; 29];
    for _ in 0..SMALL_CROSSINGS {
        let crossing = Crossing::random(&mut numbers, 3, 2, 3).listed_anyhow(&mut numbers);
        let (sheet, plan) = (crossing.sheet(&mut numbers), crossing.plan());
        let reached = crossing.reached();
        for at in crossing.all_positions() {
            let record = crossing.record(&at);
            for cart in 0..=CARTS {
                let told = links(&sheet, &plan, record, cart);
                match crossing.answer_for(&reached, &record, cart) {
                    Err(NotMoved::Refused(refusal)) => assert_eq!(told, Err(refusal)),
                    _ => assert_eq!(told, Ok(crossing.chain(&at, cart))),
                }
                seen[told.err().map_or(0, |refusal| refusal.number as usize)] += 1;
            }
        }
    }
    println!("answers by number: {:?}", seen);
    assert!([0, 22, 23, 24, 25].iter().all(|number| seen[*number] > 0));
    assert_eq!(seen[26], 0);
}
