//! The Petri net beside docs/NET.md in its plainest form: the text line by line, its end beside permitted moves and the judge's verdict,
//! and what the room holds after an answer and after a refusal.
mod crossing;
mod numbers;

use crossing::Crossing;
use numbers::Numbers;
use oblakosh::{judge, net, read_plan, Net, NotJudged, Refusal, CARTS, NET, STEPS, WORDS, ZONES};

const S: &[u8] = include_bytes!("../../../examples/S.sheet");
const A: &[u8] = b"\x01\x00\x0A\x02\x02\x00\x01\x02\x00\x01";
const B: &[u8] = b"\x01\x00\x0A\x02\x02\x00\x01\x02\x01\x00";
const CROSSINGS: usize = 600;
const UNTOUCHED: u8 = 0xA5;

/// A line: a word, and up to four numbers.
fn line(word: &str, numbers: &[usize]) -> String {
    let mut line = word.to_string();
    for place in 0..4 {
        line += &numbers
            .get(place)
            .map_or(" --".to_string(), |number| format!(" {:02}", number));
    }
    line + "\n"
}

/// The three lines of a place between two carts: its own, that of the arc from the other's move, and that of the arc to the cart's move.
fn between(what: &str, cart: usize, position: usize, other: usize, from: usize) -> String {
    line(&format!("place {}", what), &[cart, position, other])
        + &line(&format!("arc > {}", what), &[cart, position, other, from])
        + &line(&format!("arc {} >", what), &[cart, position, other])
}

/// The net's text: by cart, then by position, then by the other cart.
fn text(crossing: &Crossing) -> String {
    let mut text = String::new();
    for cart in 0..crossing.carts() {
        for position in 0..crossing.out(cart) {
            for word in ["place cart", "transition", "arc cart >", "arc > cart"] {
                text += &line(word, &[cart, position]);
            }
            let zone = crossing.routes[cart].get(position);
            let ahead = zone.map_or(&[][..], |zone| {
                let list = &crossing.lists[*zone];
                &list[..list.iter().position(|other| *other == cart).unwrap()]
            });
            for other in 0..crossing.carts() {
                if position == 0 && crossing.front(cart) == Some(other) {
                    text += &between("line", cart, 0, other, 0);
                }
                if ahead.contains(&other) {
                    let route = &crossing.routes[other];
                    let step = route.iter().position(|visited| Some(visited) == zone);
                    text += &between("pair", cart, position, other, step.unwrap() + 1);
                }
            }
        }
        text += &line("place cart", &[cart, crossing.out(cart)]);
    }
    text
}

/// Holds the net to its text and its end, in room one byte short, exactly long enough and longer; the text's length.
fn expect(crossing: &Crossing, numbers: &mut Numbers) -> Net {
    let (sheet, plan) = (crossing.sheet(numbers), crossing.plan());
    let text = text(crossing);
    let expected = Net {
        length: text.len(),
        locked: !crossing.all_out(&crossing.end()),
        position: crossing.record(&crossing.end()).position,
    };
    for more in [0, 1, 40] {
        let mut room = vec![UNTOUCHED; text.len() + more];
        assert_eq!(net(&sheet, &plan, &mut room), Ok(expected));
        assert!(room[..text.len()] == *text.as_bytes());
        assert!(room[text.len()..].iter().all(|byte| *byte == UNTOUCHED));
    }
    if !text.is_empty() {
        let mut room = vec![UNTOUCHED; text.len() - 1];
        assert_eq!(net(&sheet, &plan, &mut room), Err(refusal(28, 0)));
        assert!(room.iter().all(|byte| *byte == UNTOUCHED));
    }
    let judged = judge(&sheet, &plan, &mut [0; WORDS]);
    assert_eq!(expected.locked, matches!(judged, Err(NotJudged::Locked(_))));
    assert!(expected.locked || judged.is_ok());
    expected
}

/// A refusal that stands in no cart's part of the sheet.
fn refusal(number: u32, place: usize) -> Refusal {
    Refusal {
        number,
        cart: 0,
        step: 0,
        place,
    }
}

/// S's routes with plan A's or B's lists, on two lanes or on one.
fn example(lanes: [u8; 2], zone_1: [usize; 2]) -> Crossing {
    Crossing {
        lanes: lanes.to_vec(),
        routes: vec![vec![0, 1], vec![1, 0]],
        lists: vec![vec![0, 1], zone_1.to_vec()],
    }
}

#[test]
fn the_net_of_s_with_a_and_with_b() {
    for (plan, zone_1, locked, position) in [(A, [0, 1], false, 3), (B, [1, 0], true, 1)] {
        let mut room = [UNTOUCHED; 23 * 32];
        let mut positions = [0; CARTS];
        positions[..2].fill(position);
        let expected = Net {
            length: 23 * 32,
            locked,
            position: positions,
        };
        assert_eq!(net(S, plan, &mut room), Ok(expected));
        assert_eq!(room[..], *text(&example([0, 1], zone_1)).as_bytes());
    }
    let on_one_lane = text(&example([0, 0], [0, 1]));
    assert_eq!(on_one_lane.len(), 23 * 35);
    assert!(on_one_lane.contains("place line 01 00 00 --\narc > line 01 00 00 00\narc line > 01 00 00 --\nplace pair 01 00 00 --\n"));
    assert!(on_one_lane.contains("arc > pair 01 01 00 01\n"));
    expect(&example([0, 0], [0, 1]), &mut Numbers(1));
}

#[test]
fn no_carts_no_text() {
    let mut empty = example([0, 1], [0, 1]);
    (empty.lanes, empty.routes) = (vec![], vec![]);
    empty.lists = vec![vec![]; 2];
    assert_eq!(expect(&empty, &mut Numbers(1)).length, 0);
}

#[test]
fn the_longest_net() {
    let longest = Crossing {
        lanes: vec![9; CARTS],
        routes: vec![(0..STEPS).collect(); CARTS],
        lists: vec![(0..CARTS).collect(); STEPS],
    };
    assert_eq!(expect(&longest, &mut Numbers(1)).length, NET);
}

#[test]
fn random_nets_locked_and_not() {
    let mut numbers = Numbers(106);
    let mut seen = [0; 2];
    for round in 0..CROSSINGS {
        let (carts, steps, zones) = match round % 3 {
            0 => (CARTS, STEPS, ZONES),
            1 => (CARTS, STEPS, STEPS),
            _ => (4, 3, 3),
        };
        let crossing = Crossing::random(&mut numbers, carts, steps, zones);
        let crossing = match round % 2 {
            0 => crossing.listed_anyhow(&mut numbers),
            _ => crossing.listed_as_driven(&mut numbers),
        };
        seen[usize::from(expect(&crossing, &mut numbers).locked)] += 1;
    }
    println!("nets accepted and locked: {:?}", seen);
    assert!(seen.iter().all(|count| *count > 0));
}

#[test]
fn a_refusal_leaves_the_room_as_it_was() {
    let mut numbers = Numbers(21);
    let mut refused = 0;
    for _ in 0..20_000 {
        let (mut sheet, mut plan) = (S.to_vec(), A.to_vec());
        let bytes = if numbers.below(2) == 0 {
            &mut sheet
        } else {
            &mut plan
        };
        let at = numbers.below(bytes.len());
        match numbers.below(3) {
            0 => bytes[at] ^= 1 << numbers.below(8),
            1 => bytes[at] = numbers.below(256) as u8,
            _ => bytes.truncate(at),
        }
        let mut room = [UNTOUCHED; 23 * 35];
        let written = net(&sheet, &plan, &mut room);
        match read_plan(&sheet, &plan) {
            Err(refusal) => {
                refused += 1;
                assert_eq!((written, room), (Err(refusal), [UNTOUCHED; 23 * 35]));
            }
            Ok(_) => assert!(written.is_ok()),
        }
    }
    assert!(refused > 10_000);
}
