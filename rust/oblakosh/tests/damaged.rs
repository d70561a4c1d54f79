//! Damaged bytes by the thousand: the operations agree on what reading says, and a refusal leaves lent memory unchanged.
mod numbers;

use numbers::Numbers;
use oblakosh::{
    judge, move_cart, passing_list, read_plan, write_again, NotJudged, NotMoved, Record, Refusal,
    CARTS, WORDS,
};

const S: &[u8] = include_bytes!("../../../examples/S.sheet");
const A: &[u8] = b"\x01\x00\x0A\x02\x02\x00\x01\x02\x00\x01";
const CASES: u32 = 20_000;

/// A record that no run reaches.
const UNREACHED: Record = Record {
    position: [0xA5; CARTS],
    made: 0xA5A5_A5A5,
};

/// The bytes with at most one of them changed, a little or at all, and now and then cut.
fn damaged(numbers: &mut Numbers, bytes: &[u8]) -> Vec<u8> {
    let mut bytes = bytes.to_vec();
    let at = numbers.below(bytes.len());
    match numbers.below(4) {
        0 => bytes[at] = numbers.below(256) as u8,
        1 => bytes[at] ^= 1,
        2 if numbers.below(4) == 0 => bytes.truncate(at),
        _ => {}
    }
    bytes
}

#[test]
fn damaged_bytes_leave_lent_memory_unchanged() {
    let mut numbers = Numbers(1);
    let mut readable = 0;
    for _ in 0..CASES {
        let (sheet, plan) = (damaged(&mut numbers, S), damaged(&mut numbers, A));
        let (mut room, mut words) = ([0xA5; 16], [0xA5A5_A5A5; WORDS]);
        let wrote = write_again(&sheet, &plan, &mut room);
        let judged = judge(&sheet, &plan, &mut words);
        let list = passing_list(&sheet, &plan, 0);
        let mut record = UNREACHED;
        let moved = move_cart(&sheet, &plan, &mut record, 0);
        assert_eq!(record, UNREACHED);
        assert!(judged.is_ok() || words == [0xA5A5_A5A5; WORDS]);
        match read_plan(&sheet, &plan) {
            Ok((_, orders)) => {
                readable += 1;
                assert_eq!((wrote, &room[..plan.len()]), (Ok(plan.len()), &plan[..]));
                assert_eq!(list.unwrap(), &orders.list[0][..orders.count[0] as usize]);
                assert!(!matches!(judged, Err(NotJudged::Refused(_))));
                let number = if judged.is_ok() { 23 } else { 22 };
                let unreached = Refusal {
                    number,
                    cart: 0,
                    step: 0,
                    place: 0,
                };
                assert_eq!(moved, Err(NotMoved::Refused(unreached)));
            }
            Err(refusal) => {
                assert!(matches!(refusal, Refusal { number: 1..=21, .. }));
                assert_eq!(
                    (wrote, room, list),
                    (Err(refusal), [0xA5; 16], Err(refusal))
                );
                assert_eq!(judged, Err(NotJudged::Refused(refusal)));
                assert_eq!(moved, Err(NotMoved::Refused(refusal)));
            }
        }
    }
    assert!(0 < readable && readable < CASES);
}
