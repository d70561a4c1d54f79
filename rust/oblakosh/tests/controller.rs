//! The controller's operations through the wrapper, and what lent room and record hold after an answer and after a refusal.
use oblakosh::{
    ask, judge, move_cart, passing_list, plan, plan_better, plan_first, write_again, Moved,
    NotMoved, Planned, Record, Refusal, CARTS,
};

const S: &[u8] = include_bytes!("../../../examples/S.sheet");
const A: &[u8] = b"\x01\x00\x0A\x02\x02\x00\x01\x02\x00\x01";
const B: &[u8] = b"\x01\x00\x0A\x02\x02\x00\x01\x02\x01\x00";

/// A refusal that stands in no cart's part of the sheet.
fn refusal(number: u32, place: usize) -> Refusal {
    Refusal {
        number,
        cart: 0,
        step: 0,
        place,
    }
}

#[test]
fn a_plan_written_again_is_the_same_bytes() {
    for plan in [A, B] {
        let mut room = [0xA5; 12];
        assert_eq!(write_again(S, plan, &mut room), Ok(10));
        assert_eq!((&room[..10], &room[10..]), (plan, &[0xA5; 2][..]));
        assert_eq!(write_again(S, plan, &mut room[..10]), Ok(10));
    }
}

#[test]
fn a_refusal_leaves_the_room_as_it_was() {
    for (sheet, plan, length, number, place) in [
        (&[][..], A, 12, 1, 0),
        (S, &A[..9], 12, 17, 1),
        (S, A, 9, 28, 0),
        (S, A, 0, 28, 0),
    ] {
        let mut room = [0xA5; 12];
        assert_eq!(
            write_again(sheet, plan, &mut room[..length]),
            Err(refusal(number, place))
        );
        assert_eq!(room, [0xA5; 12]);
    }
}

type Planner = fn(&[u8], &mut [u8]) -> Result<Planned, Refusal>;
const PLANNERS: [Planner; 3] = [plan, plan_first, plan_better];

#[test]
fn a_sheet_is_planned_and_the_plan_accepted() {
    let made = Planned {
        length: 10,
        finish: 4500,
    };
    for planner in PLANNERS {
        let mut room = [0xA5; 12];
        assert_eq!(planner(S, &mut room), Ok(made));
        assert_eq!((&room[..10], &room[10..]), (A, &[0xA5; 2][..]));
        assert_eq!(planner(S, &mut room[..10]), Ok(made));
        assert_eq!(judge(S, &room[..10], &mut [0; 128]).unwrap().finish, 4500);
    }
}

#[test]
fn a_sheet_that_is_refused_has_no_plan() {
    for (sheet, length, number, place) in [(&[][..], 12, 1, 0), (&[2][..], 12, 2, 0), (S, 9, 28, 0)]
    {
        for planner in PLANNERS {
            let mut room = [0xA5; 12];
            assert_eq!(
                planner(sheet, &mut room[..length]),
                Err(refusal(number, place))
            );
            assert_eq!(room, [0xA5; 12]);
        }
    }
}

#[test]
fn a_list_is_the_very_part_of_the_plan_lent() {
    let list = passing_list(S, B, 1).unwrap();
    assert_eq!((list, list.as_ptr()), (&[1, 0][..], B[8..].as_ptr()));
    assert_eq!(passing_list(S, B, 0), Ok(&[0, 1][..]));
}

#[test]
fn no_list_beyond_the_last_zone() {
    for zone in [2, 24, usize::MAX] {
        assert_eq!(passing_list(S, B, zone), Err(refusal(27, 0)));
    }
    assert_eq!(passing_list(S, &[], 2), Err(refusal(15, 0)));
}

/// The record of two carts.
fn record(first: u8, second: u8, made: u32) -> Record {
    let mut position = [0; CARTS];
    position[..2].copy_from_slice(&[first, second]);
    Record { position, made }
}

/// What is answered, which asking by value must answer too; and what the record then holds.
fn requested(
    sheet: &[u8],
    plan: &[u8],
    mut record: Record,
    cart: usize,
) -> (Result<Moved, NotMoved>, Record) {
    let asked = ask(sheet, plan, record, cart);
    let answer = move_cart(sheet, plan, &mut record, cart);
    assert_eq!(answer, asked);
    (answer, record)
}

#[test]
fn a_permitted_move_is_stored() {
    assert_eq!(
        requested(S, A, record(3, 0, 3), 1),
        (
            Ok(Moved {
                position: 1,
                made: 4
            }),
            record(3, 1, 4)
        )
    );
}

#[test]
fn a_refused_request_leaves_the_record_as_it_was() {
    let refused = |number| NotMoved::Refused(refusal(number, 0));
    for (plan, lent, cart, expected) in [
        (B, Record::default(), 0, refused(22)),
        (A, record(1, 1, 2), 0, refused(23)),
        (A, record(2, 0, 2), 1, NotMoved::Held(1)),
        (A, record(2, 0, 3), 1, refused(23)),
        (A, record(3, 3, 6), 0, refused(25)),
        (A, record(3, 3, 6), 2, refused(24)),
        (A, record(3, 3, 6), usize::MAX, refused(24)),
    ] {
        assert_eq!(requested(S, plan, lent, cart), (Err(expected), lent));
    }
    assert_eq!(NotMoved::Held(1).to_string(), "refused 26 at 0");
}

#[test]
fn a_lane_is_left_in_the_order_of_its_carts() {
    // carts 0 and 1 of lane 0, each with a zone of its own
    let sheet = b"\x01\x00\x23\x02\0\0\0\0\0\0\0\0\x02\
        \0\0\0\0\0\x01\x00\x03\xE8\0\0\
        \0\0\0\0\0\x01\x01\x03\xE8\0\0";
    let plan = b"\x01\x00\x08\x02\x01\x00\x01\x01";
    let moved = |made| Ok(Moved { position: 1, made });
    let unreached = NotMoved::Refused(refusal(23, 0));
    for (lent, cart, expected, after) in [
        (record(0, 0, 0), 1, Err(NotMoved::Held(1)), record(0, 0, 0)),
        (record(0, 0, 0), 0, moved(1), record(1, 0, 1)),
        (record(1, 0, 1), 1, moved(2), record(1, 1, 2)),
        (record(0, 1, 1), 0, Err(unreached), record(0, 1, 1)),
    ] {
        assert_eq!(requested(sheet, plan, lent, cart), (expected, after));
    }
}
