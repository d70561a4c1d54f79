//! Document 01's examples through the wrapper, and what lent words hold after an answer and after a refusal.
use oblakosh::{judge, read_plan, read_sheet, Judged, NotJudged, Refusal, WORDS};

const S: &[u8] = include_bytes!("../../../examples/S.sheet");
const A: &[u8] = b"\x01\x00\x0A\x02\x02\x00\x01\x02\x00\x01";
const B: &[u8] = b"\x01\x00\x0A\x02\x02\x00\x01\x02\x01\x00";
const UNTOUCHED: u32 = 0xA5A5_A5A5;

/// A refusal that stands in no cart's part of the sheet.
fn refusal(number: u32, place: usize) -> Refusal {
    Refusal {
        number,
        cart: 0,
        step: 0,
        place,
    }
}

/// S with another byte at a place.
fn changed(at: usize, byte: u8) -> Vec<u8> {
    let mut sheet = S.to_vec();
    sheet[at] = byte;
    sheet
}

/// What is answered with so many words lent; a refusal must leave them as they were.
fn judged_in(sheet: &[u8], plan: &[u8], room: usize) -> (Result<Judged, NotJudged>, Vec<u32>) {
    let mut words = vec![UNTOUCHED; room];
    let answer = judge(sheet, plan, &mut words);
    assert!(answer.is_ok() || words.iter().all(|word| *word == UNTOUCHED));
    (answer, words)
}

#[test]
fn a_sheet_is_read_part_by_part() {
    let sheet = read_sheet(S).unwrap();
    assert_eq!((sheet.zones, sheet.carts), (2, 2));
    assert_eq!(
        (&sheet.follow[..3], &sheet.cross[..3]),
        (&[200, 200, 0][..], &[300, 300, 0][..])
    );
    assert_eq!(
        (&sheet.lane[..2], &sheet.arrival[..2], &sheet.steps[..3]),
        (&[0, 1][..], &[0, 500][..], &[2, 2, 0][..])
    );
    assert_eq!(
        (&sheet.zone[0][..2], &sheet.zone[1][..2]),
        (&[0, 1][..], &[1, 0][..])
    );
    assert_eq!(
        (&sheet.passing[1][..3], &sheet.travel[1][..2]),
        (&[1000, 1000, 0][..], &[100, 0][..])
    );
}

#[test]
fn a_plan_is_read_part_by_part() {
    let (sheet, orders) = read_plan(S, B).unwrap();
    assert_eq!(sheet, read_sheet(S).unwrap());
    assert_eq!(&orders.count[..3], &[2, 2, 0]);
    assert_eq!(
        (&orders.list[0][..2], &orders.list[1][..2]),
        (&[0, 1][..], &[1, 0][..])
    );
    assert_eq!(
        (&orders.ahead[0][..2], &orders.ahead[1][..2]),
        (&[0, 2][..], &[0, 1][..])
    );
}

#[test]
fn reading_refuses_with_number_and_place() {
    assert_eq!(read_sheet(&[]), Err(refusal(1, 0)));
    assert_eq!(read_sheet(&[2]), Err(refusal(2, 0)));
    assert_eq!(read_sheet(&S[..44]), Err(refusal(3, 1)));
    assert_eq!(read_plan(&[], A), Err(refusal(1, 0)));
    assert_eq!(read_plan(S, &[]), Err(refusal(15, 0)));
    assert_eq!(read_plan(&changed(29, 0), B), Err(refusal(21, 9)));
}

#[test]
fn the_largest_arrival_is_taken_and_no_larger_one() {
    let arriving = |arrival: u32| {
        let mut sheet = S.to_vec();
        sheet[30..34].copy_from_slice(&arrival.to_be_bytes());
        read_sheet(&sheet).map(|sheet| sheet.arrival[1])
    };
    assert_eq!(arriving(3_600_000), Ok(3_600_000));
    assert_eq!(
        arriving(3_600_001),
        Err(Refusal {
            cart: 2,
            ..refusal(8, 30)
        })
    );
}

#[test]
fn an_accepted_plan_has_its_times_in_the_first_words() {
    let (answer, words) = judged_in(S, A, WORDS + 2);
    assert_eq!(
        answer,
        Ok(Judged {
            finish: 4500,
            moves: 6
        })
    );
    assert_eq!(
        (&words[..3], &words[8..11]),
        (&[0, 1100, 0][..], &[2400, 3500, 0][..])
    );
    assert!(words[11..WORDS].iter().all(|word| *word == 0));
    assert_eq!(&words[WORDS..], &[UNTOUCHED; 2]);
    assert_eq!(
        judged_in(&changed(29, 0), A, WORDS).0,
        Ok(Judged {
            finish: 4400,
            moves: 6
        })
    );
    assert_eq!(
        judged_in(
            b"\x01\x00\x09\x01\x00\x00\x00\x00\x00",
            b"\x01\x00\x05\x01\x00",
            WORDS
        )
        .0,
        Ok(Judged {
            finish: 0,
            moves: 0
        })
    );
}

#[test]
fn a_locked_plan_shows_its_ring() {
    for room in [0, WORDS - 1, WORDS] {
        match judged_in(S, B, room).0 {
            Err(NotJudged::Locked(ring)) => {
                assert_eq!((ring.carts(), ring.zones()), (&[0, 1][..], &[1, 0][..]))
            }
            other => panic!("{:?}", other),
        }
    }
}

#[test]
fn judging_refuses_in_the_tables_order() {
    for (sheet, plan, room, expected) in [
        (&[][..], A, WORDS, refusal(1, 0)),
        (S, &A[..9], WORDS, refusal(17, 1)),
        (S, &[][..], 0, refusal(15, 0)),
        (S, A, 0, refusal(28, 0)),
        (S, A, WORDS - 1, refusal(28, 0)),
    ] {
        assert_eq!(
            judged_in(sheet, plan, room).0,
            Err(NotJudged::Refused(expected))
        );
    }
}

#[test]
fn refusals_are_printed_as_document_01_prints_them() {
    assert_eq!(read_sheet(&[2]).unwrap_err().to_string(), "refused 2 at 0");
    assert_eq!(
        read_sheet(&changed(24, 2)).unwrap_err().to_string(),
        "refused 10 at 24 cart 1 step 2"
    );
    assert_eq!(
        judged_in(S, B, WORDS).0.unwrap_err().to_string(),
        "refused 22 at 0"
    );
}
