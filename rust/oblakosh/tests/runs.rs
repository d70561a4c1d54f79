//! Requests through the routine itself, beside document 01's rules in their plainest form: random runs to the end, refused
//! requests mixed in, and the records of small crossings, those that a search of all runs finds and others.
mod crossing;
mod numbers;

use crossing::{refused, shuffled, Crossing};
use numbers::Numbers;
use oblakosh::{ask, judge, move_cart, Moved, NotMoved, Record, CARTS, STEPS, WORDS, ZONES};

const CROSSINGS: usize = 400;
const SMALL_CROSSINGS: usize = 400;

/// How often each number was answered.
type Seen = [usize; 29];

/// A crossing's bytes, the record between two others that no request may touch, and what was answered so far.
struct Controller<'s> {
    sheet: Vec<u8>,
    plan: Vec<u8>,
    lent: [Record; 3],
    seen: &'s mut Seen,
}

const UNTOUCHED: Record = Record {
    position: [0xA5; CARTS],
    made: 0xA5A5_A5A5,
};

impl<'s> Controller<'s> {
    fn new(crossing: &Crossing, numbers: &mut Numbers, seen: &'s mut Seen) -> Controller<'s> {
        Controller {
            sheet: crossing.sheet(numbers),
            plan: crossing.plan(),
            lent: [UNTOUCHED, Record::default(), UNTOUCHED],
            seen,
        }
    }

    /// A request. The answer must be the expected one, which asking by value gives too; the record must change by a permitted
    /// move and not otherwise.
    fn request(&mut self, cart: usize, expected: Result<Moved, NotMoved>) {
        let mut after = self.lent;
        if let Ok(moved) = expected {
            after[1].position[cart] = moved.position;
            after[1].made = moved.made;
        }
        let asked = ask(&self.sheet, &self.plan, self.lent[1], cart);
        let answer = move_cart(&self.sheet, &self.plan, &mut self.lent[1], cart);
        assert_eq!((answer, asked), (expected, expected));
        assert_eq!(self.lent, after);
        let number = match answer {
            Ok(_) => 0,
            Err(NotMoved::Held(_)) => 26,
            Err(NotMoved::Refused(refusal)) => refusal.number,
        };
        self.seen[number as usize] += 1;
    }

    /// A request with another record lent.
    fn request_for(&mut self, record: Record, cart: usize, expected: Result<Moved, NotMoved>) {
        let kept = self.lent;
        self.lent[1] = record;
        self.request(cart, expected);
        self.lent = kept;
    }
}

/// A number of no cart.
fn no_cart(crossing: &Crossing, numbers: &mut Numbers) -> usize {
    crossing.carts() + [0, 1, CARTS, 1 << 8, 1 << 32, usize::MAX - CARTS][numbers.below(6)]
}

/// The record with another count.
fn miscounted(numbers: &mut Numbers, mut record: Record) -> Record {
    let more = [1, 2, 1 << 8, 1 << 16, 1 << 31, u32::MAX][numbers.below(6)];
    record.made = record.made.wrapping_add(more);
    record
}

/// The record with a cart past out, or an absent one not at 0; the count is the sum of the positions.
fn misplaced(crossing: &Crossing, numbers: &mut Numbers, mut record: Record) -> Record {
    let cart = numbers.below(CARTS);
    let most = if cart < crossing.carts() {
        crossing.out(cart)
    } else {
        0
    };
    record.position[cart] = (most + 1 + numbers.below(255 - most)) as u8;
    record.made = record.position.iter().map(|k| u32::from(*k)).sum();
    record
}

/// The carts ask in a random order until one may roll, and so on until all are out; between, others ask that may not.
fn run(crossing: &Crossing, numbers: &mut Numbers, seen: &mut Seen) {
    let mut controller = Controller::new(crossing, numbers, seen);
    let mut at = vec![0; crossing.carts()];
    let mut done = 0;
    while !crossing.all_out(&at) {
        let record = crossing.record(&at);
        assert_eq!(controller.lent[1], record);
        assert!(crossing.no_two_in_one_zone(&at));
        controller.request(no_cart(crossing, numbers), refused(24));
        for wrong in [
            miscounted(numbers, record),
            misplaced(crossing, numbers, record),
        ] {
            controller.request_for(wrong, numbers.below(CARTS), refused(23));
        }
        let rolls = shuffled(numbers, at.len()).into_iter().find(|cart| {
            let expected = crossing.answer(&at, *cart);
            controller.request(*cart, expected);
            expected.is_ok()
        });
        at[rolls.expect("some cart may move")] += 1;
        done += 1;
    }
    for cart in 0..crossing.carts() {
        controller.request(cart, refused(25));
    }
    assert_eq!(controller.lent[1], crossing.record(&at));
    assert_eq!(done, crossing.steps() + crossing.carts());
    let judged = judge(&controller.sheet, &controller.plan, &mut [0; WORDS]).unwrap();
    assert_eq!(judged.moves as usize, done);
}

#[test]
fn carts_come_out_whoever_asks_first() {
    let mut numbers = Numbers(5);
    let mut seen = [0; 29];
    for _ in 0..CROSSINGS {
        let crossing = Crossing::random(&mut numbers, CARTS, STEPS, ZONES);
        let crossing = if numbers.below(3) == 0 {
            crossing.listed_in_one_order(&mut numbers)
        } else {
            crossing.listed_as_driven(&mut numbers)
        };
        run(&crossing, &mut numbers, &mut seen);
    }
    println!("answers by number: {:?}", seen);
    assert!([0, 23, 24, 25, 26].iter().all(|number| seen[*number] > 0));
}

#[test]
fn a_record_is_taken_exactly_if_a_search_of_all_runs_finds_it() {
    let mut numbers = Numbers(23);
    let mut seen = [0; 29];
    for _ in 0..SMALL_CROSSINGS {
        let crossing = Crossing::random(&mut numbers, 3, 3, 3).listed_anyhow(&mut numbers);
        let reached = crossing.reached();
        let mut controller = Controller::new(&crossing, &mut numbers, &mut seen);
        for at in crossing.all_positions() {
            let record = crossing.record(&at);
            for cart in 0..=crossing.carts() {
                let expected = crossing.answer_for(&reached, &record, cart);
                controller.request_for(record, cart, expected);
            }
            for wrong in [
                miscounted(&mut numbers, record),
                misplaced(&crossing, &mut numbers, record),
            ] {
                let cart = numbers.below(CARTS);
                let expected = crossing.answer_for(&reached, &wrong, cart);
                controller.request_for(wrong, cart, expected);
            }
        }
    }
    println!("answers by number: {:?}", seen);
    assert!([0, 22, 23, 24, 25, 26]
        .iter()
        .all(|number| seen[*number] > 0));
}
