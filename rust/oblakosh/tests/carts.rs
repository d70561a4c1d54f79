//! Which cart and step a refusal tells: of every field of sheets of one to sixteen carts, cut at each of its bytes and out of range.
use oblakosh::{judge, read_plan, read_sheet, NotJudged, Refusal, WORDS};

/// A field: its place and width, the cart and step that a refusal there tells, and a value that is refused with a number.
struct Field {
    at: usize,
    width: usize,
    cart: u8,
    step: u8,
    wrong: u32,
    number: u32,
}

/// A sheet as it is written, and its fields from the first gap on.
struct Written {
    bytes: Vec<u8>,
    fields: Vec<Field>,
}

impl Written {
    fn put(
        &mut self,
        width: usize,
        value: u32,
        (cart, step): (usize, usize),
        wrong: u32,
        number: u32,
    ) {
        self.fields.push(Field {
            at: self.bytes.len(),
            width,
            cart: cart as u8,
            step: step as u8,
            wrong,
            number,
        });
        self.bytes.extend(&value.to_be_bytes()[4 - width..]);
    }

    /// So many carts, of one step, two, three, one, .. each over zones 0, 1, 2, all on one lane.
    fn of_carts(carts: usize) -> Written {
        let mut sheet = Written {
            bytes: vec![1, 0, 0, 3],
            fields: vec![],
        };
        for _ in 0..3 {
            sheet.put(2, 200, (0, 0), 60_001, 5);
            sheet.put(2, 300, (0, 0), 60_001, 5);
        }
        sheet.put(1, carts as u32, (0, 0), 17, 6);
        for cart in 1..=carts {
            let steps = (cart - 1) % 3 + 1;
            sheet.put(1, 7, (cart, 0), 16, 7);
            sheet.put(4, 1_000 * cart as u32, (cart, 0), 3_600_001, 8);
            sheet.put(1, steps as u32, (cart, 0), 9, 9);
            for step in 1..=steps {
                let travel = if step < steps { 100 } else { 0 };
                sheet.put(1, step as u32 - 1, (cart, step), 3, 10);
                sheet.put(2, 1_000, (cart, step), 60_001, 12);
                sheet.put(2, travel, (cart, step), 60_001, 12);
            }
        }
        sheet
    }

    fn place_of(&self, cart: usize, nth: usize) -> usize {
        let mut of_cart = self
            .fields
            .iter()
            .filter(|field| field.cart as usize == cart);
        of_cart.nth(nth).unwrap().at
    }
}

/// Every operation that reads a sheet tells the same; the bytes get their own length.
fn expect(mut bytes: Vec<u8>, expected: Refusal) {
    let length = bytes.len() as u16;
    bytes[1..3].copy_from_slice(&length.to_be_bytes());
    assert_eq!(read_sheet(&bytes), Err(expected));
    assert_eq!(read_plan(&bytes, &[]), Err(expected));
    assert_eq!(
        judge(&bytes, &[], &mut [0; WORDS]),
        Err(NotJudged::Refused(expected))
    );
}

fn told(number: u32, place: usize, cart: usize, step: usize) -> Refusal {
    Refusal {
        number,
        cart: cart as u8,
        step: step as u8,
        place,
    }
}

#[test]
fn a_cut_in_a_carts_part_is_that_carts() {
    for carts in 0..=16 {
        let sheet = Written::of_carts(carts);
        for field in &sheet.fields {
            for end in field.at..field.at + field.width {
                let expected = told(1, field.at, field.cart as usize, field.step as usize);
                expect(sheet.bytes[..end].to_vec(), expected);
            }
        }
    }
}

#[test]
fn a_value_out_of_range_is_told_with_its_cart_and_step() {
    for carts in 0..=16 {
        let sheet = Written::of_carts(carts);
        for field in &sheet.fields {
            let mut bytes = sheet.bytes.clone();
            let wrong = &field.wrong.to_be_bytes()[4 - field.width..];
            bytes[field.at..field.at + field.width].copy_from_slice(wrong);
            let expected = told(
                field.number,
                field.at,
                field.cart as usize,
                field.step as usize,
            );
            expect(bytes, expected);
        }
    }
}

#[test]
fn a_zone_again_is_told_with_its_step() {
    for cart in [3, 6, 15] {
        let sheet = Written::of_carts(16);
        let again = sheet.place_of(cart, 9);
        let mut bytes = sheet.bytes.clone();
        bytes[again] = 0;
        expect(bytes, told(11, again, cart, 3));
    }
}

#[test]
fn bytes_after_the_last_cart_are_no_carts() {
    for carts in 0..=16 {
        let mut bytes = Written::of_carts(carts).bytes;
        let end = bytes.len();
        bytes.push(0);
        expect(bytes, told(13, end, 0, 0));
    }
}

/// Two carts arrive before the first: the lower of them is told.
#[test]
fn an_early_arrival_is_the_lowest_such_carts() {
    let sheet = Written::of_carts(16);
    for (lower, higher) in [(2, 16), (7, 8), (15, 16)] {
        let mut bytes = sheet.bytes.clone();
        for cart in [lower, higher] {
            let arrival = sheet.place_of(cart, 1);
            bytes[arrival..arrival + 4].fill(0);
        }
        expect(bytes, told(14, sheet.place_of(lower, 1), lower, 0));
    }
}
