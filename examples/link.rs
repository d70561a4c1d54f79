//! Judges document 01's sheet S with its plans A and B and prints what its judge program prints.
//! From rust/oblakosh: cargo run --example link
use oblakosh::{judge, read_sheet, NotJudged, Ring, Sheet, STEPS, WORDS};

const S: &[u8] = include_bytes!("S.sheet");
const A: &[u8] = b"\x01\x00\x0A\x02\x02\x00\x01\x02\x00\x01";
const B: &[u8] = b"\x01\x00\x0A\x02\x02\x00\x01\x02\x01\x00";

/// One line for each step. A cart leaves its last zone when it has passed; another when it sets out to enter the next.
fn show_times(sheet: &Sheet, words: &[u32]) {
    for cart in 0..sheet.carts {
        let steps = sheet.steps[cart] as usize;
        for step in 0..steps {
            let enter = words[STEPS * cart + step];
            let leave = if step + 1 == steps {
                enter + u32::from(sheet.passing[cart][step])
            } else {
                words[STEPS * cart + step + 1] - u32::from(sheet.travel[cart][step])
            };
            println!(
                "cart {} zone {} enter {} leave {}",
                cart, sheet.zone[cart][step], enter, leave
            );
        }
    }
}

fn show_ring(ring: &Ring) {
    let waited_for = ring.carts().iter().cycle().skip(1);
    for ((cart, zone), other) in ring.carts().iter().zip(ring.zones()).zip(waited_for) {
        println!("cart {} waits at zone {} for cart {}", cart, zone, other);
    }
}

fn show(sheet: &[u8], plan: &[u8]) {
    let mut words = [0; WORDS];
    match judge(sheet, plan, &mut words) {
        Ok(judged) => {
            println!("ok moves {} finish {}", judged.moves, judged.finish);
            show_times(&read_sheet(sheet).unwrap(), &words);
        }
        Err(refused) => {
            println!("{}", refused);
            if let NotJudged::Locked(ring) = refused {
                show_ring(&ring);
            }
        }
    }
}

fn main() {
    show(S, A);
    show(S, B);
}
