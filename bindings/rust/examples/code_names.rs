//! The negative response codes that have a name, with the names' numbers, a line each.

use bintrochis::NegativeResponseCode;

fn main() {
    for code in (0..=0xff).map(NegativeResponseCode) {
        if let Some(name) = code.name() {
            println!("{:02x} {:2} {name}", code.0, code.number());
        }
    }
}
