//! What lenient may do where strict deviates: wait for nobody, take another record, bear one notice too many.

use bintrochis::{Answer, Asked, Call, Config, Outcome, Recording, Session, LONGEST_REQUEST};

/// A reply and its time.
type Said = (u32, &'static [u8]);

fn said(answer: &Answer) -> String {
    let words = match answer.outcome {
        Outcome::PositiveResponse(&[high, low]) => {
            format!("count {}", u16::from_be_bytes([high, low]))
        }
        other => format!("{other:?}"),
    };
    format!("{words} at {} ms", answer.time)
}

fn main() {
    let call = Call::ReadDataByIdentifier { identifier: 0x2101 };
    // replies with their times, and the limit of notices
    let wait: Said = (10, &[0x7f, 0x31, 0x78]);
    let trolley: Said = (8, &[0x62, 0x22, 0x01, 0x07, 0xd0]);
    let hoist: Said = (15, &[0x62, 0x21, 0x01, 0x03, 0xe8]);
    let cases: [(&str, Option<u8>, &[Said]); 3] = [
        ("another service's wait notice", None, &[wait]),
        ("another record first", None, &[trolley, hoist]),
        ("that notice under a limit of 0", Some(0), &[wait]),
    ];
    for (name, notice_limit, said_to_us) in cases {
        let mut heard = Recording::new();
        for (time, bytes) in said_to_us {
            heard.reply(*time, bytes);
        }
        for (mode, strict) in [("strict", true), ("lenient", false)] {
            let config = Config {
                strict,
                notice_limit,
                ..Config::default()
            };
            let mut buffer = [0; LONGEST_REQUEST];
            let answer =
                Asked::new(&call, &config).hear(&mut Session::default(), &mut buffer, &heard);
            println!("{name}, {mode}: {}", said(&answer));
        }
    }
}
