//! Reads the hoist's count, 16 bits, strict. The controller asks for patience first: `7F 22 78` is no result, and starts the longer clock.

use bintrochis::{Asked, Call, Config, Error, Recording, Session, LONGEST_REQUEST};

fn main() -> Result<(), Error> {
    let call = Call::ReadDataByIdentifier { identifier: 0x2101 };
    let asked = Asked::new(&call, &Config::default());
    let mut buffer = [0; LONGEST_REQUEST];

    let request = asked.request(&mut buffer)?;
    let bytes: String = request.iter().map(|byte| format!(" {byte:02x}")).collect();
    println!("send{bytes}");

    // What came back, with its times in milliseconds since sending.
    let (mut events, mut replies) = ([0; 64], [0; 64]);
    let mut heard = Recording::lent(&mut events, &mut replies);
    heard
        .reply(20, &[0x7f, 0x22, 0x78])
        .reply(900, &[0x62, 0x21, 0x01, 0x03, 0xe8]);

    let answer = asked.hear(&mut Session::default(), &mut buffer, &heard);
    let count = answer.response()?.record()?.u16()?;
    println!(
        "count {count} at {} ms, after {} notice of {} events",
        answer.time, answer.notices, answer.events
    );
    Ok(())
}
