//! The client's end of the cable to ./udsbench (scripts/cable): a transport over standard output and input, a line of hex for each request
//! and each reply, `-` for silence. Standard error says what each call learned.

use bintrochis::{Call, Client, Config, Error, Failure, Heard, Response, Transport};
use std::io::{self, BufRead, Write};

/// The cable. Nothing is late on it: an answer comes at time 0, and silence lasts until the deadline.
struct Cable;

impl Transport for Cable {
    type Error = io::Error;

    fn send(&mut self, request: &[u8]) -> io::Result<()> {
        let mut line: String = request.iter().map(|byte| format!("{byte:02x}")).collect();
        line.push('\n');
        io::stdout().write_all(line.as_bytes())?;
        io::stdout().flush()
    }

    fn receive(&mut self, _until: u64, buffer: &mut [u8]) -> io::Result<Heard> {
        let mut line = String::new();
        if io::stdin().lock().read_line(&mut line)? == 0 {
            return Ok(Heard::End { time: 0 });
        }
        let line = line.trim_end();
        if line == "-" {
            return Ok(Heard::Nothing);
        }
        let wrong = || io::Error::other(format!("no reply in hex: {line}"));
        let pairs = line.len() / 2;
        for (place, at) in buffer.iter_mut().zip(0..pairs) {
            let pair = line.get(2 * at..2 * at + 2).ok_or_else(wrong)?;
            *place = u8::from_str_radix(pair, 16).map_err(|_| wrong())?;
        }
        Ok(Heard::Message {
            time: 0,
            length: pairs,
            source: 0,
        })
    }

    /// Nobody speaks on this cable unasked, and it has no clock.
    fn wait(&mut self, _until: u64, _buffer: &mut [u8]) -> io::Result<()> {
        Ok(())
    }
}

fn learned(name: &str, response: Result<Response<'_>, Failure<io::Error>>) -> io::Result<()> {
    match response {
        Ok(Response::Positive { record, .. }) => {
            let bytes: String = record.0.iter().map(|byte| format!(" {byte:02x}")).collect();
            eprintln!("{name}{bytes}");
        }
        Ok(Response::Suppressed { .. }) => eprintln!("{name}: silence, as asked for"),
        Err(Failure::Call {
            error: Error::Negative(code),
            ..
        }) => eprintln!("{name}: refused with code {:02x}", code.0),
        Err(Failure::Transport(error)) => return Err(error),
        Err(failure) => eprintln!("{name}: {failure}"),
    }
    Ok(())
}

fn main() -> io::Result<()> {
    let read = |identifier| Call::ReadDataByIdentifier { identifier };
    let write = Call::WriteDataByIdentifier {
        identifier: 0x2102,
        data: &[0x0f, 0xa0], // 4,000 kg
    };
    let confirmed = Call::ReadDTCInformationNumberOfDTCByStatusMask { status_mask: 0x08 };
    let mut client = Client::new(Cable, Config::default());
    learned("count", client.call(&read(0x2101)))?;
    learned("limit", client.call(&read(0x2102)))?;
    learned("limit written", client.call(&write))?;
    learned("limit", client.call(&read(0x2102)))?;
    learned("faults confirmed", client.call(&confirmed))?;
    learned("identifier 2103", client.call(&read(0x2103)))?;
    client.config.suppressed = true;
    learned("still there", client.call(&Call::TesterPresent))
}
