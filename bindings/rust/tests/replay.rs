//! The lists of logs that the gate replays: the line of what each log's call answers, and the line that `bintrochis::line` says.

mod logs;

use bintrochis::{LONGEST_LINE, LONGEST_REQUEST};
use logs::{line, recorded, Recorded};

fn called(log: &[u8]) -> String {
    let Recorded {
        asked,
        mut session,
        events,
        replies,
    } = recorded(log, None);
    let mut request = [0; LONGEST_REQUEST];
    line(&asked.answer(&mut session, &mut request, events, replies))
}

/// How many logs a list has; each line is the one expected.
fn replayed(list: &str) -> usize {
    let folder = concat!(env!("CARGO_MANIFEST_DIR"), "/../../crates/replay/data/");
    let bytes = std::fs::read(format!("{folder}{list}.bin")).expect("the list");
    let lines = std::fs::read_to_string(format!("{folder}{list}.expected")).expect("its lines");
    let mut rest = &bytes[..];
    let mut buffer = [0; LONGEST_LINE];
    for (at, wanted) in lines.lines().enumerate() {
        let (length, behind) = rest.split_first_chunk().expect("a log's length");
        let (log, behind) = behind.split_at(u32::from_be_bytes(*length) as usize);
        rest = behind;
        let said = bintrochis::line(log, &mut buffer);
        assert_eq!(said, Some(wanted), "{list}, log {at}");
        if wanted != "badlog 0 0 0 -" {
            assert_eq!(called(log), wanted, "{list}, log {at}");
        }
    }
    assert!(rest.is_empty());
    lines.lines().count()
}

#[test]
fn the_lists_of_logs() {
    assert!(replayed("logs") >= 6000);
    assert!(replayed("listings") >= 160);
    assert!(replayed("addressed") >= 223);
}
