//! The types of the hosts' crate `damper` beside the second implementation's own.

use damper::{Event, Parameter};
use damper_check::event;
use damper_check::table::{Param, TABLE};

/// An event of the hosts' crate is the second implementation's event of the same bytes, and so is the one
/// that it writes again.
#[test]
fn events() {
    let values = [0, 1, 2, 3, 50, 100, 101, 128, 250, 255];
    for kind in 0..=12 {
        for a in 0..=255 {
            for (b, c) in values.into_iter().flat_map(|b| values.map(|c| (b, c))) {
                let bytes = [event::MARK[0], event::MARK[1], kind, a, b, c];
                let second = event::Event::from_bytes(&bytes);
                let host = Event::read(&bytes);
                assert_eq!(host.err(), second.err(), "{bytes:02X?}");
                if let Ok(host) = host {
                    let again = host.to_bytes().unwrap();
                    assert_eq!(event::Event::from_bytes(&again), second, "{host:?} of {bytes:02X?}");
                }
            }
        }
    }
}

/// Both tables of parameters.
#[test]
fn parameters() {
    for ((host, second), row) in Parameter::ALL.into_iter().zip(Param::ALL).zip(&TABLE) {
        assert_eq!(format!("{host:?}"), format!("{second:?}"));
        assert_eq!(host.number(), row.number);
        assert_eq!(host.range(), row.least..=row.most);
        assert_eq!(host.fresh(), row.fresh);
    }
}
