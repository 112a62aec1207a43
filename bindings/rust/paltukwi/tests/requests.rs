//! Each kind of request with its fields, typed by hand from the comments of the worked sessions.

mod common;

use common::{all_worked, worked, Worked};
use paltukwi::{Capabilities, DeviceId, Request, SeatId, Session};
use std::collections::BTreeSet;

const SEAT: SeatId = SeatId(0xff00_0000_0000_0001);
const DEVICE: DeviceId = DeviceId(0xff00_0000_0000_0002);

/// What is asked for in a session.
fn requests_of(worked: &Worked) -> Vec<Request> {
    let mut session = Session::start(&worked.setup()).unwrap();
    session.feed(&worked.client, &[], worked.time).unwrap();
    std::iter::from_fn(|| session.next_request()).collect()
}

#[test]
fn the_whole_session() {
    let (seat, device) = (SEAT, DEVICE);
    let wanted = [
        Request::Bind { seat, capabilities: Capabilities::from_bits(127) },
        Request::StartEmulating { seat, device, serial: 2, sequence: 1 },
        Request::Key { seat, device, time: 1000, key: 30, pressed: true },
        Request::Frame { seat, device, time: 1000, serial: 2 },
        Request::PointerMotion { seat, device, time: 2000, dx: 1.0, dy: -1.0 },
        Request::ScrollDiscrete { seat, device, time: 2000, dx: 0, dy: 120 },
        Request::Frame { seat, device, time: 2000, serial: 2 },
        Request::StopEmulating { seat, device, serial: 2 },
        Request::DeviceClosed { seat, device },
        Request::Disconnect,
    ];
    assert_eq!(requests_of(&worked("whole")), wanted);
}

#[test]
fn every_other_input() {
    let (seat, device, time) = (SEAT, DEVICE, 3000);
    let (x, y) = (1.0, -1.0);
    let text = "\u{e9}".to_string();
    let wanted = [
        Request::Bind { seat, capabilities: Capabilities::from_bits(127) },
        Request::RequestDevice { seat, capabilities: Capabilities::NONE },
        Request::PointerMotionAbsolute { seat, device, time, x, y },
        Request::ScrollDelta { seat, device, time, dx: 1.0, dy: -1.0 },
        Request::ScrollStop { seat, device, time, x: true, y: false },
        Request::ScrollCancel { seat, device, time, x: false, y: true },
        Request::ScrollDiscrete { seat, device, time, dx: -120, dy: 0 },
        Request::TextKeysym { seat, device, time, keysym: 97, pressed: false },
        Request::TextUtf8 { seat, device, time, text },
        Request::TouchDown { seat, device, time, touch: 4, x, y },
        Request::TouchMotion { seat, device, time, touch: 4, x: -2.0, y: 2.0 },
        Request::TouchUp { seat, device, time, touch: 4 },
        Request::TouchDown { seat, device, time, touch: 5, x: 0.0, y: 0.0 },
        Request::TouchCancel { seat, device, time, touch: 5 },
        Request::Button { seat, device, time, button: 272, pressed: false },
        Request::Frame { seat, device, time, serial: 2 },
    ];
    assert_eq!(requests_of(&worked("inputs")), wanted);
}

#[test]
fn gestures() {
    let (seat, device, time) = (SEAT, DEVICE, 9);
    let wanted = [
        Request::Bind { seat, capabilities: Capabilities::GESTURE },
        Request::GestureSwipe { seat, device, time, fingers: 3, dx: 1.0, dy: -2.0 },
        Request::GesturePinch { seat, device, time, scale: 0.5 },
        Request::Frame { seat, device, time, serial: 6 },
        Request::Disconnect,
    ];
    assert_eq!(requests_of(&worked("gestures")), wanted);
}

#[test]
fn every_kind_stands_in_a_worked_session() {
    let sessions = all_worked();
    let requests: Vec<Request> = sessions.iter().flat_map(requests_of).collect();
    let names: BTreeSet<&str> = requests.iter().map(Request::name).collect();
    assert_eq!(names.len(), 24, "{names:?}");
    for request in &requests {
        let is_of_client = matches!(request, Request::Disconnect);
        assert_eq!(request.seat().is_none(), is_of_client, "{request}");
        let line = request.to_string();
        assert_eq!(request.device().is_some(), line.contains(" device="), "{line}");
        assert_eq!(request.time().is_some(), line.contains(" time="), "{line}");
    }
}
