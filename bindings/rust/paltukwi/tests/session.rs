//! A session without a socket: the worked sessions in odd cuts, and each call.

mod common;

use common::{all_worked, worked, Worked};
use paltukwi::{
    check_version, Capabilities, Client, ContextType, End, ErrorKind, FeedError, NotUnsent,
    Session, Setup, StartError, MOST_BYTES, MOST_HANDLES,
};

/// Takes what waits, so many bytes at a time.
fn take(session: &mut Session, most: usize) -> Vec<u8> {
    let mut got = Vec::new();
    loop {
        let unsent = session.unsent();
        assert!(unsent.handles.is_empty());
        if unsent.bytes.is_empty() {
            return got;
        }
        let count = unsent.bytes.len().min(most);
        got.extend(&unsent.bytes[..count]);
        session.sent(count, 0).unwrap();
    }
}

/// Plays it: so many bytes are fed at a time, and so many replies taken.
fn play(worked: &Worked, cut: usize, most: usize) {
    let name = format!("{} in {cut}, {most} taken", worked.name);
    let mut session = Session::start(&worked.setup()).unwrap();
    let mut got = take(&mut session, most);
    let mut requests = Vec::new();
    for piece in worked.client.chunks(cut) {
        assert_eq!(session.end(), None, "{name}");
        session.feed(piece, &[], worked.time).unwrap();
        got.extend(take(&mut session, most));
        while let Some(request) = session.next_request() {
            requests.push(request.to_string());
        }
    }
    if worked.ends_with_input() {
        assert_eq!(session.end(), None, "{name}");
        session.end_of_input().unwrap();
    }
    got.extend(take(&mut session, most));
    assert_eq!(requests, worked.requests, "{name}");
    assert!(got == worked.server, "{name}: other replies");
    let end = session.end();
    assert!(worked.is_end(end.as_ref()), "{name}: {end:?}");
}

#[test]
fn worked_sessions_in_odd_cuts() {
    for worked in all_worked() {
        for cut in [1, 3, 7, 16, 29, 41, 143, 10_000] {
            for most in [1, 5, 17, 10_000] {
                play(&worked, cut, most);
            }
        }
    }
}

#[test]
fn start_refuses_bits_that_stand_for_nothing() {
    let setup = |bits| Setup { capabilities: Capabilities::from_bits(bits), ..Setup::default() };
    for bits in [Capabilities::ALL.bits() + 1, 1 << 63, u64::MAX] {
        let refused = Session::start(&setup(bits)).err();
        assert_eq!(refused, Some(StartError::Capabilities));
    }
    assert!(Session::start(&setup(0)).is_ok());
    assert!(Session::start(&setup(Capabilities::ALL.bits())).is_ok());
}

#[test]
fn refused_pieces_change_nothing() {
    let leaves = worked("leaves");
    let mut session = Session::start(&leaves.setup()).unwrap();
    let (long, many) = (vec![0; MOST_BYTES + 1], [0; MOST_HANDLES + 1]);
    assert_eq!(session.feed(&[], &many, 0), Err(FeedError::Empty));
    assert_eq!(session.feed(&long, &many, 0), Err(FeedError::TooLong));
    let refused = session.feed(&long[1..], &many, 0);
    assert_eq!(refused, Err(FeedError::TooManyHandles));
    assert_eq!((session.end(), session.next_request()), (None, None));
    session.feed(&leaves.client, &many[1..], 0).unwrap();
    assert_eq!(session.feed(&[], &many, 0), Err(FeedError::Over));
    assert_eq!(session.end_of_input(), Err(FeedError::Over));
    assert_eq!(session.end(), Some(End::Disconnected));
    assert_eq!(take(&mut session, 1000), leaves.server);
}

#[test]
fn what_is_lent_waits_until_it_is_counted() {
    let leaves = worked("leaves");
    let mut session = Session::start(&leaves.setup()).unwrap();
    assert_eq!(session.unsent().bytes, &leaves.server[..20]);
    assert_eq!(session.sent(21, 0), Err(NotUnsent));
    assert_eq!(session.sent(20, 1), Err(NotUnsent));
    assert_eq!(session.sent(usize::MAX, 0), Err(NotUnsent));
    assert_eq!(session.unsent().bytes, &leaves.server[..20]);
    session.sent(7, 0).unwrap();
    assert_eq!(session.unsent().bytes, &leaves.server[7..20]);
    session.feed(&leaves.client, &[], 0).unwrap();
    assert_eq!(session.unsent().bytes, &leaves.server[7..]);
    session.sent(leaves.server.len() - 7, 0).unwrap();
    assert_eq!(session.unsent().bytes, b"");
    session.sent(0, 0).unwrap();
    assert_eq!(session.sent(1, 0), Err(NotUnsent));
}

/// When the client is known, over a session, byte by byte: the first and the last count of bytes.
fn known(worked: &Worked) -> (Vec<usize>, Option<Client>) {
    let mut session = Session::start(&worked.setup()).unwrap();
    let (mut known, mut last) = (Vec::new(), None);
    assert_eq!(session.client(), None);
    for (count, byte) in worked.client.iter().enumerate() {
        session.feed(&[*byte], &[], 0).unwrap();
        if let Some(client) = session.client() {
            known.push(count + 1);
            last = Some(client);
        }
    }
    if worked.ends_with_input() {
        session.end_of_input().unwrap();
    }
    assert_eq!(session.client(), None, "{}: behind the end", worked.name);
    (known, last)
}

#[test]
fn a_client_is_known_while_its_connection_stands() {
    let leaves = worked("leaves");
    let (counts, client) = known(&leaves);
    let client = client.unwrap();
    assert_eq!(client.name, None);
    assert_eq!(client.context_type, ContextType::Receiver);
    // The last message of the handshake and the disconnect have 16 bytes each.
    assert_eq!(counts.first(), Some(&(leaves.client.len() - 16)));
    assert_eq!(counts.last(), Some(&(leaves.client.len() - 1)));

    let inputs = worked("inputs");
    let (counts, client) = known(&inputs);
    let client = client.unwrap();
    assert_eq!(client.name.as_deref(), Some("demo"));
    assert_eq!(client.context_type, ContextType::Sender);
    assert_eq!(counts.last(), Some(&inputs.client.len()));

    assert_eq!(known(&worked("breaks-off")).1, None);
    assert_eq!(known(&worked("unreadable")).1, None);
}

#[test]
fn the_piece_limit_ends_a_session() {
    let leaves = worked("leaves");
    let mut setup = leaves.setup();
    setup.pieces = Some(2);
    let mut session = Session::start(&setup).unwrap();
    session.feed(&leaves.client[..1], &[], 0).unwrap();
    session.feed(&leaves.client[1..2], &[], 0).unwrap();
    assert_eq!(session.end(), None);
    session.feed(&leaves.client[2..3], &[], 0).unwrap();
    let Some(End::Failed(error)) = session.end() else {
        panic!("it goes on");
    };
    assert_eq!(error.kind(), ErrorKind::PieceLimit);
    assert_eq!(error.number(), 11);
    assert!(!error.text().is_empty());
}

#[test]
fn ends_have_their_kinds_and_texts() {
    let kind_of = |name: &str| {
        let worked = worked(name);
        let mut session = Session::start(&worked.setup()).unwrap();
        session.feed(&worked.client, &[], 0).unwrap();
        if worked.ends_with_input() {
            session.end_of_input().unwrap();
        }
        match session.end() {
            Some(End::Failed(error)) => (error.kind(), error.to_string()),
            other => panic!("{name}: {other:?}"),
        }
    };
    let (kind, text) = kind_of("breaks-off");
    assert_eq!(kind, ErrorKind::UnexpectedEof);
    assert_eq!(text, "IO error: unexpected EOF reading ei socket");
    let (kind, text) = kind_of("unreadable");
    assert_eq!(kind, ErrorKind::ParseHeaderLength);
    assert_eq!(text, "parse error: header length 15 < 16");
    let (kind, _) = kind_of("refused");
    assert_eq!(kind, ErrorKind::RequestInvalidCapabilities);
}

#[test]
fn refusals_have_texts() {
    let other = StartError::Version { library: 0x02_63_01 };
    let text = "libreis has version 2.99.1, and these bindings are for 0.1.0";
    assert_eq!(other.to_string(), text);
    let text = "a bit of the set stands for no capability";
    assert_eq!(StartError::Capabilities.to_string(), text);
    let texts = [FeedError::TooLong, FeedError::TooManyHandles].map(|error| error.to_string());
    assert!(texts[0].contains(&MOST_BYTES.to_string()), "{}", texts[0]);
    assert!(texts[1].contains(&MOST_HANDLES.to_string()), "{}", texts[1]);
    assert_eq!(check_version(), Ok(()));
}

/// Each byte of each worked session is another one: the session goes on or ends, and can be asked about all.
#[test]
fn sessions_that_are_not_as_they_should_be() {
    for worked in all_worked() {
        for at in 0..worked.client.len() {
            let mut bytes = worked.client.clone();
            bytes[at] ^= 0x55;
            let mut session = Session::start(&worked.setup()).unwrap();
            let (first, second) = bytes.split_at(at);
            for piece in [first, second] {
                let is_over = session.end().is_some();
                match session.feed(piece, &[], worked.time) {
                    Ok(()) => assert!(!is_over && !piece.is_empty()),
                    Err(error) => assert_eq!(error == FeedError::Over, is_over),
                }
            }
            let known = session.client();
            assert!(known.is_none() || session.end().is_none());
            assert!(take(&mut session, 10_000).len() >= 20);
            while session.next_request().is_some() {}
        }
    }
}

#[test]
fn sessions_on_several_threads_at_once() {
    let threads: Vec<_> = (0..4).map(|_| std::thread::spawn(worked_sessions_in_odd_cuts)).collect();
    for thread in threads {
        thread.join().unwrap();
    }
}
