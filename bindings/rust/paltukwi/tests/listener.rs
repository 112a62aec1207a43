//! Paths, locks, and what is wrong with them.

mod common;

use common::{worked, Folder};
use paltukwi::{wait, BindError, Connection, Interest, Listener};
use std::fs::{self, File};
use std::io::{ErrorKind, Read, Write};
use std::os::fd::AsFd;
use std::os::unix::fs::PermissionsExt;
use std::os::unix::net::{UnixListener, UnixStream};
use std::path::Path;
use std::time::{Duration, Instant};

/// What is wrong at the path, and the text of it.
fn wrong(bound: Result<Listener, BindError>, path: &Path) -> ErrorKind {
    let error = bound.expect_err("it listens");
    let text = error.to_string();
    assert!(text.starts_with(&format!("{}: ", path.display())), "{text}");
    match error {
        BindError::Path { error, .. } => error.kind(),
        other => panic!("{other}"),
    }
}

#[test]
fn clients_are_accepted_one_by_one() {
    let folder = Folder::new("accepts");
    let leaves = worked("leaves");
    let path = folder.0.join("socket");
    let listener = Listener::bind(&path).unwrap();
    assert_eq!(listener.path(), path);
    assert!(listener.accept().unwrap().is_none());
    for _ in 0..3 {
        let mut client = UnixStream::connect(&path).unwrap();
        client.write_all(&leaves.client).unwrap();
        let ready = wait(&[(listener.as_fd(), Interest::Read)], None).unwrap();
        assert_eq!(ready, [true]);
        let stream = listener.accept().unwrap().unwrap();
        assert!(listener.accept().unwrap().is_none());
        let mut connection = Connection::open(stream, &leaves.setup()).unwrap();
        connection.turn(0).unwrap();
        assert!(connection.is_done());
        drop(connection);
        let mut got = Vec::new();
        client.read_to_end(&mut got).unwrap();
        assert_eq!(got, leaves.server);
    }
    drop(listener);
    assert!(folder.names().is_empty());
}

#[test]
fn a_path_that_is_taken_stays_as_it_is() {
    let folder = Folder::new("taken");
    let path = folder.0.join("socket");
    let first = Listener::bind(&path).unwrap();
    assert_eq!(wrong(Listener::bind(&path), &path), ErrorKind::AddrInUse);
    UnixStream::connect(&path).unwrap();
    drop(first);

    let text = folder.0.join("text");
    fs::write(&text, "a text").unwrap();
    assert_eq!(wrong(Listener::bind(&text), &text), ErrorKind::AddrInUse);
    assert_eq!(fs::read_to_string(&text).unwrap(), "a text");
    assert_eq!(folder.names(), ["text"]);
}

#[test]
fn a_folder_that_is_not_there() {
    let folder = Folder::new("missing");
    let missing = folder.0.join("missing");
    let path = missing.join("socket");
    assert_eq!(wrong(Listener::bind(&path), &path), ErrorKind::NotFound);
    let lock = missing.join("eis-0.lock");
    let bound = Listener::bind_in(&missing);
    assert_eq!(wrong(bound, &lock), ErrorKind::NotFound);
    assert!(folder.names().is_empty());
}

#[test]
fn a_path_that_is_too_long() {
    let folder = Folder::new("long");
    let path = folder.0.join("x".repeat(120));
    assert_eq!(wrong(Listener::bind(&path), &path), ErrorKind::InvalidInput);
    let long = folder.0.join("y".repeat(120));
    fs::create_dir(&long).unwrap();
    let bound = Listener::bind_in(&long);
    assert_eq!(wrong(bound, &long.join("eis-0")), ErrorKind::InvalidInput);
    assert_eq!(fs::read_dir(&long).unwrap().count(), 0, "a lock is left");
}

/// Root may write everywhere: then there is nothing to test.
#[test]
fn no_right_to_write() {
    let folder = Folder::new("rights");
    fs::set_permissions(&folder.0, fs::Permissions::from_mode(0o500)).unwrap();
    if File::create(folder.0.join("probe")).is_ok() {
        println!("left out: this user may write everywhere");
        return;
    }
    let path = folder.0.join("socket");
    let bound = Listener::bind(&path);
    assert_eq!(wrong(bound, &path), ErrorKind::PermissionDenied);
    let bound = Listener::bind_in(&folder.0);
    let lock = folder.0.join("eis-0.lock");
    assert_eq!(wrong(bound, &lock), ErrorKind::PermissionDenied);
    assert!(folder.names().is_empty());
}

#[test]
fn names_are_taken_in_order_and_given_back() {
    let folder = Folder::new("names");
    let first = Listener::bind_in(&folder.0).unwrap();
    let second = Listener::bind_in(&folder.0).unwrap();
    assert_eq!(first.path(), folder.0.join("eis-0"));
    assert_eq!(second.path(), folder.0.join("eis-1"));
    let names = ["eis-0", "eis-0.lock", "eis-1", "eis-1.lock"];
    assert_eq!(folder.names(), names);
    drop(first);
    assert_eq!(folder.names(), ["eis-1", "eis-1.lock"]);
    let again = Listener::bind_in(&folder.0).unwrap();
    assert_eq!(again.path(), folder.0.join("eis-0"));
    drop((second, again));
    assert!(folder.names().is_empty());
}

/// Servers that come and go at once: a client that connects to the path of one of them reaches that one.
#[test]
fn names_belong_to_one_server_at_a_time() {
    let folder = Folder::new("race");
    std::thread::scope(|scope| {
        for _ in 0..8 {
            scope.spawn(|| {
                for _ in 0..300 {
                    let listener = Listener::bind_in(&folder.0).unwrap();
                    let _client = UnixStream::connect(listener.path()).unwrap();
                    assert!(listener.accept().unwrap().is_some(), "another server has its path");
                }
            });
        }
    });
    assert!(folder.names().is_empty());
}

#[test]
fn all_names_are_taken() {
    let folder = Folder::new("full");
    let listeners: Vec<Listener> =
        (0..paltukwi::MOST_NAMES).map(|_| Listener::bind_in(&folder.0).unwrap()).collect();
    let error = Listener::bind_in(&folder.0).expect_err("it listens");
    assert!(matches!(error, BindError::NoNameFree));
    assert_eq!(error.to_string(), "all names from eis-0 to eis-31 are taken");
    drop(listeners);
    assert!(folder.names().is_empty());
}

#[test]
fn what_a_dead_server_left_is_no_hindrance() {
    let folder = Folder::new("dead");
    drop(UnixListener::bind(folder.0.join("eis-0")).unwrap());
    File::create(folder.0.join("eis-0.lock")).unwrap();
    let listener = Listener::bind_in(&folder.0).unwrap();
    assert_eq!(listener.path(), folder.0.join("eis-0"));
    UnixStream::connect(listener.path()).unwrap();
    drop(listener);
    assert!(folder.names().is_empty());
}

#[test]
fn what_is_no_socket_is_not_removed() {
    let folder = Folder::new("file");
    let path = folder.0.join("eis-0");
    fs::write(&path, "a text").unwrap();
    let bound = Listener::bind_in(&folder.0);
    assert_eq!(wrong(bound, &path), ErrorKind::AddrInUse);
    assert_eq!(folder.names(), ["eis-0"]);
}

#[test]
fn what_another_put_at_the_path_is_not_removed() {
    let folder = Folder::new("other");
    let path = folder.0.join("socket");
    let listener = Listener::bind(&path).unwrap();
    fs::remove_file(&path).unwrap();
    let other = UnixListener::bind(&path).unwrap();
    drop(listener);
    assert_eq!(folder.names(), ["socket"]);
    drop(other);
}

#[test]
fn waiting_ends_in_time() {
    let folder = Folder::new("waits");
    let listener = Listener::bind(folder.0.join("socket")).unwrap();
    for (nanoseconds, least) in [(1, 1), (10_000_001, 11)] {
        let began = Instant::now();
        let most = Some(Duration::from_nanos(nanoseconds));
        let ready = wait(&[(listener.as_fd(), Interest::Read)], most).unwrap();
        assert_eq!(ready, [false]);
        assert!(began.elapsed() >= Duration::from_millis(least));
    }
    let client = UnixStream::connect(listener.path()).unwrap();
    let sockets = [
        (listener.as_fd(), Interest::Nothing),
        (listener.as_fd(), Interest::Read),
        (client.as_fd(), Interest::Read),
        (client.as_fd(), Interest::Write),
    ];
    assert_eq!(wait(&sockets, None).unwrap(), [false, true, false, true]);
}
