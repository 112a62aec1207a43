//! Compares these declarations with `reis.h`: names, numbers and the parameters of each call.

#![allow(missing_docs)]

use std::collections::BTreeMap;
use std::fs;
use std::path::Path;

fn header() -> String {
    let here = Path::new(env!("CARGO_MANIFEST_DIR"));
    fs::read_to_string(here.join("../../../include/reis.h")).expect("reis.h")
}

fn sources() -> String {
    let sources = fs::read_dir(Path::new(env!("CARGO_MANIFEST_DIR")).join("src")).unwrap();
    sources.map(|entry| fs::read_to_string(entry.unwrap().path()).unwrap()).collect()
}

/// The number that stands at the front of a text, also in hexadecimal digits.
fn number(text: &str) -> Option<u64> {
    let text = text.replace('_', "");
    let digits = |text: &str, radix| {
        let end = text.find(|c: char| !c.is_digit(radix)).unwrap_or(text.len());
        u64::from_str_radix(&text[..end], radix).ok()
    };
    match text.strip_prefix("0x") {
        Some(text) => digits(text, 16),
        None => digits(&text, 10),
    }
}

/// The names of the header with their numbers: of enums, and of macros that are one number.
fn numbers_of_header(header: &str) -> BTreeMap<&str, u64> {
    let words: Vec<&str> = header.split_whitespace().collect();
    let mut numbers = BTreeMap::new();
    for three in words.windows(3) {
        let value = match three {
            [name, "=", value] | ["#define", name, value] => Some((*name, *value)),
            _ => None,
        };
        if let Some((name, value)) = value.filter(|(name, _)| name.starts_with("REIS_")) {
            numbers.extend(number(value).map(|number| (name, number)));
        }
    }
    numbers
}

/// The names of these declarations with their numbers.
fn numbers_of_sources(sources: &str) -> BTreeMap<&str, u64> {
    let mut numbers = BTreeMap::new();
    let declarations = sources.split("pub const ").skip(1);
    for declaration in declarations.filter(|declaration| declaration.starts_with("REIS_")) {
        let (name, rest) = declaration.split_once(':').unwrap();
        let (declared, rest) = rest.split_once('=').unwrap();
        let value = rest.trim_start();
        let value = value.strip_prefix(declared.trim()).map_or(value, |inner| &inner[1..]);
        numbers.extend(number(value).map(|number| (name, number)));
    }
    numbers
}

#[test]
fn each_number_is_that_of_the_header() {
    let (header, sources) = (header(), sources());
    let (wanted, found) = (numbers_of_header(&header), numbers_of_sources(&sources));
    assert!(wanted.len() > 90, "{wanted:?}");
    assert_eq!(found, wanted);
}

/// The calls with the count of their parameters, each behind a word.
fn calls<'a>(text: &'a str, behind: &str) -> BTreeMap<&'a str, usize> {
    let mut calls = BTreeMap::new();
    for (at, _) in text.match_indices(behind) {
        let declaration = &text[at + behind.len()..];
        let name_end = declaration.find(|c: char| c != '_' && !c.is_ascii_lowercase());
        let (name, rest) = declaration.split_at(name_end.unwrap());
        if !name.starts_with("reis_") || !rest.starts_with('(') {
            continue;
        }
        let parameters = rest[1..].split(')').next().unwrap().trim().trim_end_matches(',');
        let count = match parameters {
            "" | "void" => 0,
            _ => parameters.split(',').count(),
        };
        calls.insert(name, count);
    }
    calls
}

#[test]
fn each_call_is_that_of_the_header() {
    let (header, sources) = (header(), sources());
    let mut wanted = calls(&header, "\nreis_answer ");
    wanted.extend(calls(&header, "\nuint32_t "));
    wanted.extend(calls(&header, "\nconst char *"));
    assert_eq!(wanted.len(), 39, "{wanted:?}");
    assert_eq!(calls(&sources, "pub fn "), wanted);
}

/// The fields of each view, in their order, and the views of a request.
fn fields(text: &str, name: &str, field: impl Fn(&str) -> Option<String>) -> Vec<String> {
    let at = text.find(name).unwrap_or_else(|| panic!("{name}"));
    let body = text[at + name.len()..].split('{').nth(1).unwrap().split('}').next().unwrap();
    body.lines().filter_map(|line| field(line.trim())).collect()
}

#[test]
fn each_view_is_that_of_the_header() {
    let (header, sources) = (header(), sources());
    let of_header = |line: &str| {
        let line = line.strip_suffix(';')?;
        let (declared, name) = line.strip_prefix("REIS_FIELD ")?.split_once(' ')?;
        Some(format!("{name} {declared}"))
    };
    let of_source = |line: &str| {
        let (name, declared) =
            line.strip_prefix("pub ")?.strip_suffix(">,")?.split_once(": Field<")?;
        let declared = match declared {
            "f32" => "float".to_string(),
            other => format!("{}int{}_t", if &other[..1] == "u" { "u" } else { "" }, &other[1..]),
        };
        Some(format!("{name} {declared}"))
    };
    let mut views = 0;
    for part in header.split("\nstruct ").skip(1) {
        let name = part.split(' ').next().unwrap();
        let wanted = fields(&header, &format!("\nstruct {name} "), of_header);
        assert!(!wanted.is_empty(), "{name}");
        assert_eq!(fields(&sources, &format!("pub struct {name} "), of_source), wanted, "{name}");
        views += 1;
    }
    assert_eq!(views, 16);

    let of_union = |line: &str| {
        let line = line.strip_prefix("struct ")?.strip_suffix(';')?;
        Some(line.to_string())
    };
    let of_source = |line: &str| {
        let (name, declared) =
            line.strip_prefix("pub ")?.strip_suffix(',')?.split_once(": reis_")?;
        Some(format!("reis_{declared} {name}"))
    };
    let wanted = fields(&header, "uint64_t time;\n    union", of_union);
    assert_eq!(wanted.len(), 22, "{wanted:?}");
    assert_eq!(fields(&sources, "pub union reis_fields ", of_source), wanted);
}

/// The type of a field of the header as Rust has it.
fn rust_type(declared: &str) -> String {
    match declared.strip_prefix("const ") {
        Some(items) => format!("*const {}", rust_type(items.trim_end_matches([' ', '*']))),
        None => match declared {
            "size_t" => "usize".to_string(),
            "float" => "f32".to_string(),
            "char" => "c_char".to_string(),
            "uint32_t" | "uint64_t" => format!("u{}", &declared[4..6]),
            named => named.to_string(),
        },
    }
}

#[test]
fn a_device_and_a_region_are_those_of_the_header() {
    let (header, sources) = (header(), sources());
    let of_header = |line: &str| {
        let at = line.find(';')?;
        let (declared, name) = line[..at].rsplit_once([' ', '*'])?;
        Some(format!("{name}: {}", rust_type(declared)))
    };
    let of_source = |line: &str| {
        let field = line.strip_prefix("pub ")?.strip_suffix(',')?;
        Some(field.trim_start_matches("r#").to_string())
    };
    for (name, count) in [("reis_region", 7), ("reis_device", 14)] {
        let wanted = fields(&header, &format!("typedef struct {name} "), of_header);
        assert_eq!(wanted.len(), count, "{wanted:?}");
        assert_eq!(fields(&sources, &format!("pub struct {name} "), of_source), wanted);
    }
}

#[test]
fn each_answer_kind_and_end_has_its_name() {
    use paltukwi_sys::*;
    use std::ffi::CStr;
    // SAFETY: the calls take any number, and their texts stay for good.
    let names = unsafe {
        [
            CStr::from_ptr(reis_answer_name(REIS_OK)),
            CStr::from_ptr(reis_answer_name(reis_answer(999))),
            CStr::from_ptr(reis_kind_name(REIS_KIND_POINTER_MOTION)),
            CStr::from_ptr(reis_kind_name(reis_kind(999))),
            CStr::from_ptr(reis_end_name(REIS_END_DISCONNECTED)),
            CStr::from_ptr(reis_end_name(reis_end(999))),
        ]
    };
    let names = names.map(|name| name.to_str().unwrap());
    assert_eq!(names, ["ok", "unknown", "pointer_motion", "unknown", "disconnected", "unknown"]);
}

#[test]
fn a_library_of_another_series_does_not_fit() {
    use paltukwi_sys::{version_matches, REIS_VERSION};
    assert!(version_matches(REIS_VERSION));
    assert!(version_matches(REIS_VERSION ^ 0x7f));
    assert!(!version_matches(REIS_VERSION + 0x100));
    assert!(!version_matches(REIS_VERSION + 0x1_0000));
    // SAFETY: the call takes nothing.
    assert!(version_matches(unsafe { paltukwi_sys::reis_version() }));
}

/// No session: each call answers that, and a null is answered too.
#[test]
fn what_is_no_session_is_answered() {
    use paltukwi_sys::*;
    use std::ptr::{null, null_mut};
    let mut session = reis_session::none();
    let mut request = reis_request::none();
    let (mut count, mut handle_count, mut end) = (7, 7, reis_end(7));
    let (mut bytes, mut handles) = (null(), null());
    let mut context_type = reis_context_type(7);
    // SAFETY: each pointer is one of its type or null, and each count beside a null is 0.
    let answers = unsafe {
        [
            reis_session_feed(&mut session, null(), 0, null(), 0, 0),
            reis_session_end_of_input(&mut session),
            reis_session_unsent(
                &mut session,
                &mut bytes,
                &mut count,
                &mut handles,
                &mut handle_count,
            ),
            reis_session_sent(&mut session, 0, 0),
            reis_session_client(&mut session, &mut context_type, null_mut(), 0, &mut count),
            reis_session_next_request(&mut session, &mut request),
            reis_session_request_text(&mut session, null_mut(), 0, &mut count),
            reis_session_end(&mut session, &mut end),
            reis_session_end_text(&mut session, null_mut(), 0, &mut count),
            reis_session_free(&mut session),
        ]
    };
    assert_eq!(answers, [REIS_NO_SESSION; 10]);
    assert_eq!((count, handle_count, end), (0, 0, REIS_END_GOES_ON));
    // SAFETY: a null is answered.
    assert_eq!(unsafe { reis_session_start(null_mut(), 1, 127, 1) }, REIS_NULL);
    // SAFETY: a null is answered.
    assert_eq!(unsafe { reis_session_free(null_mut()) }, REIS_NULL);
}

/// No connection: each call answers that.
#[test]
fn what_is_no_connection_is_answered() {
    use paltukwi_sys::*;
    use std::ptr::{null, null_mut};
    let mut it = reis_connection::none();
    let mut request = reis_request::none();
    let (mut count, mut handle_count, mut end) = (7, 7, reis_end(7));
    let (mut bytes, mut handles) = (null(), null());
    let mut context_type = reis_context_type(7);
    // SAFETY: each pointer is one of its type or null, and each count beside a null is 0.
    let answers = unsafe {
        [
            reis_connection_feed(&mut it, null(), 0, null(), 0, 0),
            reis_connection_end_of_input(&mut it),
            reis_connection_unsent(
                &mut it,
                &mut bytes,
                &mut count,
                &mut handles,
                &mut handle_count,
            ),
            reis_connection_sent(&mut it, 0),
            reis_connection_client(&mut it, &mut context_type, null_mut(), 0, &mut count),
            reis_connection_next_request(&mut it, &mut request),
            reis_connection_request_text(&mut it, null_mut(), 0, &mut count),
            reis_connection_end(&mut it, &mut end),
            reis_connection_disconnect(&mut it, REIS_REASON_ERROR, null(), 0),
            reis_connection_free(&mut it),
        ]
    };
    assert_eq!(answers, [REIS_NO_SESSION; 10]);
    assert_eq!((count, handle_count, end), (0, 0, REIS_END_GOES_ON));
    assert_eq!(context_type, reis_context_type(0));
    // SAFETY: a null is answered.
    assert_eq!(unsafe { reis_connection_start(null_mut(), 1, 0) }, REIS_NULL);
    // SAFETY: the word is zero.
    assert_eq!(unsafe { reis_connection_start(&mut it, 1, REIS_STRICT + 1) }, REIS_INVALID);
}

#[test]
fn no_seat_and_no_device_of_no_connection() {
    use paltukwi_sys::*;
    use std::ptr::null;
    let mut it = reis_connection::none();
    let (mut ping, mut seat, mut device, mut has) = (7, 7, 7, 7);
    let described = reis_device {
        size: size_of::<reis_device>(),
        name: null(),
        name_length: 0,
        capabilities: 0,
        r#type: REIS_DEVICE_VIRTUAL,
        width: 0,
        height: 0,
        keymap_type: REIS_KEYMAP_NONE,
        keymap: 0,
        keymap_size: 0,
        regions: null(),
        region_count: 0,
        mapping_ids: null(),
        mapping_ids_length: 0,
    };
    let other = reis_device { size: size_of::<reis_device>() - 1, ..described };
    // SAFETY: each pointer is one of its type or null, and each count beside a null is 0.
    let (answers, of_another_size) = unsafe {
        let answers = [
            reis_connection_ping(&mut it, &mut ping),
            reis_connection_add_seat(&mut it, null(), 0, 1, &mut seat),
            reis_connection_remove_seat(&mut it, 1),
            reis_connection_add_device(&mut it, 1, &described, &mut device),
            reis_connection_remove_device(&mut it, 1),
            reis_connection_resume(&mut it, 1),
            reis_connection_pause(&mut it, 1),
            reis_connection_device_has(&mut it, 1, 1, &mut has),
            reis_connection_modifiers(&mut it, 1, 0, 0, 0, 0),
            reis_connection_start_emulating(&mut it, 1, 1),
            reis_connection_stop_emulating(&mut it, 1),
            reis_connection_frame(&mut it, 1, 1),
            reis_connection_send(&mut it, &reis_request::none(), null(), 0),
        ];
        (answers, reis_connection_add_device(&mut it, 1, &other, &mut device))
    };
    assert_eq!(answers, [REIS_NO_SESSION; 13]);
    assert_eq!((ping, seat, device, has), (0, 0, 0, 0));
    assert_eq!(of_another_size, REIS_SIZE);
}
