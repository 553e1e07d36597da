//! What the crate says, against the archive that is linked.

use redplay::{engine_version, version, Engine, Input, Refused, Service};

const ALL: [Refused; 43] = [
    Refused::TRUNCATED,
    Refused::BAD_TAG,
    Refused::LONG_LENGTH,
    Refused::INDEFINITE,
    Refused::BAD_INTEGER,
    Refused::BAD_BOOLEAN,
    Refused::TRAILING,
    Refused::UNKNOWN_TAG,
    Refused::MISSING_FIELD,
    Refused::WRONG_ORDER,
    Refused::BINARY_LIMIT,
    Refused::BAD_VALUE,
    Refused::LEXICAL,
    Refused::SYNTAX,
    Refused::UNKNOWN_NAME,
    Refused::RANGE,
    Refused::TEXT_LIMIT,
    Refused::DOUBLE_NAME,
    Refused::NO_START,
    Refused::DOUBLE_NUMBER,
    Refused::NOT_AN_APPLICATION,
    Refused::SERVICE_LIMIT,
    Refused::BAD_REFERENCE,
    Refused::NOT_A_SCENE,
    Refused::FILE_TOO_LARGE,
    Refused::TOO_MANY_FILES,
    Refused::QUEUE_FULL,
    Refused::ENDED,
    Refused::CLOCK_FULL,
    Refused::TICK_RANGE,
    Refused::NOT_LATE,
    Refused::SCENE_DIFFERS,
    Refused::NO_SEAL,
    Refused::OTHER_SEAL,
    Refused::NOT_HERE,
    Refused::OTHER_TAGS,
    Refused::NO_MEMORY,
    Refused::NO_SESSION,
    Refused::UNACCEPTED,
    Refused::NO_KEY,
    Refused::NO_PATH,
    Refused::IN_USE,
    Refused::OUT_OF_RANGE,
];

#[test]
fn each_number_has_a_text_and_no_other() {
    for number in 1..1000 {
        let why = Refused(number);
        assert_eq!(ALL.contains(&why), !why.text().is_empty(), "{why}");
    }
}

#[test]
fn a_text_is_shown_with_its_number() {
    assert_eq!(
        Refused::QUEUE_FULL.to_string(),
        "256 inputs wait: make steps, and post again (51)"
    );
}

#[test]
fn the_archive_is_of_these_versions() {
    assert_eq!((version(), engine_version()), (1, 200));
}

#[test]
fn empty_pieces_are_told_by_their_numbers() {
    let nothing = Service {
        files: &[],
        start: b"",
        late: b"",
    };
    assert_eq!(
        Engine::start(nothing, 60_000, false).err(),
        Some(Refused::NO_START)
    );
}

#[test]
fn a_session_may_go_to_another_thread() {
    fn goes<T: Send>() {}
    goes::<Engine>();
}

#[test]
fn a_session_by_a_seal_awaits_its_late_scene() {
    let late = concat!(env!("CARGO_MANIFEST_DIR"), "/../../late/");
    let read = |name: &str| std::fs::read(format!("{late}{name}")).expect("a file of the example");
    let (seal, a, menu, weather) = (
        read("seal"),
        read("service/a"),
        read("service/menu"),
        read("service/weather"),
    );
    let mut files: Vec<(&[u8], &[u8])> = vec![(b"a", &a), (b"menu", &menu)];
    assert_eq!(
        Engine::start_sealed(&seal, &files, 60_000).err(),
        Some(Refused::NOT_HERE)
    );
    let help = read("service/help");
    files.push((b"help", &help));
    let mut engine = Engine::start_sealed(&seal, &files, 60_000).expect("a session");
    engine.advance(1_000).expect("steps");
    assert_eq!(engine.awaited().expect("a text"), b"");
    engine.post(Input::Key(100)).expect("red");
    engine.advance(1_000).expect("steps");
    assert_eq!(engine.awaited().expect("a text"), b"scene weather\n");
    let differs = engine.post(Input::Scene((b"weather", &menu)));
    assert_eq!(differs.err(), Some(Refused::SCENE_DIFFERS));
    engine
        .post(Input::Scene((b"weather", &weather)))
        .expect("the sealed scene");
    engine.advance(1_000).expect("steps");
    assert_eq!(engine.awaited().expect("a text"), b"");
    assert_eq!(engine.totals().faults, 0);
}
