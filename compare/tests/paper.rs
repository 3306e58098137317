//! The model of paper 01 against the Rust on many tapes and states, and on the paper's specimens.

use compare::cases::{each_spelling, numbers};
use compare::definitions::standard::{examples, header, heads, HEADERS};
use compare::definitions::{numbered, repeated};
use compare::leaves::{parse_u32, parse_u64};
use compare::paper::agree;
use compare::paper::answer;
use compare::paper::lowering::lowering;
use compare::paper::number::{is_new_u32, is_new_u64, is_unbounded, number_u32, number_u64};
use compare::paper::reading::{clear, events_of, read};
use compare::paper::sheet::Sheet;
use compare::paper::state::State;
use compare::paper::tree::{declared, Kind};
use compare::random::Random;
use compare::tape::{events, xml, Tape};
use compare::tapes::accented::Accents;
use compare::tapes::{document, messed, odd_events, written};

fn blank(rows: usize, names: usize) -> Sheet {
    let sheet = Sheet {
        rows: vec![7; rows],
        names: vec![7; names],
    };
    let (cleared, sheet) = clear(&sheet, 0);
    assert_eq!(cleared, answer(0, 0));
    sheet
}

#[test]
fn printed_specimen() {
    let tape = Tape {
        text: b"schemaelementnameDtypeT".to_vec(),
        marks: vec![1, 0, 0, 6, 2, 2, 6, 7, 13, 4, 17, 1, 18, 4, 22, 1, 3, 0],
    };
    assert_eq!(
        tape,
        Tape::of(&events("<schema><element name=D type=T/></>"))
    );
    let (read_answer, sheet) = read(&blank(16_000, 65_536), &tape);
    assert_eq!(read_answer, answer(0, 3));
    let lowered = lowering(&sheet, &blank(16_000, 65_536), &[0; 4_096]);
    assert_eq!(lowered.answer, answer(0, 3));
    let rows = [
        [0, 3, 2, 1, 0, 0, 0, 0, 0, 0],
        [1, 0, 0, 0, 0, 0, 0, 0, 0, 0],
        [2, 0, 1, 1, 1, 0, 0, 0, 0, 1],
    ];
    assert_eq!(lowered.graph.rows[..30], rows.concat());
    assert_eq!(lowered.graph.names[..3], *b"DT\0");
}

#[test]
fn tapes_stand_for_their_events() {
    let mut random = Random::new(11);
    for _ in 0..2_000 {
        let events = messed(&mut random);
        assert_eq!(events_of(&Tape::of(&events)), events);
        assert_eq!(events_of(&Tape::shared(&events)), events);
    }
}

#[test]
fn written_tapes_agree_with_the_rust() {
    for list in written() {
        agree::check_tape(&list.events).unwrap_or_else(|text| panic!("{}: {text}", list.shows));
    }
}

#[test]
fn random_tapes_agree_with_the_rust() {
    let mut random = Random::new(12);
    let mut compared = 0;
    for _ in 0..20_000 {
        for events in [document(&mut random), messed(&mut random)] {
            let left_out = agree::is_left_out(&State::cleared(), &events);
            compared += usize::from(xml(&events).is_some() && !left_out);
            agree::check_tape(&events).unwrap_or_else(|text| panic!("{text}"));
        }
    }
    assert!(compared > 20_000, "only {compared} tapes are in the domain");
}

#[test]
fn tapes_with_accented_letters_agree_with_the_rust() {
    let mut random = Random::new(14);
    let mut compared = 0;
    for _ in 0..5_000 {
        for plain in [document(&mut random), messed(&mut random)] {
            let events = Accents::new(&mut random).events(&plain);
            let left_out = agree::is_left_out(&State::cleared(), &events);
            let text = xml(&events).filter(|text| !text.is_ascii());
            compared += usize::from(text.is_some() && !left_out);
            agree::check_tape(&events).unwrap_or_else(|text| panic!("{text}"));
        }
    }
    assert!(compared > 2_500, "only {compared} tapes are in the domain");
}

#[test]
fn events_of_any_words_agree_with_the_handlers() {
    let mut random = Random::new(13);
    for _ in 0..20_000 {
        let mut events = events("<schema><complexType name=A>");
        events.extend(odd_events(&mut random, 12));
        let _ = agree::run(&events);
    }
}

#[test]
fn both_choices_as_worked_out_by_hand() {
    for example in examples() {
        let (given, sheet) = read(&example.sheet, &example.tape);
        let shows = (example.shows, example.by_standard);
        assert_eq!(given, example.answer, "{shows:?}");
        assert_eq!(sheet.rows[..10], example.row0, "{shows:?}");
    }
    for given in HEADERS {
        let (answer, _) = read(&header(given), &Tape::default());
        let number = if given.3 { 0 } else { 2 };
        assert_eq!(answer.number, number, "{given:?}");
    }
    for (choice, number) in [(0, 0), (1, 0), (2, 1), (u32::MAX, 1)] {
        let (answer, sheet) = clear(&blank(40, 3), choice);
        assert_eq!(answer.number, number);
        assert_eq!(sheet.rows[9], choice & (1 - number));
    }
}

#[test]
fn numbers_of_heads_as_worked_out_by_hand() {
    for example in numbered::examples() {
        let (given, sheet) = read(&example.sheet, &example.tape);
        assert_eq!(given, example.answer, "{}", example.shows);
        assert!(example.is_in(&sheet), "{}", example.shows);
    }
    for given in numbered::GOODS {
        let (answer, _) = read(&numbered::numbered_sheet(given), &Tape::default());
        assert_eq!(answer.number, if given.3 { 0 } else { 2 }, "{given:?}");
    }
}

#[test]
fn by_the_standard_the_heads_are_the_direct_children_of_the_schema() {
    let mut random = Random::new(15);
    let mut compared = 0;
    for _ in 0..20_000 {
        for events in [document(&mut random), messed(&mut random)] {
            let Ok(state) = agree::run_from(State::cleared_by(true), &events) else {
                continue;
            };
            let kind = |tag| match tag {
                2 => Kind::Element,
                3 => Kind::SimpleType,
                _ => Kind::ComplexType,
            };
            let ours: Vec<(Kind, String, u32)> = heads(&state)
                .into_iter()
                .map(|(tag, name, event)| (kind(tag), name.to_owned(), event))
                .collect();
            assert_eq!(ours, declared(&events), "{events:?}");
            compared += 1;
        }
    }
    assert!(compared > 20_000, "only {compared} tapes are accepted");
}

#[test]
fn types_of_one_name_as_worked_out_by_hand() {
    for example in repeated::examples() {
        let lowered = lowering(&example.sheet, &example.graph, &example.scratch);
        assert_eq!(lowered.answer, example.answer, "{}", example.shows);
        if example.answer.number == 20 {
            let numbers = lowered.graph.rows.iter().chain(&lowered.scratch);
            assert!(numbers.copied().all(|n| n == 0), "{}", example.shows);
            assert!(lowered.graph.names.iter().all(|&n| n == 0));
        }
    }
}

/// The rule by pairs: the first type in lowering's order for which there is one before it.
fn repeated_by_pairs(names: &[(u32, String)]) -> Option<u32> {
    let before = |at: usize| names[..at].iter().any(|(_, name)| *name == names[at].1);
    (0..names.len())
        .find(|&at| before(at))
        .map(|at| names[at].0)
}

#[test]
fn a_name_comes_again_where_a_pair_of_types_has_it() {
    let mut random = Random::new(14);
    let mut pairs = 0;
    for _ in 0..20_000 {
        let state = match agree::run(&document(&mut random)) {
            Ok(state) => state,
            Err(_) => continue,
        };
        let found = state.first_repeated();
        assert_eq!(found, repeated_by_pairs(&state.type_names()));
        assert_eq!(state.without_repeated().first_repeated(), None);
        pairs += usize::from(found.is_some());
    }
    assert!(pairs > 1_000, "only {pairs} states have a pair");
}

#[test]
fn spellings_of_order_2() {
    let given = [
        (" 7", Some(7)),
        ("-0", Some(0)),
        (" 35 ", Some(35)),
        ("\t\r\n-000 ", Some(0)),
        (" +7", Some(7)),
        ("+", None),
        (" + ", None),
        ("", None),
        (" ", None),
        ("-", None),
        ("-1", None),
        ("-01", None),
        ("--0", None),
        ("+-0", None),
        ("-+0", None),
        ("- 0", None),
        ("+ 7", None),
        ("7 7", None),
        ("\x0c7", None),
        ("7\x0b", None),
        ("\x1c7", None),
        ("7\0", None),
        ("&#32;7", None),
    ];
    for (text, value) in given {
        assert_eq!(number_u32(text), value, "{text:?}");
        assert_eq!(number_u64(text), value.map(u64::from), "{text:?}");
    }
    assert!(is_unbounded(" \tunbounded\r\n") && is_unbounded("unbounded"));
    assert!(["Unbounded", "un bounded", "+unbounded", "\x0cunbounded"]
        .iter()
        .all(|t| !is_unbounded(t)));
}

#[test]
fn numbers_are_those_of_the_rust_but_for_new_spellings() {
    each_spelling(&mut |text| {
        let (old_32, old_64) = (parse_u32(text), parse_u64(text));
        assert_eq!(
            old_32,
            number_u32(text).filter(|_| !is_new_u32(text)),
            "{text:?}"
        );
        assert_eq!(
            old_64,
            number_u64(text).filter(|_| !is_new_u64(text)),
            "{text:?}"
        );
    });
    for text in numbers() {
        assert_eq!(
            parse_u32(&text),
            number_u32(&text).filter(|_| !is_new_u32(&text)),
            "{text:?}"
        );
        assert_eq!(
            parse_u64(&text),
            number_u64(&text).filter(|_| !is_new_u64(&text)),
            "{text:?}"
        );
    }
}
