//! The wrapper's answers: each call accepted and refused, through the proved library.

use futtockram::layout::{field, header, HEADER_WORDS, SLOT_WORDS};
use futtockram::{words_for, Answer, Found, Refusal, Rule, Side, State, Table, Tidied, MOST_HEIGHT};

const WORDS: usize = words_for(3);

/// What an accepted call answers.
fn answer<T>(change: u32, is: T) -> Result<Answer<T>, Refusal> {
    Ok(Answer { change, is })
}

/// What a call answers whose key is not there, with the nearest ones that are.
fn absent<T>(below: impl Into<Option<u32>>, above: impl Into<Option<u32>>) -> Result<Answer<T>, Refusal> {
    Err(Refusal::KeyAbsent { below: below.into(), above: above.into() })
}

fn three(words: &mut [u32]) -> Table<'_> {
    let mut table = Table::start(words).unwrap();
    for (slot, key) in (1..).zip([480, 510, 540]) {
        assert_eq!(table.post(key, 10 * key, State::Poured), answer(slot, slot));
    }
    table
}

#[test]
fn records_are_posted_amended_found_and_dropped() {
    let mut words = [0; WORDS];
    let mut table = three(&mut words);
    assert_eq!(table.amend(540, 7, State::Remelt), answer(4, 3));
    assert_eq!(table.find(540), answer(4, Found { pieces: 7, state: State::Remelt, visits: 3 }));
    assert_eq!((table.rank(3), table.total(510)), (answer(4, 3), answer(4, 9900)));
    assert_eq!(table.drop(510), answer(5, 2));
    assert_eq!(table.check(), answer(5, ()));
    let records = table.records().unwrap();
    assert_eq!((records.change, records.is.len()), (5, 2));
    assert_eq!(records.is.map(|record| record.key).collect::<Vec<_>>(), [480, 540]);
    assert_eq!(table.record(3).map(|record| (record.change, record.is.key)), Some((5, 540)));
    assert_eq!((table.record(0), table.record(2), table.record(9)), (None, None, None));
    assert_eq!(table.record(u32::MAX), None);
}

#[test]
fn firings_lower_the_worth_and_count_no_change() {
    let mut words = [0; WORDS];
    let mut table = three(&mut words);
    assert_eq!((table.worth(), table.tidy(0)), (answer(3, 18), answer(3, Tidied { firings: 0, quiet: false })));
    assert_eq!(table.fire(Rule::RightRegister, 0, Side::Left), answer(3, ()));
    assert_eq!((table.worth(), table.tidy(9)), (answer(3, 14), answer(3, Tidied { firings: 3, quiet: true })));
    assert_eq!(table.record(2).map(|record| (record.is.sons, record.is.registers)), Some(([1, 3], [1, 1])));
}

#[test]
fn an_old_figure_is_told_by_its_change_number() {
    let mut words = [0; WORDS];
    let mut table = three(&mut words);
    let (total, found) = (table.total(540).unwrap(), table.find(480).unwrap());
    table.tidy(9).unwrap();
    assert_eq!(table.post(480, 1, State::Poured), Err(Refusal::KeyPresent));
    assert_eq!((total.is_current(&table), found.is_current(&table)), (Ok(true), Ok(true)));
    table.drop(540).unwrap();
    assert_eq!((total.is_current(&table), found.is_current(&table)), (Ok(false), Ok(false)));
    assert_eq!(table.total(540).unwrap().is_current(&table), Ok(true));
    words[header::ZERO] = 1;
    assert_eq!(total.is_current(&Table::unchecked(&mut words)), Err(Refusal::Damaged));
}

#[test]
fn refusals_say_why() {
    let mut words = [0; WORDS];
    let mut table = three(&mut words);
    assert_eq!(table.post(0, 1, State::Poured), Err(Refusal::OutOfRange));
    assert_eq!(table.post(480, 1, State::Poured), Err(Refusal::KeyPresent));
    assert_eq!(table.post(481, 1, State::Poured), Err(Refusal::NoFreeSlot));
    assert_eq!(table.find(1), absent(None, 480));
    assert_eq!(table.rank(4), Err(Refusal::RankAbsent));
    assert_eq!(table.fire(Rule::RotateRight, 0, Side::Left), Err(Refusal::GuardFails));
    assert_eq!(table.fire(Rule::RotateRight, 0, Side::Right), Err(Refusal::OutOfRange));
    words[header::CHANGE] = u32::MAX;
    assert_eq!(Table::open(&mut words).unwrap().drop(480), Err(Refusal::LastChange));
    words[header::ZERO] = 1;
    assert_eq!(Table::open(&mut words).err(), Some(Refusal::Damaged));
    assert_eq!(Table::unchecked(&mut words).find(480), Err(Refusal::Damaged));
    assert_eq!(Table::unchecked(&mut words).records().err(), Some(Refusal::Damaged));
    assert_eq!(Table::start(&mut words[1..]).err(), Some(Refusal::WrongLength));
    let mut none = [];
    let nothing = Table::unchecked(&mut none);
    assert_eq!((nothing.records().err(), nothing.record(1)), (Some(Refusal::WrongLength), None));
}

#[test]
fn a_stamp_a_minute_out_names_the_nearest_ones() {
    let mut words = [0; WORDS];
    let mut table = three(&mut words);
    for (key, below, above) in [
        (479, None, Some(480)),
        (481, Some(480), Some(510)),
        (539, Some(510), Some(540)),
        (541, Some(540), None),
        (u32::MAX, Some(540), None),
    ] {
        assert_eq!(table.find(key), absent(below, above));
        assert_eq!(table.amend(key, 7, State::Remelt), absent(below, above));
        assert_eq!(table.drop(key), absent(below, above));
    }
    assert_eq!(table.check(), answer(3, ()));
    assert_eq!(table.find(0), Err(Refusal::OutOfRange));
    assert_eq!((table.drop(510), table.find(510)), (answer(4, 2), absent(480, 540)));
    assert_eq!((table.drop(540), table.find(539)), (answer(5, 3), absent(480, None)));
    assert_eq!((table.drop(480), table.find(480)), (answer(6, 1), absent(None, None)));
    assert_eq!((table.drop(480), table.amend(480, 7, State::Poured)), (absent(None, None), absent(None, None)));
    assert_eq!((table.rank(1), table.check()), (Err(Refusal::RankAbsent), answer(6, ())));
}

#[test]
fn on_a_damaged_table_the_last_keys_passed_are_named() {
    let mut words = [0; WORDS];
    three(&mut words);
    // Slot 2, below 480 on the right, comes to hold a smaller key than 480.
    words[HEADER_WORDS + SLOT_WORDS + field::KEY] = 470;
    let mut table = Table::unchecked(&mut words);
    assert_eq!(table.check(), Err(Refusal::Damaged));
    assert_eq!((table.find(500), table.drop(500)), (absent(470, 540), absent(470, 540)));
    assert_eq!(table.amend(475, 7, State::Poured), absent(None, 480));
    assert_eq!(table.rank(4), Err(Refusal::Damaged));
}

#[test]
fn a_height_above_the_limit_is_refused() {
    let mut words = [0; WORDS];
    let table = three(&mut words);
    assert_eq!(table.record(2).map(|record| record.is.sons), Some([0, 3]));
    // The right register of slot 2, which a stale height has brought to the limit.
    words[HEADER_WORDS + SLOT_WORDS + field::RIGHTH] = MOST_HEIGHT;
    let mut table = Table::open(&mut words).unwrap();
    assert_eq!(table.fire(Rule::RightRegister, 0, Side::Left), Err(Refusal::TooHigh));
    assert_eq!(table.tidy(u32::MAX).map(|tidied| tidied.is.quiet), Ok(true));
}

#[test]
fn each_refusal_has_a_sentence_of_its_own() {
    let own = [Refusal::RankAbsent, Refusal::Unknown(77), Refusal::Misread(78)];
    let all: Vec<Refusal> = Refusal::ALL.into_iter().chain(own).collect();
    let sentences: Vec<String> = all.iter().map(|refusal| refusal.sentence().to_string()).collect();
    for (place, sentence) in sentences.iter().enumerate() {
        assert!(sentence.ends_with('.') && all[place].to_string().starts_with(sentence));
        assert!(!sentences[..place].contains(sentence));
    }
    for (code, refusal) in (1..).zip(Refusal::ALL) {
        assert!(refusal.to_string().ends_with(&format!(" (code {code})")));
    }
    assert_eq!(own.map(Refusal::code), [5, 77, 0]);
    for (refusal, end) in own.iter().zip([" (code 5)", " (code 77)", " (code 0, number 78)"]) {
        assert!(refusal.to_string().ends_with(end));
    }
}

#[test]
fn the_sentence_of_a_key_that_is_not_there_names_the_nearest_ones() {
    for (below, above, nearest) in [
        (Some(435), Some(450), "the nearest before it is 435 and the nearest after it is 450."),
        (Some(450), None, "the nearest before it is 450, and there is none after it."),
        (None, Some(360), "the nearest after it is 360, and there is none before it."),
        (None, None, "there is none before it and none after it."),
    ] {
        let refusal = Refusal::KeyAbsent { below, above };
        let sentence = format!("There is no record with this key; {nearest}");
        assert_eq!(refusal.sentence().to_string(), sentence);
        assert_eq!(refusal.to_string(), format!("{sentence} (code 5)"));
    }
}
