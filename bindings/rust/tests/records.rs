//! The walk of `records` against rank by rank, and the nearest keys against the records, on tables of many shapes.

use futtockram::{words_for, Record, Refusal, Rule, Side, State, Table, MOST_SLOTS};

/// Numbers that look thrown, the same in every run (xorshift).
struct Dice(u64);

impl Dice {
    fn below(&mut self, bound: u32) -> u32 {
        self.0 ^= self.0 << 13;
        self.0 ^= self.0 >> 7;
        self.0 ^= self.0 << 17;
        (self.0 >> 32) as u32 % bound
    }
}

/// The records by the library's own rank, one call for each.
fn by_rank(table: &Table) -> Vec<Record> {
    let slots = (1..).map_while(|r| table.rank(r).ok());
    let records: Vec<Record> =
        slots.map(|slot| table.record(slot.is).expect("a ranked slot holds a record").is).collect();
    assert_eq!(table.rank(records.len() as u32 + 1), Err(Refusal::RankAbsent));
    records
}

/// The walk gives the records that rank gives, tells how many are to come, and the change number.
fn held_to_rank(table: &Table) -> usize {
    let records = table.records().expect("a sound table");
    let expected = by_rank(table);
    assert_eq!(records.is.len(), expected.len());
    assert_eq!(records.change, table.check().expect("a sound table").change);
    assert_eq!(records.is.collect::<Vec<_>>(), expected);
    expected.len()
}

/// Each key up to the last that is not there is refused with the nearest ones among the records, by find, amend and
/// drop alike, and the table stays what it was: so many keys.
fn held_to_the_nearest(table: &mut Table, last: u32) -> usize {
    let before = table.words().to_vec();
    let there: Vec<u32> = table.records().expect("a sound table").is.map(|record| record.key).collect();
    let absent: Vec<u32> = (1..=last).filter(|key| !there.contains(key)).collect();
    for &key in &absent {
        let below = there.iter().copied().filter(|&other| other < key).max();
        let above = there.iter().copied().filter(|&other| other > key).min();
        let refusal = Refusal::KeyAbsent { below, above };
        assert_eq!(table.find(key).err(), Some(refusal), "find {key}");
        assert_eq!(table.amend(key, 1, State::Poured).err(), Some(refusal), "amend {key}");
        assert_eq!(table.drop(key).err(), Some(refusal), "drop {key}");
    }
    assert_eq!(table.words(), before);
    absent.len()
}

/// A post, an amendment, a drop, a firing or a small tidy; most are accepted.
fn change(table: &mut Table, dice: &mut Dice, keys: u32) {
    let (key, pieces) = (1 + dice.below(keys), 1 + dice.below(1000));
    let state = if dice.below(3) == 0 { State::Remelt } else { State::Poured };
    let _ = match dice.below(10) {
        0 => table.amend(key, pieces, state).is_ok(),
        1..=3 => table.drop(key).is_ok(),
        4 => table.tidy(dice.below(9)).is_ok(),
        5 => {
            let (rule, side) = (Rule::ALL[dice.below(8) as usize], [Side::Left, Side::Right][dice.below(2) as usize]);
            table.fire(rule, dice.below(keys), side).is_ok()
        }
        _ => table.post(key, pieces, state).is_ok(),
    };
}

#[test]
fn the_walk_gives_what_rank_gives_on_random_tables() {
    let mut dice = Dice(0x9E37_79B9_7F4A_7C15);
    let mut seen = 0;
    for slots in [1, 2, 3, 7, 15, 40, 120] {
        let mut words = vec![0; words_for(slots)];
        let mut table = Table::start(&mut words).unwrap();
        assert_eq!(held_to_rank(&table), 0);
        for _ in 0..40 {
            (0..slots).for_each(|_| change(&mut table, &mut dice, 2 * slots as u32));
            seen += held_to_rank(&table);
        }
    }
    assert!(seen > 2_000, "only {seen} records were compared");
}

#[test]
fn a_key_that_is_not_there_names_the_nearest_ones_on_random_tables() {
    let mut dice = Dice(0xD1B5_4A32_D192_ED03);
    let mut seen = 0;
    for slots in [1, 2, 3, 7, 15, 40, 120] {
        let mut words = vec![0; words_for(slots)];
        let mut table = Table::start(&mut words).unwrap();
        let keys = 2 * slots as u32;
        assert_eq!(held_to_the_nearest(&mut table, keys), keys as usize);
        for _ in 0..20 {
            (0..slots).for_each(|_| change(&mut table, &mut dice, keys));
            seen += held_to_the_nearest(&mut table, keys + 1);
        }
    }
    assert!(seen > 2_000, "only {seen} keys were compared");
}

#[test]
fn the_walk_goes_through_the_longest_chains() {
    let most = MOST_SLOTS as u32;
    let rising = |i: u32| i;
    let falling = |i| most + 1 - i;
    let zigzag = |i: u32| if i % 2 == 1 { i.div_ceil(2) } else { most + 1 - i / 2 };
    let chains: [&dyn Fn(u32) -> u32; 3] = [&rising, &falling, &zigzag];
    for key in chains {
        let mut words = vec![0; words_for(MOST_SLOTS)];
        let mut table = Table::start(&mut words).unwrap();
        (1..=most).for_each(|i| assert!(table.post(key(i), 7, State::Poured).is_ok()));
        let records = table.records().unwrap();
        assert_eq!(records.change, most);
        assert!(records.is.map(|record| record.key).eq(1..=most));
    }
}
