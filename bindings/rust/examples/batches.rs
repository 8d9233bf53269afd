//! Posts a few batches, tidies, lists them in key order, tells an old figure, and shows refusals to a person: among
//! them stamps a minute out, with the nearest ones.

use futtockram::{words_for, Answer, Refusal, Rule, Side, State, Table};

/// A total as a screen shows it: with its change number, and marked once it is old.
fn shown(total: &Answer<u64>, table: &Table) -> Result<String, Refusal> {
    let mark = if total.is_current(table)? { "live" } else { "old" };
    Ok(format!("{} pieces up to 510 at change {}: {mark}", total.is, total.change))
}

fn main() -> Result<(), Refusal> {
    let mut words = [0; words_for(15)];
    let mut table = Table::start(&mut words)?;
    for (key, pieces) in [(480, 1200), (510, 900), (540, 750)] {
        let posted = table.post(key, pieces, State::Poured)?;
        println!("posted {key} in slot {}, change {}", posted.is, posted.change);
    }
    println!("worth {}", table.worth()?.is);
    table.fire(Rule::RightRegister, 0, Side::Left)?;
    println!("worth {} after one firing", table.worth()?.is);
    let tidied = table.tidy(10)?.is;
    println!("{} firings more, quiet: {}, worth {}", tidied.firings, tidied.quiet, table.worth()?.is);

    let total = table.total(510)?;
    println!("{}", shown(&total, &table)?);
    table.amend(510, 600, State::Remelt)?;
    println!("{}", shown(&total, &table)?);
    println!("{}", shown(&table.total(510)?, &table)?);

    let records = table.records()?;
    println!("{} records at change {}", records.is.len(), records.change);
    for record in records.is {
        println!("slot {}: key {}, {} pieces, {:?}", record.slot, record.key, record.pieces, record.state);
    }
    // A label was read a minute late: the refusal names the nearest stamps, and the planner takes the earlier one.
    if let Err(refusal) = table.find(511) {
        println!("{refusal}");
        if let Refusal::KeyAbsent { below: Some(meant), .. } = refusal {
            println!("{meant} was meant: {} pieces", table.find(meant)?.is.pieces);
        }
    }
    if let Err(refusal) = table.drop(541) {
        println!("{refusal}");
    }
    if let Err(refusal) = table.post(540, 1, State::Poured) {
        println!("{refusal}");
    }
    if let Err(refusal) = table.fire(Rule::RotateRight, 0, Side::Left) {
        println!("{refusal}");
    }
    Ok(())
}
