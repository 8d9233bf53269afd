//! The worked examples M1 to M8 of document 01, with the numbers that it prints.

use crate::bench::Bench;
use crate::call::Call;
use crate::paper::*;
use crate::run::{Differs, Run};

/// A call and its code and value.
type Step = (&'static str, [u32; 3], u64, u64);

/// Runs the steps from a started table of 15 slots, then holds some words to what they have to be.
fn example(run: &mut Run, steps: &[Step], words: &[(usize, u32)]) -> Result<(), Differs> {
    let mut bench = Bench::new(&[0; length_of(15)]);
    for &(name, args, code, value) in steps {
        let answer = run.call(&mut bench, Call::new(name, &args))?;
        if (answer[0], answer[2]) != (code, value) {
            return Err(run.fault(bench.words(), &format!("{name} {args:?} gives {answer:?}, not {code}, .., {value}")));
        }
    }
    for &(place, number) in words {
        if bench.words()[place] != number {
            return Err(run.fault(bench.words(), &format!("word {place} is not {number}")));
        }
    }
    Ok(())
}

const fn post(key: u32, slot: u64) -> Step {
    ("post", [key, 750, 1], 0, slot)
}

const fn fire(rule: u32, holder: u32, side: u32, code: u64) -> Step {
    ("fire", [rule, holder, side], code, 0)
}

const fn worth(value: u64) -> Step {
    ("worth", [0; 3], 0, value)
}

const fn tidy(budget: u32, fired: u64) -> Step {
    ("tidy", [budget, 0, 0], 0, fired)
}

pub fn marked(run: &mut Run, _calls: u64) -> Result<(), Differs> {
    let m1 = [post(480, 1), post(510, 2), post(540, 3), worth(18)];
    let one = tidy(1, 1);
    let by_tidy = [one, worth(14), one, worth(10), one, worth(7), one, worth(0), tidy(1, 0)];
    example(run, &[&m1[..], &by_tidy].concat(), &[(ROOT, 2)])?;
    // The same four firings by name: rules 2, 2, 2 and 4.
    let by_name = [fire(2, 0, 0, 0), fire(2, 1, 1, 0), fire(2, 0, 0, 0), fire(4, 0, 0, 0), worth(0)];
    example(run, &[&m1[..], &by_name].concat(), &[(ROOT, 2)])?;
    let m2 = [post(540, 1), post(480, 2), post(510, 3), tidy(9, 4), worth(0)];
    example(run, &m2, &[(ROOT, 3)])?;
    let m3 = [post(40, 1), post(20, 2), post(10, 3), post(30, 4), worth(42), tidy(u32::MAX, 6)];
    example(run, &m3, &[(ROOT, 2)])?;
    let fires = [fire(1, 1, 0, 0), fire(2, 1, 0, 0), fire(1, 0, 0, 0), fire(3, 0, 0, 8)];
    let rest = [worth(5), fire(5, 0, 0, 0), worth(4)];
    example(run, &[&m3[..4], &fires, &rest].concat(), &[])?;
    let drop = ("drop", [510, 0, 0], 0, 3);
    let left = [(LINK[0], 1), (LINK[1], 0), (HEIGHT[0], 1), (HEIGHT[1], 0), (KEY, 540)];
    let mut words: Vec<(usize, u32)> = left.map(|(field, number)| (place(2, field), number)).to_vec();
    words.extend((0..SLOT_WORDS).map(|field| (place(3, field), 0)));
    words.push((ROOT, 2));
    example(run, &[&m1[..], &[tidy(10, 4), drop]].concat(), &words)?;
    example(run, &[&m1[..], &[("total", [0; 3], 0, 0), fire(1, 9, 0, 8)]].concat(), &[])?;
    high(run)
}

/// M6: a left chain whose lower register is at the limit.
fn high(run: &mut Run) -> Result<(), Differs> {
    for (register, code, above) in [(65_535, 9, 0), (65_534, 0, 65_535)] {
        let mut words = vec![0; length_of(3)];
        (words[ROOT], words[RECORDS]) = (1, 3);
        for (k, son) in [(1, 2), (2, 3), (3, 0)] {
            words[place(k, STATE)..=place(k, LINK[0])].copy_from_slice(&[1, 40 - 10 * k as u32, 5, son]);
        }
        words[place(2, HEIGHT[0])] = register;
        let mut bench = Bench::new(&words);
        let answer = run.call(&mut bench, Call::new("fire", &[1, 0, 0]))?;
        if answer[0] != code || get(bench.words(), 1, HEIGHT[0]) != above {
            return Err(run.fault(bench.words(), &format!("rule 1 under {register} gives {answer:?}, not {code}")));
        }
    }
    Ok(())
}
