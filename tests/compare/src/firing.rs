//! fire and tidy, with the eight rules written out one mirror at a time, as document 01 states them.

use crate::paper::*;
use crate::records::{accept, refuse, Answer};

/// One more than the larger register.
pub fn local_height(words: &[u32], k: usize) -> i64 {
    1 + i64::from(get(words, k, HEIGHT[0]).max(get(words, k, HEIGHT[1])))
}

/// Left register less right register.
pub fn balance(words: &[u32], k: usize) -> i64 {
    i64::from(get(words, k, HEIGHT[0])) - i64::from(get(words, k, HEIGHT[1]))
}

/// The carry of the son on one side of a holder that is a slot.
pub fn carry(words: &[u32], holder: usize, side: usize) -> i64 {
    i64::from(get(words, holder, HEIGHT[side])) - local_height(words, link(words, holder, side))
}

/// The side of a rule's u below v: left for the odd rules.
fn side_of(rule: u32) -> usize {
    if rule % 2 == 1 {
        0
    } else {
        1
    }
}

/// The slots that a firing looks at, v first; none with the refusal if one is missing, unfit or met twice.
fn party(words: &[u32], slots: usize, rule: u32, holder: usize, side: usize) -> Result<Vec<usize>, u64> {
    let mut met = Vec::new();
    if holder != 0 {
        if get(words, holder, STATE) == 0 {
            return Err(GUARD_FAILS);
        }
        if !is_fit(words, slots, holder) {
            return Err(DAMAGED);
        }
        met.push(holder);
    }
    let near = side_of(rule);
    let ways = [side, near, 1 - near];
    let mut from = holder;
    for way in &ways[..if rule >= 7 { 3 } else { 2 }] {
        let next = link(words, from, *way);
        if next == 0 {
            return Err(GUARD_FAILS);
        }
        if !is_fit(words, slots, next) || met.contains(&next) {
            return Err(DAMAGED);
        }
        met.push(next);
        from = next;
    }
    Ok(met.split_off(usize::from(holder != 0)))
}

/// The rule's guard on v, u and w.
fn guard(words: &[u32], rule: u32, party: &[usize]) -> bool {
    let (v, u) = (party[0], party[1]);
    let reliable = carry(words, v, side_of(rule)) == 0;
    let (bal_v, bal_u) = (balance(words, v), balance(words, u));
    match rule {
        1 | 2 => !reliable,
        3 => reliable && bal_u > 0 && bal_v >= 2,
        4 => reliable && bal_u < 0 && bal_v <= -2,
        5 => reliable && bal_u == 0 && bal_v >= 2,
        6 => reliable && bal_u == 0 && bal_v <= -2,
        7 => reliable && carry(words, u, 1) == 0 && bal_u < 0 && bal_v >= 2,
        _ => reliable && carry(words, u, 0) == 0 && bal_u > 0 && bal_v <= -2,
    }
}

/// The firing's writes, each as place and number; the heights are not limited here.
fn writes(words: &[u32], rule: u32, holder: usize, side: usize, party: &[usize]) -> Vec<(usize, i64)> {
    let (v, u) = (party[0], party[1]);
    let a = side_of(rule);
    let b = 1 - a;
    let height = |k, s: usize| i64::from(get(words, k, HEIGHT[s]));
    let son = |k, s| link(words, k, s) as i64;
    match rule {
        1 | 2 => vec![(place(v, HEIGHT[a]), local_height(words, u))],
        3..=6 => {
            let new_v = 1 + height(u, b).max(height(v, b));
            vec![
                (link_place(holder, side), u as i64),
                (place(v, LINK[a]), son(u, b)),
                (place(v, HEIGHT[a]), height(u, b)),
                (place(u, LINK[b]), v as i64),
                (place(u, HEIGHT[b]), new_v),
            ]
        }
        _ => {
            let w = party[2];
            let new_u = 1 + height(u, a).max(height(w, a));
            let new_v = 1 + height(v, b).max(height(w, b));
            vec![
                (link_place(holder, side), w as i64),
                (place(u, LINK[b]), son(w, a)),
                (place(u, HEIGHT[b]), height(w, a)),
                (place(v, LINK[a]), son(w, b)),
                (place(v, HEIGHT[a]), height(w, b)),
                (place(w, LINK[a]), u as i64),
                (place(w, HEIGHT[a]), new_u),
                (place(w, LINK[b]), v as i64),
                (place(w, HEIGHT[b]), new_v),
            ]
        }
    }
}

/// What a firing with numbers in range would write, or its refusal.
pub fn judge(words: &[u32], slots: usize, rule: u32, holder: usize, side: usize) -> Result<Vec<(usize, i64)>, u64> {
    if !header_good(words, slots) {
        return Err(DAMAGED);
    }
    let party = party(words, slots, rule, holder, side)?;
    if !guard(words, rule, &party) {
        return Err(GUARD_FAILS);
    }
    let writes = writes(words, rule, holder, side, &party);
    // Links are far below the height limit, so one test serves every number.
    if writes.iter().any(|&(_, number)| number > i64::from(MOST_HEIGHT)) {
        return Err(TOO_HIGH);
    }
    Ok(writes)
}

fn write(words: &mut [u32], writes: &[(usize, i64)]) {
    for &(place, number) in writes {
        words[place] = number as u32;
    }
}

pub fn fire(words: &mut [u32], rule: u32, holder: u32, side: u32) -> Answer {
    let Some(slots) = slots_of(words.len()) else { return refuse(WRONG_LENGTH) };
    let in_range = (1..=8).contains(&rule) && holder as usize <= slots && side <= 1;
    if !in_range || (holder == 0 && side == 1) {
        return refuse(OUT_OF_RANGE);
    }
    match judge(words, slots, rule, holder as usize, side as usize) {
        Err(code) => refuse(code),
        Ok(list) => {
            write(words, &list);
            accept(words, 0, 0, 0)
        }
    }
}

/// The first firing of the stated order, and whether any guard holds at all.
fn first_firing(words: &[u32], slots: usize) -> (Option<Vec<(usize, i64)>>, bool) {
    let mut links = vec![None; slots + 1];
    for (k, holder, side) in downward(words) {
        links[k] = Some((holder, side));
    }
    let mut held = false;
    for (holder, side) in links.into_iter().flatten() {
        for rule in 1..=8 {
            match judge(words, slots, rule, holder, side) {
                Ok(list) => return (Some(list), true),
                Err(code) => held |= code == TOO_HIGH,
            }
        }
    }
    (None, held)
}

pub fn tidy(words: &mut [u32], budget: u32) -> Answer {
    let Some(slots) = slots_of(words.len()) else { return refuse(WRONG_LENGTH) };
    if !is_sound(words, slots) {
        return refuse(DAMAGED);
    }
    let mut fired = 0;
    loop {
        let (firing, held) = first_firing(words, slots);
        match firing {
            Some(list) if fired < budget => write(words, &list),
            _ => return accept(words, u64::from(fired), u64::from(!held), 0),
        }
        fired += 1;
    }
}
