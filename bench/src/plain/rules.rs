//! The eight rules in plain Rust on a sound table: which is the lowest at a slot, and what its firing writes.

use crate::words::*;

/// One more than the larger register.
#[inline]
fn local_height(s: &Slot) -> u32 {
    1 + s[LEFTH].max(s[RIGHTH])
}

#[inline]
fn slot(slots: &[Slot], k: u32) -> &Slot {
    &slots[k as usize - 1]
}

/// Whether a son hangs on one side and the register beside it is wrong; the height it should show.
#[inline]
fn stale(slots: &[Slot], s: &Slot, side: usize) -> Option<u32> {
    let u = s[LEFT + side];
    if u == 0 {
        return None;
    }
    let height = local_height(slot(slots, u));
    (s[LEFTH + side] != height).then_some(height)
}

/// The rotation due at a slot that leans by two or more to a side: 3 to 8, or 0.
#[inline]
fn rotation(slots: &[Slot], s: &Slot, side: usize) -> u32 {
    let u = slot(slots, s[LEFT + side]);
    let (near, far) = (u[LEFTH + side], u[RIGHTH - side]);
    if s[LEFTH + side] != 1 + near.max(far) {
        return 0;
    }
    let rule = if near > far {
        3
    } else if near == far {
        5
    } else if far == local_height(slot(slots, u[RIGHT - side])) {
        7
    } else {
        return 0;
    };
    rule + side as u32
}

/// The lowest rule that would be accepted at slot v, 0 for none.
pub fn due(slots: &[Slot], v: u32) -> u32 {
    let s = slot(slots, v);
    for side in [0, 1] {
        if stale(slots, s, side).is_some_and(|height| height <= MOST_HEIGHT) {
            return 1 + side as u32;
        }
    }
    if s[LEFTH] >= s[RIGHTH] + 2 {
        rotation(slots, s, 0)
    } else if s[RIGHTH] >= s[LEFTH] + 2 {
        rotation(slots, s, 1)
    } else {
        0
    }
}

/// Whether one rule would be accepted at slot v: its guard by itself, and the height limit.
pub fn passes(slots: &[Slot], v: u32, rule: u32) -> bool {
    let side = 1 - (rule as usize & 1);
    let s = slot(slots, v);
    if s[LEFT + side] == 0 {
        return false;
    }
    let u = slot(slots, s[LEFT + side]);
    let height = local_height(u);
    let reliable = s[LEFTH + side] == height;
    let leans = s[LEFTH + side] >= s[RIGHTH - side] + 2;
    let (near, far) = (u[LEFTH + side], u[RIGHTH - side]);
    match rule {
        1 | 2 => !reliable && height <= MOST_HEIGHT,
        3 | 4 => reliable && near > far && leans,
        5 | 6 => reliable && near == far && leans,
        _ => reliable && near < far && leans && far == local_height(slot(slots, u[RIGHT - side])),
    }
}

/// Whether any guard holds at slot v, also one whose firing would be refused for its height.
pub fn guarded(slots: &[Slot], v: u32) -> bool {
    let s = slot(slots, v);
    s[STATE] != 0 && (due(slots, v) != 0 || [0, 1].iter().any(|&side| stale(slots, s, side).is_some()))
}

/// Puts a slot's number where another one hung.
#[inline]
fn put_top(header: &mut Header, slots: &mut [Slot], holder: u32, old: u32, new: u32) {
    if holder == 0 {
        header[ROOT] = new;
        return;
    }
    let s = &mut slots[holder as usize - 1];
    let side = if s[LEFT] == old { LEFT } else { RIGHT };
    s[side] = new;
}

/// Fires a rule that is due at v, which hangs at holder: the slots v, u and w, of which w may be 0.
pub fn fire(header: &mut Header, slots: &mut [Slot], rule: u32, holder: u32, v: u32) -> [u32; 3] {
    let side = 1 - (rule as usize & 1);
    let (near, far) = (LEFT + side, RIGHT - side);
    let (nearh, farh) = (near + 2, far + 2);
    let u = slots[v as usize - 1][near];
    if rule <= 2 {
        slots[v as usize - 1][nearh] = local_height(slot(slots, u));
        return [v, 0, 0];
    }
    let mut su = *slot(slots, u);
    let mut sv = *slot(slots, v);
    if rule <= 6 {
        (sv[near], sv[nearh]) = (su[far], su[farh]);
        (su[far], su[farh]) = (v, local_height(&sv));
        put_top(header, slots, holder, v, u);
        (slots[u as usize - 1], slots[v as usize - 1]) = (su, sv);
        return [v, u, 0];
    }
    let w = su[far];
    let mut sw = *slot(slots, w);
    (su[far], su[farh]) = (sw[near], sw[nearh]);
    (sv[near], sv[nearh]) = (sw[far], sw[farh]);
    (sw[near], sw[nearh]) = (u, local_height(&su));
    (sw[far], sw[farh]) = (v, local_height(&sv));
    put_top(header, slots, holder, v, w);
    (slots[u as usize - 1], slots[v as usize - 1], slots[w as usize - 1]) = (su, sv, sw);
    [v, u, w]
}
