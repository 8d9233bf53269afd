//! Reads the five numbers of an answer. No number makes it panic: one that is not understood is told to the caller.

use crate::answer::{Answer, Found, State, Tidied};
use crate::layout::{number, NUMBERS};
use crate::refusal::Refusal;

/// The five numbers as a call has written them.
pub type Numbers = [u64; NUMBERS];

/// A number that is a slot, a count or a 32-bit word.
pub fn short(number: u64) -> Result<u32, Refusal> {
    u32::try_from(number).map_err(|_| Refusal::Misread(number))
}

/// The answer if the call was accepted, with what was asked read out of the numbers.
pub fn accepted<T>(out: Numbers, read: impl FnOnce(&Numbers) -> Result<T, Refusal>) -> Result<Answer<T>, Refusal> {
    match Refusal::from_numbers(&out) {
        Some(refusal) => Err(refusal),
        None => Ok(Answer { change: short(out[number::CHANGE])?, is: read(&out)? }),
    }
}

/// The answer of rank, a slot. Its code 5 is of a rank and not of a key, so there are no nearest keys to it.
pub fn ranked(out: Numbers) -> Result<Answer<u32>, Refusal> {
    accepted(out, slot).map_err(|refusal| match refusal {
        Refusal::KeyAbsent { .. } => Refusal::RankAbsent,
        other => other,
    })
}

/// No more than that the call was accepted.
pub fn nothing(_: &Numbers) -> Result<(), Refusal> {
    Ok(())
}

/// A slot.
pub fn slot(out: &Numbers) -> Result<u32, Refusal> {
    short(out[number::VALUE])
}

/// A sum.
pub fn sum(out: &Numbers) -> Result<u64, Refusal> {
    Ok(out[number::VALUE])
}

/// What find has found.
pub fn found(out: &Numbers) -> Result<Found, Refusal> {
    let kind = out[number::KIND];
    let state = State::from_word(kind).ok_or(Refusal::Misread(kind))?;
    Ok(Found { pieces: short(out[number::VALUE])?, state, visits: short(out[number::MORE])? })
}

/// What tidy has done.
pub fn tidied(out: &Numbers) -> Result<Tidied, Refusal> {
    let quiet = match out[number::MORE] {
        0 => false,
        1 => true,
        other => return Err(Refusal::Misread(other)),
    };
    Ok(Tidied { firings: short(out[number::VALUE])?, quiet })
}

#[cfg(test)]
mod tests {
    use super::*;

    const OVER: u64 = 1 << 32;

    #[test]
    fn accepted_numbers_are_read() {
        assert_eq!(accepted([0, 7, 0, 0, 0], nothing), Ok(Answer { change: 7, is: () }));
        assert_eq!(accepted([0, 7, 3, 0, 0], slot), Ok(Answer { change: 7, is: 3 }));
        assert_eq!(accepted([0, 7, OVER, 0, 0], sum), Ok(Answer { change: 7, is: OVER }));
        let found_one = Found { pieces: 5, state: State::Remelt, visits: 4 };
        assert_eq!(accepted([0, 7, 5, 4, 2], found), Ok(Answer { change: 7, is: found_one }));
        let tidied_once = Tidied { firings: 1, quiet: true };
        assert_eq!(accepted([0, 7, 1, 1, 0], tidied), Ok(Answer { change: 7, is: tidied_once }));
    }

    #[test]
    fn a_key_that_is_not_there_is_read_with_the_nearest_ones() {
        for (numbers, below, above) in [
            ([5, 0, 435, 450, 0], Some(435), Some(450)),
            ([5, 0, 450, 0, 0], Some(450), None),
            ([5, 0, 0, 360, 0], None, Some(360)),
            ([5, 0, 0, 0, 0], None, None),
            ([5, 0, 1, OVER - 1, 0], Some(1), Some(u32::MAX)),
        ] {
            let refusal = Refusal::KeyAbsent { below, above };
            assert_eq!((accepted(numbers, slot), accepted(numbers, found)), (Err(refusal), Err(refusal)));
            assert_eq!(ranked(numbers), Err(Refusal::RankAbsent));
        }
        assert_eq!(
            (ranked([0, 7, 3, 0, 0]), ranked([3, 0, 0, 0, 0])),
            (Ok(Answer { change: 7, is: 3 }), Err(Refusal::Damaged))
        );
    }

    #[test]
    fn any_numbers_are_read_and_keep_their_code() {
        let edges = [0, 1, 2, 3, 4, 5, 6, 10, 11, OVER - 1, OVER, u64::MAX];
        for nth in 0..edges.len().pow(NUMBERS as u32) {
            let out: Numbers = std::array::from_fn(|place| edges[nth / edges.len().pow(place as u32) % edges.len()]);
            let read = [
                accepted(out, nothing).err(),
                accepted(out, slot).err(),
                accepted(out, sum).err(),
                accepted(out, found).err(),
                accepted(out, tidied).err(),
                ranked(out).err(),
            ];
            assert_eq!(read.map(|refusal| refusal.map_or(0, Refusal::code)), [out[number::CODE]; 6], "{out:?}");
        }
    }

    #[test]
    fn numbers_that_no_edition_known_gives_are_told() {
        for code in [11, OVER, u64::MAX] {
            assert_eq!(accepted([code, 0, 0, 0, 0], nothing), Err(Refusal::Unknown(code)));
        }
        for numbers in [[5, 0, OVER, 450, 0], [5, 0, 435, OVER, 0], [5, 0, u64::MAX, u64::MAX, 0]] {
            assert_eq!(accepted(numbers, slot), Err(Refusal::Unknown(5)));
            assert_eq!(ranked(numbers), Err(Refusal::Unknown(5)));
        }
        assert_eq!(accepted([0, OVER, 0, 0, 0], nothing), Err(Refusal::Misread(OVER)));
        assert_eq!(accepted([0, 1, OVER, 0, 0], slot), Err(Refusal::Misread(OVER)));
        for (numbers, wrong) in
            [([0, 1, OVER, 1, 1], OVER), ([0, 1, 1, OVER, 1], OVER), ([0, 1, 1, 1, 3], 3), ([0; 5], 0)]
        {
            assert_eq!(accepted(numbers, found), Err(Refusal::Misread(wrong)));
        }
        for (numbers, wrong) in [([0, 1, OVER, 1, 0], OVER), ([0, 1, 1, 2, 0], 2)] {
            assert_eq!(accepted(numbers, tidied), Err(Refusal::Misread(wrong)));
        }
    }
}
