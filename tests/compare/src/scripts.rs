//! Random scripts for the program `stand`, with lines spoilt in every way, compared byte by byte.

use crate::dice::Dice;
use crate::stand::{stand, FORMS};
use std::io::{Read, Write};
use std::process::{Command, Stdio};

/// A number for a field: mostly small, so that keys meet again.
fn number(dice: &mut Dice, field: &str) -> u32 {
    let rare = dice.pick(&[0, 1, 9, 65_536, 1_000_000, 1_000_001, u32::MAX]);
    match field {
        _ if dice.chance(1, 25) => rare,
        "state" => dice.between(1, 2) as u32,
        "side" => dice.between(0, 1) as u32,
        "rule" => dice.between(1, 8) as u32,
        "holder" => dice.between(0, 9) as u32,
        "pieces" => dice.between(1, 2000) as u32,
        _ => dice.between(1, 30) as u32,
    }
}

fn line(dice: &mut Dice) -> Vec<u8> {
    let (word, fields) = if dice.chance(1, 3) { FORMS[0] } else { dice.pick(&FORMS) };
    let mut line = format!("op={word}");
    for field in fields {
        line += &format!(" {field}={}", number(dice, field));
    }
    line.into_bytes()
}

/// Spoils a line: a byte changed, put in, taken out or at the end; fields exchanged; too long; a number too large.
fn spoil(dice: &mut Dice, line: &mut Vec<u8>) {
    let place = dice.below(line.len());
    let byte = dice.pick(b" =0129-+ax\t\r\0\x80");
    match dice.below(12) {
        0 => line[place] = byte,
        1 => line.insert(place, byte),
        2 => drop(line.remove(place)),
        3 => line.push(byte),
        4 => line.push(b'\r'),
        5 => line.clear(),
        6 => line.extend_from_slice(&[b'7'; 90][..dice.between(1, 80)]),
        7 => line.truncate(place),
        8 => *line = line.rsplit(|&byte| byte == b' ').collect::<Vec<_>>().join(&b' '),
        9 => *line = format!("op=find key={}", (1u64 << 32) + dice.below(3) as u64 - 1).into_bytes(),
        10 => *line = dice.pick(&["op=start", "op=check", "op=", "op", "OP=worth", "op=worth ", " op=list"]).into(),
        _ => *line = format!("op=find key=0{}", dice.below(30)).into_bytes(),
    }
}

/// A script: empty now and then, with or without its last newline, and now and then at the limit of its length.
fn script(dice: &mut Dice, turn: u64) -> Vec<u8> {
    let spoilt = dice.pick(&[0, 1, 5]);
    let lines = dice.pick(&[0, 1, 3, 10, 30, 100]);
    let mut script = Vec::new();
    for _ in 0..lines {
        let mut line = line(dice);
        if dice.chance(spoilt, 20) {
            spoil(dice, &mut line);
        }
        script.extend(line);
        script.extend(b"\n");
    }
    if dice.chance(1, 3) {
        script.pop();
    }
    if turn % 25 < 4 {
        let length = [65_535, 65_536, 65_537, 65_600][turn as usize % 25];
        let rest = b"op=worth\n".iter().cycle().take(length - script.len());
        script.extend(rest.collect::<Vec<_>>());
    }
    script
}

/// What the program prints, and whether it ended well.
fn run(program: &str, input: Vec<u8>) -> std::io::Result<(Vec<u8>, bool)> {
    let mut child = Command::new(program).stdin(Stdio::piped()).stdout(Stdio::piped()).spawn()?;
    let mut pipe = child.stdin.take().expect("a piped input");
    // A program that has read enough may close its end: what it prints decides.
    let writer = std::thread::spawn(move || pipe.write_all(&input).is_ok());
    let mut out = Vec::new();
    child.stdout.take().expect("a piped output").read_to_end(&mut out)?;
    let ended = child.wait()?.success();
    Ok((out, writer.join().is_ok() && ended))
}

fn same(program: &str, input: &[u8]) -> bool {
    match run(program, input.to_vec()) {
        Ok((out, ended)) => ended && out == stand(input).into_bytes(),
        Err(error) => panic!("{program}: {error}"),
    }
}

/// Leaves out every line without which the script still differs.
fn fewer_lines(program: &str, input: &[u8]) -> Vec<u8> {
    let mut lines: Vec<&[u8]> = input.split_inclusive(|&byte| byte == b'\n').collect();
    let mut place = if lines.len() > 400 { 0 } else { lines.len() };
    while place > 0 {
        place -= 1;
        let left_out = lines.remove(place);
        if same(program, &lines.concat()) {
            lines.insert(place, left_out);
        }
    }
    lines.concat()
}

/// Compares so many scripts; true if the program printed the same bytes for all.
pub fn scripts(program: &str, count: u64, seed: u64) -> bool {
    let mut dice = Dice::new(seed, 1000);
    for turn in 0..count {
        let input = script(&mut dice, turn);
        if !same(program, &input) {
            let input = fewer_lines(program, &input);
            let printed = run(program, input.clone()).map(|(out, _)| out).unwrap_or_default();
            println!("script {turn} of seed {seed} differs; the least part of it that does:");
            println!("input    {:?}", String::from_utf8_lossy(&input));
            println!("program  {:?}", String::from_utf8_lossy(&printed));
            println!("paper    {:?}", stand(&input));
            return false;
        }
    }
    true
}
