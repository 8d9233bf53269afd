//! Holds the declarations, numbers and names of the Rust side to bindings/c/futtockram.h and the crates, read as text.

use futtockram::layout::{field, header, number, HEADER_WORDS, NUMBERS, SLOT_WORDS};
use futtockram::{Refusal, Rule, Side, State, MOST_HEIGHT, MOST_PIECES, MOST_SLOTS};
use std::collections::BTreeMap;
use std::fs::{read_dir, read_to_string};
use std::path::{Path, PathBuf};

/// A call's name and its parameters, each as name and C type.
type Declared = (String, Vec<(String, String)>);

/// The one file that declares the calls on the Rust side.
const RAW: &str = "src/raw.rs";

fn place(path: &str) -> PathBuf {
    Path::new(env!("CARGO_MANIFEST_DIR")).join(path)
}

fn file(path: &str) -> String {
    let path = place(path);
    read_to_string(&path).unwrap_or_else(|error| panic!("{}: {error}", path.display()))
}

/// The text between a start and the next end.
fn between<'t>(text: &'t str, start: &str, end: &str) -> Vec<&'t str> {
    text.split(start).skip(1).map(|rest| rest.split(end).next().unwrap_or("")).collect()
}

fn without_comments(text: &str) -> String {
    let mut parts = text.split("/*");
    let first = parts.next().unwrap_or("").to_string();
    first + &parts.map(|part| part.split_once("*/").expect("a comment ends").1).collect::<String>()
}

/// `const uint32_t *t` as name `t` and type `const uint32_t *`; `uint64_t out[N]` as `out` and `uint64_t [N]`.
fn c_parameter(text: &str) -> (String, String) {
    let (text, array) =
        text.trim().split_once('[').map_or((text.trim(), String::new()), |(a, b)| (a, format!(" [{b}")));
    let end = text.rfind(|c: char| !(c.is_alphanumeric() || c == '_')).expect("a type and a name") + 1;
    (text[end..].to_string(), text[..end].trim_end().to_string() + &array)
}

fn c_calls() -> Vec<Declared> {
    let header = without_comments(&file("../c/futtockram.h"));
    between(&header, "\nvoid ", ";")
        .iter()
        .map(|text| {
            let (name, rest) = text.split_once('(').expect("a parameter list");
            (name.to_string(), rest.trim_end_matches(')').split(',').map(c_parameter).collect())
        })
        .collect()
}

/// The C type of a Rust one.
fn c_type(rust: &str) -> String {
    match rust {
        "*mut u32" => "uint32_t *",
        "*const u32" => "const uint32_t *",
        "usize" => "size_t",
        "u32" => "uint32_t",
        "*mut u64" => "uint64_t [FTK_NUMBERS]",
        other => panic!("no C type is known for {other}"),
    }
    .to_string()
}

fn rust_calls() -> Vec<Declared> {
    between(&file(RAW), "pub fn ftk_", ");")
        .iter()
        .map(|text| {
            let (name, rest) = text.split_once('(').expect("a parameter list");
            let parameter = |text: &str| {
                let (name, rust) = text.split_once(": ").expect("a name and a type");
                (name.trim().to_string(), c_type(rust.trim()))
            };
            (format!("ftk_{name}"), rest.split(", ").map(parameter).collect())
        })
        .collect()
}

/// The `#define FTK_NAME NUMBERu` lines of a text without comments, in their order.
fn numbers_in(text: &str) -> Vec<(String, u64)> {
    let defines = text.lines().filter_map(|line| line.strip_prefix("#define FTK_"));
    defines
        .filter_map(|line| {
            let (name, number) = line.split_once(' ')?;
            Some((name.to_string(), number.trim().strip_suffix('u')?.parse().ok()?))
        })
        .collect()
}

/// All such numbers of the header.
fn c_numbers() -> BTreeMap<String, u64> {
    numbers_in(&without_comments(&file("../c/futtockram.h"))).into_iter().collect()
}

/// Every Rust source in a folder and below it, what cargo builds left out.
fn rust_sources(folder: &Path) -> Vec<PathBuf> {
    let entries = read_dir(folder).unwrap_or_else(|error| panic!("{}: {error}", folder.display()));
    let paths = entries.map(|entry| entry.expect("an entry of the folder").path());
    let (folders, files): (Vec<_>, Vec<_>) =
        paths.filter(|path| !path.ends_with("target")).partition(|path| path.is_dir());
    let rust = files.into_iter().filter(|path| path.extension().is_some_and(|end| end == "rs"));
    rust.chain(folders.iter().flat_map(|folder| rust_sources(folder))).collect()
}

/// `WrongLength` as the header spells it: `WRONG_LENGTH`.
fn in_capitals(name: &str) -> String {
    let parts = name.chars().map(|c| if c.is_uppercase() { format!("_{c}") } else { c.to_uppercase().to_string() });
    parts.collect::<String>().trim_start_matches('_').to_string()
}

/// The name of a refusal without what it carries: `KeyAbsent { .. }` is `KeyAbsent`.
fn name(refusal: &Refusal) -> String {
    format!("{refusal:?}").chars().take_while(|c| c.is_alphanumeric()).collect()
}

/// The refusals as Rust has them: name and code.
fn rust_refusals() -> Vec<(String, u64)> {
    Refusal::ALL.iter().map(|refusal| (name(refusal), refusal.code())).collect()
}

#[test]
fn the_declarations_are_those_of_the_header() {
    let header = c_calls();
    assert_eq!(header.len(), 11);
    assert_eq!(rust_calls(), header);
}

#[test]
fn the_calls_are_declared_once() {
    let mut declaring = Vec::new();
    let mut read = 0;
    for folder in ["..", "../../tests", "../../bench"] {
        for path in rust_sources(&place(folder)) {
            let text = read_to_string(&path).expect("a source can be read");
            let declares = text.lines().any(|line| line.trim_start().trim_start_matches("pub ").starts_with("fn ftk_"));
            declaring.extend(declares.then(|| path.canonicalize().expect("a source is there")));
            read += 1;
        }
    }
    assert!(read > 30, "only {read} sources were found");
    assert_eq!(declaring, [place(RAW).canonicalize().expect("a source is there")]);
}

#[test]
fn a_refusal_has_one_name_and_code_in_rattle_c_and_rust() {
    let rust = rust_refusals();
    let rattle = file("../../crates/scope/src/answer.rt");
    let variants = between(&rattle, "pub enum Refusal {", "}")[0].split(',').filter_map(|line| line.trim().split_once(" = "));
    let variants: Vec<(String, u64)> =
        variants.map(|(name, code)| (name.to_string(), code.parse().expect("a code"))).collect();
    assert_eq!(variants, rust);

    let defined = file("../../crates/scope/specs/Answers.antt");
    let codes = defined.lines().filter_map(|line| line.strip_prefix("code_of ")?.split_once(" = "));
    let codes: Vec<(String, u64)> =
        codes.map(|(name, code)| (name.to_string(), code.parse().expect("a code"))).collect();
    assert_eq!(codes, rust);

    // All codes of the header, which stand between this comment and the next one that begins a line.
    let header = file("../c/futtockram.h");
    let listed = without_comments(&format!("/*{}", between(&header, "/* Codes.", "\n/*")[0]));
    let listed: Vec<(String, u64)> = numbers_in(&listed).into_iter().filter(|(_, code)| *code != 0).collect();
    assert_eq!(listed, rust.iter().map(|(name, code)| (in_capitals(name), *code)).collect::<Vec<_>>());
}

#[test]
fn the_page_of_refusals_has_these_names_and_codes() {
    let page = file("../../docs/REFUSALS.md");
    let rows: Vec<&str> = page.lines().filter(|line| line.contains("`FTK_") && line.starts_with('|')).collect();
    let expected =
        rust_refusals().into_iter().map(|(name, code)| format!("| {code} | `{name}` | `FTK_{}` |", in_capitals(&name)));
    let expected: Vec<String> = expected.collect();
    assert_eq!(rows.len(), expected.len());
    for (row, expected) in rows.iter().zip(&expected) {
        assert!(row.starts_with(expected), "{row} is not of {expected}");
    }
    for own in [Refusal::RankAbsent, Refusal::Unknown(77), Refusal::Misread(78)] {
        assert!(page.contains(&format!("`{}`", name(&own))), "the page does not speak of {own:?}");
    }
}

#[test]
fn a_code_is_a_refusal_and_no_code_is_beyond_reading() {
    let read = |code| Refusal::from_numbers(&[code, 0, 0, 0, 0]);
    for refusal in Refusal::ALL {
        assert_eq!(read(refusal.code()), Some(refusal));
    }
    assert_eq!(read(0), None);
    for code in [11, 255, u64::MAX] {
        assert_eq!(read(code), Some(Refusal::Unknown(code)));
    }
}

#[test]
fn only_the_code_of_an_absent_key_says_more_than_itself() {
    for refusal in Refusal::ALL {
        let read = Refusal::from_numbers(&[refusal.code(), 0, 435, 450, 0]).expect("a refusal");
        let absent = Refusal::KeyAbsent { below: Some(435), above: Some(450) };
        assert_eq!(read, if name(&refusal) == "KeyAbsent" { absent } else { refusal });
    }
    assert_eq!(Refusal::RankAbsent.code(), c_numbers()["KEY_ABSENT"]);
}

#[test]
fn the_limits_and_words_are_those_of_the_header() {
    let numbers = c_numbers();
    let expected = [
        ("MOST_SLOTS", MOST_SLOTS as u64),
        ("MOST_PIECES", u64::from(MOST_PIECES)),
        ("MOST_HEIGHT", u64::from(MOST_HEIGHT)),
        ("MOST_KEY", u64::from(u32::MAX)),
        ("MOST_CHANGE", u64::from(u32::MAX)),
        ("POURED", State::Poured as u64),
        ("REMELT", State::Remelt as u64),
        ("SIDE_LEFT", Side::Left as u64),
        ("SIDE_RIGHT", Side::Right as u64),
    ];
    for (name, number) in expected {
        assert_eq!(numbers.get(name), Some(&number), "{name}");
    }
    assert_eq!(Rule::ALL.map(|rule| rule as u32), [1, 2, 3, 4, 5, 6, 7, 8]);
}

#[test]
fn the_layout_is_that_of_the_header() {
    let numbers = c_numbers();
    let expected = [
        ("HEADER_WORDS", HEADER_WORDS),
        ("SLOT_WORDS", SLOT_WORDS),
        ("HEADER_ROOT", header::ROOT),
        ("HEADER_RECORDS", header::RECORDS),
        ("HEADER_CHANGE", header::CHANGE),
        ("HEADER_ZERO", header::ZERO),
        ("STATE", field::STATE),
        ("KEY", field::KEY),
        ("PIECES", field::PIECES),
        ("LEFT", field::LEFT),
        ("RIGHT", field::RIGHT),
        ("LEFTH", field::LEFTH),
        ("RIGHTH", field::RIGHTH),
        ("CODE", number::CODE),
        ("CHANGE", number::CHANGE),
        ("VALUE", number::VALUE),
        ("MORE", number::MORE),
        ("KIND", number::KIND),
        ("NUMBERS", NUMBERS),
    ];
    for (name, number) in expected {
        assert_eq!(numbers.get(name), Some(&(number as u64)), "{name}");
    }
}
