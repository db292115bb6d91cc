//! The crate declares and uses what `uca.h` of the repository says. A packaged crate lacks this test, since it lacks
//! the header.
use std::collections::BTreeSet;

const HEADER: &str = include_str!("../../c/include/uca.h");
const CALLS: &str = include_str!("../src/calls.rs");
const ERRORS: &str = include_str!("../src/errors.rs");
const UPGRADE_ERRORS: &str = include_str!("../src/upgrade_errors.rs");

/// A text with one blank in place of blanks and line feeds.
fn spaced(text: &str) -> String {
    text.split_whitespace().collect::<Vec<_>>().join(" ")
}

/// The header without its comments, as far as it declares calls.
fn header() -> String {
    let (declared, _) = HEADER.split_once("/* ----").expect("functions come after the calls");
    let mut parts = declared.split("/*");
    let first = parts.next().unwrap_or_default().to_string();
    let rest: String = parts.map(|it| it.split_once("*/").expect("a comment ends").1).collect();
    spaced(&(first + &rest))
}

/// A parameter's type in Rust, from its declaration in C.
fn in_rust(declared: &str) -> String {
    let (kind, pointer) = match declared.rsplit_once([' ', '*']) {
        Some((kind, _)) => (kind.trim_end_matches('*').trim(), declared.contains('*')),
        None => (declared, false),
    };
    let (kind, constant) = kind.strip_prefix("const ").map_or((kind, false), |it| (it, true));
    let name = match kind {
        "uint8_t" => "u8",
        "uint32_t" => "u32",
        "int32_t" => "i32",
        "size_t" => "usize",
        "uca_collator" => "Collator",
        "uca_error" => "Error",
        "uca_comparison" => "Comparison",
        "uca_upgrade" => "Upgrade",
        "uca_upgrade_error" => "UpgradeError",
        "uca_lengths" => "Lengths",
        other => panic!("{other}"),
    };
    format!(
        "{}{name}",
        if pointer {
            if constant {
                "*const "
            } else {
                "*mut "
            }
        } else {
            ""
        }
    )
}

/// Each call of the header as `name(type, ..) -> type`.
fn calls_of_header() -> BTreeSet<String> {
    let text = header();
    let calls = text.split(';').filter(|it| it.contains('('));
    let calls = calls.filter_map(|it| it.trim().split_once(" uca_"));
    calls
        .map(|(result, call)| {
            let (name, given) = call.trim_end_matches(')').split_once('(').expect("a call has parameters");
            let given: Vec<_> = given.split(',').map(str::trim).filter(|it| *it != "void").map(in_rust).collect();
            let result = result.rsplit(' ').next().unwrap_or_default();
            let result = if result == "void" { String::new() } else { format!(" -> {}", in_rust(result)) };
            format!("uca_{name}({}){result}", given.join(", "))
        })
        .collect()
}

/// Each call that the crate declares, in the same form.
fn calls_of_crate() -> BTreeSet<String> {
    let text = spaced(CALLS);
    let (_, block) = text.split_once("extern \"C\" {").expect("the calls");
    let calls = block.split(';').filter_map(|it| it.trim().strip_prefix("pub fn "));
    calls
        .map(|call| {
            let (name, rest) = call.split_once('(').expect("a call has parameters");
            let (given, result) = rest.split_once(')').expect("parameters end");
            let types: Vec<_> = given.split(',').filter_map(|it| it.split_once(':')).map(|it| it.1.trim()).collect();
            format!("{name}({}){}", types.join(", "), result.trim_end())
        })
        .collect()
}

/// The number of a name in the header.
fn number(name: &str) -> u32 {
    let text = header().replace("#define UCA_ABI 1 ", "UCA_ABI = 1, ");
    let (_, after) = text.split_once(&format!("{name} = ")).unwrap_or_else(|| panic!("the header has no {name}"));
    after.split([',', ' ']).next().unwrap_or_default().parse().expect("a number")
}

#[test]
fn calls() {
    assert_eq!(calls_of_crate(), calls_of_header());
}

#[test]
fn numbers() {
    let constants = CALLS.lines().filter_map(|it| it.strip_prefix("pub const ")?.strip_suffix(';'));
    let mut count = 0;
    for (name, value) in constants.filter_map(|it| it.split_once(": u32 = ")) {
        assert_eq!(value.parse::<u32>().expect("a number"), number(&format!("UCA_{name}")), "{name}");
        count += 1;
    }
    assert_eq!(count, 22);
}

#[test]
fn settings() {
    use uca::{Depth, Numbers, RangeOf, Weighting};
    let rows = [
        ("UCA_BY_TABLE", Weighting::ByTable as u32),
        ("UCA_NON_IGNORABLE", Weighting::NonIgnorable as u32),
        ("UCA_SHIFTED", Weighting::Shifted as u32),
        ("UCA_WEIGHTS", Depth::Weights as u32),
        ("UCA_IDENTICAL", Depth::Identical as u32),
        ("UCA_NUMERIC", Numbers::ByValue as u32),
        ("UCA_SAME_LETTERS", RangeOf::SameLetters as u32),
        ("UCA_SAME_ACCENTS", RangeOf::SameAccents as u32),
        ("UCA_BEGINS", RangeOf::Begins as u32),
    ];
    for (name, value) in rows {
        assert_eq!(value, number(name), "{name}");
    }
}

/// Whether a number of the header has its arm in the crate.
fn has_arm(source: &str, name: &str, arm: &str) {
    let arm = format!("{} => {arm},", number(name));
    assert!(source.contains(&arm), "{name}: {arm}");
}

#[test]
fn kinds() {
    for (name, kind) in [
        ("LINE", "Line"),
        ("ORDER", "Order"),
        ("CODE_POINT", "CodePoint"),
        ("WEIGHT", "Weight"),
        ("DUPLICATE_KEY", "DuplicateKey"),
        ("RANGE", "Range"),
        ("LIMIT", "Limit"),
        ("MAP_EMPTY", "MapEmpty"),
        ("MAP_NOT_RISING", "MapNotRising"),
        ("MAP_OUT_OF_RANGE", "MapOutOfRange"),
        ("MAP_FIXED", "MapFixed"),
    ] {
        has_arm(ERRORS, &format!("UCA_KIND_{name}"), &format!("Self::{kind}"));
    }
}

#[test]
fn errors_of_upgrades() {
    for (name, arm) in [
        ("OLD_TABLE", "Self::OldTable"),
        ("OLD_DATA", "Self::OldData"),
        ("NEW_TABLE", "Self::NewTable"),
        ("NEW_DATA", "Self::NewData"),
        ("CHANGES", "Self::Changes"),
        ("CERTIFICATE", "Self::Certificate"),
        ("OLD_ILL_FORMED", "Self::OldIllFormed"),
        ("NEW_ILL_FORMED", "Self::NewIllFormed"),
        ("RANGE_CHANGED", "Self::RangeChanged"),
        ("UNCOVERED", "Self::Uncovered"),
        ("ROW_CHANGED", "Self::RowChanged"),
        ("ROW_MISSING", "Self::RowMissing"),
        ("ROW_EXTRA", "Self::RowExtra"),
        ("POINT_CHANGED", "Self::PointChanged"),
        ("SETTING_CHANGED", "Self::SettingChanged"),
        ("AT_OLD_ROW", "Some(Self::OldRow(number))"),
        ("AT_NEW_ROW", "Some(Self::NewRow(number))"),
        ("AT_CODE_POINT", "Some(Self::CodePoint(number))"),
    ] {
        has_arm(UPGRADE_ERRORS, &format!("UCA_{name}"), arm);
    }
}

/// The texts of a function of the header, by their numbers.
fn texts(function: &str) -> Vec<String> {
    let (_, after) = HEADER.split_once(&format!("*{function}(")).expect("the function");
    let (_, after) = after.split_once("texts[] = {").expect("its texts");
    let (texts, _) = after.split_once('}').expect("its texts end");
    texts.split('"').skip(1).step_by(2).map(str::to_string).collect()
}

#[test]
fn texts_of_statuses() {
    use uca::{OpenError, StoredKeyError, TextError, UpgradeError};
    let texts = texts("uca_status_text");
    for (name, said) in [
        ("UTF8", TextError::Utf8.to_string()),
        ("TOO_LONG", TextError::TooLong.to_string()),
        ("LONG_RUN", TextError::LongRun.to_string()),
        ("NO_BOOK", StoredKeyError::NoBook.to_string()),
        ("MEMORY", TextError::Memory.to_string()),
        ("MEMORY", StoredKeyError::Memory.to_string()),
        ("MEMORY", OpenError::Memory.to_string()),
        ("MEMORY", UpgradeError::Memory.to_string()),
    ] {
        assert_eq!(said, texts[number(&format!("UCA_{name}")) as usize], "{name}");
    }
}

#[test]
fn texts_of_kinds_and_conditions() {
    use uca::Condition::{self, *};
    use uca::FileErrorKind::{self, *};
    let kinds: [FileErrorKind; 11] =
        [Line, Order, CodePoint, Weight, DuplicateKey, Range, Limit, MapEmpty, MapNotRising, MapOutOfRange, MapFixed];
    let mut texts_of_kinds = texts("uca_kind_text");
    // that there is no error, and Read and Memory, which are no kinds of the crate
    texts_of_kinds.drain(8..10);
    assert_eq!(kinds.map(|it| it.to_string())[..], texts_of_kinds[1..]);
    let conditions: [Condition; 9] = [
        OldIllFormed,
        NewIllFormed,
        RangeChanged,
        Uncovered,
        RowChanged,
        RowMissing,
        RowExtra,
        PointChanged,
        SettingChanged,
    ];
    assert_eq!(conditions.map(|it| it.to_string())[..], texts("uca_condition_text")[1..]);
}
