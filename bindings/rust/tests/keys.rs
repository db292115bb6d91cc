//! What each call returns, over a small table. The weights of the keys are worked out by hand from UTS #10, and the
//! compact keys from the book's format.
use std::cmp::Ordering::{Equal, Greater, Less};
use std::collections::BTreeMap;
use std::thread;
use uca::{
    compare_keys, Collator, Comparison, Depth, File, FileErrorKind, Numbers, OpenError, RangeOf, RejectedText,
    StoredKeyError, TextError, Weighting,
};

const TABLE: &[u8] = b"@version 1
0020 ; [*0209.0020.0002]
200B ; [.0000.0000.0000]
0061 ; [.1C47.0020.0002]
0041 ; [.1C47.0020.0008]
0062 ; [.1C60.0020.0002]
0300 ; [.0000.0025.0002]
0301 ; [.0000.0024.0002]
0323 ; [.0000.002C.0002]
";
const DATA: &[u8] = b"@data 1\nccc 0300..0314 230\nccc 0323..0323 220\n";
const BOOK: &[u8] = b"@book 1\n1 1C47\n1 1C48\n1 1C60\n1 1C61\n";

/// The ten digits, whose weights rise from 1C3D on, two letters and an accent.
const DIGITS: &[u8] = b"@version 1
0030 ; [.1C3D.0020.0002]
0031 ; [.1C3E.0020.0002]
0032 ; [.1C3F.0020.0002]
0033 ; [.1C40.0020.0002]
0034 ; [.1C41.0020.0002]
0035 ; [.1C42.0020.0002]
0036 ; [.1C43.0020.0002]
0037 ; [.1C44.0020.0002]
0038 ; [.1C45.0020.0002]
0039 ; [.1C46.0020.0002]
0061 ; [.1C47.0020.0002]
0062 ; [.1C60.0020.0002]
0301 ; [.0000.0024.0002]
";

fn opened(weighting: Weighting, depth: Depth) -> Collator {
    Collator::options().weighting(weighting).depth(depth).open(TABLE, DATA).unwrap()
}

fn non_ignorable() -> Collator {
    opened(Weighting::NonIgnorable, Depth::Weights)
}

fn with_book() -> Collator {
    Collator::options().weighting(Weighting::NonIgnorable).book(BOOK).open(TABLE, DATA).unwrap()
}

/// The bytes of weights.
fn bytes_of(weights: &[u16]) -> Vec<u8> {
    weights.iter().flat_map(|it| it.to_be_bytes()).collect()
}

#[test]
fn keys() {
    let rows: [(&str, Weighting, &[u16]); 6] = [
        ("", Weighting::NonIgnorable, &[0, 0]),
        ("a", Weighting::NonIgnorable, &[0x1C47, 0, 0x20, 0, 2]),
        ("\u{E1}", Weighting::NonIgnorable, &[0x1C47, 0, 0x20, 0x24, 0, 2, 2]),
        ("a\u{301}", Weighting::NonIgnorable, &[0x1C47, 0, 0x20, 0x24, 0, 2, 2]),
        ("a b", Weighting::Shifted, &[0x1C47, 0x1C60, 0, 0x20, 0x20, 0, 2, 2, 0, 0xFFFF, 0x209, 0xFFFF]),
        ("a b", Weighting::ByTable, &[0x1C47, 0x1C60, 0, 0x20, 0x20, 0, 2, 2, 0, 0xFFFF, 0x209, 0xFFFF]),
    ];
    for (text, weighting, weights) in rows {
        let key = opened(weighting, Depth::Weights).key(text).unwrap();
        assert_eq!(key, bytes_of(weights), "{text:?} {weighting:?}");
        // the last level has three bytes for each code point in Normalization Form D
        let code_points = text.replace('\u{E1}', "a\u{301}");
        let last: Vec<_> = code_points.chars().flat_map(|it| u32::from(it).to_be_bytes()[1..].to_vec()).collect();
        let identical = opened(weighting, Depth::Identical).key(text).unwrap();
        assert_eq!(identical, [key, vec![0, 0], last].concat(), "{text:?} {weighting:?}");
    }
}

fn by_value(depth: Depth) -> Collator {
    let options = Collator::options().weighting(Weighting::NonIgnorable).depth(depth);
    options.numbers(Numbers::ByValue).open(DIGITS, DATA).unwrap()
}

#[test]
fn tables_that_do_not_order_numbers() {
    let options = Collator::options().numbers(Numbers::ByValue);
    assert_eq!(options.open(TABLE, DATA).err(), Some(OpenError::Digits { row: 0 }));
    let table = [DIGITS, b"0031 0301 ; [.1C50.0020.0002]\n"].concat();
    let error = options.book(BOOK).open(&table, DATA).unwrap_err();
    assert_eq!((&error, error.to_string()), (&OpenError::Digits { row: 14 }, "table, row 14: Digits".to_string()));
    assert!(Collator::options().open(&table, DATA).is_ok());
}

#[test]
fn keys_of_numbers() {
    // a10 is read as a210, and 007 as 17
    let rows: [(&str, &[u16]); 4] = [
        ("ab", &[0x1C47, 0x1C60, 0, 0x20, 0x20, 0, 2, 2]),
        ("7", &[0x1C3E, 0x1C44, 0, 0x20, 0x20, 0, 2, 2]),
        ("007", &[0x1C3E, 0x1C44, 0, 0x20, 0x20, 0, 2, 2]),
        ("a10", &[0x1C47, 0x1C3F, 0x1C3E, 0x1C3D, 0, 0x20, 0x20, 0x20, 0x20, 0, 2, 2, 2, 2]),
    ];
    for (text, weights) in rows {
        assert_eq!(by_value(Depth::Weights).key(text).unwrap(), bytes_of(weights), "{text}");
        let points: Vec<_> = text.chars().flat_map(|it| u32::from(it).to_be_bytes()[1..].to_vec()).collect();
        let identical = by_value(Depth::Identical).key(text).unwrap();
        assert_eq!(identical, [bytes_of(weights), vec![0, 0], points].concat(), "{text}");
    }
    // more zeros than a text may have code points are one zero, which is read as 10
    let zero = bytes_of(&[0x1C3E, 0x1C3D, 0, 0x20, 0x20, 0, 2, 2]);
    assert_eq!(by_value(Depth::Weights).key("0".repeat(1_048_577)), Ok(zero));
    assert_eq!(by_value(Depth::Weights).key("9".repeat(1_048_576)), Err(TextError::TooLong));
}

#[test]
fn comparisons_of_numbers() {
    let rows = [
        ("file 9", "file 10", (Less, 1), (Less, 1)),
        ("a99999999b", "a100000000", (Less, 1), (Less, 1)),
        ("007", "7", (Equal, 0), (Less, 4)),
        ("a2\u{301}", "a2", (Greater, 2), (Greater, 2)),
    ];
    for (left, right, by_weights, identical) in rows {
        for (depth, (order, level)) in [(Depth::Weights, by_weights), (Depth::Identical, identical)] {
            assert_eq!(by_value(depth).compare(left, right), Ok(Comparison { order, level }), "{left} {depth:?}");
            assert_eq!(by_value(depth).order(left, right), Ok(order), "{left} {depth:?}");
        }
    }
    let as_text = Collator::options().numbers(Numbers::AsText).open(DIGITS, DATA).unwrap().compare("file 9", "file 10");
    assert_eq!(as_text, Ok(Comparison { order: Greater, level: 1 }));
}

#[test]
fn ranges_of_numbers() {
    let options = Collator::options().numbers(Numbers::ByValue);
    let rows = [("a1", true, true), ("a01", true, true), ("a1b", true, false), ("a10", false, false)];
    for mut collator in [options.open(DIGITS, DATA).unwrap(), options.book(BOOK).open(DIGITS, DATA).unwrap()] {
        let begins = collator.range("a1", RangeOf::Begins).unwrap();
        let same = collator.range("a1", RangeOf::SameLetters).unwrap();
        for (text, is_begun, is_same) in rows {
            let key = collator.key(text).unwrap();
            assert_eq!((begins.contains(&key), same.contains(&key)), (is_begun, is_same), "{text}");
        }
    }
}

#[test]
fn a_key_into_a_vector_uses_it_again() {
    let (mut collator, mut key) = (non_ignorable(), b"what is there".to_vec());
    for (text, weights) in [("b", [0x1C60, 0, 0x20, 0, 2]), ("a", [0x1C47, 0, 0x20, 0, 2])] {
        collator.key_into(text, &mut key).unwrap();
        assert_eq!(key, bytes_of(&weights));
    }
    assert_eq!(collator.key_into(b"a\xFF", &mut key), Err(TextError::Utf8));
    assert!(key.is_empty());
}

#[test]
fn long_keys_get_more_room() {
    let (mut collator, length) = (opened(Weighting::Shifted, Depth::Identical), 300_000);
    let key = collator.key("a".repeat(length)).unwrap();
    // three levels of one weight each, one of FFFF, one of three bytes, and four separators
    assert_eq!(key.len(), length * (2 + 2 + 2 + 2 + 3) + 4 * 2);
    assert_eq!(key[..2], [0x1C, 0x47]);
    assert_eq!(key[key.len() - 3..], [0, 0, 0x61]);
}

#[test]
fn rejected_texts() {
    let mut collator = non_ignorable();
    let rows = [
        (b"a\xFF".to_vec(), TextError::Utf8),
        ("a".repeat(1_048_577).into_bytes(), TextError::TooLong),
        (format!("a{}", "\u{301}".repeat(65)).into_bytes(), TextError::LongRun),
    ];
    for (text, error) in rows {
        assert_eq!(collator.key(&text), Err(error));
        assert_eq!(collator.compare(&text, "a"), Err(error));
        assert_eq!(collator.compare("a", &text), Err(error));
        assert_eq!(collator.range(&text, RangeOf::SameLetters), Err(error));
        assert_eq!(collator.range_start(&text, RangeOf::SameLetters), Err(error));
    }
    assert!(collator.key(format!("a{}", "\u{301}".repeat(64))).is_ok());
}

#[test]
fn positions_of_errors() {
    let mut collator = non_ignorable();
    assert_eq!(collator.check_text("a"), Ok(()));
    let rejected = |error, position| Err(RejectedText { error, position });
    assert_eq!(collator.check_text(b"ab\xFF"), rejected(TextError::Utf8, 2));
    assert_eq!(collator.check_text(format!("b\u{e1}{}", "\u{301}".repeat(64))), rejected(TextError::LongRun, 2));
    assert_eq!(collator.check_text("a".repeat(1_048_577)), rejected(TextError::TooLong, 0));
    let said = collator.check_text(b"ab\xFF").unwrap_err().to_string();
    assert_eq!(said, "the text is not UTF-8: byte 2");
}

#[test]
fn bounds_of_keys() {
    assert_eq!(non_ignorable().key_bound(10), 5188);
    assert_eq!(with_book().key_bound(10), 10377);
    assert_eq!(with_book().key_bound(usize::MAX), usize::MAX);
}

#[test]
fn beginnings_of_keys() {
    let mut out = [0xEE; 4];
    let mut collator = non_ignorable();
    assert_eq!(collator.key_beginning("a", &mut out[..3]), Ok(10));
    assert_eq!(out, [0x1C, 0x47, 0, 0xEE]);
    assert_eq!(collator.key_beginning(b"\xFF", &mut out), Err(TextError::Utf8));
    assert_eq!(out, [0x1C, 0x47, 0, 0xEE]);
    assert_eq!(with_book().key_beginning("ab", &mut out), Ok(3));
    assert_eq!(out, [0x08, 0x0A, 0x02, 0xEE]);
}

#[test]
fn comparisons() {
    let mut collator = non_ignorable();
    let rows = [
        ("Aa", "ab", Less, 1),
        ("\u{E1}", "a", Greater, 2),
        ("a", "A", Less, 3),
        ("\u{E1}", "a\u{301}", Equal, 0),
        ("", "", Equal, 0),
    ];
    for (left, right, order, level) in rows {
        assert_eq!(collator.compare(left, right).unwrap(), Comparison { order, level });
        assert_eq!(collator.compare(right, left).unwrap(), Comparison { order: order.reverse(), level });
        let keys = (collator.key(left).unwrap(), collator.key(right).unwrap());
        assert_eq!(compare_keys(&keys.0, &keys.1, 3), Comparison { order, level });
        assert_eq!(keys.0.cmp(&keys.1), order);
    }
}

#[test]
fn any_bytes_have_an_order() {
    let mut collator = non_ignorable();
    let rows: [(&[u8], &[u8], _); 4] =
        [(b"a", b"b", Less), (b"b", b"a\xFF", Less), (b"a\xFE", b"a\xFF", Less), (b"a\xFF", b"a\xFF", Equal)];
    for (left, right, order) in rows {
        assert_eq!(collator.order(left, right), Ok(order));
        assert_eq!(collator.order(right, left), Ok(order.reverse()));
    }
}

#[test]
fn sorting() {
    let mut collator = non_ignorable();
    let mut words = ["b", "ab", "A", "\u{E1}", "a", "a\u{301}"];
    collator.sort(&mut words).unwrap();
    // the texts with an acute accent are equal, and keep their order
    assert_eq!(words, ["a", "A", "\u{E1}", "a\u{301}", "ab", "b"]);
    let mut none: [&str; 0] = [];
    collator.sort(&mut none).unwrap();
    let mut rejected: [&[u8]; 3] = [b"b", b"\xFF", b"a"];
    assert_eq!(collator.sort(&mut rejected), Err(TextError::Utf8));
    assert_eq!(rejected, [&b"b"[..], b"\xFF", b"a"]);
}

#[test]
fn sorting_arranges_every_permutation() {
    let mut collator = non_ignorable();
    let letters = ["a", "aa", "aaa", "b", "ba"];
    for number in 0..5usize.pow(5) {
        let chosen: Vec<_> = (0..5).map(|it| number / 5usize.pow(it) % 5).collect();
        let mut rows: Vec<_> = chosen.iter().copied().enumerate().collect();
        collator.sort_by_text(&mut rows, |row| letters[row.1]).unwrap();
        let mut wanted: Vec<_> = chosen.iter().copied().enumerate().collect();
        wanted.sort_by_key(|row| row.1);
        assert_eq!(rows, wanted);
    }
}

#[test]
fn compact_keys() {
    let (mut whole, mut compact) = (non_ignorable(), with_book());
    let words = ["", "a", "A", "\u{E1}", "ab", "a b", "b"];
    for word in words {
        let (key, short) = (whole.key(word).unwrap(), compact.key(word).unwrap());
        assert!(short.len() < key.len(), "{word:?}");
        assert_eq!(compact.expand(&short).unwrap(), key);
        assert_eq!(compact.compact(&key).unwrap(), short);
        for other in words {
            let order = key.cmp(&whole.key(other).unwrap());
            assert_eq!(short.cmp(&compact.key(other).unwrap()), order, "{word:?} {other:?}");
        }
    }
    assert_eq!(compact.expand(b"\xFF\xFF\xFF"), Err(StoredKeyError::NoKey));
    assert_eq!(compact.compact(b"\x1C"), Err(StoredKeyError::NoKey));
    assert_eq!(whole.compact(b"\0\0\0\0"), Err(StoredKeyError::NoBook));
    assert_eq!(whole.expand(b""), Err(StoredKeyError::NoBook));
}

#[test]
fn ranges() {
    let words = ["a", "A", "\u{E1}", "ab", "Ab", "b"];
    let rows: [(&str, RangeOf, &[&str]); 5] = [
        ("A", RangeOf::SameAccents, &["a", "A"]),
        ("\u{C1}", RangeOf::SameLetters, &["a", "A", "\u{E1}"]),
        ("a", RangeOf::Begins, &["a", "A", "\u{E1}", "ab", "Ab"]),
        ("ab", RangeOf::SameLetters, &["ab", "Ab"]),
        ("bb", RangeOf::Begins, &[]),
    ];
    for mut collator in [non_ignorable(), with_book()] {
        let map: BTreeMap<_, _> = words.iter().map(|it| (collator.key(it).unwrap(), *it)).collect();
        for (text, of, wanted) in rows {
            let found: Vec<_> = map.range(collator.range(text, of).unwrap()).map(|it| *it.1).collect();
            assert_eq!(found, wanted, "{text:?} {of:?}");
        }
        let starts = ["a", "\u{E1}", "b"].map(|it| collator.range_start(it, RangeOf::SameLetters).unwrap());
        assert_eq!(starts[0], starts[1]);
        assert_ne!(starts[1], starts[2]);
        for of in [RangeOf::SameLetters, RangeOf::SameAccents, RangeOf::Begins] {
            assert_eq!(collator.range_start("\u{E1}b", of).unwrap(), collator.range("\u{E1}b", of).unwrap().start);
        }
    }
}

#[test]
fn rejected_files() {
    let rejected = |file, line, kind| OpenError::Rejected { file, line, kind };
    type Row<'a> = (&'a [u8], &'a [u8], Option<&'a [u8]>, OpenError);
    let rows: [Row; 6] = [
        (b"@version 1\n0061 ; [.1C", DATA, None, rejected(File::Table, 2, FileErrorKind::Weight)),
        (b"", b"x\n", Some(b""), rejected(File::Table, 1, FileErrorKind::Order)),
        (TABLE, b"@data 1\n\nccc 0300..0314 300\n", Some(b""), rejected(File::Data, 3, FileErrorKind::Weight)),
        (TABLE, DATA, Some(b""), rejected(File::Book, 1, FileErrorKind::Order)),
        (TABLE, DATA, Some(b"@book 1\n1 1c47\n"), rejected(File::Book, 2, FileErrorKind::Weight)),
        (
            b"@version 1\n0061 ; [.0001.0020.0002]\n0061 ; [.0002.0020.0002]\n",
            DATA,
            None,
            rejected(File::Table, 3, FileErrorKind::DuplicateKey),
        ),
    ];
    for (table, data, book, wanted) in rows {
        let options = book.map_or(Collator::options(), |it| Collator::options().book(it));
        assert_eq!(options.open(table, data).unwrap_err(), wanted);
    }
    assert_eq!(rejected(File::Data, 3, FileErrorKind::Weight).to_string(), "data file, line 3: Weight");
}

#[test]
fn other_files_and_settings_are_an_error() {
    let kept = opened(Weighting::Shifted, Depth::Weights).fingerprint();
    let options = Collator::options().fingerprint(kept);
    assert_eq!(options.weighting(Weighting::Shifted).open(TABLE, DATA).unwrap().fingerprint(), kept);
    // the table has no line @variable, so its weighting is shifted
    assert_eq!(options.open(TABLE, DATA).unwrap().fingerprint(), kept);
    let comment = [TABLE, b"# a comment\n"].concat();
    let others = [
        options.weighting(Weighting::NonIgnorable).open(TABLE, DATA),
        options.depth(Depth::Identical).open(TABLE, DATA),
        options.numbers(Numbers::ByValue).open(DIGITS, DATA),
        options.book(BOOK).open(TABLE, DATA),
        options.open(&comment, DATA),
        options.open(TABLE, b"@data 1\n"),
    ];
    for (number, other) in others.into_iter().enumerate() {
        assert!(
            matches!(other, Err(OpenError::OtherFiles { wanted, found }) if wanted == kept && found != kept),
            "{number}"
        );
    }
}

#[test]
fn fingerprints_without_a_collator() {
    for weighting in [Weighting::ByTable, Weighting::NonIgnorable, Weighting::Shifted] {
        for depth in [Depth::Weights, Depth::Identical] {
            let options = Collator::options().weighting(weighting).depth(depth);
            let numbers = options.numbers(Numbers::ByValue);
            for options in [options, options.book(BOOK), numbers, numbers.book(BOOK)] {
                let found = options.fingerprint_of(DIGITS, DATA).unwrap();
                assert_eq!(options.open(DIGITS, DATA).unwrap().fingerprint(), found);
            }
        }
    }
    let whole = Collator::options().fingerprint_of(TABLE, DATA).unwrap();
    assert_eq!(Collator::options().book(BOOK).fingerprint_of(TABLE, DATA), Ok(whole.with_book(BOOK)));
    // what was named is not looked at, and a book is not judged
    assert_eq!(Collator::options().fingerprint(whole.with_book(BOOK)).fingerprint_of(TABLE, DATA), Ok(whole));
    assert!(Collator::options().book(b"").fingerprint_of(TABLE, DATA).is_ok());
    let error = OpenError::Rejected { file: File::Table, line: 1, kind: FileErrorKind::Order };
    assert_eq!(Collator::options().fingerprint_of(b"", DATA), Err(error));
}

#[test]
fn a_collator_moves_to_another_thread() {
    let mut collator = non_ignorable();
    let (mut collator, key) = thread::spawn(move || {
        let key = collator.key("a").unwrap();
        (collator, key)
    })
    .join()
    .unwrap();
    assert_eq!(collator.key("a").unwrap(), key);
}

#[test]
fn collators_that_share_a_table_work_in_threads_at_once() {
    let mut first = Collator::options().weighting(Weighting::NonIgnorable).book(BOOK).open(TABLE, DATA).unwrap();
    let wanted = (first.key("ab").unwrap(), first.compare("ab", "Ab").unwrap());
    let workers: Vec<_> = (0..4)
        .map(|_| {
            let mut other = first.share().unwrap();
            assert_eq!(other.fingerprint(), first.fingerprint());
            thread::spawn(move || {
                (0..2000).map(|_| (other.key("ab").unwrap(), other.compare("ab", "Ab").unwrap())).collect::<Vec<_>>()
            })
        })
        .collect();
    drop(first);
    for worker in workers {
        assert!(worker.join().unwrap().iter().all(|found| *found == wanted));
    }
}
