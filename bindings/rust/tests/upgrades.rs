//! What each call of an upgrade returns, over small tables. The weights of the keys are worked out by hand from
//! UTS #10 and the certificate, and the fingerprints by `sha256sum` from the text that `uca.h` states.
use std::thread;
use uca::{
    Collator, Condition, Depth, FileErrorKind, Numbers, Place, StoredKeyError, TextError, Upgrade, UpgradeError,
    UpgradeFile, UpgradeFiles, Weighting,
};

const OLD_TABLE: &str = "@version 1
0020 ; [*0209.0020.0002]
0061 ; [.1C47.0020.0002]
0041 ; [.1C47.0020.0008]
0062 ; [.1C60.0020.0002]
0300 ; [.0000.0025.0002]
0301 ; [.0000.0024.0002]
0323 ; [.0000.002C.0002]
";
/// The letter b moves up, and the new letter c has its weight.
const NEW_TABLE: &str = "@version 2
0020 ; [*0209.0020.0002]
0061 ; [.1C47.0020.0002]
0041 ; [.1C47.0020.0008]
0062 ; [.1C61.0020.0002]
0063 ; [.1C60.0020.0002]
0300 ; [.0000.0025.0002]
0301 ; [.0000.0024.0002]
0323 ; [.0000.002C.0002]
";
const OLD_DATA: &str = "@data 1
ccc 0300..0314 230
ccc 0323..0323 220
core 4E00..9FFF
";
/// U+0324 is a new accent.
const NEW_DATA: &str = "@data 1
ccc 0300..0314 230
ccc 0323..0324 220
core 4E00..9FFF
";
const CHANGES: &str = "@changes 1\ntext 0063\nrange 0324..0324\n";
const CERTIFICATE: &str = "1 0209 0209 0001
1 1C47 1C47 0001
1 1C60 1C61 0001
2 0020 0020 0001
2 0024 0024 0002
2 002C 002C 0001
3 0002 0002 0001
3 0008 0008 0001
";
const BOOK: &[u8] = b"@book 1\n1 1C47\n1 1C48\n1 1C60\n1 1C62\n";

const OLD_FINGERPRINT: &str = "50a409f4c0e32db924f2e4dabaf3c78228e68b2c5bbb1cff2cb2ae0e593c6e77";
const NEW_FINGERPRINT: &str = "dd66831f824e3fc5b616f161d957daec162b61ad88912d3eca071ea31e33b7be";
/// With the book.
const OLD_COMPACT_FINGERPRINT: &str = "d0c9c5893676851f2e2d4dfb4e6110dfcfabaf101ac5b7af652cc4e2f511fce3";

const FILES: UpgradeFiles = UpgradeFiles {
    old_table: OLD_TABLE.as_bytes(),
    old_data: OLD_DATA.as_bytes(),
    new_table: NEW_TABLE.as_bytes(),
    new_data: NEW_DATA.as_bytes(),
    changes: CHANGES.as_bytes(),
    certificate: CERTIFICATE.as_bytes(),
};
const IN_ORDER: [UpgradeFile; 6] = [
    UpgradeFile::OldTable,
    UpgradeFile::OldData,
    UpgradeFile::NewTable,
    UpgradeFile::NewData,
    UpgradeFile::Changes,
    UpgradeFile::Certificate,
];
const SETTINGS: [(Weighting, Depth); 6] = [
    (Weighting::ByTable, Depth::Weights),
    (Weighting::NonIgnorable, Depth::Weights),
    (Weighting::Shifted, Depth::Weights),
    (Weighting::ByTable, Depth::Identical),
    (Weighting::NonIgnorable, Depth::Identical),
    (Weighting::Shifted, Depth::Identical),
];

/// A file among six.
fn file<'a, 'b>(files: &'b mut UpgradeFiles<'a>, which: UpgradeFile) -> &'b mut &'a [u8] {
    match which {
        UpgradeFile::OldTable => &mut files.old_table,
        UpgradeFile::OldData => &mut files.old_data,
        UpgradeFile::NewTable => &mut files.new_table,
        UpgradeFile::NewData => &mut files.new_data,
        UpgradeFile::Changes => &mut files.changes,
        UpgradeFile::Certificate => &mut files.certificate,
    }
}

/// The files with another one in place of one of them.
fn with_other<'a>(which: UpgradeFile, other: &'a str) -> UpgradeFiles<'a> {
    let mut files: UpgradeFiles<'a> = FILES;
    *file(&mut files, which) = other.as_bytes();
    files
}

fn non_ignorable() -> Upgrade {
    Upgrade::options().weighting(Weighting::NonIgnorable).open(FILES).unwrap()
}

/// The bytes of weights.
fn bytes_of(weights: &[u16]) -> Vec<u8> {
    weights.iter().flat_map(|it| it.to_be_bytes()).collect()
}

#[test]
fn keys() {
    let rows: [(&str, &[u16], &[u16]); 5] = [
        ("", &[0, 0], &[0, 0]),
        ("a", &[0x1C47, 0, 0x20, 0, 2], &[0x1C47, 0, 0x20, 0, 2]),
        ("b", &[0x1C60, 0, 0x20, 0, 2], &[0x1C61, 0, 0x20, 0, 2]),
        (
            "\u{E1}b",
            &[0x1C47, 0x1C60, 0, 0x20, 0x24, 0x20, 0, 2, 2, 2],
            &[0x1C47, 0x1C61, 0, 0x20, 0x24, 0x20, 0, 2, 2, 2],
        ),
        ("\u{4E00}", &[0xFB40, 0xCE00, 0, 0x20, 0, 2], &[0xFB40, 0xCE00, 0, 0x20, 0, 2]),
    ];
    let mut upgrade = non_ignorable();
    for (text, old, new) in rows {
        assert_eq!(upgrade.affected(text), Ok(false), "{text:?}");
        assert_eq!(upgrade.rekey(&bytes_of(old)), Ok(Some(bytes_of(new))), "{text:?}");
    }
}

#[test]
fn keys_are_those_of_collators() {
    let long = "b".repeat(300_000);
    let texts = ["", "a", "b", "A b", "\u{E1}b", "ba\u{323}\u{301}", "\u{4E00}", "\u{20000}", "d", &long];
    for (weighting, depth) in SETTINGS {
        let options = Collator::options().weighting(weighting).depth(depth);
        let mut old = options.open(FILES.old_table, FILES.old_data).unwrap();
        let mut new = options.open(FILES.new_table, FILES.new_data).unwrap();
        let options = Upgrade::options().weighting(weighting).depth(depth);
        let mut upgrade = options.fingerprint(old.fingerprint()).open(FILES).unwrap();
        assert_eq!(upgrade.old_fingerprint(), old.fingerprint());
        assert_eq!(upgrade.new_fingerprint(), new.fingerprint());
        for text in texts {
            assert_eq!(upgrade.affected(text), Ok(false));
            assert_eq!(upgrade.rekey(&old.key(text).unwrap()), Ok(Some(new.key(text).unwrap())));
        }
    }
}

#[test]
fn affected_texts() {
    let mut upgrade = non_ignorable();
    for text in ["c", "acb", "a\u{324}", "\u{E7}"] {
        assert_eq!(upgrade.affected(text), Ok(true), "{text:?}");
        assert_eq!(upgrade.affected(text.as_bytes()), Ok(true), "{text:?}");
    }
    for text in ["", "a", "C", "d", "a\u{323}"] {
        assert_eq!(upgrade.affected(text), Ok(false), "{text:?}");
    }
}

/// The digit 2 has another weight in the new table, and so have those from 3 on, whose weights the certificate moves.
const NUMBERS: UpgradeFiles = UpgradeFiles {
    old_table: b"@version 1
0030 ; [.1C3D.0020.0002]
0031 ; [.1C3E.0020.0002]
0032 ; [.1C3F.0020.0002]
0033 ; [.1C40.0020.0002]
0034 ; [.1C41.0020.0002]
0035 ; [.1C42.0020.0002]
0036 ; [.1C43.0020.0002]
0037 ; [.1C44.0020.0002]
0038 ; [.1C45.0020.0002]
0039 ; [.1C46.0020.0002]
",
    old_data: b"@data 1\n",
    new_table: b"@version 2
0030 ; [.1C3D.0020.0002]
0031 ; [.1C3E.0020.0002]
0032 ; [.1C40.0020.0002]
0033 ; [.1C41.0020.0002]
0034 ; [.1C42.0020.0002]
0035 ; [.1C43.0020.0002]
0036 ; [.1C44.0020.0002]
0037 ; [.1C45.0020.0002]
0038 ; [.1C46.0020.0002]
0039 ; [.1C47.0020.0002]
",
    new_data: b"@data 1\n",
    changes: b"@changes 1\ntext 0032\n",
    certificate: b"1 1C3D 1C3D 0002\n1 1C40 1C41 0007\n2 0020 0020 0001\n3 0002 0002 0001\n",
};

#[test]
fn tables_that_do_not_order_numbers() {
    let options = Upgrade::options().numbers(Numbers::ByValue);
    assert_eq!(options.open(FILES).err(), Some(UpgradeError::Digits { file: UpgradeFile::OldTable, row: 0 }));
    let table = String::from_utf8(NUMBERS.new_table.to_vec()).unwrap().replace("1C43", "1C3F");
    let error = options.open(UpgradeFiles { new_table: table.as_bytes(), ..NUMBERS }).unwrap_err();
    assert_eq!(error, UpgradeError::Digits { file: UpgradeFile::NewTable, row: 6 });
    assert_eq!(error.to_string(), "new table, row 6: Digits");
}

#[test]
fn numbers() {
    // 10 is read as 210, and 7 as 17
    for (numbers, affected) in [(Numbers::AsText, false), (Numbers::ByValue, true)] {
        for (weighting, depth) in SETTINGS {
            let options = Collator::options().weighting(weighting).depth(depth).numbers(numbers);
            let mut old = options.open(NUMBERS.old_table, NUMBERS.old_data).unwrap();
            let mut new = options.open(NUMBERS.new_table, NUMBERS.new_data).unwrap();
            let options = Upgrade::options().weighting(weighting).depth(depth).fingerprint(old.fingerprint());
            let mut upgrade = options.numbers(numbers).open(NUMBERS).unwrap();
            assert_eq!(upgrade.new_fingerprint(), new.fingerprint());
            assert_eq!(upgrade.affected("10"), Ok(affected));
            assert_eq!(upgrade.affected("002"), Ok(true));
            for text in ["7", "007", "a7"] {
                assert_eq!(upgrade.affected(text), Ok(false));
                assert_eq!(upgrade.rekey(&old.key(text).unwrap()), Ok(Some(new.key(text).unwrap())));
            }
        }
    }
}

#[test]
fn compact_keys() {
    let options = Collator::options().book(BOOK);
    let mut old = options.open(FILES.old_table, FILES.old_data).unwrap();
    let mut new = options.open(FILES.new_table, FILES.new_data).unwrap();
    let mut upgrade = Upgrade::options().open(FILES).unwrap();
    let (mut whole, mut mended, mut compact) = (Vec::new(), Vec::new(), b"what is there".to_vec());
    for text in ["", "a", "b", "\u{E1}b", "A b", "\u{4E00}"] {
        let (stored, wanted) = (old.key(text).unwrap(), new.key(text).unwrap());
        old.expand_into(&stored, &mut whole).unwrap();
        assert_eq!(old.expand(&stored).unwrap(), whole);
        assert!(upgrade.rekey_into(&whole, &mut mended).unwrap());
        new.compact_into(&mended, &mut compact).unwrap();
        assert_eq!(compact, wanted, "{text:?}");
    }
    assert_eq!(old.expand_into(b"\xFF\xFF\xFF", &mut whole), Err(StoredKeyError::NoKey));
    assert_eq!(new.compact_into(b"\x1C", &mut compact), Err(StoredKeyError::NoKey));
    assert!(whole.is_empty() && compact.is_empty());
    assert_eq!(upgrade.old_fingerprint().with_book(BOOK), old.fingerprint());
    assert_eq!(old.fingerprint().to_string(), OLD_COMPACT_FINGERPRINT);
}

#[test]
fn rejected_texts() {
    let mut upgrade = non_ignorable();
    let rows = [
        (b"c\xFF".to_vec(), TextError::Utf8),
        ("a".repeat(1_048_577).into_bytes(), TextError::TooLong),
        (format!("a{}", "\u{301}".repeat(65)).into_bytes(), TextError::LongRun),
    ];
    for (text, error) in rows {
        assert_eq!(upgrade.affected(&text), Err(error));
    }
    assert_eq!(upgrade.affected("a".repeat(1_048_576)), Ok(false));
    assert_eq!(upgrade.affected(format!("a{}", "\u{301}".repeat(64))), Ok(false));
}

#[test]
fn bytes_without_a_new_key() {
    let mut upgrade = non_ignorable();
    let b = [0x1C60, 0, 0x20, 0, 2];
    let rows: [&[u16]; 6] = [
        &[],
        &[0x1C47, 0, 0x20],
        // weights of neither table, at levels 1 and 2
        &[0x1C50, 0, 0x20, 0, 2],
        &[0x1C47, 0, 0x21, 0, 2],
        // one more level
        &[0x1C60, 0, 0x20, 0, 2, 0, 0xFFFF],
        &[0],
    ];
    for key in rows {
        let mut new_key = b"what is there".to_vec();
        assert_eq!(upgrade.rekey(&bytes_of(key)), Ok(None), "{key:X?}");
        assert_eq!(upgrade.rekey_into(&bytes_of(key), &mut new_key), Ok(false), "{key:X?}");
        assert!(new_key.is_empty());
        assert_eq!(upgrade.rekey_into(&bytes_of(&b), &mut new_key), Ok(true));
        assert_eq!(new_key, bytes_of(&[0x1C61, 0, 0x20, 0, 2]));
        let mut moved = bytes_of(key);
        assert_eq!(upgrade.rekey_in_place(&mut moved), Ok(false), "{key:X?}");
        assert_eq!(moved, bytes_of(key));
    }
    let mut moved = bytes_of(&b);
    assert_eq!(upgrade.rekey_in_place(&mut moved), Ok(true));
    assert_eq!(moved, bytes_of(&[0x1C61, 0, 0x20, 0, 2]));
    assert_eq!(upgrade.rekey(b"\x1C"), Ok(None));
    // a key of 3 levels is none under shifted
    assert_eq!(Upgrade::options().open(FILES).unwrap().rekey(&bytes_of(&b)), Ok(None));
}

#[test]
fn rejected_files() {
    use FileErrorKind::{Line, MapEmpty, MapFixed, MapNotRising, MapOutOfRange, Order, Weight};
    use UpgradeFile::{Certificate, Changes, NewData, NewTable, OldData, OldTable};
    let replaced = |other: &str| CERTIFICATE.replace("1 1C60 1C61 0001\n", other);
    let not_ended = CERTIFICATE[..CERTIFICATE.len() - 1].to_string();
    let rows = [
        (OldTable, "@version 1\n0061 ; [.1C".to_string(), 2, Weight, "old table, line 2: Weight"),
        (OldData, String::new(), 1, Order, "old data file, line 1: Order"),
        (NewTable, String::new(), 1, Order, "new table, line 1: Order"),
        (NewData, "@data 1\n\nccc 0300..0314 300\n".to_string(), 3, Weight, "new data file, line 3: Weight"),
        (Changes, "@changes 1\ntext 0063\ntext 0062\n".to_string(), 3, Order, "file of changes, line 3: Order"),
        (Certificate, replaced("1 1C60 1C46 0001\n"), 3, MapNotRising, "certificate, line 3: Map NotRising"),
        (Certificate, replaced("1 1C60 8000 0001\n"), 3, MapOutOfRange, "certificate, line 3: Map OutOfRange"),
        (Certificate, replaced("1 1C60 1C61 0000\n"), 3, MapEmpty, "certificate, line 3: Map Empty"),
        (Certificate, String::new(), 1, MapFixed, "certificate, line 1: Map Fixed"),
        (Certificate, not_ended, 8, Line, "certificate, line 8: Line"),
    ];
    for (which, content, line, kind, said) in rows {
        let error = Upgrade::options().open(with_other(which, &content)).unwrap_err();
        assert_eq!(error, UpgradeError::Rejected { file: which, line, kind });
        assert_eq!(error.to_string(), said);
    }
}

#[test]
fn the_first_rejected_file_is_named() {
    let mut files = FILES;
    for which in IN_ORDER.into_iter().rev() {
        *file(&mut files, which) = b"x";
        let error = Upgrade::options().open(files).unwrap_err();
        assert!(matches!(error, UpgradeError::Rejected { file, line: 1, .. } if file == which), "{error}");
    }
}

#[test]
fn rejected_changes() {
    use UpgradeFile::{Certificate, Changes, NewTable, OldTable};
    let variable = "@version 2\n@variable non-ignorable\n";
    let implicit = "@version 2\n@implicitweights 17000..18AFF; FB00\n";
    let rows = [
        (OldTable, OLD_TABLE.replace("0301 ; [.0000.0024", "0301 ; [.0000.0020"), "OldIllFormed old row 6"),
        (NewTable, NEW_TABLE.replace("0063 ; [.1C60.0020", "0063 ; [.1C60.0000"), "NewIllFormed new row 5"),
        (NewTable, NEW_TABLE.replace("@version 2\n", implicit), "RangeChanged code point 17000"),
        (Certificate, CERTIFICATE.replace("3 0008 0008 0001\n", ""), "Uncovered old row 3"),
        (Certificate, CERTIFICATE.replace("1 1C60 1C61", "1 1C60 1C62"), "RowChanged old row 4"),
        (NewTable, NEW_TABLE.replace("0300 ; [.0000.0025.0002]\n", ""), "RowMissing old row 5"),
        (Changes, CHANGES.replace("text 0063\n", ""), "RowExtra new row 5"),
        (Changes, CHANGES.replace("range 0324..0324\n", ""), "PointChanged code point 0324"),
        (NewTable, NEW_TABLE.replace("@version 2\n", variable), "SettingChanged"),
    ];
    for (which, content, said) in rows {
        let error = Upgrade::options().open(with_other(which, &content)).unwrap_err();
        assert_eq!(error.to_string(), format!("the audit rejects the upgrade: {said}"));
    }
    let error = |which, content: &str| Upgrade::options().open(with_other(which, content)).unwrap_err();
    assert_eq!(
        error(Changes, "@changes 1\ntext 0063\n"),
        UpgradeError::NotMet { condition: Condition::PointChanged, place: Some(Place::CodePoint(0x324)) }
    );
    assert_eq!(
        error(NewTable, &NEW_TABLE.replace("@version 2\n", variable)),
        UpgradeError::NotMet { condition: Condition::SettingChanged, place: None }
    );
}

#[test]
fn fingerprints() {
    let upgrade = Upgrade::options().open(FILES).unwrap();
    assert_eq!(upgrade.old_fingerprint().to_string(), OLD_FINGERPRINT);
    assert_eq!(upgrade.new_fingerprint().to_string(), NEW_FINGERPRINT);
    let shown = format!("{upgrade:?}");
    assert!(shown.contains(OLD_FINGERPRINT) && shown.contains(NEW_FINGERPRINT), "{shown}");
}

#[test]
fn keys_of_other_files_and_settings_are_an_error() {
    let kept = OLD_FINGERPRINT.parse().unwrap();
    let options = Upgrade::options().fingerprint(kept);
    // the table has no line @variable, so its weighting is shifted
    for weighting in [Weighting::ByTable, Weighting::Shifted] {
        assert_eq!(options.weighting(weighting).open(FILES).unwrap().old_fingerprint(), kept);
    }
    let other = NEW_FINGERPRINT.parse().unwrap();
    let error = Upgrade::options().fingerprint(other).open(FILES).unwrap_err();
    assert_eq!(error, UpgradeError::OtherFiles { wanted: other, found: kept });
    let said = format!("the old files and settings have the fingerprint {OLD_FINGERPRINT}, and not {NEW_FINGERPRINT}");
    assert_eq!(error.to_string(), said);
    for options in [options.weighting(Weighting::NonIgnorable), options.depth(Depth::Identical)] {
        let error = options.open(FILES).unwrap_err();
        assert!(matches!(error, UpgradeError::OtherFiles { wanted, found } if wanted == kept && found != kept));
    }
    let kept = Upgrade::options().open(NUMBERS).unwrap().old_fingerprint();
    let error = Upgrade::options().numbers(Numbers::ByValue).fingerprint(kept).open(NUMBERS).unwrap_err();
    assert!(matches!(error, UpgradeError::OtherFiles { wanted, found } if wanted == kept && found != kept));
}

#[test]
fn an_upgrade_moves_to_another_thread() {
    let mut upgrade = non_ignorable();
    let mut upgrade = thread::spawn(move || {
        assert_eq!(upgrade.affected("c"), Ok(true));
        upgrade
    })
    .join()
    .unwrap();
    assert_eq!(upgrade.affected("b"), Ok(false));
}
