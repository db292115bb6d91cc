//! What the commands of the library do, over small tables. The tailored row is worked out by hand: c takes the weight
//! after that of a, which is free.
use uca::{audit, audit_changes, find_changes, run, tailor, Collator, CommandError, Upgrade, UpgradeFiles, Verdict};

const TABLE: &[u8] = b"@version 1\n0061 ; [.1C47.0020.0002]\n0062 ; [.1C60.0020.0002]\n";
const DATA: &[u8] = b"@data 1\n";
const RULES: &[u8] = b"& a < c";
const TAILORED: &[u8] = b"@version 1\n0061 ; [.1C47.0020.0002]\n0062 ; [.1C60.0020.0002]\n0063 ; [.1C48.0020.0002]\n";
const CERTIFICATE: &[u8] = b"1 1C47 1C47 0001\n1 1C60 1C60 0001\n2 0020 0020 0001\n3 0002 0002 0001\n";

fn ended<T: std::fmt::Debug>(result: Result<T, CommandError>) -> (u32, String) {
    match result.unwrap_err() {
        CommandError::Ended { status, message } => (status, message),
        other => panic!("{other}"),
    }
}

#[test]
fn tailoring() {
    let made = tailor(TABLE, DATA, RULES).unwrap();
    assert_eq!((made.table.as_slice(), made.certificate.as_slice()), (TAILORED, CERTIFICATE));
    assert_eq!(ended(tailor(TABLE, DATA, b"& a <")), (1, "rules byte 5: EmptyText".into()));
    let accepted = Verdict { accepted: true, text: "accepted".into() };
    assert_eq!(audit(TABLE, DATA, RULES, TAILORED, CERTIFICATE), Ok(accepted));
    let refused = Verdict { accepted: false, text: "refused 9 NotPlaced relation 1".into() };
    assert_eq!(audit(TABLE, DATA, b"& b < c", TAILORED, CERTIFICATE), Ok(refused));
    assert_eq!(ended(audit(b"?\n", DATA, RULES, TAILORED, CERTIFICATE)), (1, "base line 1: Order".into()));
    assert_eq!(ended(audit(TABLE, b"?\n", RULES, TAILORED, CERTIFICATE)), (1, "data line 1: Order".into()));
}

#[test]
fn a_tailoring_is_an_upgrade() {
    let found = find_changes(TABLE, DATA, TAILORED, DATA).unwrap();
    let files = UpgradeFiles {
        old_table: TABLE,
        old_data: DATA,
        new_table: TAILORED,
        new_data: DATA,
        changes: &found.changes,
        certificate: &found.certificate,
    };
    assert!(audit_changes(files).unwrap().accepted);
    let other = UpgradeFiles { changes: b"@changes 1\n", ..files };
    assert_eq!(audit_changes(other).unwrap().text, "refused 7 RowExtra new row 3");
    let mut upgrade = Upgrade::options().open(files).unwrap();
    let mut old = Collator::options().open(TABLE, DATA).unwrap();
    let mut new = Collator::options().open(TAILORED, DATA).unwrap();
    assert_eq!(upgrade.affected("abc"), Ok(true));
    for text in ["", "ab", "bd"] {
        assert_eq!(upgrade.affected(text), Ok(false));
        assert_eq!(upgrade.rekey(&old.key(text).unwrap()), Ok(Some(new.key(text).unwrap())));
    }
    assert_eq!(ended(find_changes(TABLE, DATA, b"?\n", DATA)), (1, "new line 1: Order".into()));
}

#[test]
fn runs() {
    let files = [("t", TABLE), ("d", DATA)];
    let sorted = run(&["sort", "t", "d"], &files, b"b\na\n").unwrap();
    assert_eq!(
        (sorted.status, sorted.output.as_slice(), sorted.errors.as_str(), sorted.made),
        (0, &b"a\nb\n"[..], "", None)
    );
    let missing = run(&["sort", "t", "d"], &files[..1], b"").unwrap();
    assert_eq!((missing.status, missing.errors.lines().next()), (3, Some("data: Open")));
    assert_eq!(run(&["a\0b"], &[], b""), Err(CommandError::Argument));
    assert_eq!(run(&["x"], &[("a", &b""[..]); 7], b""), Err(CommandError::Argument));
    let lines = b"ab\n".repeat(30_000);
    let keys = run(&["keys", "t", "d"], &files, &lines).unwrap();
    assert_eq!(keys.output.split(|it| *it == b'\n').count(), 30_001);
    assert!(keys.output.len() > 2 * (lines.len() + TABLE.len() + DATA.len()) + 65536);
}
