//! Collators of languages, by a command in the place of `uca-files`. All is one test, since each test of a process has
//! the same environment.
use std::os::unix::fs::PermissionsExt;
use std::path::Path;
use std::process::{self, Command, Stdio};
use std::{env, fs};
use uca::{Collator, Language, LanguageError, Numbers, OpenError, Weighting};

const TABLE: &str = "@version 1\n@variable non-ignorable\n0020 ; [*0209.0020.0002]\n0061 ; [.1C47.0020.0002]\n";
const DATA: &str = "@data 1\n";
const BOOK: &str = "@book 1\n1 1C47\n1 1C48\n";

/// It keeps its arguments, and does what a file beside it says.
const COMMAND: &str = "#!/bin/sh
for it; do echo \"$it\"; done > \"${0%/*}/arguments\"
. \"${0%/*}/script\"
";

fn write(folder: &Path, name: &str, content: &str) {
    fs::write(folder.join(name), content).unwrap();
}

/// Has the command print the paths of these files.
fn print_files(folder: &Path, names: &[&str]) {
    let lines: String = names.iter().map(|it| format!("echo '{}'\n", folder.join(it).display())).collect();
    write(folder, "script", &lines);
}

/// The arguments of the command since the last call, if it was run.
fn arguments(folder: &Path) -> Option<String> {
    let found = fs::read_to_string(folder.join("arguments")).ok();
    fs::remove_file(folder.join("arguments")).ok();
    found
}

fn error_of(language: Language) -> String {
    Collator::of_language(language).unwrap_err().to_string()
}

/// Is set in a child, which is this test once more.
const CHILD: &str = "UCA_TEST_CHILD";

#[test]
fn languages() {
    if env::var_os(CHILD).is_some() {
        Collator::of_language("pl").unwrap();
        return;
    }
    let folder = env::temp_dir().join(format!("uca languages {}", process::id()));
    fs::create_dir(&folder).unwrap();
    for (name, content) in [("table.txt", TABLE), ("data.txt", DATA), ("book.txt", BOOK), ("command", COMMAND)] {
        write(&folder, name, content);
    }
    fs::set_permissions(folder.join("command"), fs::Permissions::from_mode(0o755)).unwrap();
    env::set_var("UCA_FILES", folder.join("command"));
    settings(&folder);
    what_is_no_tag(&folder);
    sentence(&folder);
    errors(&folder);
    fs::remove_dir_all(folder).unwrap();
}

fn settings(folder: &Path) {
    print_files(folder, &["table.txt", "data.txt"]);
    let mut collator = Collator::of_language("pl").unwrap();
    assert_eq!(collator.key(" "), Ok(vec![0x02, 0x09, 0, 0, 0, 0x20, 0, 0, 0, 2]));
    assert_eq!(arguments(folder).as_deref(), Some("pl\n"));
    let by_files = Collator::options().open(TABLE.as_bytes(), DATA.as_bytes()).unwrap();
    assert_eq!(collator.fingerprint(), by_files.fingerprint());
    let mut shifted = Collator::options().weighting(Weighting::Shifted).open_language("pl").unwrap();
    assert_eq!(shifted.key(" "), Ok(vec![0, 0, 0, 0, 0, 0, 2, 9]));
    let wanted = Collator::options().fingerprint(collator.fingerprint());
    let of_other_settings = wanted.weighting(Weighting::Shifted).open_language("pl");
    assert!(matches!(of_other_settings, Err(LanguageError::Open(OpenError::OtherFiles { .. }))));
    let by_value = Collator::options().numbers(Numbers::ByValue).open_language("pl");
    assert!(matches!(by_value, Err(LanguageError::Open(OpenError::Digits { row: 0 }))));

    let mut with_my_book = Collator::options().book(BOOK.as_bytes()).open_language("pl").unwrap();
    arguments(folder);
    print_files(folder, &["table.txt", "data.txt", "book.txt"]);
    let language = Language::new("de-u-co-phonebk").edition("15.0.0-cldr41").with_book();
    let mut compact = Collator::options().book(b"@book 1\n").open_language(language).unwrap();
    assert_eq!(arguments(folder).as_deref(), Some("--book\n--edition=15.0.0-cldr41\nde-u-co-phonebk\n"));
    assert_eq!(compact.key("a").unwrap().len(), 2);
    assert_eq!((compact.key("a"), compact.fingerprint()), (with_my_book.key("a"), with_my_book.fingerprint()));
}

fn what_is_no_tag(folder: &Path) {
    for tag in ["", "-pl", "--list", "../pl", "a/b", "a.b", "a b", "pl\n", "pl\0", "$(id)", "ł"] {
        assert!(matches!(Collator::of_language(tag), Err(LanguageError::NoTag)), "{tag:?}");
    }
    assert_eq!(arguments(folder), None);
}

/// What a command that has files says goes to standard error. A child whose standard error cannot be written ends well too.
fn sentence(folder: &Path) {
    print_files(folder, &["table.txt", "data.txt"]);
    let paths = fs::read_to_string(folder.join("script")).unwrap();
    write(folder, "script", &format!("echo 'the order of the root' >&2\n{paths}"));
    let mut child = Command::new(env::current_exe().unwrap());
    child.env(CHILD, "1").arg("--nocapture").stdout(Stdio::null());
    let said = child.stderr(Stdio::piped()).output().unwrap();
    assert!(said.status.success());
    assert_eq!(String::from_utf8(said.stderr).unwrap(), "the order of the root\n");
    let full = fs::OpenOptions::new().write(true).open("/dev/full").unwrap();
    assert!(child.stderr(full).status().unwrap().success());
}

fn errors(folder: &Path) {
    write(folder, "script", "echo 'zz is no language' >&2; exit 1");
    assert_eq!(error_of("zz".into()), "zz is no language");
    write(folder, "script", "exit 3");
    assert_eq!(error_of("zz".into()), "the command that finds files ended with an error");
    for script in ["", "echo /a", "echo a; echo b", "echo /a; echo /b; echo /c", "printf '/a\\n/b'"] {
        write(folder, "script", script);
        assert!(matches!(Collator::of_language("pl"), Err(LanguageError::Output(_))), "{script}");
    }
    print_files(folder, &["table.txt", "data.txt"]);
    assert!(matches!(Collator::of_language(Language::new("pl").with_book()), Err(LanguageError::Output(_))));
    print_files(folder, &["table.txt", "none.txt"]);
    assert!(error_of("pl".into()).contains("none.txt: No such file"));
    print_files(folder, &["data.txt", "table.txt"]);
    assert_eq!(error_of("pl".into()), "table, line 1: Line");
    env::set_var("UCA_FILES", folder.join("none"));
    let missing = Collator::of_language("pl").unwrap_err();
    assert!(matches!(missing, LanguageError::NotRun { .. }));
    assert!(missing.to_string().ends_with("install it, or name it in UCA_FILES"));
}
