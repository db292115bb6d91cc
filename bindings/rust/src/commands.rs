//! Tables, certificates and their audits: the command `uca` over files in memory.
use crate::calls;
use std::error::Error;
use std::fmt;

/// How many files a command can read.
const MOST_FILES: usize = 6;

/// What a command did.
#[derive(Clone, Debug, PartialEq, Eq)]
pub struct Run {
    /// Its status, from 0 to 4. The page `docs/MESSAGES.md` of the repository says what each means.
    pub status: u32,
    /// What it wrote to standard output.
    pub output: Vec<u8>,
    /// Its error lines.
    pub errors: String,
    /// The file that it made.
    pub made: Option<Vec<u8>>,
}

/// A tailored table.
#[derive(Clone, Debug, PartialEq, Eq)]
pub struct Tailoring {
    /// The file of the table.
    pub table: Vec<u8>,
    /// The certificate, which [`audit`] takes.
    pub certificate: Vec<u8>,
}

/// What a new table and its data file change.
#[derive(Clone, Debug, PartialEq, Eq)]
pub struct Changes {
    /// The file of changes.
    pub changes: Vec<u8>,
    /// The certificate.
    pub certificate: Vec<u8>,
}

/// What an audit says.
#[derive(Clone, Debug, PartialEq, Eq)]
pub struct Verdict {
    /// Whether it accepts.
    pub accepted: bool,
    /// `accepted`, or `refused` and the first condition that is not met: `refused 9 NotPlaced relation 1`.
    pub text: String,
}

/// Why a command did not do its work.
#[derive(Clone, Debug, PartialEq, Eq)]
#[non_exhaustive]
pub enum CommandError {
    /// It ended with an error, such as a file that is rejected.
    Ended {
        /// Its status, from 1 on.
        status: u32,
        /// Its error lines but for the line of help, such as `rules byte 5: EmptyText`.
        message: String,
    },
    /// No command ran: there are more than six files, or a name or an argument has a NUL.
    Argument,
    /// Memory ran out before the command began, or there is none for what it wrote.
    Memory,
}

impl fmt::Display for CommandError {
    fn fmt(&self, out: &mut fmt::Formatter<'_>) -> fmt::Result {
        match self {
            Self::Ended { message, .. } => out.write_str(message),
            Self::Argument => out.write_str("more than six files, or a NUL in a name or an argument"),
            Self::Memory => out.write_str("out of memory"),
        }
    }
}

impl Error for CommandError {}

/// Texts with a NUL between two of them.
fn list_of<'a>(texts: impl Iterator<Item = &'a str>) -> Result<Vec<u8>, CommandError> {
    let texts: Vec<_> = texts.collect();
    if texts.iter().any(|it| it.contains('\0')) {
        return Err(CommandError::Argument);
    }
    Ok(texts.join("\0").into_bytes())
}

/// Memory for what a command writes.
struct Rooms {
    out: Vec<u8>,
    err: Vec<u8>,
    kept: Vec<u8>,
}

impl Rooms {
    fn of(out: usize, err: usize, kept: usize) -> Result<Self, CommandError> {
        let of = |room| {
            let mut found = Vec::new();
            found.try_reserve_exact(room).map_err(|_| CommandError::Memory)?;
            found.resize(room, 0);
            Ok(found)
        };
        Ok(Self { out: of(out)?, err: of(err)?, kept: of(kept)? })
    }

    fn have_room_for(&self, lengths: &calls::Lengths) -> bool {
        lengths.out <= self.out.len() && lengths.err <= self.err.len() && lengths.kept <= self.kept.len()
    }

    /// Room for all of it, and for no less than before.
    fn with_more(self, lengths: &calls::Lengths) -> Result<Self, CommandError> {
        let (out, err, kept) = (self.out.len(), self.err.len(), self.kept.len());
        Self::of(out.max(lengths.out), err.max(lengths.err), kept.max(lengths.kept))
    }

    /// What was written.
    fn into_run(mut self, status: u32, lengths: &calls::Lengths) -> Run {
        self.out.truncate(lengths.out);
        self.err.truncate(lengths.err);
        self.kept.truncate(lengths.kept);
        let errors = String::from_utf8_lossy(&self.err).into_owned();
        Run { status, output: self.out, errors, made: (lengths.files > 0).then_some(self.kept) }
    }
}

/// What a command is given.
struct Given<'a> {
    arguments: Vec<u8>,
    names: Vec<u8>,
    files: [&'a [u8]; MOST_FILES],
    lines: &'a [u8],
}

impl Given<'_> {
    fn run(&self, rooms: &mut Rooms, lengths: &mut calls::Lengths) -> u32 {
        let [first, second, third, fourth, fifth, sixth] = self.files;
        let Rooms { out, err, kept } = rooms;
        // SAFETY: all that is given is borrowed for the call, and so is the memory that it writes to.
        unsafe {
            calls::uca_run(
                self.arguments.as_ptr(),
                self.arguments.len(),
                self.names.as_ptr(),
                self.names.len(),
                first.as_ptr(),
                first.len(),
                second.as_ptr(),
                second.len(),
                third.as_ptr(),
                third.len(),
                fourth.as_ptr(),
                fourth.len(),
                fifth.as_ptr(),
                fifth.len(),
                sixth.as_ptr(),
                sixth.len(),
                self.lines.as_ptr(),
                self.lines.len(),
                out.as_mut_ptr(),
                out.len(),
                err.as_mut_ptr(),
                err.len(),
                kept.as_mut_ptr(),
                kept.len(),
                lengths,
            )
        }
    }
}

/// Runs the command `uca` with these arguments, which do not have the program's name. It reads files by their names,
/// and `lines` is its standard input. It does what the program does, and touches no other file. One that it makes may
/// have any name but that of a file that it reads. It takes up to 640 KB of the stack. Where the output has more bytes
/// than a first guess, the command runs once more.
///
/// ```
/// let table = b"@version 1\n0061 ; [.1C47.0020.0002]\n0062 ; [.1C60.0020.0002]\n";
/// let sorted = uca::run(&["sort", "t", "d"], &[("t", table), ("d", b"@data 1\n")], b"b\na\n")?;
/// assert_eq!((sorted.status, sorted.output), (0, b"a\nb\n".to_vec()));
/// # Ok::<(), uca::CommandError>(())
/// ```
///
/// # Errors
///
/// [`CommandError::Argument`] and [`CommandError::Memory`]. Each error of a command is a status.
pub fn run(arguments: &[&str], files: &[(&str, &[u8])], lines: &[u8]) -> Result<Run, CommandError> {
    if files.len() > MOST_FILES {
        return Err(CommandError::Argument);
    }
    let mut contents: [&[u8]; MOST_FILES] = [b""; MOST_FILES];
    for (content, (_, file)) in contents.iter_mut().zip(files) {
        *content = file;
    }
    let given = Given {
        arguments: list_of(std::iter::once("uca").chain(arguments.iter().copied()))?,
        names: list_of(files.iter().map(|it| it.0))?,
        files: contents,
        lines,
    };
    let size = contents.iter().map(|it| it.len()).sum::<usize>() + lines.len();
    let (mut rooms, mut lengths) = (Rooms::of(2 * size + 65536, 65536, size + 65536)?, calls::Lengths::default());
    let mut status = given.run(&mut rooms, &mut lengths);
    while !rooms.have_room_for(&lengths) {
        rooms = rooms.with_more(&lengths)?;
        status = given.run(&mut rooms, &mut lengths);
    }
    match status {
        calls::RUN_MEMORY => Err(CommandError::Memory),
        calls::RUN_ARGUMENT => Err(CommandError::Argument),
        status => Ok(rooms.into_run(status, &lengths)),
    }
}

/// What a command did. A status above `most` is an error, and so is one with error lines.
fn done(ended: Run, most: u32) -> Result<Run, CommandError> {
    if ended.status > most || !ended.errors.is_empty() {
        let message = ended.errors.split("\nhelp: ").next().unwrap_or_default();
        return Err(CommandError::Ended { status: ended.status, message: message.trim_end().into() });
    }
    Ok(ended)
}

fn verdict(arguments: &[&str], files: &[(&str, &[u8])]) -> Result<Verdict, CommandError> {
    let ended = done(run(arguments, files, b"")?, 1)?;
    Ok(Verdict { accepted: ended.status == 0, text: String::from_utf8_lossy(&ended.output).trim_end().into() })
}

/// Tailors a table by rules (UTS #35 Part 5), as `uca tailor` does.
///
/// ```
/// let table = b"@version 1\n0061 ; [.1C47.0020.0002]\n0062 ; [.1C60.0020.0002]\n";
/// let made = uca::tailor(table, b"@data 1\n", b"& a < c")?;
/// assert!(made.table.ends_with(b"0063 ; [.1C48.0020.0002]\n"));
/// # Ok::<(), uca::CommandError>(())
/// ```
///
/// # Errors
///
/// [`CommandError::Ended`]: a file is rejected, or there is no such table. [`CommandError::Memory`].
pub fn tailor(table: &[u8], data: &[u8], rules: &[u8]) -> Result<Tailoring, CommandError> {
    let files = [("table", table), ("data", data), ("rules", rules)];
    let ended = done(run(&["tailor", "table", "data", "rules", "certificate"], &files, b"")?, 0)?;
    Ok(Tailoring { table: ended.output, certificate: ended.made.unwrap_or_default() })
}

/// Audits a tailored table, as `uca audit` does.
///
/// # Errors
///
/// [`CommandError::Ended`]: a file is rejected. [`CommandError::Memory`].
pub fn audit(
    base: &[u8],
    data: &[u8],
    rules: &[u8],
    tailored: &[u8],
    certificate: &[u8],
) -> Result<Verdict, CommandError> {
    let names = ["audit", "base", "data", "rules", "tailored", "certificate"];
    let files: Vec<_> = names[1..].iter().copied().zip([base, data, rules, tailored, certificate]).collect();
    verdict(&names, &files)
}

/// Finds what a new table and its data file change, as `uca changes` does. An [`crate::Upgrade`] takes both files. The
/// new table may be that of a new edition, or the old one tailored.
///
/// # Errors
///
/// [`CommandError::Ended`]: a file is rejected, or no change between the two is accepted. [`CommandError::Memory`].
pub fn find_changes(
    old_table: &[u8],
    old_data: &[u8],
    new_table: &[u8],
    new_data: &[u8],
) -> Result<Changes, CommandError> {
    let names = ["changes", "old", "old-data", "new", "new-data", "certificate"];
    let files: Vec<_> = names[1..5].iter().copied().zip([old_table, old_data, new_table, new_data]).collect();
    let ended = done(run(&names, &files, b"")?, 0)?;
    Ok(Changes { changes: ended.output, certificate: ended.made.unwrap_or_default() })
}

/// Audits a file of changes and its certificate, as `uca audit-changes` does.
///
/// # Errors
///
/// [`CommandError::Ended`]: a file is rejected. [`CommandError::Memory`].
pub fn audit_changes(files: crate::UpgradeFiles<'_>) -> Result<Verdict, CommandError> {
    let names = ["audit-changes", "old", "old-data", "new", "new-data", "changes", "certificate"];
    let contents = [files.old_table, files.old_data, files.new_table, files.new_data, files.changes, files.certificate];
    let files: Vec<_> = names[1..].iter().copied().zip(contents).collect();
    verdict(&names, &files)
}
