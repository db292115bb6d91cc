//! Makes stored keys those of a new edition: `new_keys FINGERPRINT OLD OLD-DATA NEW NEW-DATA CHANGES CERTIFICATE`.
//!
//! The lines of standard input have a key, a tab and a text, as `uca keys --lines OLD OLD-DATA` prints them. The
//! fingerprint is the one that was kept beside them, as `uca fingerprint OLD OLD-DATA` prints it. What is printed is
//! what `uca keys --lines NEW NEW-DATA` prints of these texts. Few keys are made anew: standard error says how many.
use std::error::Error;
use std::io::{self, BufRead, Write};
use std::{env, fs};
use uca::{Collator, Upgrade, UpgradeFiles};

/// The bytes of hexadecimal digits.
fn bytes_of(digits: &[u8]) -> Option<Vec<u8>> {
    let number = |digit: u8| char::from(digit).to_digit(16);
    let byte_of = |pair: &[u8]| match *pair {
        [high, low] => u8::try_from(16 * number(high)? + number(low)?).ok(),
        _ => None,
    };
    digits.chunks(2).map(byte_of).collect()
}

fn print_line(out: &mut impl Write, key: &[u8], text: &[u8]) -> io::Result<()> {
    key.iter().try_for_each(|byte| write!(out, "{byte:02X}"))?;
    out.write_all(b"\t")?;
    out.write_all(text)?;
    out.write_all(b"\n")
}

fn main() -> Result<(), Box<dyn Error>> {
    let arguments: Vec<String> = env::args().skip(1).collect();
    let [fingerprint, names @ ..] = arguments.as_slice() else { return Err("the arguments are missing".into()) };
    let files = names.iter().map(fs::read).collect::<Result<Vec<_>, _>>()?;
    let [old_table, old_data, new_table, new_data, changes, certificate] = files.as_slice() else {
        return Err("the arguments are FINGERPRINT OLD OLD-DATA NEW NEW-DATA CHANGES CERTIFICATE".into());
    };
    let files = UpgradeFiles { old_table, old_data, new_table, new_data, changes, certificate };
    let mut upgrade = Upgrade::options().fingerprint(fingerprint.parse()?).open(files)?;
    let mut collator = Collator::options().fingerprint(upgrade.new_fingerprint()).open(new_table, new_data)?;

    let (mut out, mut new_key, mut made) = (io::BufWriter::new(io::stdout().lock()), Vec::new(), 0);
    for line in io::stdin().lock().split(b'\n') {
        let line = line?;
        let tab = line.iter().position(|byte| *byte == b'\t').ok_or("a line has no tab")?;
        let (digits, text) = (&line[..tab], &line[tab + 1..]);
        if upgrade.affected(text)? {
            collator.key_into(text, &mut new_key)?;
            made += 1;
        } else {
            let old_key = bytes_of(digits).ok_or("a line has no digits of a key before its tab")?;
            if !upgrade.rekey_into(&old_key, &mut new_key)? {
                return Err(format!("{}: no key of the old files", String::from_utf8_lossy(&line)).into());
            }
        }
        print_line(&mut out, &new_key, text)?;
    }
    out.flush()?;
    eprintln!("{made} keys were made anew");
    Ok(())
}
