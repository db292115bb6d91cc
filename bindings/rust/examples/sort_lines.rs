//! Prints the lines of standard input in their order: `sort_lines TABLE DATA [WEIGHTING]`.
use std::error::Error;
use std::io::{self, Read, Write};
use std::{env, fs};
use uca::{Collator, Weighting};

fn main() -> Result<(), Box<dyn Error>> {
    let arguments: Vec<String> = env::args().skip(1).collect();
    let (table, data, weighting) = match arguments.as_slice() {
        [table, data] => (table, data, Weighting::ByTable),
        [table, data, weighting] if weighting == "non-ignorable" => (table, data, Weighting::NonIgnorable),
        [table, data, weighting] if weighting == "shifted" => (table, data, Weighting::Shifted),
        _ => return Err("the arguments are TABLE DATA [non-ignorable or shifted]".into()),
    };
    let mut collator = Collator::options().weighting(weighting).open(&fs::read(table)?, &fs::read(data)?)?;
    let mut input = Vec::new();
    io::stdin().read_to_end(&mut input)?;
    let mut lines: Vec<&[u8]> = input.strip_suffix(b"\n").unwrap_or(&input).split(|it| *it == b'\n').collect();
    if input.is_empty() {
        lines.clear();
    }
    collator.sort(&mut lines)?;
    let mut output = io::BufWriter::new(io::stdout().lock());
    for line in lines {
        output.write_all(line)?;
        output.write_all(b"\n")?;
    }
    output.flush()?;
    Ok(())
}
