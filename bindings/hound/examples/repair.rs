//! Repairs a recording that was cut off, in place, and prints how the file was found. With `to_end` what looks like
//! chunks after the data is taken for samples, too. Copy the file first if it is the only one: some recorders leave
//! older audio at the end, which then counts.
//!
//!     repair FILE [to_end]
use std::io::{self, Write};
use std::{env, process};

fn main() -> hound::Result<()> {
    let words: Vec<_> = env::args_os().skip(1).collect();
    let found = match &words[..] {
        [path] => hound::repair_file(path)?,
        [path, way] if way == "to_end" => hound::repair_file_to_end(path)?,
        _ => {
            eprintln!("repair: usage: repair FILE [to_end]");
            process::exit(1)
        }
    };
    writeln!(io::stdout(), "found {:?}: {} frames, {} bytes left over", found.state, found.frames, found.left_over)?;
    Ok(())
}
