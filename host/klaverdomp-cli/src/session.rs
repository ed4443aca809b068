// What a file with a saved session holds.

use crate::{say, Failure};
use klaverdomp::session_file::{Reading, Sizes};
use klaverdomp::{saved_in, SaveFault};
use std::ffi::OsString;
use std::path::Path;

pub const HELP: &str = "\
klaverdomp session - a saved session

  klaverdomp session info FILE

Says the sizes of a saved session, how many positions are whole in the file, the bytes that they use, and the bytes of a
record behind them that a stop has cut, which the next save writes over. Of a file that is refused it says what is sound
before the fault. The file is only read, also while a session is saved in it.

Exit status: 0 the file is sound; 1 it is refused, with the byte or the position at fault; 2 bad usage, or the file cannot be
read or is no regular file.
";

pub fn run(words: Vec<OsString>) -> Result<(), Failure> {
    match words.first().map(|word| word.to_string_lossy()).as_deref() {
        Some("info") => info(file(&words[1..])?),
        Some(word) if is_option(word) => Err(no_option(word)),
        Some(word) => Err(usage(format!("there is no 'session {word}': 'session info FILE' is what there is"))),
        None => Err(usage("what to do is missing: info".to_string())),
    }
}

fn usage(words: String) -> Failure {
    Failure::Usage(words, "session")
}

fn is_option(word: &str) -> bool {
    word.len() > 1 && word.starts_with('-')
}

fn no_option(word: &str) -> Failure {
    usage(format!("{word} is not an option here"))
}

/// The one file that is named; behind `--` its name may begin with a dash.
fn file(words: &[OsString]) -> Result<&Path, Failure> {
    let (mut files, mut only_files) = (Vec::new(), false);
    for word in words {
        match word.to_string_lossy() {
            text if only_files || !is_option(&text) => files.push(Path::new(word)),
            text if text == "--" => only_files = true,
            text => return Err(no_option(&text)),
        }
    }
    match files[..] {
        [file] => Ok(file),
        [] => Err(usage("the file is missing: session info FILE".to_string())),
        _ => Err(usage("there is one file at a time".to_string())),
    }
}

fn info(path: &Path) -> Result<(), Failure> {
    let (reading, length) = saved_in(path).map_err(|error| match error.fault {
        SaveFault::Refused(_) => Failure::Refused(error.to_string()),
        _ => Failure::File(error.to_string()),
    })?;
    say(&describe(&reading, length))
}

fn describe(reading: &Reading, length: u64) -> String {
    let Reading { sizes: Sizes { batches, kv_heads, size, v_size }, positions, used } = reading;
    format!(
        "batch            {batches}\nkey heads        {kv_heads}\nhead size        {size}\nvalue head size  {v_size}\n\
         positions        {positions} of at most 2048\nbytes used       {used}\ncut bytes behind {}\n",
        length - used
    )
}
