//! The records that the proved programs `repack` and `repack_lenient` read, and what each has to print, by the
//! oracle.
//!
//!     records cases FOLDER   writes the cases of each program into a new folder of its name, in FOLDER
//!     records try PROGRAM    starts a program on records at random, and on damaged ones. The words to
//!                            start it with come from standard input, one to a line, as
//!                            `tools/run -n PROGRAM` prints them

mod answer;
mod cases;
mod damage;
#[path = "../../differential/src/loss/plain.rs"]
mod loss;
#[path = "../../differential/src/ms/oracle.rs"]
mod oracle;
#[path = "../../differential/src/parallel.rs"]
mod parallel;
#[path = "../../differential/src/signal.rs"]
mod signal;
#[path = "../../differential/src/ms/strict.rs"]
mod strict;
mod trial;

use answer::Reading;
use std::process::ExitCode;

fn main() -> ExitCode {
    let words: Vec<String> = std::env::args().skip(1).collect();
    let done = match words.iter().map(String::as_str).collect::<Vec<_>>()[..] {
        ["cases", folder] => cases::write(folder.as_ref()),
        ["try", "repack"] => trial::run(Reading::Strict),
        ["try", "repack_lenient"] => trial::run(Reading::Lenient),
        _ => {
            eprintln!("usage: records cases FOLDER, or records try repack|repack_lenient");
            return ExitCode::from(2);
        }
    };
    match done {
        Ok(()) => ExitCode::SUCCESS,
        Err(why) => {
            eprintln!("records: {why}");
            ExitCode::FAILURE
        }
    }
}
