//! The program cases. A name says what the record is. With each stands the first line that the programs have
//! to print; the oracle answers the whole, and a line that is not the oracle's ends the writing.

mod blocks;
mod long;
mod refusals;

use crate::answer::{answer, Reading};
use std::error::Error;
use std::fs;
use std::path::Path;

struct Case {
    name: String,
    input: Vec<u8>,
    /// The first line of the output.
    line: String,
    /// Whether a header has an index above 88. Then the line is that of lenient reading.
    high: bool,
}

impl Case {
    fn new(name: impl Into<String>, input: Vec<u8>, line: impl Into<String>) -> Case {
        Case {
            name: name.into(),
            input,
            line: line.into(),
            high: false,
        }
    }

    fn high(self) -> Case {
        Case { high: true, ..self }
    }

    /// The folder of the case is to be a new one.
    fn write(&self, reading: Reading, folder: &Path) -> Result<(), Box<dyn Error>> {
        let name = &self.name;
        let line = match reading {
            Reading::Strict if self.high => "refused 8",
            _ => &self.line,
        };
        let output = answer(reading, &self.input);
        if output.lines().next() != Some(line) {
            return Err(format!("{name}: not {line}, but {output:.60}").into());
        }
        let case = folder.join(name);
        fs::create_dir(&case).map_err(|why| format!("{name}: {why}"))?;
        fs::write(case.join("stdin"), &self.input)?;
        fs::write(case.join("stdout"), output)?;
        Ok(())
    }
}

/// `repack` has every case. `repack_lenient` has those that it answers in another way, and these.
const ALIKE: [&str; 6] = [
    "example",
    "malformed_version_2_index_200",
    "channels_9_index_200",
    "length_stereo_12_index_200",
    "length_3_channels_16_index_200",
    "index_7_channels_31st_byte_200",
];

/// Each program's folder is to be a new one.
pub fn write(folder: &Path) -> Result<(), Box<dyn Error>> {
    // the scope has this one whole
    let example = answer(Reading::Strict, &[0, 7, 1, 1, 0xf6, 0x7f, 0, 0, 7]);
    assert_eq!(example, "changed 1 first 1 peak 1\nF67F000005\n");
    let [strict, lenient] = ["repack", "repack_lenient"].map(|program| folder.join(program));
    fs::create_dir_all(folder)?;
    fs::create_dir(&strict)?;
    fs::create_dir(&lenient)?;
    let cases = [refusals::all(), blocks::all(), long::all()];
    for case in cases.into_iter().flatten() {
        case.write(Reading::Strict, &strict)?;
        if case.high || ALIKE.contains(&&case.name[..]) {
            case.write(Reading::Lenient, &lenient)?;
        }
    }
    Ok(())
}
