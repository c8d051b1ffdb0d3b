// Call 14: a graph written as a file of Macondo's.

mod requests;

use super::graphs::kwg_of;
use super::labels::alphabet_of;
use super::outcome::{LABEL_COUNT, NOT_ONE_CODE_POINT, TOO_LONG, file, no_file, unknown};
use super::{Case, Family};
use crate::lexport::{MacondoFormat, to_macondo};
use crate::numbers::{Inputs, Unreadable};

const MACONDO: u64 = 14;

// The formats by the number a list gives them.
const DAWG: u64 = 0;
const GADDAG: u64 = 1;

pub const FAMILY: Family = Family {
    list: "macondo",
    calls: MACONDO..=MACONDO,
    requests: requests::requests,
    answer,
};

fn answer(_call: u64, inputs: &mut Inputs) -> Result<Case, Unreadable> {
    let words = inputs.words()?;
    let format = inputs.number(GADDAG)?;
    let labels = inputs.words()?;
    let name = inputs.bytes()?;
    inputs.end()?;
    let head = [format as u32, labels.len() as u32];
    Ok(Case {
        answer: written(&words, format, &labels, &name)?,
        words: [&head, &labels[..], &words].concat(),
        bytes: name,
    })
}

fn written(
    words: &[u32],
    format: u64,
    labels: &[u32],
    name: &[u8],
) -> Result<Vec<u64>, Unreadable> {
    let graph = kwg_of(words);
    let format = match format {
        DAWG => MacondoFormat::Dawg,
        _ => MacondoFormat::Gaddag,
    };
    let name = str::from_utf8(name).map_err(|e| e.to_string())?;
    // Without an alphabet the Rust comes no further.
    let Some(alphabet) = alphabet_of(labels)? else {
        return Ok(no_file(LABEL_COUNT));
    };
    match to_macondo(&graph, &alphabet, name, format) {
        Ok(bytes) => Ok(file(&bytes)),
        Err(refusal) => match refusal.to_string().as_str() {
            "too many letters for gaddag" => Ok(no_file(LABEL_COUNT)),
            "lexicon name too long" => Ok(no_file(TOO_LONG)),
            "tile is not one codepoint" => Ok(no_file(NOT_ONE_CODE_POINT)),
            _ => Err(unknown(&refusal)),
        },
    }
}
