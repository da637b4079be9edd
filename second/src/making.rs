//! Makes folders with logs, taking the kinds of logs in turn.

use std::io;
use std::path::Path;

use crate::chart::{Chain, Readings};
use crate::edges;
use crate::folder::Folder;
use crate::listing::Files;
use crate::random::Random;
use crate::records::{self, Entry, RECORD};
use crate::tracks::{self, Purse};

type Kind = fn(&mut Random, u64) -> Folder;

/// The kinds of logs, taken in turn.
const KINDS: [Kind; 20] = [
    tracks::track,
    edges::refusals,
    tracks::damaged,
    edges::numbers,
    tracks::double_crossings,
    edges::ranges,
    tracks::crowded,
    edges::jobs,
    tracks::allowances,
    edges::tables,
    edges::scales,
    tracks::track,
    edges::holds,
    edges::marks,
    tracks::squares,
    edges::tails,
    edges::absences,
    edges::unsound,
    edges::factors,
    edges::lines,
];

/// One folder in this many holds a long log.
const LONG_EVERY: u64 = 400;

/// Whether all searches of a folder together cost few enough visits that many such folders can be listed.
fn is_cheap(folder: &Folder) -> bool {
    let files = folder.files();
    let job = match records::job(files.job) {
        Ok(job) => job,
        Err(_) => return true,
    };
    let mut purse = Purse(40_000 + 2 * files.log.len() as u64);
    files.log.chunks(RECORD).all(|record| match named(&files, record) {
        Some((chain, wanted)) => purse.pays(&chain, wanted, &job),
        None => true,
    })
}

/// The chain and the readings of a record's search, if it has one that is not refused before it begins.
fn named(files: &Files, record: &[u8]) -> Option<(Chain, Readings)> {
    match records::entry(record).ok()? {
        Entry::Hyperbolic { chain, wanted, .. } => {
            Some((records::chain(files.table, files.scale, chain.into()).ok()?, wanted))
        }
        _ => None,
    }
}

fn made(seed: u64, index: u64) -> Folder {
    let mut random = Random::for_item(seed, index);
    let kinds = KINDS.len() as u64;
    let (kind, turn) = (KINDS[(index % kinds) as usize], index / kinds);
    let mut folder = if index % LONG_EVERY == 5 { edges::long(&mut random, turn) } else { kind(&mut random, turn) };
    if !is_cheap(&folder) {
        let allowance = random.below(300);
        (16..24).zip(allowance.to_le_bytes()).for_each(|(byte, value)| folder.set_job_byte(byte, value));
    }
    folder
}

/// Makes `count` folders below `root`, named 00000, 00001 and so on.
pub fn make(seed: u64, count: u64, root: &Path) -> io::Result<()> {
    (0..count).try_for_each(|index| made(seed, index).write(&root.join(format!("{index:05}"))))
}

#[cfg(test)]
mod tests {
    use super::*;
    use std::collections::BTreeSet;

    fn texts(count: u64) -> Vec<String> {
        (0..count).map(|index| String::from_utf8(made(1, index).listing().unwrap()).unwrap()).collect()
    }

    #[test]
    fn every_refusal_and_every_word_appears() {
        let texts = texts(400);
        let words: BTreeSet<(&str, &str)> = texts
            .iter()
            .flat_map(|text| text.lines())
            .filter_map(|line| line.split_once(' '))
            .map(|(_, rest)| rest.split_once(' ').unwrap())
            .map(|(word, rest)| (word, if word == "REFUSED" { rest.split(' ').next().unwrap() } else { last_field(rest) }))
            .collect();
        let mut expected: BTreeSet<(&str, &str)> = BTreeSet::new();
        for word in ["FIX", "GRID", "HOLD"] {
            expected.extend([(word, "0"), (word, "1")]);
        }
        let numbers = ["1", "2", "3", "4", "5", "6", "7", "8", "9", "10", "11"];
        expected.extend(numbers.map(|number| ("REFUSED", number)));
        assert_eq!(words, expected);
    }

    fn last_field(line: &str) -> &str {
        line.rsplit(' ').next().unwrap()
    }

    #[test]
    fn a_full_list_appears() {
        assert!(texts(200).iter().any(|text| text.contains(" FIX 256 ")));
    }

    #[test]
    fn a_seed_decides() {
        assert_eq!(made(7, 3).log, made(7, 3).log);
        assert_ne!(made(7, 3).log, made(8, 3).log);
    }
}
