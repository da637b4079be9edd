//! The listing of a log by its job, table and side file (01, The program; 02, A1 and A3).

use std::io::{self, Write};

use crate::chart::Place;
use crate::numbers::Mark;
use crate::records::{self, Entry, RECORD};
use crate::refusals;
use crate::search::{self, Job};

/// The places that the program's list has room for.
pub const ROOM: usize = 256;

/// The bytes of the files that are listed.
pub struct Files<'a> {
    pub job: &'a [u8],
    pub table: &'a [u8],
    pub scale: &'a [u8],
    pub log: &'a [u8],
}

/// What a record of the log gives, with the word that is printed for it; `rounded` is the last field of its line.
struct Answer {
    word: &'static str,
    places: Vec<Place>,
    visits: u64,
    rounded: bool,
}

/// What a hold repeats: a place, and the last field of its line.
#[derive(Clone, Copy, PartialEq, Eq, Debug)]
pub struct Held {
    pub place: Place,
    pub rounded: bool,
}

/// A refusal and the visits made before it.
type Refused = (u32, u64);

/// Prints the listing, and returns what a hold after it would repeat.
pub fn list(files: &Files, held: Option<Held>, out: &mut impl Write) -> io::Result<Option<Held>> {
    let job = match records::job(files.job) {
        Ok(job) => job,
        Err(refusal) => return writeln!(out, "JOB REFUSED {refusal}").map(|_| None),
    };
    if let Err(refusal) = records::chain_count(files.table) {
        return writeln!(out, "CHAIN REFUSED {refusal}").map(|_| None);
    }
    if let Err(refusal) = records::admit_scale(files.table, files.scale) {
        return writeln!(out, "SCALE REFUSED {refusal}").map(|_| None);
    }
    let mut held = held;
    for record in files.log.chunks(RECORD) {
        let answer = answer(&job, files, record, held);
        print(record, &answer, out)?;
        held = answer.ok().and_then(held_after);
    }
    Ok(held)
}

fn held_after(answer: Answer) -> Option<Held> {
    match answer.places[..] {
        [place] => Some(Held { place, rounded: answer.rounded }),
        _ => None,
    }
}

fn answer(job: &Job, files: &Files, record: &[u8], held: Option<Held>) -> Result<Answer, Refused> {
    let unvisited = |refusal| (refusal, 0);
    let one = |word, place, rounded| Answer { word, places: vec![place], visits: 0, rounded };
    let rounded = |marks: [Mark; 2]| marks != [Mark::Equal; 2];
    let (chain, wanted, marks) = match records::entry(record).map_err(unvisited)? {
        Entry::Grid { place, marks } => return Ok(one("GRID", place, rounded(marks))),
        Entry::Hold => return held.map(|held| one("HOLD", held.place, held.rounded)).ok_or((refusals::HOLD, 0)),
        Entry::Hyperbolic { chain, wanted, marks } => (chain, wanted, marks),
    };
    let chain = records::chain(files.table, files.scale, u32::from(chain)).map_err(unvisited)?;
    let found = search::search(&chain, wanted, job, ROOM);
    if found.refusal != 0 {
        return Err((found.refusal, found.visits));
    }
    Ok(Answer { word: "FIX", places: found.places, visits: found.visits, rounded: rounded(marks) })
}

fn print(record: &[u8], answer: &Result<Answer, Refused>, out: &mut impl Write) -> io::Result<()> {
    if record.len() < RECORD {
        return writeln!(out, "- REFUSED 1 0");
    }
    let line = records::line_number(record);
    let answer = match answer {
        Ok(answer) => answer,
        Err((refusal, visits)) => return writeln!(out, "{line} REFUSED {refusal} {visits}"),
    };
    write!(out, "{line} {} {} {}", answer.word, answer.places.len(), answer.visits)?;
    for place in &answer.places {
        write!(out, " {} {}", place.easting, place.northing)?;
    }
    writeln!(out, " {}", u8::from(answer.rounded))
}

#[cfg(test)]
mod tests {
    use super::*;
    use crate::chart;
    use crate::words;

    const JOB: &str = "30750000409c0000010000000000000064000000000000000000000000000000";
    const TABLE: &str = "0000000000000000307500000000000000000000409c0000";
    const SCALE: &str = "40420f00";
    const FIX: &str = "010100000100000000000000000059c000000000000069c00000000000000000";
    const GRID: &str = "02000000020000005c8fc2f528c0724000000000000079400000000000000000";
    const EXACT: &str = "0200000004000000000000000000d03f0000000000cc72400000000000000000";
    const HOLD: &str = "0300000003000000000000000000000000000000000000000000000000000000";

    fn held(easting: u32, northing: u32, rounded: bool) -> Option<Held> {
        Some(Held { place: chart::place(easting, northing), rounded })
    }

    fn text(files: [&str; 4], held: Option<Held>) -> (String, Option<Held>) {
        let [job, table, scale, log] = &files.map(|bytes| words::unhex(bytes).unwrap());
        let mut out = Vec::new();
        let held = list(&Files { job, table, scale, log }, held, &mut out).unwrap();
        (String::from_utf8(out).unwrap(), held)
    }

    fn held_text(log: &str, held: Option<Held>) -> (String, Option<Held>) {
        text([JOB, TABLE, SCALE, log], held)
    }

    fn printed(log: &str) -> String {
        held_text(log, None).0
    }

    fn last_fields(log: &str) -> String {
        printed(log).lines().flat_map(|line| line.chars().last()).collect()
    }

    #[test]
    fn the_log_of_three_records() {
        let lines = "1 FIX 2 5 30000 40000 30001 40001 0\n2 GRID 1 0 30001 40000 1\n3 HOLD 1 0 30001 40000 1\n";
        assert_eq!(printed(&format!("{FIX}{GRID}{HOLD}")), lines);
    }

    #[test]
    fn one_rounded_number_is_enough() {
        assert_eq!(printed(EXACT), "4 GRID 1 0 25 30075 0\n");
        for record in [FIX, EXACT] {
            assert_eq!(last_fields(record), "0");
            for start in [16, 32] {
                let rounded = format!("{}01{}", &record[..start], &record[start + 2..]);
                assert_eq!(last_fields(&rounded), "1");
            }
        }
    }

    #[test]
    fn a_hold_repeats_the_field_through_holds() {
        assert_eq!(last_fields(&format!("{GRID}{HOLD}{HOLD}{HOLD}{EXACT}{HOLD}{HOLD}{GRID}{HOLD}")), "111100011");
    }

    #[test]
    fn a_hold_needs_exactly_one_place_just_before() {
        assert_eq!(printed(&format!("{HOLD}{HOLD}")), "3 REFUSED 11 0\n3 REFUSED 11 0\n");
        assert!(printed(&format!("{FIX}{HOLD}")).ends_with("\n3 REFUSED 11 0\n"));
        assert!(printed(&format!("{GRID}{HOLD}{HOLD}")).ends_with("\n3 HOLD 1 0 30001 40000 1\n"));
        assert!(printed(&format!("{GRID}{FIX}{HOLD}")).ends_with("\n3 REFUSED 11 0\n"));
    }

    #[test]
    fn a_short_last_record() {
        assert_eq!(printed(&format!("{GRID}00")), "2 GRID 1 0 30001 40000 1\n- REFUSED 1 0\n");
        assert_eq!(held_text("02", held(1, 2, true)), ("- REFUSED 1 0\n".into(), None));
    }

    #[test]
    fn a_bad_job_table_or_side_file_is_all_that_is_printed() {
        assert_eq!(text(["-", "-", "-", FIX], None).0, "JOB REFUSED 1\n");
        assert_eq!(text([JOB, "-", "-", FIX], None).0, "CHAIN REFUSED 1\n");
        for scale in ["-", "40420f", "40420f0000", "40420f0040420f00"] {
            for log in ["-", FIX, GRID] {
                assert_eq!(text([JOB, TABLE, scale, log], held(1, 2, true)), ("SCALE REFUSED 1\n".into(), None));
            }
        }
        assert_eq!(held_text("-", held(1, 2, true)), (String::new(), held(1, 2, true)));
    }

    #[test]
    fn an_unsound_chain_matters_only_when_named() {
        let twice = TABLE.repeat(2);
        let chains = [(format!("{TABLE}{}", "00".repeat(24)), "40420f00"), (twice.clone(), "573e0f00"), (twice, "00000000")];
        for (table, factor) in chains {
            let of = |log: &str| text([JOB, &table, &format!("{SCALE}{factor}"), log], None).0;
            assert!(of(FIX).starts_with("1 FIX 2 5 "));
            assert_eq!(of(&FIX.replacen("0101", "0102", 1)), "1 REFUSED 5 0\n");
        }
    }

    #[test]
    fn a_held_place_is_given() {
        assert_eq!(held_text(HOLD, held(7, u32::MAX, false)).0, "3 HOLD 1 0 7 4294967295 0\n");
        assert_eq!(held_text(HOLD, held(7, u32::MAX, true)).0, "3 HOLD 1 0 7 4294967295 1\n");
    }
}
