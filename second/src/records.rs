//! Reads and writes the records and the side file (01, The records; 02, A3). Masks have one bit for each byte, set if the byte must be zero.

use crate::chart::{self, Chain, Place, Readings};
use crate::numbers::{self, Mark};
use crate::refusals;
use crate::search::{self, Job};

pub const RECORD: usize = 32;
pub const CHAIN_RECORD: usize = 24;
pub const FACTOR_RECORD: usize = 4;
pub const MOST_CHAINS: usize = 16;

const HYPERBOLIC_ZEROS: u32 = 0xff00_000c;
const GRID_ZEROS: u32 = 0xff00_000e;
const HOLD_ZEROS: u32 = 0xffff_ff0e;
const JOB_ZEROS: u32 = 0xff00_0e00;

/// A log record in whole centimetres, with the marks of its two numbers. The chain number is not tested here; that needs the
/// table.
#[derive(Clone, Copy, PartialEq, Eq, Debug)]
pub enum Entry {
    Hyperbolic { chain: u8, wanted: Readings, marks: [Mark; 2] },
    Grid { place: Place, marks: [Mark; 2] },
    Hold,
}

fn word(bytes: &[u8], start: usize) -> u32 {
    bytes[start..start + 4].iter().rev().fold(0, |number, &byte| number << 8 | u32::from(byte))
}

fn long(bytes: &[u8], start: usize) -> u64 {
    u64::from(word(bytes, start + 4)) << 32 | u64::from(word(bytes, start))
}

fn place_at(bytes: &[u8], start: usize) -> Place {
    chart::place(word(bytes, start), word(bytes, start + 4))
}

fn zero_under(mask: u32, bytes: &[u8]) -> bool {
    bytes.iter().enumerate().all(|(index, &byte)| mask >> index & 1 == 0 || byte == 0)
}

/// Refuses a length other than the wanted one, with 1.
pub fn fits(length: usize, wanted: usize) -> Result<(), u32> {
    if length != wanted {
        return Err(refusals::LENGTH);
    }
    Ok(())
}

pub fn line_number(record: &[u8]) -> u32 {
    word(record, 4)
}

/// A log record read by itself. Refusals: 1, 2, 3, 4.
pub fn entry(record: &[u8]) -> Result<Entry, u32> {
    fits(record.len(), RECORD)?;
    let zeros = match record[0] {
        1 => HYPERBOLIC_ZEROS,
        2 => GRID_ZEROS,
        3 => HOLD_ZEROS,
        _ => return Err(refusals::BYTES),
    };
    if !zero_under(zeros, record) {
        return Err(refusals::BYTES);
    }
    if record[0] == 3 {
        return Ok(Entry::Hold);
    }
    let (first, first_mark) = numbers::centimetres(long(record, 8))?;
    let (second, second_mark) = numbers::centimetres(long(record, 16))?;
    let marks = [first_mark, second_mark];
    if record[0] == 1 {
        return Ok(Entry::Hyperbolic { chain: record[1], wanted: Readings { a: first, b: second }, marks });
    }
    Ok(Entry::Grid { place: grid_place(first, second)?, marks })
}

/// The place of two numbers of centimetres, if it is in range.
fn grid_place(easting: i64, northing: i64) -> Result<Place, u32> {
    let number = |centimetres| u32::try_from(centimetres).map_err(|_| refusals::RANGE);
    let place = chart::place(number(easting)?, number(northing)?);
    if !chart::in_range(place) {
        return Err(refusals::RANGE);
    }
    Ok(place)
}

/// The job as its bytes have it, whatever its window and its tolerance. Refusals: 1, 2.
pub fn raw_job(bytes: &[u8]) -> Result<Job, u32> {
    fits(bytes.len(), RECORD)?;
    if !zero_under(JOB_ZEROS, bytes) {
        return Err(refusals::BYTES);
    }
    Ok(Job { corner: place_at(bytes, 0), k: u32::from(bytes[8]), tolerance: word(bytes, 12), allowance: long(bytes, 16) })
}

/// A job read from its bytes. Refusals: 1, 2, 6, 7.
pub fn job(bytes: &[u8]) -> Result<Job, u32> {
    let job = raw_job(bytes)?;
    search::admit_job(&job)?;
    Ok(job)
}

/// The bytes of a job; they have only the lowest byte of k.
pub fn job_bytes(job: &Job) -> [u8; RECORD] {
    let mut bytes = [0; RECORD];
    bytes[..4].copy_from_slice(&job.corner.easting.to_le_bytes());
    bytes[4..8].copy_from_slice(&job.corner.northing.to_le_bytes());
    bytes[8] = job.k as u8;
    bytes[12..16].copy_from_slice(&job.tolerance.to_le_bytes());
    bytes[16..24].copy_from_slice(&job.allowance.to_le_bytes());
    bytes
}

/// The bytes of a job for a buffer of `length` bytes. Refusals: 1, 6, 7.
pub fn write_job(length: usize, job: &Job) -> Result<[u8; RECORD], u32> {
    fits(length, RECORD)?;
    search::admit_job(job)?;
    Ok(job_bytes(job))
}

pub fn chain_count(table: &[u8]) -> Result<usize, u32> {
    (1..=MOST_CHAINS).find(|count| count * CHAIN_RECORD == table.len()).ok_or(refusals::LENGTH)
}

/// Refuses a table with 1, and then a side file that has not a factor for each of its chains, with 1.
pub fn admit_scale(table: &[u8], scale: &[u8]) -> Result<(), u32> {
    fits(scale.len(), chain_count(table)? * FACTOR_RECORD)
}

/// The chain as its bytes and its factor have it, sound or not. Refusal: 1.
pub fn raw_chain(record: &[u8], factor: u32) -> Result<Chain, u32> {
    fits(record.len(), CHAIN_RECORD)?;
    Ok(Chain { master: place_at(record, 0), a: place_at(record, 8), b: place_at(record, 16), factor })
}

pub fn chain_bytes(chain: &Chain) -> [u8; CHAIN_RECORD] {
    let mut bytes = [0; CHAIN_RECORD];
    for (index, number) in chart::chain_numbers(chain).into_iter().enumerate() {
        bytes[4 * index..][..4].copy_from_slice(&number.to_le_bytes());
    }
    bytes
}

/// The bytes of the chain with these numbers, for a buffer of `length` bytes. Refusals: 1 for either length, then 5.
pub fn write_chain(length: usize, numbers: &[u32], factor: u32) -> Result<[u8; CHAIN_RECORD], u32> {
    let chain = chart::chain(numbers.try_into().map_err(|_| refusals::LENGTH)?, factor);
    fits(length, CHAIN_RECORD)?;
    chart::admit_chain(&chain)?;
    Ok(chain_bytes(&chain))
}

/// The bytes of a factor in the side file, for a buffer of `length` bytes. Refusals: 1, 5.
pub fn write_factor(length: usize, factor: u32) -> Result<[u8; FACTOR_RECORD], u32> {
    fits(length, FACTOR_RECORD)?;
    if !chart::is_factor(factor) {
        return Err(refusals::CHAIN);
    }
    Ok(factor.to_le_bytes())
}

/// The chain of a table and its side file by its number. Refusals: 1 for the table, 1 for the side file, then 5.
pub fn chain(table: &[u8], scale: &[u8], number: u32) -> Result<Chain, u32> {
    admit_scale(table, scale)?;
    let index = (number as usize).checked_sub(1).ok_or(refusals::CHAIN)?;
    let mut chains = table.chunks(CHAIN_RECORD).zip(scale.chunks(FACTOR_RECORD));
    let (record, factor) = chains.nth(index).ok_or(refusals::CHAIN)?;
    let chain = raw_chain(record, word(factor, 0))?;
    chart::admit_chain(&chain)?;
    Ok(chain)
}

/// What the writer takes, except the buffer.
#[derive(Clone, Copy, Debug)]
pub struct Draft {
    pub kind: u32,
    pub chain: u32,
    pub line: u32,
    pub x: i64,
    pub y: i64,
}

/// The bytes of a record for a buffer of `length` bytes. Refusals: 1 to 5 in this order.
pub fn write(length: usize, draft: &Draft) -> Result<[u8; RECORD], u32> {
    fits(length, RECORD)?;
    if !(1..=3).contains(&draft.kind) {
        return Err(refusals::BYTES);
    }
    let mut record = [0; RECORD];
    record[0] = draft.kind as u8;
    record[4..8].copy_from_slice(&draft.line.to_le_bytes());
    if draft.kind == 3 {
        return Ok(record);
    }
    record[8..16].copy_from_slice(&numbers::metres(draft.x)?.to_le_bytes());
    record[16..24].copy_from_slice(&numbers::metres(draft.y)?.to_le_bytes());
    if draft.kind == 2 {
        grid_place(draft.x, draft.y)?;
        return Ok(record);
    }
    if draft.chain == 0 || draft.chain as usize > MOST_CHAINS {
        return Err(refusals::CHAIN);
    }
    record[1] = draft.chain as u8;
    Ok(record)
}

#[cfg(test)]
mod tests {
    use super::*;
    use std::cmp::Ordering::{Equal, Less};

    fn grid(easting: f64, northing: f64) -> [u8; 32] {
        let mut record = [0; 32];
        record[0] = 2;
        record[8..16].copy_from_slice(&easting.to_le_bytes());
        record[16..24].copy_from_slice(&northing.to_le_bytes());
        record
    }

    #[test]
    fn places_are_tested_after_rounding() {
        assert_eq!(entry(&grid(-0.001, 0.0)), Ok(Entry::Grid { place: chart::place(0, 0), marks: [Less, Equal] }));
        assert_eq!(entry(&grid(-0.01, 0.0)), Err(4));
        let place = chart::place(100_000_000, 1_000_000_000);
        assert_eq!(entry(&grid(1_000_000.0, 10_000_000.0)), Ok(Entry::Grid { place, marks: [Equal; 2] }));
        assert_eq!(entry(&grid(1_000_000.005, 0.0)), Err(4));
        assert_eq!(entry(&grid(-1.0, f64::NAN)), Err(3));
    }

    #[test]
    fn zero_bytes_are_tested_before_numbers() {
        for index in [1, 2, 3, 24, 31] {
            let mut record = grid(f64::NAN, 0.0);
            record[index] = 0x80;
            assert_eq!(entry(&record), Err(2));
        }
        let mut record = grid(-0.0, -0.0);
        assert_eq!(entry(&record), Ok(Entry::Grid { place: chart::place(0, 0), marks: [Equal; 2] }));
        record[0] = 3;
        assert_eq!(entry(&record), Err(2));
        assert_eq!(entry(&record[..31]), Err(1));
    }

    #[test]
    fn any_chain_number_is_read() {
        let mut record = grid(0.0, -0.01);
        record[..2].copy_from_slice(&[1, 255]);
        let wanted = Readings { a: 0, b: -1 };
        assert_eq!(entry(&record), Ok(Entry::Hyperbolic { chain: 255, wanted, marks: [Equal, Less] }));
    }

    #[test]
    fn a_job_is_refused_by_number() {
        let mut bytes = [0; 32];
        bytes[8] = 25;
        bytes[14] = 255;
        assert_eq!(job(&bytes), Err(6));
        bytes[31] = 1;
        assert_eq!(job(&bytes), Err(2));
        assert_eq!(job(&bytes[1..]), Err(1));
        bytes[8] = 24;
        bytes[31] = 0;
        assert_eq!(job(&bytes), Err(7));
    }

    #[test]
    fn a_job_is_written_or_refused_by_number() {
        let sound = Job { corner: chart::place(1, 0x0203_0405), k: 6, tolerance: 7, allowance: 0x0809 << 48 };
        let bytes = write_job(32, &sound).unwrap();
        assert_eq!(bytes[..12], [1, 0, 0, 0, 5, 4, 3, 2, 6, 0, 0, 0]);
        assert_eq!(bytes[12..], [7, 0, 0, 0, 0, 0, 0, 0, 0, 0, 9, 8, 0, 0, 0, 0, 0, 0, 0, 0]);
        assert_eq!(job(&bytes), Ok(sound));
        let wrong = Job { k: 256, tolerance: 100_001, ..sound };
        assert_eq!(write_job(33, &wrong), Err(1));
        assert_eq!(write_job(32, &wrong), Err(6));
        assert_eq!(write_job(32, &Job { k: 0, ..wrong }), Err(7));
    }

    #[test]
    fn a_chain_is_written_or_refused_by_number() {
        let bytes = write_chain(24, &[1, 2, 3, 4, 5, 0x0607], 999_000).unwrap();
        assert_eq!(bytes, [1, 0, 0, 0, 2, 0, 0, 0, 3, 0, 0, 0, 4, 0, 0, 0, 5, 0, 0, 0, 7, 6, 0, 0]);
        assert_eq!(raw_chain(&bytes, 8), Ok(chart::chain([1, 2, 3, 4, 5, 0x0607], 8)));
        assert_eq!(raw_chain(&bytes[1..], 8), Err(1));
        assert_eq!(
            [(24, 5), (24, 7), (23, 6), (25, 6)].map(|(length, count)| write_chain(length, &[0; 9][..count], 0)),
            [Err(1); 4]
        );
        assert_eq!(write_chain(24, &[0; 6], 999_000), Err(5));
        assert_eq!([998_999, 1_001_001, 0].map(|factor| write_chain(24, &[1, 2, 3, 4, 5, 6], factor)), [Err(5); 3]);
    }

    #[test]
    fn a_factor_is_written_or_refused_by_number() {
        assert_eq!(write_factor(4, 999_641), Ok([0xd9, 0x40, 0x0f, 0]));
        assert_eq!([999_000, 1_000_000, 1_001_000].map(|factor| write_factor(4, factor).is_ok()), [true; 3]);
        assert_eq!([998_999, 1_001_001, 0, u32::MAX].map(|factor| write_factor(4, factor)), [Err(5); 4]);
        for length in [0, 1, 2, 3, 5, 6] {
            assert_eq!([999_000, 998_999].map(|factor| write_factor(length, factor)), [Err(1); 2]);
        }
    }

    #[test]
    fn tables_have_one_to_sixteen_chains() {
        let table = [0; 408];
        assert_eq!(
            [0, 23, 24, 25, 384, 408].map(|length| chain_count(&table[..length])),
            [Err(1), Err(1), Ok(1), Err(1), Ok(16), Err(1)]
        );
        assert_eq!([0, 1, 2].map(|number| chain(&table[..24], &[0; 4], number)), [Err(5); 3]);
    }

    #[test]
    fn a_side_file_has_a_factor_for_each_chain() {
        let numbers = [1, 2, 3, 4, 5, 6];
        let table = chain_bytes(&chart::chain(numbers, 0)).repeat(2);
        let scale = [999_000u32, 1_001_001].map(u32::to_le_bytes).concat();
        let ask = |length, number| chain(&table, &scale.repeat(2)[..length], number);
        assert_eq!([0, 4, 7, 9, 12, 16].map(|length| ask(length, 3)), [Err(1); 6]);
        assert_eq!(ask(8, 1), Ok(chart::chain(numbers, 999_000)));
        assert_eq!([0, 2, 3, u32::MAX].map(|number| ask(8, number)), [Err(5); 4]);
        assert_eq!(chain(&table[1..], &scale, 1), Err(1));
    }

    #[test]
    fn the_writer_refuses_in_order() {
        let draft = Draft { kind: 2, chain: 99, line: 7, x: 1_000_000_001, y: -1 };
        assert_eq!(write(31, &Draft { kind: 9, ..draft }), Err(1));
        assert_eq!(write(32, &Draft { kind: 9, ..draft }), Err(2));
        assert_eq!(write(32, &draft), Err(3));
        assert_eq!(write(32, &Draft { x: 100_000_001, ..draft }), Err(4));
        assert_eq!(write(32, &Draft { kind: 1, x: -5, ..draft }), Err(5));
        assert_eq!(write(32, &Draft { kind: 3, ..draft }).unwrap()[..9], [3, 0, 0, 0, 7, 0, 0, 0, 0]);
    }

    #[test]
    fn what_is_written_is_read() {
        let draft = Draft { kind: 1, chain: 16, line: u32::MAX, x: -10000, y: 0 };
        let record = write(32, &draft).unwrap();
        let wanted = Readings { a: -10000, b: 0 };
        assert_eq!(entry(&record), Ok(Entry::Hyperbolic { chain: 16, wanted, marks: [Equal; 2] }));
        assert_eq!(line_number(&record), u32::MAX);
    }
}
