//! Answers requests: each answer is what the library for C promises, worked out here from 01 and 02. The head of tests/lay.c
//! says what a request may be.

use std::fmt::Display;
use std::str::FromStr;

use crate::chart::{self, Chain, Place, Readings};
use crate::how_many::{self, Count};
use crate::listing::{self, Files, Held};
use crate::numbers::{self, Mark};
use crate::records::{self, Draft, Entry};
use crate::refusals;
use crate::search::{self, Found, Job};
use crate::words::{hex, unhex};

/// The version of the library's header.
const VERSION: u32 = 3;

/// The bytes that the library's buffer must have for each record of a listing, and for one more.
pub const LINE_BYTES: usize = 5760;

/// How many readings a chain has, and how many numbers its stations have.
pub const CHAIN_READINGS: usize = 2;
pub const CHAIN_NUMBERS: usize = 6;

/// The words of a request after its verb, taken one by one.
struct Request<'a> {
    words: std::str::Split<'a, char>,
}

fn number<T: FromStr>(word: &str) -> Result<T, String> {
    if word.starts_with('+') {
        return Err(format!("no number: {word}"));
    }
    word.parse().map_err(|_| format!("no number: {word}"))
}

impl<'a> Request<'a> {
    fn word(&mut self) -> Result<&'a str, String> {
        self.words.next().ok_or_else(|| "a word is missing".into())
    }

    fn number<T: FromStr>(&mut self) -> Result<T, String> {
        number(self.word()?)
    }

    /// All the words that are left.
    fn numbers<T: FromStr>(&mut self) -> Result<Vec<T>, String> {
        self.words.by_ref().map(number).collect()
    }

    /// A lent buffer or list: its length, and what each element holds before the call.
    fn lent<T: FromStr + Clone>(&mut self) -> Result<Vec<T>, String> {
        let length = self.number()?;
        Ok(vec![self.number()?; length])
    }

    fn bytes(&mut self) -> Result<Vec<u8>, String> {
        unhex(self.word()?)
    }

    /// The bytes of a chain, which may be given as its numbers with commas between, and its factor.
    fn chain(&mut self) -> Result<(Vec<u8>, u32), String> {
        let (word, factor) = (self.word()?, self.number()?);
        if !word.contains(',') {
            return Ok((unhex(word)?, factor));
        }
        let numbers = word.split(',').map(number).collect::<Result<Vec<u32>, _>>()?;
        let numbers = numbers.try_into().map_err(|_| format!("no chain: {word}"))?;
        Ok((records::chain_bytes(&chart::chain(numbers, factor)).to_vec(), factor))
    }

    /// The bytes of a job, which may be given as its numbers with commas between; k must fit into one byte.
    fn job(&mut self) -> Result<Vec<u8>, String> {
        let word = self.word()?;
        if !word.contains(',') {
            return unhex(word);
        }
        let numbers = word.split(',').collect::<Vec<_>>().try_into();
        let [easting, northing, k, tolerance, allowance]: [&str; 5] = numbers.map_err(|_| format!("no job: {word}"))?;
        let job = Job {
            corner: chart::place(number(easting)?, number(northing)?),
            k: number::<u8>(k)?.into(),
            tolerance: number(tolerance)?,
            allowance: number(allowance)?,
        };
        Ok(records::job_bytes(&job).to_vec())
    }

    fn place(&mut self) -> Result<Place, String> {
        Ok(chart::place(self.number()?, self.number()?))
    }

    /// What a listing may hold: whether there is anything, the place and the last field; any number but 0 counts as 1.
    fn held(&mut self) -> Result<Option<Held>, String> {
        let holds: u32 = self.number()?;
        let place = self.place()?;
        let rounded: u32 = self.number()?;
        Ok((holds != 0).then_some(Held { place, rounded: rounded != 0 }))
    }

    fn end(mut self) -> Result<(), String> {
        self.words.next().map_or(Ok(()), |word| Err(format!("a word too many: {word}")))
    }
}

/// The numbers at the head of an answer, and after them every entry of a lent list.
fn with_entries<T: Display>(head: impl Display, list: &[T]) -> String {
    list.iter().fold(head.to_string(), |answer, entry| format!("{answer} {entry}"))
}

/// Fills a lent buffer or list with what a call gives it, or with zeros, and answers with the refusal.
fn fill<T: Copy + Default>(lent: &mut [T], given: Result<impl AsRef<[T]>, u32>) -> u32 {
    match given {
        Ok(elements) => {
            lent.copy_from_slice(elements.as_ref());
            0
        }
        Err(refusal) => {
            lent.fill(T::default());
            refusal
        }
    }
}

/// The answer of a writer: the refusal, and what it leaves in the buffer.
fn written(mut buffer: Vec<u8>, record: Result<impl AsRef<[u8]>, u32>) -> String {
    let refusal = fill(&mut buffer, record);
    format!("{refusal} {}", hex(&buffer))
}

/// The answer to one request, or what is wrong with the request.
pub fn answer(line: &str) -> Result<String, String> {
    let mut words = line.split(' ');
    let verb = words.next().unwrap_or("");
    let request = Request { words };
    match verb {
        "version" => request.end().map(|_| VERSION.to_string()),
        "centimetres" => centimetres(request),
        "metres" => metres(request),
        "expected" => expected(request),
        "search" => search(request),
        "how_many" => how_many(request),
        "read_record" => read_record(request),
        "write_record" => write_record(request),
        "read_job" => read_job(request),
        "write_job" => write_job(request),
        "count_chains" => count_chains(request),
        "chain" => chain(request),
        "read_chain" => read_chain(request),
        "write_chain" => write_chain(request),
        "write_factor" => write_factor(request),
        "list" => list(request),
        _ => Err(format!("unknown verb: {verb}")),
    }
}

/// The library's number for a mark.
fn mark_number(mark: Mark) -> u32 {
    match mark {
        Mark::Equal => 0,
        Mark::Less => 1,
        Mark::Greater => 2,
    }
}

fn centimetres(mut request: Request) -> Result<String, String> {
    let bytes = request.bytes()?;
    request.end()?;
    let pattern = u64::from_be_bytes(bytes.try_into().map_err(|_| "no pattern")?);
    Ok(match numbers::centimetres(pattern) {
        Ok((whole, mark)) => format!("0 {whole} {}", mark_number(mark)),
        Err(refusal) => format!("{refusal} 0 0"),
    })
}

fn metres(mut request: Request) -> Result<String, String> {
    let whole = request.number()?;
    request.end()?;
    Ok(match numbers::metres(whole) {
        Ok(pattern) => format!("0 {pattern:016x}"),
        Err(refusal) => format!("{refusal} {:016x}", 0),
    })
}

fn expected(mut request: Request) -> Result<String, String> {
    let mut list: Vec<i64> = request.lent()?;
    let ((chain, factor), place) = (request.chain()?, request.place()?);
    request.end()?;
    let readings = expected_readings(list.len(), &chain, factor, place);
    let refusal = fill(&mut list, readings);
    Ok(with_entries(refusal, &list))
}

/// The readings for a list of `entries` entries. Refusals: 1 for that number and for the length of the chain, then 4, 5.
fn expected_readings(entries: usize, chain: &[u8], factor: u32, place: Place) -> Result<[i64; CHAIN_READINGS], u32> {
    records::fits(entries, CHAIN_READINGS)?;
    let Readings { a, b } = chart::expected(&records::raw_chain(chain, factor)?, place)?;
    Ok([a, b])
}

fn search(mut request: Request) -> Result<String, String> {
    let mut list: Vec<u32> = request.lent()?;
    let found = match searched(request)? {
        Ok((chain, wanted, job)) => search::search(&chain, wanted, &job, list.len() / 2),
        Err(refusal) => Found::unvisited(refusal),
    };
    let mut places = found.places.iter().flat_map(|place| [place.easting, place.northing]);
    list.fill_with(|| places.next().unwrap_or(0));
    let head = format!("{} {} {}", found.refusal, found.places.len(), found.visits);
    Ok(with_entries(head, &list))
}

/// What is searched for, or a refusal: 1 for all three lengths, then 2 for the job's bytes.
type Searched = Result<(Chain, Readings, Job), u32>;

/// What is searched for, by all the words that are left.
fn searched(mut request: Request) -> Result<Searched, String> {
    let ((chain, factor), job) = (request.chain()?, request.job()?);
    let readings: Vec<i64> = request.numbers()?;
    let read = || {
        let chain = records::raw_chain(&chain, factor)?;
        let [a, b] = readings.try_into().map_err(|_| refusals::LENGTH)?;
        Ok((chain, Readings { a, b }, records::raw_job(&job)?))
    };
    Ok(read())
}

fn how_many(request: Request) -> Result<String, String> {
    let answer = match searched(request)? {
        Ok((chain, wanted, job)) => how_many::how_many(&chain, wanted, &job),
        Err(refusal) => Err((refusal, 0)),
    };
    Ok(match answer {
        Ok((Count::None, visits)) => format!("0 1 0 0 {visits}"),
        Ok((Count::One(place), visits)) => format!("0 2 {} {} {visits}", place.easting, place.northing),
        Ok((Count::Several, visits)) => format!("0 3 0 0 {visits}"),
        Err((refusal, visits)) => format!("{refusal} 0 0 0 {visits}"),
    })
}

fn read_record(mut request: Request) -> Result<String, String> {
    let bytes = request.bytes()?;
    request.end()?;
    if bytes.len() != records::RECORD {
        return Ok(format!("{} 0 0 0 0 0 0 0", refusals::LENGTH));
    }
    let line = records::line_number(&bytes);
    let (head, marks) = match records::entry(&bytes) {
        Ok(Entry::Hyperbolic { chain, wanted, marks }) => (format!("0 1 {chain} {line} {} {}", wanted.a, wanted.b), marks),
        Ok(Entry::Grid { place, marks }) => (format!("0 2 0 {line} {} {}", place.easting, place.northing), marks),
        Ok(Entry::Hold) => (format!("0 3 0 {line} 0 0"), [Mark::Equal; 2]),
        Err(refusal) => (format!("{refusal} 0 0 {line} 0 0"), [Mark::Equal; 2]),
    };
    Ok(with_entries(head, &marks.map(mark_number)))
}

fn write_record(mut request: Request) -> Result<String, String> {
    let buffer = request.lent()?;
    let draft = Draft {
        kind: request.number()?,
        chain: request.number()?,
        line: request.number()?,
        x: request.number()?,
        y: request.number()?,
    };
    request.end()?;
    let record = records::write(buffer.len(), &draft);
    Ok(written(buffer, record))
}

fn read_job(mut request: Request) -> Result<String, String> {
    let bytes = request.bytes()?;
    request.end()?;
    Ok(match records::job(&bytes) {
        Ok(Job { corner, k, tolerance, allowance }) => {
            format!("0 {} {} {k} {tolerance} {allowance}", corner.easting, corner.northing)
        }
        Err(refusal) => format!("{refusal} 0 0 0 0 0"),
    })
}

fn write_job(mut request: Request) -> Result<String, String> {
    let buffer = request.lent()?;
    let job =
        Job { corner: request.place()?, k: request.number()?, tolerance: request.number()?, allowance: request.number()? };
    request.end()?;
    let record = records::write_job(buffer.len(), &job);
    Ok(written(buffer, record))
}

fn count_chains(mut request: Request) -> Result<String, String> {
    let table = request.bytes()?;
    request.end()?;
    Ok(match records::chain_count(&table) {
        Ok(count) => format!("0 {count}"),
        Err(refusal) => format!("{refusal} 0"),
    })
}

fn chain(mut request: Request) -> Result<String, String> {
    let buffer = request.lent()?;
    let number = request.number()?;
    let (table, scale) = (request.bytes()?, request.bytes()?);
    request.end()?;
    // The buffer is tested after the chain.
    let chain = records::chain(&table, &scale, number)
        .and_then(|chain| records::fits(buffer.len(), records::CHAIN_RECORD).map(|()| chain));
    let factor = chain.map_or(0, |chain| chain.factor);
    Ok(format!("{} {factor}", written(buffer, chain.map(|chain| records::chain_bytes(&chain)))))
}

fn read_chain(mut request: Request) -> Result<String, String> {
    let mut list: Vec<u32> = request.lent()?;
    let (chain, factor) = request.chain()?;
    request.end()?;
    let stations = stations(list.len(), &chain, factor);
    let refusal = fill(&mut list, stations);
    Ok(with_entries(refusal, &list))
}

/// A chain's numbers for a list of `entries` entries. Refusals: 1 for that number and for the length of the chain, then 5.
fn stations(entries: usize, chain: &[u8], factor: u32) -> Result<[u32; CHAIN_NUMBERS], u32> {
    records::fits(entries, CHAIN_NUMBERS)?;
    let chain = records::raw_chain(chain, factor)?;
    chart::admit_chain(&chain)?;
    Ok(chart::chain_numbers(&chain))
}

fn write_chain(mut request: Request) -> Result<String, String> {
    let buffer = request.lent()?;
    let factor = request.number()?;
    let stations: Vec<u32> = request.numbers()?;
    let record = records::write_chain(buffer.len(), &stations, factor);
    Ok(written(buffer, record))
}

fn write_factor(mut request: Request) -> Result<String, String> {
    let buffer = request.lent()?;
    let factor = request.number()?;
    request.end()?;
    let record = records::write_factor(buffer.len(), factor);
    Ok(written(buffer, record))
}

fn list(mut request: Request) -> Result<String, String> {
    let length: usize = request.number()?;
    let dirt: u8 = request.number()?;
    let held = request.held()?;
    let [job, table, scale, log] = &[request.bytes()?, request.bytes()?, request.bytes()?, request.bytes()?];
    request.end()?;
    if length / LINE_BYTES <= log.len() / records::RECORD {
        return Ok(format!("{} 0 0 0 0 0 - kept", refusals::ROOM));
    }
    let mut text = Vec::new();
    let files = Files { job, table, scale, log };
    let held = listing::list(&files, held, &mut text).map_err(|error| error.to_string())?;
    let mut lent = vec![dirt; length];
    lent[..text.len()].copy_from_slice(&text);
    let rest = if lent[text.len()..].iter().all(|&byte| byte == dirt) { "kept" } else { "touched" };
    Ok(format!("0 {} {} {} {rest}", text.len(), held_words(held), hex(&lent[..text.len()])))
}

/// What is held, as the library gives it back: 1, the place and the last field, each 0 if nothing is held.
fn held_words(held: Option<Held>) -> String {
    match held {
        Some(Held { place, rounded }) => format!("1 {} {} {}", place.easting, place.northing, u8::from(rounded)),
        None => "0 0 0 0".into(),
    }
}

#[cfg(test)]
mod tests {
    use super::answer;

    /// Chains with their factors.
    const CHAIN_1: &str = "0,0,30000,0,0,40000 1000000";
    const UNSOUND: &str = "0,0,30000,0,0,0 1000000";
    const BAD_FACTOR: &str = "0,0,30000,0,0,40000 998999";
    const CHAIN_1_BYTES: &str = "0000000000000000307500000000000000000000409c0000";
    const JOB: &str = "30750000409c0000010000000000000064000000000000000000000000000000";

    fn ok(line: &str) -> String {
        answer(line).unwrap()
    }

    #[test]
    fn the_version() {
        assert_eq!(ok("version"), "3");
    }

    #[test]
    fn numbers_there_and_back() {
        assert_eq!(ok("centimetres 3fd0000000000000"), "0 25 0");
        assert_eq!(ok("centimetres 3fd8000000000000"), "0 38 1");
        assert_eq!(ok("centimetres bfd8000000000000"), "0 -38 2");
        assert_eq!(ok("centimetres 8000000000000000"), "0 0 0");
        assert_eq!(ok("centimetres 7ff0000000000000"), "3 0 0");
        assert_eq!(ok("metres -20000"), "0 c069000000000000");
        assert_eq!(ok("metres 1000000001"), "3 0000000000000000");
    }

    #[test]
    fn expected_readings() {
        assert_eq!(ok(&format!("expected 2 -9 {CHAIN_1} 30000 40000")), "0 -10000 -20000");
        assert_eq!(ok(&format!("expected 2 -9 {CHAIN_1_BYTES} 1000000 30000 40000")), "0 -10000 -20000");
        assert_eq!(ok(&format!("expected 2 -9 {CHAIN_1_BYTES} 999000 30000 40000")), "0 -10010 -20020");
        assert_eq!(ok(&format!("expected 0 -9 {CHAIN_1} 0 0")), "1");
        for unsound in [UNSOUND, BAD_FACTOR] {
            assert_eq!(ok(&format!("expected 3 -9 {unsound} 100000001 0")), "1 0 0 0");
            assert_eq!(ok(&format!("expected 2 -9 {unsound} 100000001 0")), "4 0 0");
            assert_eq!(ok(&format!("expected 2 -9 {unsound} 0 0")), "5 0 0");
        }
        assert_eq!(ok(&format!("expected 2 -9 {CHAIN_1_BYTES}00 0 100000001 0")), "1 0 0");
    }

    #[test]
    fn a_dirty_list_of_odd_length() {
        let ask =
            |entries, allowance| ok(&format!("search {entries} 7 {CHAIN_1} 30000,40000,1,0,{allowance} -10000 -20000"));
        assert_eq!(ask(5, 5), "0 2 5 30000 40000 30001 40001 0");
        assert_eq!(ask(3, 5), "9 0 5 0 0 0");
        assert_eq!(ask(3, 4), "10 0 4 0 0 0");
        assert_eq!(ask(0, 0), "10 0 0");
        let by_bytes = ok(&format!("search 5 7 {CHAIN_1_BYTES} 1000000 {JOB} -10000 -20000"));
        assert_eq!(by_bytes, "0 2 5 30000 40000 30001 40001 0");
    }

    #[test]
    fn searches_and_how_many_refuse_in_order() {
        let refusal = |verb: &str, rest: &str| -> u32 {
            let answer = ok(&format!("{verb} {rest}"));
            let (refusal, others) = answer.split_once(' ').unwrap();
            assert!(others.split(' ').all(|number| number == "0"), "{rest}: {answer}");
            refusal.parse().unwrap()
        };
        let (job, beyond) = ("01".repeat(32), "1000000001 0");
        for verb in ["search 3 7", "how_many"] {
            for chain in [format!("{CHAIN_1_BYTES}00"), CHAIN_1_BYTES[2..].into(), CHAIN_1_BYTES.repeat(2), "-".into()] {
                assert_eq!(refusal(verb, &format!("{chain} 0 {job} {beyond}")), 1, "{chain}");
            }
            for unsound in [UNSOUND, BAD_FACTOR] {
                for rest in [
                    job.clone(),
                    format!("{job} 1000000001"),
                    format!("{job} {beyond} 0"),
                    format!("{job}00 {beyond}"),
                    format!("{} {beyond}", &job[2..]),
                    format!("- {beyond}"),
                ] {
                    assert_eq!(refusal(verb, &format!("{unsound} {rest}")), 1, "{rest}");
                }
                assert_eq!(refusal(verb, &format!("{unsound} {job} {beyond}")), 2);
                assert_eq!(refusal(verb, &format!("{unsound} 0,0,25,100001,9 {beyond}")), 3);
                assert_eq!(refusal(verb, &format!("{unsound} 0,0,25,100001,9 0 0")), 5);
            }
            assert_eq!(refusal(verb, &format!("{CHAIN_1} 0,0,25,100001,9 0 0")), 6);
            assert_eq!(refusal(verb, &format!("{CHAIN_1} 0,0,24,100001,9 0 0")), 7);
        }
    }

    #[test]
    fn every_zero_byte_of_a_job_counts() {
        for index in 0..32 {
            let job = format!("{}01{}", &JOB[..2 * index], &JOB[2 * index + 2..]);
            let rest = format!("{CHAIN_1} {job} 1000000001 0");
            let refusal = if (9..=11).contains(&index) || index >= 24 { 2 } else { 3 };
            assert_eq!(ok(&format!("search 0 7 {rest}")), format!("{refusal} 0 0"), "{index}");
            assert_eq!(ok(&format!("how_many {rest}")), format!("{refusal} 0 0 0 0"), "{index}");
        }
    }

    #[test]
    fn how_many_places() {
        let ask = |job: &str| ok(&format!("how_many {CHAIN_1} {job} -10000 -20000"));
        assert_eq!(ask("30000,40000,1,0,100"), "0 3 0 0 5");
        assert_eq!(ask("30000,40000,1,0,5"), "0 3 0 0 5");
        assert_eq!(ask("30000,40000,1,0,4"), "10 0 0 0 4");
        assert_eq!(ask("30001,40000,0,0,100"), "0 1 0 0 1");
        assert_eq!(ask("30000,40000,0,0,100"), "0 2 30000 40000 1");
        assert_eq!(ask("30000,40000,0,0,0"), "10 0 0 0 0");
        assert_eq!(ok(&format!("how_many {CHAIN_1_BYTES} 1000000 {JOB} -10000 -20000")), "0 3 0 0 5");
    }

    #[test]
    fn records_read_and_written() {
        let bytes = "010100000100000000000000000059c000000000000069c00000000000000000";
        assert_eq!(ok(&format!("read_record {bytes}")), "0 1 1 1 -10000 -20000 0 0");
        assert_eq!(ok(&format!("read_record {}01{}", &bytes[..16], &bytes[18..])), "0 1 1 1 -10000 -20000 1 0");
        assert_eq!(ok(&format!("read_record 0200{}", &bytes[4..])), "4 0 0 1 0 0 0 0");
        assert_eq!(ok(&format!("read_record {}{}ff{}", &bytes[..16], "01".repeat(15), &bytes[48..])), "3 0 0 1 0 0 0 0");
        assert_eq!(ok(&format!("read_record 03{}", "0".repeat(62))), "0 3 0 0 0 0 0 0");
        assert_eq!(ok("write_record 32 255 1 1 1 -10000 -20000"), format!("0 {bytes}"));
        assert_eq!(ok("write_record 3 255 1 1 1 0 0"), "1 000000");
        assert_eq!(ok("write_record 0 255 1 1 1 0 0"), "1 -");
        assert_eq!(ok(&format!("read_record 09{}", &bytes[2..])), "2 0 0 1 0 0 0 0");
        assert_eq!(ok("read_record -"), "1 0 0 0 0 0 0 0");
    }

    #[test]
    fn jobs_read_and_written() {
        assert_eq!(ok(&format!("read_job {JOB}")), "0 30000 40000 1 0 100");
        assert_eq!(ok("write_job 32 255 30000 40000 1 0 100"), format!("0 {JOB}"));
        assert_eq!(ok("write_job 3 255 30000 40000 25 100001 100"), "1 000000");
        assert_eq!(ok("write_job 32 255 30000 40000 256 100001 100"), format!("6 {}", "00".repeat(32)));
        assert_eq!(ok("write_job 32 255 30000 40000 0 100001 100"), format!("7 {}", "00".repeat(32)));
    }

    #[test]
    fn chains_taken_out_read_and_written() {
        let table = format!("{}{CHAIN_1_BYTES}{CHAIN_1_BYTES}", "00".repeat(24));
        let scale = "40420f00d9400f0029460f00";
        let zeros = "00".repeat(24);
        assert_eq!(ok(&format!("count_chains {table}")), "0 3");
        assert_eq!(ok(&format!("chain 24 9 2 {table} {scale}")), format!("0 {CHAIN_1_BYTES} 999641"));
        assert_eq!(ok(&format!("chain 2 9 2 {table} {scale}")), "1 0000 0");
        for number in [0, 1, 3, 4] {
            assert_eq!(ok(&format!("chain 2 9 {number} {table} {scale}")), "5 0000 0", "{number}");
        }
        assert_eq!(ok(&format!("chain 24 9 4 {table}00 {scale}")), format!("1 {zeros} 0"));
        for wrong in ["-", "40420f00", "40420f00d9400f0029460f", "40420f00d9400f0029460f0000"] {
            assert_eq!(ok(&format!("chain 24 9 4 {table} {wrong}")), format!("1 {zeros} 0"), "{wrong}");
        }
        assert_eq!(ok(&format!("read_chain 6 9 {CHAIN_1_BYTES} 1001000")), "0 0 0 30000 0 0 40000");
        assert_eq!(ok("read_chain 6 9 00 0"), "1 0 0 0 0 0 0");
        for unsound in [UNSOUND, BAD_FACTOR] {
            assert_eq!(ok(&format!("read_chain 7 9 {unsound}")), "1 0 0 0 0 0 0 0");
            assert_eq!(ok(&format!("read_chain 6 9 {unsound}")), "5 0 0 0 0 0 0");
        }
        assert_eq!(ok("write_chain 24 9 999000 0 0 30000 0 0 40000"), format!("0 {CHAIN_1_BYTES}"));
        assert_eq!(ok("write_chain 3 9 998999 0 0 30000 0 0 0"), "1 000000");
        assert_eq!(ok("write_chain 24 9 998999"), format!("1 {zeros}"));
        assert_eq!(ok("write_chain 24 9 999000 0 0 30000 0 0 0"), format!("5 {zeros}"));
        assert_eq!(ok("write_chain 24 9 998999 0 0 30000 0 0 40000"), format!("5 {zeros}"));
    }

    #[test]
    fn factors_written() {
        assert_eq!(ok("write_factor 4 9 999641"), "0 d9400f00");
        assert_eq!(ok("write_factor 4 9 1001001"), "5 00000000");
        assert_eq!(ok("write_factor 5 9 1001001"), "1 0000000000");
        assert_eq!(ok("write_factor 0 9 999641"), "1 -");
    }

    #[test]
    fn a_listing_needs_room_for_one_record_more() {
        assert_eq!(ok("list 5759 9 1 2 3 1 - - - -"), "9 0 0 0 0 0 - kept");
        assert_eq!(ok("list 5760 9 1 2 3 1 - - - -"), "0 14 0 0 0 0 4a4f42205245465553454420310a kept");
        let refused = ok(&format!("list 5760 9 1 2 3 1 {JOB} {CHAIN_1_BYTES} 40420f -"));
        assert_eq!(refused, "0 16 0 0 0 0 5343414c45205245465553454420310a kept");
    }

    #[test]
    fn an_empty_log_passes_on_what_is_held() {
        let passed_on = |held: &str| ok(&format!("list 5760 9 {held} {JOB} {CHAIN_1_BYTES} 00000000 -"));
        assert_eq!(passed_on("1 2 3 0"), "0 0 1 2 3 0 - kept");
        assert_eq!(passed_on("5 2 3 0"), "0 0 1 2 3 0 - kept");
        assert_eq!(passed_on("5 2 3 9"), "0 0 1 2 3 1 - kept");
        assert_eq!(passed_on("0 2 3 9"), "0 0 0 0 0 0 - kept");
    }

    #[test]
    fn ill_formed_requests() {
        for line in
            ["", "metres", "metres +1", "metres 1 ", "metres  1", "version 1", "read_record 0", "read_record 0G", "fix 1"]
        {
            assert!(answer(line).is_err(), "{line}");
        }
        for line in [
            "centimetres 00",
            "record -",
            "read_job 0,0,0,0,0",
            "expected 2 0 0,0,1,0,0 1000000 0 0",
            "expected 2 0 0,0,1,0,0,1 0 0",
            "read_chain 6 0 0,0,1,0,0,1,1 1000000",
            "read_chain 6 0 0,0,1,0,0,1",
            "read_chain 6 0 0,0,1,0,0,1 4294967296",
            "chain 24 0 1 -",
            "write_chain 24 0",
            "write_factor 4 0",
            "write_factor 4 0 1 1",
            "list 5760 0 0 0 0 0 - - -",
        ] {
            assert!(answer(line).is_err(), "{line}");
        }
        for job in ["0,0,256,0,0", "0,0,0,0", "0,0,0,0,0,0", "0,0,-1,0,0", "0,,0,0,0"] {
            assert!(answer(&format!("search 0 0 {CHAIN_1} {job} 0 0")).is_err(), "{job}");
            assert!(answer(&format!("how_many {CHAIN_1} {job} 0 0")).is_err(), "{job}");
        }
    }
}
