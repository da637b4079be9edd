//! Makes requests from a seed: every verb, with numbers at their limits, dirty buffers and wrong lengths.

use crate::answers::{CHAIN_NUMBERS, CHAIN_READINGS, LINE_BYTES};
use crate::asking_how_many;
use crate::chart::{self, Chain, Place, Readings, MOST_EASTING, MOST_NORTHING};
use crate::numbers::MOST_CENTIMETRES;
use crate::pieces;
use crate::random::Random;
use crate::records::{self, CHAIN_RECORD, FACTOR_RECORD, RECORD};
use crate::search::{self, Job, MOST_EXPONENT, MOST_TOLERANCE};
use crate::words::hex;

/// The visits that most searches may cost, and those that a few may cost.
pub const FEW_VISITS: u64 = 2000;
pub const MANY_VISITS: u64 = 50_000;

/// The requests of one turn: each verb has its places in it.
const TURN: u64 = 25;

/// One request in this many asks for the version, which never changes. It is the first of a turn.
const VERSION_EVERY: u64 = 50 * TURN;

/// The request with an index. It depends on the seed and the index alone, not on how many are made. The last two of a turn are
/// about one question, and both are made from the stream of the first.
pub fn request(seed: u64, index: u64) -> String {
    let random = &mut Random::for_item(seed, index);
    if index % VERSION_EVERY == 0 {
        return "version".into();
    }
    let turn = index / TURN;
    match index % TURN {
        0 => format!("centimetres {:016x}", pattern(random)),
        1 => format!("metres {}", centimetres(random)),
        2 | 3 => expected(random),
        4..=6 => searching(random),
        7 => faulty_searching(random),
        8 | 9 => format!("read_record {}", hex(&record(random))),
        10 => record_writing(random),
        11 => format!("read_job {}", hex(&job(random))),
        12 => job_writing(random),
        13 => format!("count_chains {}", hex(&table_of(random).1)),
        14 | 15 => chain_asked(random),
        16 => chain_reading(random),
        17 => chain_writing(random),
        18 => factor_writing(random, turn),
        19 | 20 => listing(random),
        21 => asking_how_many::asked(random),
        22 => asking_how_many::faulty(random, turn),
        23 => asking_how_many::paired(random, turn).0,
        _ => asking_how_many::paired(&mut Random::for_item(seed, index - 1), turn).1,
    }
}

fn pattern(random: &mut Random) -> u64 {
    match random.below(5) {
        0 => pieces::edge_pattern(random),
        1 => pieces::tie_pattern(random),
        2 => pieces::edge_pattern(random).wrapping_add(random.between(-3, 3) as u64),
        3 => pieces::exact_pattern(random),
        _ => pieces::any_pattern(random),
    }
}

/// Centimetres within the limit, at it, beyond it, and at the ends of 64 bits.
fn centimetres(random: &mut Random) -> i64 {
    let sign = random.pick(&[-1, 1]);
    match random.below(8) {
        0 => sign * (MOST_CENTIMETRES + random.between(-2, 2)),
        1 => random.pick(&[i64::MIN, i64::MIN + 1, i64::MAX, 0, 1 << 53, 1 << 32, -1 << 32]),
        2 => random.next() as i64,
        3 => random.between(-200, 200),
        4 => random.between(-1, 1) + i64::from(random.pick(&[MOST_EASTING, MOST_NORTHING])),
        _ => random.between(-MOST_CENTIMETRES, MOST_CENTIMETRES),
    }
}

/// A chain that is mostly sound and mostly near the place.
pub fn chain(random: &mut Random, place: Place) -> Chain {
    if random.once_in(12) {
        return pieces::unsound_chain(random);
    }
    if random.once_in(12) {
        let factor = pieces::factor(random);
        let mut station = || pieces::edge_place(random);
        return Chain { master: station(), a: station(), b: station(), factor };
    }
    if random.once_in(4) {
        return pieces::square_chain(random, place);
    }
    let reach = 1 << random.between(1, 30);
    pieces::sound_chain(random, place, reach)
}

fn place_words(place: Place) -> String {
    format!("{} {}", place.easting, place.northing)
}

fn joined(numbers: &[u32], between: &str) -> String {
    numbers.iter().map(u32::to_string).collect::<Vec<_>>().join(between)
}

/// The words for a chain: its numbers or its bytes, and its factor.
pub fn chain_words(random: &mut Random, chain: &Chain) -> String {
    if random.once_in(2) {
        return format!("{} {}", joined(&chart::chain_numbers(chain), ","), chain.factor);
    }
    byte_words(&records::chain_bytes(chain), chain)
}

/// These bytes in place of a chain's own, and its factor.
pub fn byte_words(bytes: &[u8], chain: &Chain) -> String {
    format!("{} {}", hex(bytes), chain.factor)
}

/// The words for a chain: its numbers or its bytes, and its factor; once in eight, bytes that are mostly too few or too many.
fn doubtful_chain_words(random: &mut Random, chain: &Chain) -> String {
    if !random.once_in(8) {
        return chain_words(random, chain);
    }
    let mut bytes = records::chain_bytes(chain).to_vec();
    misfit(random, &mut bytes);
    byte_words(&bytes, chain)
}

/// The word for a job: its numbers or its bytes.
pub fn job_word(random: &mut Random, job: &Job) -> String {
    if random.once_in(2) {
        return job_numbers(job);
    }
    hex(&records::job_bytes(job))
}

pub fn job_numbers(job: &Job) -> String {
    let Job { corner, k, tolerance, allowance } = job;
    format!("{},{},{k},{tolerance},{allowance}", corner.easting, corner.northing)
}

/// A length that mostly does not fit: one beside `fitting`, twice `fitting`, 0 or any.
fn misfit_length(random: &mut Random, fitting: usize) -> usize {
    let any = random.below(2 * fitting as u64 + 1) as usize;
    random.pick(&[fitting - 1, fitting + 1, 2 * fitting, 0, any, any, any])
}

/// Mostly the length that fits.
fn length(random: &mut Random, fitting: usize) -> usize {
    if random.once_in(4) {
        return misfit_length(random, fitting);
    }
    fitting
}

/// Cuts bytes off, or adds some at the end.
fn misfit(random: &mut Random, bytes: &mut Vec<u8>) {
    let length = misfit_length(random, bytes.len());
    let any = random.byte();
    bytes.resize(length, random.pick(&[0, any]));
}

/// What the bytes of a lent buffer hold before the call; `list_dirt` is the same for the entries of a lent list.
fn byte_dirt(random: &mut Random) -> u8 {
    random.pick(&[0, 1, 0x55, 0xff])
}

pub fn list_dirt(random: &mut Random) -> u32 {
    random.pick(&[0, 1, 7, u32::MAX, 123_456_789])
}

fn expected(random: &mut Random) -> String {
    let place = if random.once_in(3) { pieces::edge_place(random) } else { pieces::anywhere(random) };
    let near = if chart::in_range(place) { place } else { pieces::anywhere(random) };
    let chain = chain(random, near);
    let place = if random.once_in(9) { random.pick(&[chain.master, chain.a, chain.b]) } else { place };
    let dirt = random.pick(&[0, 1, -1, i64::MAX, i64::MIN]);
    let entries = length(random, CHAIN_READINGS);
    format!("expected {entries} {dirt} {} {}", doubtful_chain_words(random, &chain), place_words(place))
}

/// What a search is asked for, before its allowance is chosen.
struct Asked {
    chain: Chain,
    wanted: Readings,
    job: Job,
    room: usize,
}

impl Asked {
    /// The visits made with an allowance.
    fn visits(&self, allowance: u64) -> u64 {
        search::search(&self.chain, self.wanted, &Job { allowance, ..self.job }, self.room).visits
    }
}

fn entries(random: &mut Random) -> usize {
    match random.below(8) {
        0 => random.below(601) as usize,
        1 => random.pick(&[0, 1, 511, 512, 513, 599, 600]),
        2 => random.below(40) as usize,
        _ => random.below(12) as usize,
    }
}

pub fn search_job(random: &mut Random, place: Place) -> Job {
    let k = match random.below(30) {
        0 => random.between(20, 40) as u32,
        1 => random.pick(&[24, 25, 31, 32, 33, 63, 64, 127, 128, 255]),
        2..=8 => random.below(25) as u32,
        _ => random.below(7) as u32,
    };
    let tolerance = match random.below(24) {
        0 => MOST_TOLERANCE + random.below(2) as u32,
        1 => random.pick(&[u32::MAX, 1 << 31, MOST_TOLERANCE]),
        2 => random.below(3000) as u32,
        3..=10 => random.below(12) as u32,
        _ => 0,
    };
    let corner = match random.below(20) {
        0 => pieces::edge_place(random),
        1 => passing(random, k),
        _ => pieces::corner_for(random, place, k.min(MOST_EXPONENT)),
    };
    Job { corner, k, tolerance, allowance: 0 }
}

/// A corner whose window touches the edge of the range, or passes it by a cell.
fn passing(random: &mut Random, k: u32) -> Place {
    let last = (1u32 << k.min(MOST_EXPONENT)) - 1;
    let mut corner = |most: u32| most - last + random.pick(&[0, 0, 0, 1]);
    chart::place(corner(MOST_EASTING), corner(MOST_NORTHING))
}

pub fn wanted(random: &mut Random, chain: &Chain, place: Place) -> Readings {
    let exact = match chart::expected(chain, place) {
        Ok(readings) => readings,
        Err(_) => Readings { a: centimetres(random), b: centimetres(random) },
    };
    let kind = random.below(10);
    let mut near = |reading: i64| reading.saturating_add(random.between(-9, 9));
    match kind {
        0 => Readings { a: centimetres(random), ..exact },
        1 => Readings { b: centimetres(random), ..exact },
        2 | 3 => Readings { a: near(exact.a), b: near(exact.b) },
        _ => exact,
    }
}

fn searching(random: &mut Random) -> String {
    let place = pieces::anywhere(random);
    let chain = chain(random, place);
    let wanted = wanted(random, &chain, place);
    let (entries, job) = (entries(random), search_job(random, place));
    let asked = Asked { chain, wanted, job, room: entries / 2 };
    let dirt = list_dirt(random);
    let job = Job { allowance: allowance(random, &asked), ..job };
    let (chain, job) = (chain_words(random, &chain), job_word(random, &job));
    format!("search {entries} {dirt} {chain} {job} {} {}", wanted.a, wanted.b)
}

/// A search with faults, often several at once, so that the order of the tests shows.
fn faulty_searching(random: &mut Random) -> String {
    let place = pieces::anywhere(random);
    let chain = if random.once_in(3) { pieces::unsound_chain(random) } else { pieces::sound_chain(random, place, 5000) };
    let (entries, dirt, readings) = (random.below(12), list_dirt(random), faulty_readings(random, &chain, place));
    let (chain, job) = (doubtful_chain_words(random, &chain), faulty_job(random, place));
    format!("search {entries} {dirt} {chain} {job}{readings}")
}

/// Readings, each with a space before it: mostly two, and mostly within the limit.
fn faulty_readings(random: &mut Random, chain: &Chain, place: Place) -> String {
    let exact = chart::expected(chain, place).unwrap_or(Readings { a: 1, b: 2 });
    let count = if random.once_in(6) { random.pick(&[0, 1, 3, 4]) } else { CHAIN_READINGS };
    let mut reading = |index| match random.below(6) {
        0 => centimetres(random),
        1 => random.pick(&[-1, 1]) * (MOST_CENTIMETRES + 1),
        _ => [exact.a, exact.b][index % 2],
    };
    (0..count).map(|index| format!(" {}", reading(index))).collect()
}

/// The word of a job that may have a wrong window, tolerance, zero byte and length, with an allowance of few visits.
fn faulty_job(random: &mut Random, place: Place) -> String {
    let allowance = random.pick(&[0, 1, FEW_VISITS]);
    let job = Job { allowance, ..doubtful_job(random, place) };
    if random.once_in(3) {
        return job_word(random, &job);
    }
    let mut bytes = pieces::job(&job);
    if random.once_in(2) {
        let zero = random.pick(&[9, 10, 11, 24, 25, 26, 27, 28, 29, 30, 31]);
        bytes[zero] = random.pick(&[1, 0x80, 0xff]);
    }
    if random.once_in(6) {
        misfit(random, &mut bytes);
    }
    hex(&bytes)
}

/// A job whose window is wrong once in three, and its tolerance too.
fn doubtful_job(random: &mut Random, place: Place) -> Job {
    let mut job = search_job(random, place);
    if random.once_in(3) {
        let beyond = chart::place(MOST_EASTING + 1, MOST_NORTHING + 1);
        (job.corner, job.k) = random.pick(&[(job.corner, 25), (job.corner, 255), (beyond, job.k), (beyond, 0)]);
    }
    if random.once_in(3) {
        job.tolerance = random.pick(&[MOST_TOLERANCE + 1, 1 << 31, u32::MAX]);
    }
    job
}

/// An allowance at an edge, or an ample one if the search is cheap.
fn allowance(random: &mut Random, asked: &Asked) -> u64 {
    let most = if random.once_in(200) { MANY_VISITS } else { FEW_VISITS };
    let needed = asked.visits(most);
    let some = random.below(needed + 1);
    if needed == most {
        return random.pick(&[most, most - 1, some, 0]);
    }
    let full = search::full_allowance(asked.job.k.min(MOST_EXPONENT));
    let edges = [needed, needed, needed.saturating_sub(1), needed + 1, 0, 1, some, full, full - 1];
    if random.once_in(2) {
        u64::MAX
    } else {
        random.pick(&edges)
    }
}

/// A log record that is sound or nearly so, or any bytes at all; mostly of 32 bytes.
fn record(random: &mut Random) -> Vec<u8> {
    let line = pieces::line(random);
    let chain = random.pick(&[0, 1, 2, 16, 17, 255]);
    let mut numbers = || if random.once_in(3) { pattern(random) } else { pieces::pattern(centimetres(random)) };
    let fields = [numbers(), numbers(), 0];
    let small = [pieces::pattern(random.between(-2, 200)), pieces::pattern(random.between(-2, 200)), 0];
    let quarters = Readings { a: 25 * random.between(-99, 99), b: 25 * random.between(-99, 99) };
    let mut bytes = match random.below(12) {
        0 => random.bytes(RECORD),
        1 | 2 => pieces::record(1, chain, line, fields).to_vec(),
        3 => pieces::record(2, 0, line, fields).to_vec(),
        4 => pieces::record(2, 0, line, small).to_vec(),
        5 => pieces::record(random.byte(), 0, line, small).to_vec(),
        6 => pieces::grid(line, pieces::anywhere(random)).to_vec(),
        7 => pieces::hold(line).to_vec(),
        8 => pieces::rounded_fix(random, chain, line, quarters).to_vec(),
        9 => pieces::rounded_grid(random, line).to_vec(),
        _ => with_wrong_byte(random, line),
    };
    spoil(random, &mut bytes);
    bytes
}

/// A record that is sound but for one byte, often the sign of a minus zero.
fn with_wrong_byte(random: &mut Random, line: u32) -> Vec<u8> {
    let (kind, chain) = random.pick(&[(1, 1), (2, 0), (3, 0)]);
    let used = kind != 3 && random.once_in(2);
    let fields = if used { [pieces::place_pattern(random), pieces::place_pattern(random), 0] } else { [0; 3] };
    let mut bytes = pieces::record(kind, chain, line, fields).to_vec();
    let field = random.between(8, 31) as usize;
    let any = random.pick(&[1, 2, 3, field]);
    bytes[random.pick(&[any, any, 15, 23, 31])] = random.pick(&[1, 0x80]);
    bytes
}

/// Mostly leaves the bytes as they are; else changes some, cuts some off or adds one.
fn spoil(random: &mut Random, bytes: &mut Vec<u8>) {
    match random.below(20) {
        0 => pieces::damage(random, bytes),
        1 => bytes.push(0),
        2 => bytes.truncate(bytes.len().saturating_sub(1)),
        3 => bytes.truncate(random.below(bytes.len() as u64 + 1) as usize),
        4 if !bytes.is_empty() => {
            let index = random.below(bytes.len() as u64) as usize;
            bytes[index] = random.pick(&[1, 0x80, 0xff]);
        }
        _ => {}
    }
}

fn record_writing(random: &mut Random) -> String {
    let (length, dirt) = (length(random, RECORD), byte_dirt(random));
    let kind = random.pick(&[1, 1, 1, 2, 2, 2, 3, 3, 0, 4, 257, u32::MAX]);
    let chain = random.pick(&[0, 1, 2, 15, 16, 17, 255, 257, u32::MAX]);
    let place = pieces::anywhere(random);
    let (x, y) = match random.below(3) {
        0 => (i64::from(place.easting), i64::from(place.northing)),
        1 => (centimetres(random).rem_euclid(1 << 28), centimetres(random).rem_euclid(1 << 30)),
        _ => (centimetres(random), centimetres(random)),
    };
    format!("write_record {length} {dirt} {kind} {chain} {} {x} {y}", pieces::line(random))
}

/// A job with any allowance; once in three its window and tolerance are likely to be wrong.
fn any_job(random: &mut Random) -> Job {
    let place = pieces::anywhere(random);
    let job = if random.once_in(3) { doubtful_job(random, place) } else { search_job(random, place) };
    let any = random.next();
    Job { allowance: random.pick(&[0, 1, u64::MAX, 1 << 32, 1 << 63, any]), ..job }
}

/// Once in twelve the exponent is larger than a byte; its lowest byte alone would often be allowed.
fn job_writing(random: &mut Random) -> String {
    let (length, dirt) = (length(random, RECORD), byte_dirt(random));
    let Job { corner, k, tolerance, allowance } = any_job(random);
    let wide = random.pick(&[k + 256, k + (1 << 16), k + (1 << 31), u32::MAX]);
    let k = if random.once_in(12) { wide } else { k };
    format!("write_job {length} {dirt} {} {k} {tolerance} {allowance}", place_words(corner))
}

fn job(random: &mut Random) -> Vec<u8> {
    let mut bytes = pieces::job(&any_job(random));
    if random.once_in(20) {
        bytes = random.bytes(RECORD);
    }
    if random.once_in(4) {
        bytes[random.below(32) as usize] = random.byte();
    }
    spoil(random, &mut bytes);
    bytes
}

/// Chains, and their table, which is mostly as it should be.
fn table_of(random: &mut Random) -> (Vec<Chain>, Vec<u8>) {
    let count = random.pick(&[0, 1, 1, 2, 3, 15, 16, 16, 17, 33]);
    let middle = pieces::anywhere(random);
    let chains: Vec<Chain> = (0..count).map(|_| chain(random, middle)).collect();
    let mut bytes = pieces::table(&chains);
    spoil(random, &mut bytes);
    (chains, bytes)
}

/// The side file of chains, which is mostly as it should be.
fn scale_of(random: &mut Random, chains: &[Chain]) -> Vec<u8> {
    let mut bytes = pieces::scale(chains);
    match random.below(12) {
        0 => pieces::misfit_scale(random, &mut bytes),
        1 => pieces::damage(random, &mut bytes),
        _ => {}
    }
    bytes
}

fn chain_asked(random: &mut Random) -> String {
    let (chains, table) = table_of(random);
    let scale = scale_of(random, &chains);
    let count = chains.len() as u64;
    let number = match random.below(4) {
        0 => random.pick(&[0, 1, 16, 17, 255, 256, 257, u32::MAX.into(), count + 1]),
        _ => random.between(1, count.max(1) as i64) as u64,
    };
    let (length, dirt) = (length(random, CHAIN_RECORD), byte_dirt(random));
    format!("chain {length} {dirt} {number} {} {}", hex(&table), hex(&scale))
}

/// A chain that is unsound once in three at least.
fn doubtful_chain(random: &mut Random) -> Chain {
    if random.once_in(3) {
        return pieces::unsound_chain(random);
    }
    let place = pieces::anywhere(random);
    chain(random, place)
}

fn chain_reading(random: &mut Random) -> String {
    let chain = doubtful_chain(random);
    let (entries, dirt) = (length(random, CHAIN_NUMBERS), list_dirt(random));
    format!("read_chain {entries} {dirt} {}", doubtful_chain_words(random, &chain))
}

fn chain_writing(random: &mut Random) -> String {
    let chain = doubtful_chain(random);
    let mut numbers = chart::chain_numbers(&chain).to_vec();
    if random.once_in(6) {
        let count = misfit_length(random, CHAIN_NUMBERS);
        numbers.resize(count, list_dirt(random));
    }
    let (length, dirt) = (length(random, CHAIN_RECORD), byte_dirt(random));
    format!("write_chain {length} {dirt} {} {}", chain.factor, joined(&numbers, " ")).trim_end().into()
}

/// Every other buffer has the length that fits; the others have each length about it in turn.
fn factor_writing(random: &mut Random, turn: u64) -> String {
    let factor = if random.once_in(2) { pieces::factor(random) } else { pieces::bad_factor(random) };
    let length = if turn % 2 == 0 { FACTOR_RECORD as u64 } else { turn / 2 % 7 };
    format!("write_factor {length} {} {factor}", byte_dirt(random))
}

fn listing(random: &mut Random) -> String {
    let place = pieces::anywhere(random);
    let reach = 1 << random.between(3, 30);
    let chain = pieces::sound_chain(random, place, reach);
    let chains = [chain, pieces::unsound_chain(random)];
    let (mut table, scale) = (pieces::table(&chains), scale_of(random, &chains));
    match random.below(16) {
        0 => spoil(random, &mut table),
        1 => misfit(random, &mut table),
        _ => {}
    }
    let count = random.below(5) as usize;
    let mut log: Vec<u8> = (0..count).flat_map(|_| listed_record(random, place, &chain)).collect();
    if random.once_in(3) {
        let tail = random.between(1, 31) as usize;
        log.extend(random.bytes(tail));
    }
    let job = cheap(spoilt_job(random, place, &chain));
    let enough = LINE_BYTES * (count + 1);
    let more = enough + random.below(6000) as usize;
    let length = match random.below(12) {
        0 => random.pick(&[enough - 1, enough - LINE_BYTES, LINE_BYTES, 0]),
        1..=4 => more,
        _ => enough,
    };
    let dirt = random.pick(&[0, 10, 0x55, 0xff]);
    let files = [&job, &table, &scale, &log].map(|file| hex(file)).join(" ");
    format!("list {length} {dirt} {} {files}", held_words(random, place))
}

/// What is held before a listing: this place or one at an edge, if anything; any number but 0 stands for 1.
fn held_words(random: &mut Random, place: Place) -> String {
    let mut flag = || random.pick(&[0, 0, 1, 1, 2, 7, u32::MAX]);
    let (held, rounded) = (flag(), flag());
    let place = if random.once_in(2) { place } else { pieces::edge_place(random) };
    format!("{held} {} {rounded}", place_words(place))
}

fn spoilt_job(random: &mut Random, place: Place, chain: &Chain) -> Vec<u8> {
    let mut bytes = listed_job(random, place, chain);
    match random.below(16) {
        0 => spoil(random, &mut bytes),
        1 => bytes = job(random),
        _ => {}
    }
    bytes
}

/// The job with an allowance that a request can afford.
fn cheap(mut bytes: Vec<u8>) -> Vec<u8> {
    if records::job(&bytes).map_or(false, |job| job.allowance > FEW_VISITS) {
        bytes[16..24].copy_from_slice(&FEW_VISITS.to_le_bytes());
    }
    bytes
}

/// A job for a listing whose searches cost few visits, whatever the records ask for.
fn listed_job(random: &mut Random, place: Place, chain: &Chain) -> Vec<u8> {
    let crowd = random.once_in(8);
    let k = if crowd { random.between(3, 5) as u32 } else { random.below(10) as u32 };
    let tolerance = if crowd { 5000 } else { random.below(3) as u32 };
    let job = Job { corner: pieces::corner_for(random, place, k), k, tolerance, allowance: 1500 };
    let needed = search::search(chain, chart::readings(chain, place), &job, 256).visits;
    let edges = [needed, needed.saturating_sub(1), needed + 1, 0, 1500, 1500, 1500];
    pieces::job(&Job { allowance: random.pick(&edges), ..job })
}

fn listed_record(random: &mut Random, place: Place, chain: &Chain) -> Vec<u8> {
    let line = pieces::line(random);
    match random.below(10) {
        0 | 1 => pieces::hold(line).to_vec(),
        2 => pieces::grid(line, pieces::about(random, place, 9)).to_vec(),
        3 => pieces::fix(random.pick(&[0, 2, 3, 255]), line, Readings { a: 1, b: 2 }).to_vec(),
        4 => pieces::record(2, 0, line, [pieces::pattern(centimetres(random)), 0, 0]).to_vec(),
        5 => {
            let mut bytes = pieces::fix(1, line, chart::readings(chain, place)).to_vec();
            bytes[random.below(32) as usize] = random.byte();
            bytes
        }
        6 => pieces::rounded_grid(random, line).to_vec(),
        7 => pieces::fix(1, line, pieces::exact_readings(chart::readings(chain, place))).to_vec(),
        _ => pieces::fix(1, line, chart::readings(chain, place)).to_vec(),
    }
}

#[cfg(test)]
mod tests {
    use super::*;
    use crate::answers;

    #[test]
    fn every_request_has_an_answer() {
        for index in 0..3000 {
            let line = request(11, index);
            assert!(answers::answer(&line).is_ok(), "{line}");
        }
    }
}
