//! Makes logs at the edges of the rules: refusals, limits, rounding, holds, lengths, missing files, unsound chains, factors
//! and line numbers.

use crate::chart::{self, Chain, Place, Readings, MOST_EASTING, MOST_NORTHING, UNIT_FACTOR};
use crate::folder::Folder;
use crate::pieces;
use crate::random::Random;
use crate::records::RECORD;
use crate::search::{self, Job, MOST_TOLERANCE};

/// The chain and the job of 01's examples.
const CHAIN: Chain = Chain {
    master: Place { easting: 0, northing: 0 },
    a: Place { easting: 30000, northing: 0 },
    b: Place { easting: 0, northing: 40000 },
    factor: UNIT_FACTOR,
};
const JOB: Job = Job { corner: Place { easting: 30000, northing: 40000 }, k: 1, tolerance: 0, allowance: 100 };

const TWO_PLACES: Readings = Readings { a: -10000, b: -20000 };
const ONE_PLACE: Readings = Readings { a: -10000, b: -19999 };
const NO_PLACE: Readings = Readings { a: 0, b: 0 };

type Record = [u8; RECORD];

/// A grid record, a hold, or readings of one, two or no places in 01's window.
fn sound(random: &mut Random, line: u32) -> Record {
    match random.below(10) {
        0..=2 => pieces::grid(line, pieces::any_place(random)),
        3 | 4 => pieces::fix(1, line, ONE_PLACE),
        5 => pieces::fix(1, line, TWO_PLACES),
        6 => pieces::fix(1, line, NO_PLACE),
        _ => pieces::hold(line),
    }
}

/// A record of an unknown kind, or with a byte set that must be zero.
fn with_wrong_byte(random: &mut Random, line: u32) -> Record {
    let mut record = sound(random, line);
    let zeros = match record[0] {
        1 => 2..=3,
        2 => 1..=3,
        _ => 8..=23,
    };
    let value = random.pick(&[1, 2, 0x80, 0xff]);
    match random.below(4) {
        0 => record[0] = random.pick(&[0, 4, 5, 0x81, 0xff]),
        1 => record[random.between(24, 31) as usize] = value,
        2 => record[31] = 0x80,
        _ => record[random.between(*zeros.start(), *zeros.end()) as usize] = value,
    }
    record
}

fn with_wrong_number(random: &mut Random, line: u32) -> Record {
    let wrong = random.pick(&[0x7ff0 << 48, 0x7ff8 << 48, 0x7fff << 48, 0x4163_12d0_0000_0001, 0x7fe0 << 48]);
    let right = pieces::pattern(random.between(-1, 2000));
    let fields = random.pick(&[[wrong, right, 0], [right, wrong, 0], [wrong, wrong, 0]]);
    let chain = random.pick(&[0, 1, 17]);
    let mut record =
        if random.once_in(2) { pieces::record(1, chain, line, fields) } else { pieces::record(2, 0, line, fields) };
    record[15] |= random.pick(&[0, 0x80]);
    record
}

fn out_of_range(random: &mut Random, line: u32) -> Record {
    let east = random.pick(&[-1, -1_000_000_000, 100_000_001, 1_000_000_000]);
    let north = random.pick(&[-1, -1_000_000_000, 0, 1_000_000_000]);
    let inside = random.between(0, MOST_EASTING.into());
    let (east, north) = if random.once_in(3) { (inside, -1) } else { (east, north) };
    pieces::record(2, 0, line, [pieces::pattern(east), pieces::pattern(north), 0])
}

/// A record that is refused by itself or by 01's job and table; a hold after it is refused with 11.
fn refused(random: &mut Random, line: u32) -> Record {
    match random.below(5) {
        0 => with_wrong_byte(random, line),
        1 => with_wrong_number(random, line),
        2 => out_of_range(random, line),
        3 => pieces::fix(random.pick(&[0, 2, 16, 17, 255]), line, TWO_PLACES),
        _ => pieces::fix(1, line, NO_PLACE),
    }
}

fn mixed(random: &mut Random, count: i64) -> Vec<Record> {
    let mut one = |line| if random.once_in(4) { refused(random, line) } else { sound(random, line) };
    (1..=count as u32).map(&mut one).collect()
}

/// A log made for one of the eleven refusals, the next one each turn; its records may meet others too.
pub fn refusals(random: &mut Random, turn: u64) -> Folder {
    let number = 1 + turn % 11;
    let job = match number {
        6 if random.once_in(2) => Job { k: random.between(25, 255) as u32, tolerance: 100_001, ..JOB },
        6 => Job { corner: chart::place(MOST_EASTING, random.pick(&[40000, MOST_NORTHING, u32::MAX])), ..JOB },
        7 => Job { tolerance: random.pick(&[100_001, 100_256, u32::MAX]), ..JOB },
        9 => Job { k: random.between(5, 9) as u32, tolerance: MOST_TOLERANCE, allowance: u64::MAX, ..JOB },
        10 => Job { allowance: random.below(5), ..JOB },
        _ => JOB,
    };
    let count = random.between(4, 40);
    let log = mixed(random, count);
    let mut folder = Folder::new(&job, &[CHAIN], &log);
    match number {
        1 => wrong_length(random, &mut folder),
        2 if random.once_in(3) => folder.set_job_byte(random.pick(&[9, 10, 11, 24, 27, 31]), 0x80),
        _ => {}
    }
    folder
}

fn wrong_length(random: &mut Random, folder: &mut Folder) {
    let bytes = match random.below(4) {
        0 => &mut folder.job,
        1 => &mut folder.table,
        2 => &mut folder.scale,
        _ => &mut folder.log,
    };
    if let Some(bytes) = bytes {
        match random.below(3) {
            0 => bytes.push(0),
            1 => bytes.truncate(bytes.len() - 1),
            _ => bytes.extend_from_within(..),
        }
    }
}

/// Numbers at the edges of binary64 and at ties of rounding, in used and unused fields.
pub fn numbers(random: &mut Random, _turn: u64) -> Folder {
    let mut log = Vec::new();
    for step in 1..=random.between(5, 40) as u32 {
        let field = |random: &mut Random| match random.below(5) {
            0 => pieces::edge_pattern(random),
            1 => pieces::tie_pattern(random) & !(1 << 63),
            2 => pieces::tie_pattern(random),
            3 => pieces::exact_pattern(random),
            _ => pieces::any_pattern(random),
        };
        let unused = random.pick(&[0, 0, 0, 0, 0, 0, 1 << 63, 1]);
        let small = pieces::pattern(random.between(0, 1000));
        let fields = [field(random), if random.once_in(2) { small } else { field(random) }, unused];
        let (kind, chain) = random.pick(&[(1, 1), (2, 0), (2, 0), (2, 0), (3, 0)]);
        let hold = kind == 3 && random.once_in(2);
        log.push(pieces::record(kind, chain, step, if hold { [0, 0, unused] } else { fields }));
    }
    Folder::new(&Job { tolerance: 100_000, ..JOB }, &[CHAIN], &log)
}

/// Grid places at the limits of the range, to the centimetre and to the thousandth of one.
pub fn ranges(random: &mut Random, _turn: u64) -> Folder {
    let mut log = Vec::new();
    for step in 1..=random.between(5, 40) as u32 {
        let mut near = |most: u32| {
            let edge = random.pick(&[0, 0, i64::from(most), i64::from(most), i64::from(most) / 2]);
            let fine = random.pick(&[-1000, -999, -501, -500, -499, -1, 0, 0, 0, 1, 499, 500, 501, 1000]);
            crate::numbers::pattern_of(1000 * edge + fine, 100_000)
        };
        let fields = [near(MOST_EASTING), near(MOST_NORTHING), 0];
        let record = pieces::record(2, 0, step, fields);
        log.push(if random.once_in(5) { pieces::hold(step) } else { record });
    }
    Folder::new(&JOB, &[CHAIN], &log)
}

/// Windows that touch the edge of the range or pass it by a cell, and exponents and tolerances at their limits.
pub fn jobs(random: &mut Random, turn: u64) -> Folder {
    let k = [0, 1, 2, 10, 23, 24, 24, 25][turn as usize % 8];
    let last = (1i64 << k) - 1;
    let mut corner = |most: u32| {
        let touching = i64::from(most) - last;
        let passing = random.pick(&[0, 0, 0, 0, -1, -1, 1]);
        random.pick(&[touching + passing, touching + passing, touching + passing, 0]) as u32
    };
    let corner = chart::place(corner(MOST_EASTING), corner(MOST_NORTHING));
    let tolerance = random.pick(&[0, 0, 1, 99_999, 100_000, 100_000, 100_001]);
    let job = Job { corner, k, tolerance, allowance: random.pick(&[5000, 3000, 0, u64::MAX]) };
    let within = |at: u32, most: u32| at.min(most);
    let inside = chart::place(within(corner.easting, MOST_EASTING), within(corner.northing, MOST_NORTHING));
    let chain = pieces::sound_chain(random, inside, 1 << 22);
    let mut log = vec![pieces::hold(1), pieces::grid(2, inside)];
    for step in 3..=random.between(3, 8) as u32 {
        let place = pieces::about(random, inside, 1 << k.min(24));
        log.push(pieces::fix(1, step, chart::readings(&chain, place)));
        log.push(pieces::hold(step));
    }
    let mut folder = Folder::new(&job, &[chain], &log);
    if random.once_in(10) {
        folder.set_job_byte(random.pick(&[9, 11, 24, 31]), 1);
    }
    folder
}

/// Tables of 0 to 17 chains, some of wrong lengths, with records that name chains in and out of the table.
pub fn tables(random: &mut Random, turn: u64) -> Folder {
    let count = [1, 2, 15, 16, 16, 17, 0, 3][turn as usize % 8];
    let chains: Vec<Chain> =
        (0..count)
            .map(|_| {
                if random.once_in(6) {
                    pieces::unsound_chain(random)
                } else {
                    pieces::sound_chain(random, JOB.corner, 9000)
                }
            })
            .collect();
    let mut log = Vec::new();
    for step in 1..=random.between(5, 40) as u32 {
        let number = random.pick(&[0, 1, 2, 3, 15, 16, 17, 255, count as u8]);
        let wanted = match chains.get(usize::from(number).wrapping_sub(1)) {
            Some(chain) if chart::is_sound(chain) => chart::readings(chain, JOB.corner),
            _ => NO_PLACE,
        };
        log.push(pieces::fix(number, step, wanted));
    }
    let mut folder = Folder::new(&JOB, &chains, &log);
    if turn % 5 == 4 {
        let length = count * 24 + random.between(-13, 13).unsigned_abs() as usize;
        folder.table.get_or_insert_with(Vec::new).resize(length, 0);
    }
    folder
}

/// Side files that are missing or of a wrong length, in turn with a sound job and table, a refused job, and a refused table.
pub fn scales(random: &mut Random, turn: u64) -> Folder {
    let count = random.pick(&[1, 1, 2, 3, 15, 16]);
    let log = mixed(random, 4);
    let mut folder = Folder::new(&JOB, &vec![CHAIN; count], &log);
    match &mut folder.scale {
        Some(scale) if turn % 4 > 0 => pieces::misfit_scale(random, scale),
        scale => *scale = None,
    }
    match (turn / 4 % 3, &mut folder.table) {
        (1, _) => folder.set_job_byte(random.pick(&[8, 9, 15, 31]), 0xff),
        (2, Some(table)) => table.push(0),
        _ => {}
    }
    folder
}

/// Holds in every position: first, after a refusal, after one place, after two, after a hold.
pub fn holds(random: &mut Random, _turn: u64) -> Folder {
    let mut log = Vec::new();
    for step in 1..=random.between(1, 40) as u32 {
        log.push(match random.below(8) {
            0 => pieces::grid(step, pieces::any_place(random)),
            1 => pieces::fix(1, step, ONE_PLACE),
            2 => pieces::fix(1, step, TWO_PLACES),
            3 => refused(random, step),
            _ => pieces::hold(step),
        });
    }
    Folder::new(&JOB, &[CHAIN], &log)
}

/// Records with both numbers exact, with one rounded and with both, and holds of them. Every other window is a single cell,
/// so that exact readings have one place too.
pub fn marks(random: &mut Random, turn: u64) -> Folder {
    let mut log = Vec::new();
    for step in 1..=random.between(5, 40) as u32 {
        log.push(match random.below(8) {
            0..=2 => pieces::rounded_grid(random, step),
            3 => pieces::fix(1, step, TWO_PLACES),
            4 => pieces::rounded_fix(random, 1, step, TWO_PLACES),
            5 => pieces::rounded_fix(random, 1, step, ONE_PLACE),
            _ => pieces::hold(step),
        });
    }
    Folder::new(&Job { k: turn as u32 % 2, ..JOB }, &[CHAIN], &log)
}

/// A short last record of every length.
pub fn tails(random: &mut Random, turn: u64) -> Folder {
    let count = random.pick(&[0, 1, 2, 9]);
    let log = mixed(random, count);
    let mut folder = Folder::new(&JOB, &[CHAIN], &log);
    let tail = if random.once_in(2) { sound(random, 77).to_vec() } else { random.bytes(RECORD) };
    folder.log.get_or_insert_with(Vec::new).extend_from_slice(&tail[..1 + turn as usize % 31]);
    folder
}

/// Each of the four files missing, empty or sound.
pub fn absences(random: &mut Random, turn: u64) -> Folder {
    let log = mixed(random, 3);
    let mut folder = Folder::new(&JOB, &[CHAIN], &log);
    let files = [&mut folder.job, &mut folder.table, &mut folder.scale, &mut folder.log];
    for (file, power) in files.into_iter().zip([1, 3, 9, 27]) {
        match turn / power % 3 {
            0 => {}
            1 => *file = None,
            _ => *file = Some(Vec::new()),
        }
    }
    folder
}

/// Sound and unsound chains in turn, made by `sound` and `unsound`. Every other log names only the sound ones.
fn in_turn(random: &mut Random, turn: u64, sound: fn(&mut Random) -> Chain, unsound: fn(&mut Random) -> Chain) -> Folder {
    let count = random.between(2, 16) as usize;
    let first = random.below(2) as usize;
    let chains: Vec<Chain> =
        (0..count).map(|index| if index % 2 == first { sound(random) } else { unsound(random) }).collect();
    let mut log = Vec::new();
    for step in 1..=random.between(1, 20) as u32 {
        let any = random.below(count as u64) as usize;
        let index = if turn % 2 == 0 || any % 2 == first { any } else { first };
        let near = pieces::about(random, JOB.corner, 1);
        let wanted = if index % 2 == first { chart::readings(&chains[index], near) } else { TWO_PLACES };
        log.push(pieces::fix(index as u8 + 1, step, wanted));
        log.push(pieces::hold(step));
    }
    Folder::new(&JOB, &chains, &log)
}

/// 01's chain and unsound ones.
pub fn unsound(random: &mut Random, turn: u64) -> Folder {
    in_turn(random, turn, |_| CHAIN, pieces::unsound_chain)
}

/// 01's stations with factors in range and out of it.
pub fn factors(random: &mut Random, turn: u64) -> Folder {
    in_turn(
        random,
        turn,
        |random| Chain { factor: pieces::factor(random), ..CHAIN },
        |random| Chain { factor: pieces::bad_factor(random), ..CHAIN },
    )
}

/// Line numbers at the ends of their range, and repeated.
pub fn lines(random: &mut Random, _turn: u64) -> Folder {
    let mut log = mixed(random, 30);
    for record in &mut log {
        let line = pieces::line(random);
        record[4..8].copy_from_slice(&line.to_le_bytes());
    }
    Folder::new(&JOB, &[CHAIN], &log)
}

/// A long log of cheap records.
pub fn long(random: &mut Random, _turn: u64) -> Folder {
    let count = random.between(20_000, 24_000);
    let log = mixed(random, count);
    let k = random.between(1, 3) as u32;
    let job = Job { k, tolerance: random.below(2) as u32, allowance: search::full_allowance(k), ..JOB };
    Folder::new(&job, &[CHAIN], &log)
}
