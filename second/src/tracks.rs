//! Makes logs with searches: tracks, double crossings, crowded windows and allowances at their edge.

use crate::chart::{self, Chain, Place, Readings};
use crate::folder::Folder;
use crate::listing::ROOM;
use crate::pieces;
use crate::random::Random;
use crate::search::{self, Job};

/// The visits that the searches of one log may still cost: many logs are made, so each must be cheap.
pub struct Purse(pub u64);

impl Purse {
    /// Pays for a search, unless it costs more than is left.
    pub fn pays(&mut self, chain: &Chain, wanted: Readings, job: &Job) -> bool {
        let allowance = job.allowance.min(self.0 + 1);
        let visits = search::search(chain, wanted, &Job { allowance, ..*job }, ROOM).visits;
        if visits > self.0 {
            return false;
        }
        self.0 -= visits;
        true
    }
}

/// A sound chain of any size about a place, from a few cells to the whole range.
fn any_chain(random: &mut Random, place: Place) -> Chain {
    if random.once_in(4) {
        return pieces::square_chain(random, place);
    }
    let reach = 1 << random.between(4, 30);
    pieces::sound_chain(random, place, reach)
}

/// A table with a chain somewhere in it, and the chain's number.
fn table_with(random: &mut Random, chain: Chain) -> (Vec<Chain>, u8) {
    let count = random.pick(&[1, 1, 2, 3, 16]);
    let number = random.below(count);
    let other = |random: &mut Random| {
        let place = pieces::anywhere(random);
        if random.once_in(2) {
            pieces::unsound_chain(random)
        } else {
            pieces::sound_chain(random, place, 1000)
        }
    };
    let chains = (0..count).map(|index| if index == number { chain } else { other(random) }).collect();
    (chains, number as u8 + 1)
}

fn track_tolerance(random: &mut Random, k: u32) -> u32 {
    let most = match random.below(8) {
        0 | 1 => 0,
        2 if k <= 5 => search::MOST_TOLERANCE,
        3 => 200,
        _ => 10,
    };
    random.between(0, most.into()) as u32
}

/// Readings along a moving place, in a sound chain, with grid records and holds among them.
pub fn track(random: &mut Random, _turn: u64) -> Folder {
    let mut place = pieces::anywhere(random);
    let chain = any_chain(random, place);
    let k = if random.once_in(3) { random.below(25) } else { random.below(13) } as u32;
    let few = random.below(3000);
    let job = Job {
        corner: pieces::corner_for(random, place, k),
        k,
        tolerance: track_tolerance(random, k),
        allowance: random.pick(&[u64::MAX, search::full_allowance(k), 20_000, few]),
    };
    let (chains, number) = table_with(random, chain);
    let mut purse = Purse(12_000);
    let mut log = Vec::new();
    for step in 1..=random.between(1, 40) as u32 {
        let wanted = track_readings(random, &chain, place, job.tolerance);
        match random.below(8) {
            0 => log.push(pieces::grid(step, place)),
            1 => log.push(pieces::hold(step)),
            _ if !purse.pays(&chain, wanted, &job) => {}
            2 => log.push(pieces::rounded_fix(random, number, step, wanted)),
            _ => log.push(pieces::fix(number, step, wanted)),
        }
        place = pieces::about(random, place, 2 + (1 << k) / 16);
    }
    Folder::new(&job, &chains, &log)
}

/// The readings at a place; sometimes the nearest exact ones, where the tolerance allows it.
fn track_readings(random: &mut Random, chain: &Chain, place: Place, tolerance: u32) -> Readings {
    let wanted = chart::readings(chain, place);
    if tolerance >= 12 && random.once_in(2) {
        return pieces::exact_readings(wanted);
    }
    wanted
}

/// One place in many chains, at distances where a rounded root would be one too large.
pub fn squares(random: &mut Random, _turn: u64) -> Folder {
    let place = pieces::anywhere(random);
    let chains: Vec<Chain> = (0..16).map(|_| pieces::square_chain(random, place)).collect();
    let k = random.below(5) as u32;
    let corner = pieces::corner_for(random, place, k);
    let job = Job { corner, k, tolerance: 0, allowance: search::full_allowance(k) };
    let log: Vec<_> =
        chains.iter().zip(1..).map(|(chain, number)| pieces::fix(number, 7, chart::readings(chain, place))).collect();
    Folder::new(&job, &chains, &log)
}

/// A track, or a log with many holds, with some bytes of one of its files changed, or the file's length.
pub fn damaged(random: &mut Random, turn: u64) -> Folder {
    let mut folder = if random.once_in(2) { track(random, turn) } else { crate::edges::holds(random, turn) };
    let file = match turn % 6 {
        0 => &mut folder.job,
        1 => &mut folder.table,
        2 => &mut folder.scale,
        _ => &mut folder.log,
    };
    if let Some(bytes) = file {
        pieces::damage(random, bytes);
    }
    folder
}

/// The place at offsets along and across a straight chain. In all three bearings, -across gives its exact mirror image.
fn beside(middle: Place, bearing: u64, along: i64, across: i64) -> Place {
    let (east, north) = match bearing {
        0 => (along, across),
        1 => (across, along),
        _ => (along + across, along - across),
    };
    chart::place((i64::from(middle.easting) + east) as u32, (i64::from(middle.northing) + north) as u32)
}

/// Stations in one straight line: every place has a mirror image on the other side, in the same window.
pub fn double_crossings(random: &mut Random, turn: u64) -> Folder {
    if turn % 8 == 7 {
        return published_crossing(random);
    }
    let bearing = turn % 3;
    let size = random.between(2, 21) as u32;
    let extent = 1i64 << size;
    let margin = 1i64 << 24;
    let middle = chart::place(
        random.between(margin, i64::from(chart::MOST_EASTING) - margin) as u32,
        random.between(margin, i64::from(chart::MOST_NORTHING) - margin) as u32,
    );
    let arm = random.between(1, extent);
    let other_arm = -random.between(1, extent);
    let chain = Chain {
        master: middle,
        a: beside(middle, bearing, arm, 0),
        b: beside(middle, bearing, if random.once_in(2) { other_arm } else { 2 * arm }, 0),
        factor: pieces::factor(random),
    };
    let half = 2 << size;
    let corner = chart::place(middle.easting - half, middle.northing - half);
    let tolerance = random.pick(&[0, 0, 0, 1, 2]);
    let job = Job { corner, k: size + 2, tolerance, allowance: random.pick(&[u64::MAX, 20_000, 1000]) };
    let mut purse = Purse(12_000);
    let mut log = Vec::new();
    for step in 1..=random.between(1, 12) as u32 {
        let mut any = || beside(middle, bearing, random.between(-extent, extent), random.between(-extent, extent));
        let place = if step % 2 == 0 { exact_place(&chain, any) } else { any() };
        let wanted = chart::readings(&chain, place);
        if purse.pays(&chain, wanted, &job) {
            log.push(pieces::fix(1, step, wanted));
        }
        log.push(if random.once_in(3) { pieces::grid(step, place) } else { pieces::hold(step) });
    }
    Folder::new(&job, &[chain], &log)
}

/// A place whose readings are both exact, or just any if chance does not soon find one.
fn exact_place(chain: &Chain, mut any: impl FnMut() -> Place) -> Place {
    for _ in 0..2000 {
        let place = any();
        let wanted = chart::readings(chain, place);
        if wanted == pieces::exact_readings(wanted) {
            return place;
        }
    }
    any()
}

/// The stations of source document 002, with readings that cross twice in one window.
fn published_crossing(random: &mut Random) -> Folder {
    let chain = Chain {
        master: chart::place(50_000_000, 500_000_000),
        a: chart::place(40_000_000, 490_000_000),
        b: chart::place(60_000_000, 500_000_000),
        factor: chart::UNIT_FACTOR,
    };
    let corner = chart::place(47_499_999, 497_945_629);
    let job = Job { corner, k: 24, tolerance: 0, allowance: random.pick(&[3116, 3117, 3118, u64::MAX]) };
    let wanted = Readings { a: 12_205_441, b: 9_172_617 };
    let near = Readings { a: wanted.a + random.between(-9, 9), b: wanted.b + random.between(-9, 9) };
    let log = [pieces::fix(1, 1, wanted), pieces::hold(2), pieces::fix(1, 3, near), pieces::hold(4)];
    Folder::new(&job, &[chain], &log)
}

/// Windows with about as many matching cells as the list has room for, or far more.
pub fn crowded(random: &mut Random, turn: u64) -> Folder {
    let place = pieces::anywhere(random);
    let chain = any_chain(random, place);
    let k = [4, 5, 5, 5, 5, 3 + turn as u32 % 6][turn as usize % 6];
    let corner = pieces::corner_for(random, place, k);
    let wanted = chart::readings(&chain, place);
    let tolerance = random.between(2000, 100_000) as u32;
    let ample = Job { corner, k, tolerance, allowance: search::full_allowance(k) };
    let (wanted, job) = match turn % 6 {
        1..=4 => counted(random, &chain, &ample, ROOM - 2 + (turn % 6) as usize).unwrap_or((wanted, ample)),
        _ => (wanted, ample),
    };
    let outside = Readings { a: wanted.a + 1_000_000, ..wanted };
    let log = [
        pieces::grid(1, place),
        pieces::fix(1, 2, wanted),
        pieces::hold(3),
        pieces::fix(1, 4, outside),
        pieces::fix(1, 5, wanted),
    ];
    Folder::new(&job, &[chain], &log)
}

/// Readings and a tolerance that exactly `count` cells of the job's window match; `None` if chance does not find any.
fn counted(random: &mut Random, chain: &Chain, job: &Job, count: usize) -> Option<(Readings, Job)> {
    let side = 1u32 << job.k;
    let cell = |index: u32| chart::place(job.corner.easting + index % side, job.corner.northing + index / side);
    let all: Vec<Readings> = (0..side * side).map(|index| chart::readings(chain, cell(index))).collect();
    for _ in 0..60 {
        let near = random.pick(&all);
        let wanted = Readings { a: near.a + random.between(-9, 9), b: near.b + random.between(-9, 9) };
        let mut misses: Vec<u64> = all.iter().map(|&found| chart::miss(found, wanted)).collect();
        misses.sort_unstable();
        if misses[count - 1] < misses[count] {
            return Some((wanted, Job { tolerance: misses[count - 1] as u32, ..*job }));
        }
    }
    None
}

/// Allowances that are just enough, one too few, none, and the one that is always enough.
pub fn allowances(random: &mut Random, turn: u64) -> Folder {
    let place = pieces::anywhere(random);
    let chain = any_chain(random, place);
    let wanted = chart::readings(&chain, place);
    let crowd = turn % 3 == 0;
    let k = random.below(if crowd { 6 } else { 20 }) as u32;
    let tolerance = if crowd { 50_000 } else { random.below(4) as u32 };
    let capped = Job { corner: pieces::corner_for(random, place, k), k, tolerance, allowance: 6000 };
    let needed = search::search(&chain, wanted, &capped, ROOM).visits;
    let full = search::full_allowance(k);
    let affordable = if needed < 6000 { u64::MAX } else { 5999 };
    let some = random.below(needed + 1);
    let edges = [needed, needed - 1, needed + 1, 0, 1, full, full - 1, u64::MAX, some];
    let job = Job { allowance: edges[turn as usize % edges.len()].min(affordable), ..capped };
    let other = Readings { a: wanted.a + 1, ..wanted };
    let mut log = vec![pieces::fix(1, 1, wanted), pieces::hold(2)];
    if job.allowance < 6000 {
        log.extend([pieces::fix(1, 3, other), pieces::hold(4)]);
    }
    log.push(pieces::fix(1, 5, wanted));
    Folder::new(&job, &[chain], &log)
}
