//! Makes the chains, places, numbers and bytes of which logs and requests are made.

use crate::chart::{self, Chain, Place, Readings, LEAST_FACTOR, MOST_EASTING, MOST_FACTOR, MOST_NORTHING, UNIT_FACTOR};
use crate::numbers::{self, MOST_CENTIMETRES};
use crate::random::Random;
use crate::records::{self, FACTOR_RECORD, RECORD};
use crate::search::Job;

const SIGN: u64 = 1 << 63;

/// The binary64 number nearest to half a centimetre; a little above it.
const HALF_CENTIMETRE: u64 = 0x3f74_7ae1_47ae_147b;

/// Patterns at the limits of binary64 and of 01: both zeros, subnormals, half a centimetre and 10,000,000 metres with their
/// neighbours, infinities, NaNs.
const EDGE_PATTERNS: [u64; 18] = [
    0,
    1,
    0x000f_ffff_ffff_ffff,
    0x0010_0000_0000_0000,
    HALF_CENTIMETRE - 1,
    HALF_CENTIMETRE,
    HALF_CENTIMETRE + 1,
    0x3f84_7ae1_47ae_147b,
    0x412e_8480_0000_0000,
    0x412e_8480_028f_5c29,
    0x4163_12cf_ffff_ffff,
    0x4163_12d0_0000_0000,
    0x4163_12d0_0000_0001,
    0x7fef_ffff_ffff_ffff,
    0x7ff0_0000_0000_0000,
    0x7ff0_0000_0000_0001,
    0x7ff8_0000_0000_0000,
    0x7fff_ffff_ffff_ffff,
];

pub fn anywhere(random: &mut Random) -> Place {
    chart::place(random.between(0, MOST_EASTING.into()) as u32, random.between(0, MOST_NORTHING.into()) as u32)
}

/// Any place, or one in whole quarters of a metre, whose numbers are exact.
pub fn any_place(random: &mut Random) -> Place {
    let place = anywhere(random);
    if random.once_in(2) {
        return place;
    }
    chart::place(place.easting / 25 * 25, place.northing / 25 * 25)
}

/// A place in range, at most `reach` from another in easting and in northing.
pub fn about(random: &mut Random, place: Place, reach: u32) -> Place {
    let mut near = |from: u32, most: u32| {
        let shift = random.between(-i64::from(reach), reach.into());
        (i64::from(from) + shift).clamp(0, most.into()) as u32
    };
    chart::place(near(place.easting, MOST_EASTING), near(place.northing, MOST_NORTHING))
}

/// A place at a limit of the range, beyond one, or any two numbers at all.
pub fn edge_place(random: &mut Random) -> Place {
    let mut near = |most: u32| match random.below(8) {
        0 => 0,
        1 => 1,
        2 => most - 1,
        3 | 4 => most,
        5 => most + 1,
        6 => u32::MAX,
        _ => random.next() as u32,
    };
    chart::place(near(MOST_EASTING), near(MOST_NORTHING))
}

/// A factor in range: any, the one that leaves distances as they are, or one at an end of the range.
pub fn factor(random: &mut Random) -> u32 {
    match random.below(6) {
        0 => UNIT_FACTOR,
        1 => LEAST_FACTOR + random.below(2) as u32,
        2 => MOST_FACTOR - random.below(2) as u32,
        _ => random.between(LEAST_FACTOR.into(), MOST_FACTOR.into()) as u32,
    }
}

/// A factor out of range: next to it, at an end of 32 bits, or any below or above.
pub fn bad_factor(random: &mut Random) -> u32 {
    let below = random.between(0, i64::from(LEAST_FACTOR) - 1) as u32;
    let above = random.between(i64::from(MOST_FACTOR) + 1, u32::MAX.into()) as u32;
    random.pick(&[LEAST_FACTOR - 1, MOST_FACTOR + 1, 0, u32::MAX, below, above])
}

pub fn sound_chain(random: &mut Random, place: Place, reach: u32) -> Chain {
    loop {
        let factor = factor(random);
        let mut station = || about(random, place, reach);
        let chain = Chain { master: station(), a: station(), b: station(), factor };
        if chart::is_sound(&chain) {
            return chain;
        }
    }
}

/// A station whose squared distance from the place is one less than a square, where a rounded root is one too large:
/// (2n)^2 + (2n^2)^2 = (2n^2 + 1)^2 - 1.
fn below_a_square(random: &mut Random, place: Place) -> Place {
    let longest = place.northing.max(MOST_NORTHING - place.northing);
    let n = random.between(1, chart::root(u64::from(longest) / 2) as i64) as u32;
    let (east, north) = (2 * n, 2 * n * n);
    let easting = if place.easting < east { place.easting + east } else { place.easting - east };
    let northing = if place.northing < north { place.northing + north } else { place.northing - north };
    chart::place(easting, northing)
}

/// A sound chain whose squared distances from the place are squares, or one less than squares, or any numbers.
pub fn square_chain(random: &mut Random, place: Place) -> Chain {
    loop {
        let factor = factor(random);
        let mut station = || match random.below(6) {
            0 => anywhere(random),
            1 => chart::place(place.easting, anywhere(random).northing),
            _ => below_a_square(random, place),
        };
        let chain = Chain { master: station(), a: station(), b: station(), factor };
        if chart::is_sound(&chain) {
            return chain;
        }
    }
}

/// A chain with two stations equal, with one out of range, or, every other one, with its factor out of range.
pub fn unsound_chain(random: &mut Random) -> Chain {
    let middle = anywhere(random);
    let sound = sound_chain(random, middle, 5000);
    let beyond = match random.below(4) {
        0 => chart::place(MOST_EASTING + 1, sound.a.northing),
        1 => chart::place(sound.a.easting, MOST_NORTHING + 1),
        2 => chart::place(u32::MAX, 0),
        _ => chart::place(0, u32::MAX),
    };
    match random.below(12) {
        0 => Chain { a: sound.master, ..sound },
        1 => Chain { b: sound.master, ..sound },
        2 => Chain { b: sound.a, ..sound },
        3 => Chain { master: beyond, ..sound },
        4 => Chain { a: beyond, ..sound },
        5 => Chain { b: beyond, ..sound },
        _ => Chain { factor: bad_factor(random), ..sound },
    }
}

/// A corner whose window of exponent `k` holds the place and is in range.
pub fn corner_for(random: &mut Random, place: Place, k: u32) -> Place {
    let side = 1i64 << k;
    let mut corner = |at: u32, most: u32| {
        let lowest = (i64::from(at) - side + 1).max(0);
        let highest = i64::from(at).min(i64::from(most) - side + 1);
        random.between(lowest, highest) as u32
    };
    chart::place(corner(place.easting, MOST_EASTING), corner(place.northing, MOST_NORTHING))
}

/// A pattern at a limit of binary64 or of 01, of either sign.
pub fn edge_pattern(random: &mut Random) -> u64 {
    random.pick(&EDGE_PATTERNS) | random.below(2) << 63
}

/// A pattern at a tie of rounding, or within a few units of a half centimetre.
pub fn tie_pattern(random: &mut Random) -> u64 {
    let reach = random.pick(&[10, 10_000, 100_000_000]);
    let odd = 2 * random.between(-reach, reach) + 1;
    if random.once_in(2) {
        return numbers::pattern_of(odd, 8);
    }
    let half_centimetre = numbers::pattern_of(odd, 200);
    half_centimetre.wrapping_add(random.between(-2, 2) as u64)
}

/// A number of whole quarters of a metre, the only ones that are not rounded.
pub fn exact_pattern(random: &mut Random) -> u64 {
    let reach = random.pick(&[4, 4000, 40_000_000]);
    numbers::pattern_of(random.between(-reach, reach), 4)
}

/// A number that a place may have: exact, rounded up or down, a tie, about half a centimetre, or nearly nothing.
pub fn place_pattern(random: &mut Random) -> u64 {
    let reach = random.pick(&[0, 100, 40_000, i64::from(MOST_EASTING) - 1]);
    let centimetres = random.between(0, reach);
    match random.below(8) {
        0..=2 => numbers::pattern_of(centimetres / 25, 4),
        3 => random.below(2) * SIGN,
        4 => numbers::pattern_of(centimetres / 25 * 2 + 1, 8),
        5 => HALF_CENTIMETRE.wrapping_add(random.between(-1, 1) as u64),
        6 => random.below(1 << 52) | random.next() & SIGN,
        _ => rounding_to(random, centimetres),
    }
}

/// A pattern of any exponent.
pub fn any_pattern(random: &mut Random) -> u64 {
    match random.below(4) {
        0 => random.next(),
        1 => random.below(2048) << 52 | random.next() & SIGN,
        2 => numbers::pattern_of(random.between(-1 << 40, 1 << 40), 1 << 20),
        _ => random.between(1008, 1047) as u64 * (1 << 52) + random.below(1 << 52) + (random.next() & SIGN),
    }
}

/// The pattern of centimetres in metres; a number over the limit is cut to the limit.
pub fn pattern(centimetres: i64) -> u64 {
    numbers::pattern_of(centimetres.clamp(-MOST_CENTIMETRES, MOST_CENTIMETRES), 100)
}

/// A number of metres that rounds to these centimetres: the nearest to them, one beside it, or mostly any other.
pub fn rounding_to(random: &mut Random, centimetres: i64) -> u64 {
    let inside = centimetres.clamp(1 - MOST_CENTIMETRES, MOST_CENTIMETRES - 1);
    let nearest = pattern(inside);
    match random.below(4) {
        0 => nearest,
        1 if inside == 0 => random.below(2) * SIGN + random.below(2),
        1 => nearest - 1 + 2 * random.below(2),
        _ => numbers::pattern_of(1000 * inside + random.between(-499, 499), 100_000),
    }
}

/// The readings in whole quarters of a metre that are nearest to these; they differ by 12 centimetres at most.
pub fn exact_readings(near: Readings) -> Readings {
    let quarters = |reading: i64| (reading + 12).div_euclid(25) * 25;
    Readings { a: quarters(near.a), b: quarters(near.b) }
}

pub fn record(kind: u8, chain: u8, line: u32, fields: [u64; 3]) -> [u8; RECORD] {
    let mut bytes = [0; RECORD];
    bytes[0] = kind;
    bytes[1] = chain;
    bytes[4..8].copy_from_slice(&line.to_le_bytes());
    for (index, field) in fields.iter().enumerate() {
        bytes[8 + 8 * index..][..8].copy_from_slice(&field.to_le_bytes());
    }
    bytes
}

pub fn fix(chain: u8, line: u32, wanted: Readings) -> [u8; RECORD] {
    record(1, chain, line, [pattern(wanted.a), pattern(wanted.b), 0])
}

/// Readings that round to these, each of them exact or not.
pub fn rounded_fix(random: &mut Random, chain: u8, line: u32, wanted: Readings) -> [u8; RECORD] {
    record(1, chain, line, [rounding_to(random, wanted.a), rounding_to(random, wanted.b), 0])
}

pub fn grid(line: u32, place: Place) -> [u8; RECORD] {
    record(2, 0, line, [pattern(place.easting.into()), pattern(place.northing.into()), 0])
}

/// A place whose numbers are each exact or not.
pub fn rounded_grid(random: &mut Random, line: u32) -> [u8; RECORD] {
    record(2, 0, line, [place_pattern(random), place_pattern(random), 0])
}

pub fn hold(line: u32) -> [u8; RECORD] {
    record(3, 0, line, [0; 3])
}

pub fn table(chains: &[Chain]) -> Vec<u8> {
    chains.iter().flat_map(records::chain_bytes).collect()
}

/// The side file of the chains.
pub fn scale(chains: &[Chain]) -> Vec<u8> {
    chains.iter().flat_map(|chain| chain.factor.to_le_bytes()).collect()
}

/// Changes the length of a side file: a byte or a factor less or more, nothing left, or twice as much.
pub fn misfit_scale(random: &mut Random, bytes: &mut Vec<u8>) {
    let fitting = bytes.len();
    let less = |count| fitting.saturating_sub(count);
    let lengths = [less(1), fitting + 1, less(FACTOR_RECORD), fitting + FACTOR_RECORD, 0, 2 * fitting];
    bytes.resize(random.pick(&lengths), 0);
}

pub fn job(job: &Job) -> Vec<u8> {
    records::job_bytes(job).to_vec()
}

/// A line number, sometimes one at an end of the range.
pub fn line(random: &mut Random) -> u32 {
    match random.below(6) {
        0 => random.pick(&[0, 1, u32::MAX, u32::MAX - 1, 9, 10, 99, 100]),
        1 => random.next() as u32,
        _ => random.below(5000) as u32,
    }
}

/// Changes some bytes of a file, or its length.
pub fn damage(random: &mut Random, bytes: &mut Vec<u8>) {
    for _ in 0..random.between(1, 4) {
        if bytes.is_empty() {
            return bytes.push(random.byte());
        }
        let index = random.below(bytes.len() as u64) as usize;
        match random.below(12) {
            0 => bytes[index] = random.pick(&[0, 1, 2, 3, 0x7f, 0x80, 0xff]),
            1 => bytes.truncate(index),
            2 => bytes.push(random.byte()),
            3 | 4 => bytes[index] = random.byte(),
            _ => bytes[index] ^= 1 << random.below(8),
        }
    }
}

#[cfg(test)]
mod tests {
    use super::*;
    use crate::numbers::Mark;
    use crate::records::Entry;

    #[test]
    fn what_is_made_is_read() {
        let mut random = Random::new(5);
        for _ in 0..2000 {
            let place = anywhere(&mut random);
            assert!(matches!(records::entry(&grid(1, place)), Ok(Entry::Grid { place: read, .. }) if read == place));
            let k = random.below(25) as u32;
            let made = Job { corner: corner_for(&mut random, place, k), k, tolerance: 100_000, allowance: random.next() };
            assert_eq!(records::job(&job(&made)), Ok(made));
            let chains = [unsound_chain(&mut random), sound_chain(&mut random, place, 3)];
            let (table, mut scale) = (table(&chains), scale(&chains));
            assert_eq!([1, 2].map(|number| records::chain(&table, &scale, number)), [Err(5), Ok(chains[1])]);
            misfit_scale(&mut random, &mut scale);
            assert_eq!(records::chain(&table, &scale, 2), Err(1));
            let chain = chains[1];
            let wanted = chart::readings(&chain, place);
            let entry = records::entry(&fix(9, 1, wanted));
            assert!(matches!(entry, Ok(Entry::Hyperbolic { chain: 9, wanted: read, .. }) if read == wanted));
            assert!(chart::is_sound(&square_chain(&mut random, place)));
            let station = below_a_square(&mut random, place);
            let east = u64::from(station.easting.abs_diff(place.easting));
            let north = u64::from(station.northing.abs_diff(place.northing));
            assert_eq!(east * east + north * north, (north + 1) * (north + 1) - 1);
        }
    }

    #[test]
    fn numbers_are_rounded_as_they_should() {
        let mut random = Random::new(6);
        let mark = |pattern| numbers::centimetres(pattern).unwrap().1;
        for _ in 0..20_000 {
            let centimetres = random.between(-3, 3) + random.pick(&[0, 25, -40_000, 999_999_000, -999_999_000]);
            let rounding = rounding_to(&mut random, centimetres);
            assert_eq!(numbers::centimetres(rounding).unwrap().0, centimetres);
            assert_eq!(mark(exact_pattern(&mut random)), Mark::Equal);
            let exact = exact_readings(Readings { a: centimetres, b: -centimetres });
            assert!(exact.a.abs_diff(centimetres) <= 12 && exact.b.abs_diff(-centimetres) <= 12);
            assert_eq!([mark(pattern(exact.a)), mark(pattern(exact.b))], [Mark::Equal; 2]);
            assert!(records::entry(&rounded_grid(&mut random, 1)).is_ok());
        }
    }
}
