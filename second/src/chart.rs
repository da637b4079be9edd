//! Places, chains, ranges and readings (01, Distance and reading; 02, A3).

use crate::refusals;

pub const MOST_EASTING: u32 = 100_000_000;
pub const MOST_NORTHING: u32 = 1_000_000_000;
pub const LEAST_FACTOR: u32 = 999_000;
pub const MOST_FACTOR: u32 = 1_001_000;
/// The factor at which a range is the distance: factors are counted in parts of it.
pub const UNIT_FACTOR: u32 = 1_000_000;

#[derive(Clone, Copy, PartialEq, Eq, Debug)]
pub struct Place {
    pub easting: u32,
    pub northing: u32,
}

#[derive(Clone, Copy, PartialEq, Eq, Debug)]
pub struct Chain {
    pub master: Place,
    pub a: Place,
    pub b: Place,
    pub factor: u32,
}

/// The readings of the two slaves, in centimetres.
#[derive(Clone, Copy, PartialEq, Eq, Debug)]
pub struct Readings {
    pub a: i64,
    pub b: i64,
}

pub fn place(easting: u32, northing: u32) -> Place {
    Place { easting, northing }
}

/// The chain with these six numbers, easting and northing of master, A and B, and this factor.
pub fn chain(numbers: [u32; 6], factor: u32) -> Chain {
    let [master_easting, master_northing, a_easting, a_northing, b_easting, b_northing] = numbers;
    Chain {
        master: place(master_easting, master_northing),
        a: place(a_easting, a_northing),
        b: place(b_easting, b_northing),
        factor,
    }
}

/// The six numbers of a chain's stations.
pub fn chain_numbers(chain: &Chain) -> [u32; 6] {
    let Chain { master, a, b, .. } = chain;
    [master.easting, master.northing, a.easting, a.northing, b.easting, b.northing]
}

pub fn in_range(place: Place) -> bool {
    place.easting <= MOST_EASTING && place.northing <= MOST_NORTHING
}

pub fn is_factor(number: u32) -> bool {
    (LEAST_FACTOR..=MOST_FACTOR).contains(&number)
}

pub fn is_sound(chain: &Chain) -> bool {
    let distinct = chain.master != chain.a && chain.master != chain.b && chain.a != chain.b;
    distinct && [chain.master, chain.a, chain.b].into_iter().all(in_range) && is_factor(chain.factor)
}

/// Refuses a chain that is not sound, with 5.
pub fn admit_chain(chain: &Chain) -> Result<(), u32> {
    if !is_sound(chain) {
        return Err(refusals::CHAIN);
    }
    Ok(())
}

/// Sixteen times the root of a number's leading byte plus one half: with it `root` begins.
const FIRST_ROOTS: [u8; 256] = first_roots();

const fn first_roots() -> [u8; 256] {
    let mut roots = [0; 256];
    let mut byte = 0;
    let mut root = 0;
    while byte < 256 {
        while (root + 1) * (root + 1) <= 256 * byte + 128 {
            root += 1;
        }
        roots[byte] = root as u8;
        byte += 1;
    }
    roots
}

/// The whole part of the square root of a number below 2^62: two steps of Heron's rule from a guess that is good to a
/// hundredth part, and then steps of one until the squares on both sides fit.
pub fn root(number: u64) -> u64 {
    if number == 0 {
        return 0;
    }
    let digits = 64 - number.leading_zeros();
    let pairs = digits.saturating_sub(7) / 2;
    let mut guess = (u64::from(FIRST_ROOTS[(number >> (2 * pairs)) as usize]) << pairs) / 16;
    guess = (guess + number / guess) / 2;
    guess = (guess + number / guess) / 2;
    while guess * guess > number {
        guess -= 1;
    }
    while (guess + 1) * (guess + 1) <= number {
        guess += 1;
    }
    guess
}

/// The largest range whose product with the factor is at most a million times the distance. It begins with the distance and
/// what the factor lacks of a million, put on twice over, which is off by a few, and goes on in steps of one until the products
/// on both sides fit.
fn scaled(distance: u64, factor: u32) -> u64 {
    let (unit, factor, distance) = (i64::from(UNIT_FACTOR), i64::from(factor), distance as i64);
    let lacking = |length: i64| length * (unit - factor) / unit;
    let mut range = distance + lacking(distance + lacking(distance));
    while range * factor > unit * distance {
        range -= 1;
    }
    while (range + 1) * factor <= unit * distance {
        range += 1;
    }
    range as u64
}

/// The largest number below 2^31 that fits, found one binary digit after another. If a number fits, so do all below it.
fn by_digits(fits: impl Fn(u64) -> bool) -> u64 {
    (0..31).rev().map(|digit| 1 << digit).fold(0, |number, digit| if fits(number | digit) { number | digit } else { number })
}

fn root_by_digits(number: u64) -> u64 {
    by_digits(|root| root * root <= number)
}

fn scaled_by_digits(distance: u64, factor: u32) -> u64 {
    by_digits(|range| range * u64::from(factor) <= u64::from(UNIT_FACTOR) * distance)
}

/// How a range is found, from a squared distance and a factor that is allowed.
pub type Ranging = fn(u64, u32) -> u64;

pub fn range(squared_distance: u64, factor: u32) -> u64 {
    scaled(root(squared_distance), factor)
}

/// The same range for the sweep that checks the search.
pub fn range_by_digits(squared_distance: u64, factor: u32) -> u64 {
    scaled_by_digits(root_by_digits(squared_distance), factor)
}

fn squared_distance(one: Place, other: Place) -> u64 {
    let east = u64::from(one.easting.abs_diff(other.easting));
    let north = u64::from(one.northing.abs_diff(other.northing));
    east * east + north * north
}

/// The readings at a place, by the way to find ranges that the caller gives. Chain and place must be in range.
pub fn readings_with(range: Ranging, chain: &Chain, place: Place) -> Readings {
    let range = |station| range(squared_distance(place, station), chain.factor) as i64;
    let master = range(chain.master);
    Readings { a: range(chain.a) - master, b: range(chain.b) - master }
}

pub fn readings(chain: &Chain, place: Place) -> Readings {
    readings_with(range, chain, place)
}

/// The readings expected at a place that somebody asks about: 4 precedes 5.
pub fn expected(chain: &Chain, place: Place) -> Result<Readings, u32> {
    if !in_range(place) {
        return Err(refusals::RANGE);
    }
    admit_chain(chain)?;
    Ok(readings(chain, place))
}

/// How far the worse of two readings is from what is wanted.
pub fn miss(found: Readings, wanted: Readings) -> u64 {
    found.a.abs_diff(wanted.a).max(found.b.abs_diff(wanted.b))
}

/// A cell's number in chart order: the bits of its offsets in turn, the northing's above the easting's.
pub fn chart_number(east: u32, north: u32) -> u64 {
    let bits = |offset: u32| (0..32).map(move |bit| u64::from(offset >> bit & 1) << (2 * bit));
    bits(east).sum::<u64>() + 2 * bits(north).sum::<u64>()
}

#[cfg(test)]
pub mod tests {
    use super::*;
    use crate::random::Random;

    /// Chain 1 of 01's examples.
    pub const CHAIN_1: Chain = Chain {
        master: Place { easting: 0, northing: 0 },
        a: Place { easting: 30000, northing: 0 },
        b: Place { easting: 0, northing: 40000 },
        factor: UNIT_FACTOR,
    };

    /// The chain of source document 002.
    pub const CHAIN_002: Chain = Chain {
        master: Place { easting: 50000000, northing: 500000000 },
        a: Place { easting: 40000000, northing: 490000000 },
        b: Place { easting: 60000000, northing: 500000000 },
        factor: UNIT_FACTOR,
    };

    /// The factor that fits document 002's readings of A best, in millionths.
    pub const FACTOR_002: u32 = 999_641;

    /// The points of document 002, each with its readings, and with those that FACTOR_002 gives.
    pub const POINTS_002: [(Place, Readings, Readings); 4] = [
        point(60000000, 490000000, [5857865, -4142135], [5859969, -4143622]),
        point(60000000, 490100000, [5928647, -4171602], [5930776, -4173100]),
        point(60100000, 490000000, [5886978, -4212523], [5889092, -4214036]),
        point(60100000, 490100000, [5957406, -4242337], [5959545, -4243861]),
    ];

    const fn point(easting: u32, northing: u32, plain: [i64; 2], scaled: [i64; 2]) -> (Place, Readings, Readings) {
        let readings = [Readings { a: plain[0], b: plain[1] }, Readings { a: scaled[0], b: scaled[1] }];
        (Place { easting, northing }, readings[0], readings[1])
    }

    fn at(easting: u32, northing: u32) -> (i64, i64) {
        scaled_at(UNIT_FACTOR, easting, northing)
    }

    fn scaled_at(factor: u32, easting: u32, northing: u32) -> (i64, i64) {
        let found = expected(&Chain { factor, ..CHAIN_1 }, place(easting, northing)).unwrap();
        (found.a, found.b)
    }

    #[test]
    fn p1_to_p3_the_readings_of_three_places() {
        assert_eq!(at(30000, 40000), (-10000, -20000));
        assert_eq!(at(30001, 40000), (-10000, -19999));
        assert_eq!(at(30000, 40001), (-9999, -20000));
    }

    #[test]
    fn each_distance_is_cut_by_itself() {
        assert_eq!(at(1, 1), (29998, 39998));
    }

    #[test]
    fn a_place_is_refused_before_a_chain() {
        let unsound = Chain { a: CHAIN_1.master, ..CHAIN_1 };
        let far = place(MOST_EASTING + 1, 0);
        assert_eq!(expected(&unsound, far), Err(4));
        assert_eq!(expected(&unsound, place(0, MOST_NORTHING + 1)), Err(4));
        assert_eq!(expected(&unsound, place(0, 0)), Err(5));
        assert_eq!(expected(&Chain { b: far, ..CHAIN_1 }, place(0, 0)), Err(5));
        assert!(expected(&CHAIN_1, place(MOST_EASTING, MOST_NORTHING)).is_ok());
    }

    #[test]
    fn a_factor_is_refused_as_a_chain_is() {
        let far = place(MOST_EASTING + 1, 0);
        for factor in [0, 1, LEAST_FACTOR - 1, MOST_FACTOR + 1, u32::MAX] {
            let chain = Chain { factor, ..CHAIN_1 };
            assert_eq!([far, place(0, 0)].map(|place| expected(&chain, place)), [Err(4), Err(5)], "{factor}");
        }
        assert_eq!(scaled_at(LEAST_FACTOR, 30000, 40000), (-10010, -20020));
        assert_eq!(scaled_at(MOST_FACTOR, 30000, 40000), (-9990, -19980));
    }

    #[test]
    fn distance_and_range_are_both_cut() {
        assert_eq!(range(998_000, LEAST_FACTOR), 998, "the root 998.9995 cut once, after scaling, would be 999");
        assert_eq!(range(998_001, LEAST_FACTOR), 1000);
        assert_eq!([MOST_FACTOR, LEAST_FACTOR].map(|factor| range(2, factor)), [0, 1], "the root is 1.41");
    }

    #[test]
    fn each_range_is_scaled_by_itself() {
        assert_eq!(scaled_at(MOST_FACTOR, 1, 1), (29969, 39959), "the differences scaled would be 29968 and 39958");
    }

    #[test]
    fn the_points_of_document_002() {
        for (point, plain, scaled) in POINTS_002 {
            assert_eq!(expected(&CHAIN_002, point), Ok(plain));
            assert_eq!(expected(&Chain { factor: FACTOR_002, ..CHAIN_002 }, point), Ok(scaled));
        }
    }

    #[test]
    fn a_chain_has_six_numbers_and_a_factor() {
        assert_eq!(chain([0, 0, 30000, 0, 0, 40000], 1_000_000), CHAIN_1);
        assert_eq!(chain_numbers(&chain([1, 2, 3, 4, 5, 6], 7)), [1, 2, 3, 4, 5, 6]);
    }

    #[test]
    fn roots_about_squares() {
        for root_of in [root, root_by_digits] {
            assert_eq!([0, 1, 2, 3, 4, 8, 9].map(root_of), [0, 1, 1, 1, 2, 2, 3]);
            for side in [10u64, 255, 256, 65_535, 999_999_937, 1_000_000_000, 1_004_987_562] {
                assert_eq!(root_of(side * side - 1), side - 1);
                assert_eq!(root_of(side * side), side);
                assert_eq!(root_of(side * side + 2 * side), side);
            }
        }
    }

    #[test]
    fn the_two_roots_agree() {
        let mut number = 1u64;
        for step in 0..200_000u64 {
            number = number.wrapping_mul(6_364_136_223_846_793_005).wrapping_add(step);
            let cut = number >> (2 + step % 62);
            assert_eq!(root(cut), root_by_digits(cut), "{cut}");
        }
    }

    #[test]
    fn the_two_ranges_are_what_document_02_says() {
        let mut random = Random::new(8);
        for step in 0..200_000u64 {
            let distance = random.below(1_004_987_562 >> (step % 30)) + step % 2;
            let factor = random.between(LEAST_FACTOR.into(), MOST_FACTOR.into()) as u32;
            for factor in [factor, LEAST_FACTOR, LEAST_FACTOR + 1, MOST_FACTOR - 1, MOST_FACTOR] {
                let quotient = 1_000_000 * distance / u64::from(factor);
                assert_eq!([scaled, scaled_by_digits].map(|scaled| scaled(distance, factor)), [quotient; 2]);
            }
            assert_eq!([scaled, scaled_by_digits].map(|scaled| scaled(distance, 1_000_000)), [distance; 2]);
        }
    }

    #[test]
    fn chart_numbers_of_a_small_square() {
        assert_eq!([(0, 0), (1, 0), (0, 1), (1, 1), (2, 0), (0, 2)].map(|(e, n)| chart_number(e, n)), [0, 1, 2, 3, 4, 8]);
    }
}
