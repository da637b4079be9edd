//! Whether there is exactly one place (02, A2 and A3). Nothing here walks the window, stops or keeps to an allowance: the squares that
//! are visited are found level by level and put in chart order, so that a square's position is the number of its visit. What
//! the positions of the matching cells mean for an allowance is decided afterwards. Small windows are counted out as well.

use std::cmp::Reverse;

use crate::chart::{self, Chain, Place, Ranging, Readings};
use crate::refusals;
use crate::search::{self, Job, MARGIN, SWEPT_EXPONENT};

/// How many visits are listed at first, and how many times more if these decide nothing.
const FIRST_VISITS: usize = 1000;
const MORE_VISITS: usize = 8;

#[derive(Clone, Copy, PartialEq, Eq, Debug)]
pub enum Count {
    None,
    One(Place),
    Several,
}

/// The answer and its visits, or a refusal and its visits.
pub type Answer = Result<(Count, u64), (u32, u64)>;

/// What the first visits meet, however many are allowed: each matching cell with the number of its visit. `whole` says that
/// there are no further visits.
pub struct Figures {
    pub matches: Vec<(u64, Place)>,
    pub visits: u64,
    pub whole: bool,
}

impl Figures {
    /// The answer and the visits that it takes, if these figures are enough to tell.
    pub fn needed(&self) -> Option<(Count, u64)> {
        match self.matches[..] {
            [_, (visit, _), ..] => Some((Count::Several, visit)),
            [(_, place)] if self.whole => Some((Count::One(place), self.visits)),
            [] if self.whole => Some((Count::None, self.visits)),
            _ => None,
        }
    }

    /// The answer at an allowance, if these figures are enough to tell. If not, more visits are needed than are listed here.
    fn decide(&self, allowance: u64) -> Option<Answer> {
        match self.needed() {
            Some((count, visits)) if visits <= allowance => Some(Ok((count, visits))),
            None if self.visits < allowance => None,
            _ => Some(Err((refusals::ALLOWANCE, allowance))),
        }
    }
}

/// A square of the window by the offsets of its south-west cell from the corner, with that cell's chart number.
#[derive(Clone, Copy)]
struct Square {
    exponent: u32,
    east: u32,
    north: u32,
    number: u64,
}

impl Square {
    fn new(exponent: u32, east: u32, north: u32) -> Square {
        Square { exponent, east, north, number: chart::chart_number(east, north) }
    }

    /// Chart order; of the squares that begin with the same cell, the larger is visited first.
    fn order(&self) -> (u64, Reverse<u32>) {
        (self.number, Reverse(self.exponent))
    }

    /// The quarters in any order.
    fn quarters(&self) -> [Square; 4] {
        let half = 1 << (self.exponent - 1);
        let ends = [(0, 0), (half, 0), (0, half), (half, half)];
        ends.map(|(east, north)| Square::new(self.exponent - 1, self.east + east, self.north + north))
    }

    /// Whether a smaller square lies in this one.
    fn holds(&self, other: &Square) -> bool {
        let same = |one: u32, another: u32| one >> self.exponent == another >> self.exponent;
        self.exponent > other.exponent && same(self.east, other.east) && same(self.north, other.north)
    }

    fn place(&self, job: &Job, further: u32) -> Place {
        chart::place(job.corner.easting + self.east + further, job.corner.northing + self.north + further)
    }

    /// Whether a cell matches, or a larger square is not dropped.
    fn passes(&self, range: Ranging, chain: &Chain, wanted: Readings, job: &Job) -> bool {
        let (half, slack) =
            if self.exponent == 0 { (0, 0) } else { (1 << (self.exponent - 1), (2 << self.exponent) + MARGIN) };
        let found = chart::readings_with(range, chain, self.place(job, half));
        chart::miss(found, wanted) <= u64::from(job.tolerance + slack)
    }
}

/// The squares that are visited, in the order of the visits: the first `most`, and whether these are all. A square found on a
/// deeper level can only put off the visits after it, so what is beyond `most` on one level stays so.
fn visited(chain: &Chain, wanted: Readings, job: &Job, most: usize) -> (Vec<Square>, bool) {
    let mut squares = vec![Square::new(job.k, 0, 0)];
    let mut whole = true;
    for exponent in (1..=job.k).rev() {
        let kept = |square: &&Square| square.exponent == exponent && square.passes(chart::range, chain, wanted, job);
        let quarters: Vec<Square> = squares.iter().filter(kept).flat_map(Square::quarters).collect();
        squares.extend(quarters);
        squares.sort_by_key(Square::order);
        whole &= squares.len() <= most;
        squares.truncate(most);
    }
    (squares, whole)
}

/// The figures of the first `most` visits. The question must not be refused before it begins.
pub fn figures(chain: &Chain, wanted: Readings, job: &Job, most: usize) -> Figures {
    let (squares, whole) = visited(chain, wanted, job, most);
    let matches = |square: &Square| square.exponent == 0 && square.passes(chart::range, chain, wanted, job);
    let numbered = (1..).zip(&squares).filter(|(_, square)| matches(square));
    Figures {
        matches: numbered.map(|(visit, cell)| (visit, cell.place(job, 0))).collect(),
        visits: squares.len() as u64,
        whole,
    }
}

/// The figures of all visits by counting, for a small window. A square is visited if no larger square around it is dropped,
/// and before a cell or with it if the square's first cell has no higher chart number.
fn counted(chain: &Chain, wanted: Readings, job: &Job) -> Figures {
    let all = (0..=job.k).flat_map(|exponent| all_squares(job.k, exponent));
    let (passing, dropped): (Vec<Square>, Vec<Square>) =
        all.partition(|square| square.passes(chart::range_by_digits, chain, wanted, job));
    let is_visited = |square: &&Square| !dropped.iter().any(|larger| larger.holds(square));
    let numbers: Vec<u64> = passing.iter().chain(&dropped).filter(is_visited).map(|square| square.number).collect();
    let visit = |cell: &Square| numbers.iter().filter(|&&number| number <= cell.number).count() as u64;
    let cells = passing.iter().filter(|square| square.exponent == 0);
    let mut matches: Vec<(u64, Place)> = cells.map(|cell| (visit(cell), cell.place(job, 0))).collect();
    matches.sort_by_key(|&(visit, _)| visit);
    Figures { matches, visits: numbers.len() as u64, whole: true }
}

/// All squares of one exponent in a window.
fn all_squares(k: u32, exponent: u32) -> impl Iterator<Item = Square> {
    let across = 1u32 << (k - exponent);
    (0..across * across).map(move |index| Square::new(exponent, index % across << exponent, index / across << exponent))
}

/// Whether none, one or several cells of the job's window match.
pub fn how_many(chain: &Chain, wanted: Readings, job: &Job) -> Answer {
    search::admit(chain, wanted, job).map_err(|refusal| (refusal, 0))?;
    let mut most = FIRST_VISITS;
    let answer = loop {
        if let Some(answer) = figures(chain, wanted, job, most).decide(job.allowance) {
            break answer;
        }
        most *= MORE_VISITS;
    };
    if job.k <= SWEPT_EXPONENT {
        let counted = counted(chain, wanted, job).decide(job.allowance);
        assert_eq!(Some(answer), counted, "list and count disagree: {chain:?} {wanted:?} {job:?}");
    }
    answer
}

#[cfg(test)]
mod tests {
    use super::*;
    use crate::chart::tests::{CHAIN_002, CHAIN_1};
    use crate::chart::{MOST_EASTING, MOST_NORTHING};
    use crate::pieces;
    use crate::random::Random;

    const P4: Job = Job { corner: Place { easting: 30000, northing: 40000 }, k: 1, tolerance: 0, allowance: u64::MAX };
    const WANTED: Readings = Readings { a: -10000, b: -20000 };

    fn answer(wanted: Readings, job: Job) -> Answer {
        how_many(&CHAIN_1, wanted, &job)
    }

    fn one(easting: u32, northing: u32) -> Count {
        Count::One(chart::place(easting, northing))
    }

    #[test]
    fn p4_and_p5_are_several() {
        assert_eq!(answer(WANTED, P4), Ok((Count::Several, 5)));
        assert_eq!(answer(WANTED, Job { tolerance: 1, ..P4 }), Ok((Count::Several, 3)));
    }

    #[test]
    fn p8_and_p9_are_none() {
        let corner = chart::place(30001, 40000);
        assert_eq!(answer(WANTED, Job { corner, k: 0, ..P4 }), Ok((Count::None, 1)));
        assert_eq!(answer(Readings { a: 0, b: 0 }, P4), Ok((Count::None, 1)));
        assert_eq!(answer(Readings { a: 0, b: 0 }, Job { allowance: 0, ..P4 }), Err((10, 0)));
    }

    #[test]
    fn one_takes_the_whole_walk() {
        let second = Readings { a: -10000, b: -19999 };
        for (allowance, told) in [(0, Err((10, 0))), (4, Err((10, 4))), (5, Ok((one(30001, 40000), 5)))] {
            assert_eq!(answer(second, Job { allowance, ..P4 }), told);
        }
        assert_eq!(answer(WANTED, Job { k: 0, ..P4 }), Ok((one(30000, 40000), 1)));
        assert_eq!(answer(WANTED, Job { k: 0, allowance: 0, ..P4 }), Err((10, 0)));
    }

    #[test]
    fn several_take_the_visits_up_to_the_second() {
        let wide = Job { tolerance: 1, ..P4 };
        for (allowance, told) in
            [(1, Err((10, 1))), (2, Err((10, 2))), (3, Ok((Count::Several, 3))), (4, Ok((Count::Several, 3)))]
        {
            assert_eq!(answer(WANTED, Job { allowance, ..wide }), told);
        }
        let full = Job { allowance: 4, ..wide };
        assert_eq!(search::search(&CHAIN_1, WANTED, &full, 9).refusal, 10);
        assert_eq!(answer(WANTED, Job { allowance: 4, ..P4 }), Err((10, 4)));
        assert_eq!(answer(WANTED, Job { allowance: 5, ..P4 }), Ok((Count::Several, 5)));
    }

    #[test]
    fn refusals_in_order() {
        let wrong = Job { k: 25, tolerance: 100_001, allowance: 0, ..P4 };
        for unsound in [Chain { b: CHAIN_1.a, ..CHAIN_1 }, Chain { factor: 1_001_001, ..CHAIN_1 }] {
            assert_eq!(how_many(&unsound, Readings { a: 0, b: -1_000_000_001 }, &wrong), Err((3, 0)));
            assert_eq!(how_many(&unsound, Readings { a: i64::MIN, b: 0 }, &wrong), Err((3, 0)));
            assert_eq!(how_many(&unsound, WANTED, &wrong), Err((5, 0)));
        }
        assert_eq!(answer(WANTED, wrong), Err((6, 0)));
        assert_eq!(answer(WANTED, Job { k: 24, ..wrong }), Err((7, 0)));
        assert_eq!(answer(WANTED, Job { k: 24, tolerance: 100_000, ..wrong }), Err((10, 0)));
    }

    #[test]
    fn limits_of_the_window() {
        let far = Readings { a: 1_000_000_000, b: 1_000_000_000 };
        let last = chart::place(MOST_EASTING, MOST_NORTHING);
        assert_eq!(answer(far, Job { k: 24, ..P4 }), Ok((Count::None, 1)));
        assert_eq!(answer(far, Job { corner: last, k: 0, ..P4 }), Ok((Count::None, 1)));
        assert_eq!(answer(far, Job { corner: last, k: 1, ..P4 }), Err((6, 0)));
    }

    #[test]
    fn every_cell_may_match() {
        let all = Job { corner: chart::place(0, 0), k: 24, tolerance: 100_000, allowance: 26 };
        let near = chart::readings(&CHAIN_1, chart::place(0, 0));
        assert_eq!(answer(near, all), Ok((Count::Several, 26)));
        assert_eq!(answer(near, Job { allowance: u64::MAX, ..all }), Ok((Count::Several, 26)));
        assert_eq!(answer(near, Job { allowance: 25, ..all }), Err((10, 25)));
    }

    #[test]
    fn published_crossings() {
        let wanted = Readings { a: 12205441, b: 9172617 };
        let job = Job { corner: chart::place(47499999, 497945629), k: 24, ..P4 };
        let figures = figures(&CHAIN_002, wanted, &job, 10_000);
        assert_eq!((figures.visits, figures.whole, figures.matches.len()), (3117, true, 3));
        let second = figures.matches[1].0;
        assert_eq!(how_many(&CHAIN_002, wanted, &job), Ok((Count::Several, second)));
        assert_eq!(how_many(&CHAIN_002, wanted, &Job { allowance: second, ..job }), Ok((Count::Several, second)));
        assert_eq!(how_many(&CHAIN_002, wanted, &Job { allowance: second - 1, ..job }), Err((10, second - 1)));
    }

    #[test]
    fn a_short_list_says_what_the_whole_says_or_nothing() {
        let figures = |most| figures(&CHAIN_1, WANTED, &Job { k: 5, ..P4 }, most);
        let whole = figures(10_000);
        for most in 1..100 {
            let short = figures(most);
            for allowance in 0..100 {
                let told = short.decide(allowance);
                assert!(told.is_none() || told == whole.decide(allowance), "{most} {allowance}");
                assert!(told.is_some() || allowance > most as u64, "{most} {allowance}");
            }
        }
    }

    /// What a search with room for one place says of the same.
    fn by_search(chain: &Chain, wanted: Readings, job: &Job) -> Answer {
        let found = search::search(chain, wanted, job, 1);
        match found.refusal {
            0 => Ok((Count::One(found.places[0]), found.visits)),
            refusals::NOWHERE => Ok((Count::None, found.visits)),
            refusals::ROOM => Ok((Count::Several, found.visits)),
            refusal => Err((refusal, found.visits)),
        }
    }

    #[test]
    fn a_search_with_room_for_one_agrees() {
        let mut random = Random::new(9);
        for _ in 0..3000 {
            let place = pieces::anywhere(&mut random);
            let reach = 1 << random.between(8, 28);
            let chain = pieces::sound_chain(&mut random, place, reach);
            let k = random.below(8) as u32;
            let corner = pieces::corner_for(&mut random, place, k);
            let job = Job { corner, k, tolerance: random.below(3) as u32, allowance: random.below(400) };
            let wanted = chart::readings(&chain, pieces::about(&mut random, place, 3));
            assert_eq!(how_many(&chain, wanted, &job), by_search(&chain, wanted, &job), "{chain:?} {wanted:?} {job:?}");
        }
    }
}
