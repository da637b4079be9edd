//! The search and its count (01, The search and its count; 02, A3) by a stack of squares; a sweep of small windows checks it.

use crate::chart::{self, Chain, Place, Readings, MOST_EASTING, MOST_NORTHING};
use crate::numbers::MOST_CENTIMETRES;
use crate::refusals;

pub const MOST_EXPONENT: u32 = 24;
pub const MOST_TOLERANCE: u32 = 100_000;
/// A square is dropped if a reading differs by more than the tolerance, twice its side and this.
pub const MARGIN: u32 = 4;
/// Windows up to this exponent are swept cell by cell as well.
pub const SWEPT_EXPONENT: u32 = 3;

#[derive(Clone, Copy, PartialEq, Eq, Debug)]
pub struct Job {
    pub corner: Place,
    pub k: u32,
    pub tolerance: u32,
    pub allowance: u64,
}

/// What a search gives: refusal 0 with places, or a refusal with none.
#[derive(Clone, PartialEq, Eq, Debug)]
pub struct Found {
    pub refusal: u32,
    pub places: Vec<Place>,
    pub visits: u64,
}

/// A square still to be visited, named by its south-west cell.
#[derive(Clone, Copy)]
struct Square {
    corner: Place,
    side: u32,
}

impl Found {
    fn refused(refusal: u32, visits: u64) -> Found {
        Found { refusal, places: Vec::new(), visits }
    }

    pub fn unvisited(refusal: u32) -> Found {
        Found::refused(refusal, 0)
    }
}

impl Square {
    /// The cell half a side east and north of the corner; of a square of one cell, that cell.
    fn middle(self) -> Place {
        self.offset(self.side / 2, self.side / 2)
    }

    fn offset(self, east: u32, north: u32) -> Place {
        chart::place(self.corner.easting + east, self.corner.northing + north)
    }

    /// The quarters in the order in which they go onto the stack: the first to visit comes last.
    fn quarters_reversed(self) -> [Square; 4] {
        let half = self.side / 2;
        [(half, half), (0, half), (half, 0), (0, 0)]
            .map(|(east, north)| Square { corner: self.offset(east, north), side: half })
    }
}

/// Refuses a wrong window with 6, then a wrong tolerance with 7.
pub fn admit_job(job: &Job) -> Result<(), u32> {
    if job.k > MOST_EXPONENT {
        return Err(refusals::WINDOW);
    }
    let last = (1u64 << job.k) - 1;
    let east = u64::from(job.corner.easting) + last;
    let north = u64::from(job.corner.northing) + last;
    if east > u64::from(MOST_EASTING) || north > u64::from(MOST_NORTHING) {
        return Err(refusals::WINDOW);
    }
    if job.tolerance > MOST_TOLERANCE {
        return Err(refusals::TOLERANCE);
    }
    Ok(())
}

/// Refuses readings with 3, then a chain with 5, then a job.
pub fn admit(chain: &Chain, wanted: Readings, job: &Job) -> Result<(), u32> {
    let limits = -MOST_CENTIMETRES..=MOST_CENTIMETRES;
    if !limits.contains(&wanted.a) || !limits.contains(&wanted.b) {
        return Err(refusals::NUMBER);
    }
    chart::admit_chain(chain)?;
    admit_job(job)
}

/// Searches the job's window for matching cells, in chart order; more of them than `room` are refused.
pub fn search(chain: &Chain, wanted: Readings, job: &Job, room: usize) -> Found {
    if let Err(refusal) = admit(chain, wanted, job) {
        return Found::unvisited(refusal);
    }
    let found = walk(chain, wanted, job, room);
    let complete = found.refusal == 0 || found.refusal == refusals::NOWHERE;
    if complete && job.k <= SWEPT_EXPONENT {
        assert_eq!(found.places, sweep(chain, wanted, job), "walk and sweep disagree: {chain:?} {wanted:?} {job:?}");
    }
    found
}

fn walk(chain: &Chain, wanted: Readings, job: &Job, room: usize) -> Found {
    let mut stack = vec![Square { corner: job.corner, side: 1 << job.k }];
    let mut places = Vec::new();
    let mut visits = 0;
    while let Some(square) = stack.pop() {
        if visits == job.allowance {
            return Found::refused(refusals::ALLOWANCE, visits);
        }
        visits += 1;
        let slack = if square.side == 1 { 0 } else { 2 * square.side + MARGIN };
        let miss = chart::miss(chart::readings(chain, square.middle()), wanted);
        if miss > u64::from(job.tolerance + slack) {
            continue;
        }
        if square.side > 1 {
            stack.extend(square.quarters_reversed());
            continue;
        }
        if places.len() == room {
            return Found::refused(refusals::ROOM, visits);
        }
        places.push(square.corner);
    }
    if places.is_empty() {
        return Found::refused(refusals::NOWHERE, visits);
    }
    Found { refusal: 0, places, visits }
}

/// Tests every cell of the window, and puts those that match in the order of their chart numbers.
fn sweep(chain: &Chain, wanted: Readings, job: &Job) -> Vec<Place> {
    let side = 1u32 << job.k;
    let window = Square { corner: job.corner, side };
    let matches = |cell: Place| {
        let found = chart::readings_with(chart::range_by_digits, chain, cell);
        chart::miss(found, wanted) <= u64::from(job.tolerance)
    };
    let mut cells: Vec<(u64, Place)> = (0..side * side)
        .map(|index| (index % side, index / side))
        .map(|(east, north)| (chart::chart_number(east, north), window.offset(east, north)))
        .filter(|&(_, cell)| matches(cell))
        .collect();
    cells.sort_by_key(|&(number, _)| number);
    cells.into_iter().map(|(_, cell)| cell).collect()
}

/// The allowance that is always enough for an exponent.
pub fn full_allowance(k: u32) -> u64 {
    (4u64.pow(k + 1) - 1) / 3
}

#[cfg(test)]
mod tests {
    use super::*;
    use crate::chart::tests::{CHAIN_002, CHAIN_1, FACTOR_002, POINTS_002};

    const P4: Job = Job { corner: Place { easting: 30000, northing: 40000 }, k: 1, tolerance: 0, allowance: u64::MAX };
    const WANTED: Readings = Readings { a: -10000, b: -20000 };

    fn answer(wanted: Readings, job: Job, room: usize) -> (u32, Vec<(u32, u32)>, u64) {
        let found = search(&CHAIN_1, wanted, &job, room);
        (found.refusal, found.places.iter().map(|p| (p.easting, p.northing)).collect(), found.visits)
    }

    #[test]
    fn p4_two_places() {
        assert_eq!(answer(WANTED, P4, 9), (0, vec![(30000, 40000), (30001, 40001)], 5));
        assert_eq!(answer(WANTED, Job { allowance: 5, ..P4 }, 2).0, 0);
    }

    #[test]
    fn p5_all_four_in_chart_order() {
        let all = vec![(30000, 40000), (30001, 40000), (30000, 40001), (30001, 40001)];
        assert_eq!(answer(WANTED, Job { tolerance: 1, ..P4 }, 9), (0, all, 5));
    }

    #[test]
    fn p6_no_room() {
        assert_eq!(answer(WANTED, P4, 1), (9, vec![], 5));
        assert_eq!(answer(WANTED, Job { allowance: 5, ..P4 }, 1), (9, vec![], 5));
    }

    #[test]
    fn p7_no_allowance() {
        assert_eq!(answer(WANTED, Job { allowance: 4, ..P4 }, 9), (10, vec![], 4));
        assert_eq!(answer(WANTED, Job { allowance: 4, ..P4 }, 1), (10, vec![], 4));
        assert_eq!(answer(WANTED, Job { allowance: 0, ..P4 }, 0), (10, vec![], 0));
    }

    #[test]
    fn p8_no_matching_cell() {
        let corner = chart::place(30001, 40000);
        assert_eq!(answer(WANTED, Job { corner, k: 0, ..P4 }, 9), (8, vec![], 1));
    }

    #[test]
    fn p9_the_window_is_dropped() {
        assert_eq!(answer(Readings { a: 0, b: 0 }, P4, 9), (8, vec![], 1));
    }

    #[test]
    fn limits_of_window_and_tolerance() {
        let far = Readings { a: 1_000_000_000, b: 1_000_000_000 };
        let east = chart::place(MOST_EASTING, 0);
        assert_eq!(answer(far, Job { k: 24, ..P4 }, 9).0, 8);
        assert_eq!(answer(far, Job { k: 25, ..P4 }, 9).0, 6);
        assert_eq!(answer(far, Job { corner: east, k: 0, ..P4 }, 9).0, 8);
        assert_eq!(answer(far, Job { corner: east, k: 1, ..P4 }, 9).0, 6);
        assert_eq!(answer(far, Job { tolerance: 100_000, ..P4 }, 9).0, 8);
        assert_eq!(answer(far, Job { tolerance: 100_001, ..P4 }, 9), (7, vec![], 0));
        assert_eq!(answer(far, Job { k: u32::MAX, tolerance: u32::MAX, ..P4 }, 9).0, 6);
    }

    #[test]
    fn readings_are_refused_first_and_chains_next() {
        let beyond = Readings { a: 0, b: -1_000_000_001 };
        assert_eq!(answer(beyond, Job { k: 25, ..P4 }, 9).0, 3);
        for unsound in
            [Chain { b: CHAIN_1.a, ..CHAIN_1 }, Chain { factor: 998_999, ..CHAIN_1 }, Chain { factor: 0, ..CHAIN_1 }]
        {
            assert_eq!(search(&unsound, WANTED, &Job { k: 25, ..P4 }, 9).refusal, 5);
            assert_eq!(search(&unsound, Readings { a: i64::MIN, b: i64::MAX }, &P4, 9).refusal, 3);
        }
    }

    /// Whether the search in a window finds exactly these places in so many visits.
    fn finds(chain: &Chain, wanted: Readings, (corner, k): (Place, u32), places: &[(u32, u32)], visits: u64) {
        let places = places.iter().map(|&(easting, northing)| chart::place(easting, northing)).collect();
        let found = search(chain, wanted, &Job { corner, k, ..P4 }, 256);
        assert_eq!(found, Found { refusal: 0, places, visits }, "{chain:?} {wanted:?}");
    }

    #[test]
    fn visits_about_p4() {
        for (k, visits) in [(5, 945), (12, 2529)] {
            let half = 1 << (k - 1);
            let corner = chart::place(30000 - half, 40000 - half);
            let found = search(&CHAIN_1, WANTED, &Job { corner, k, ..P4 }, 256);
            assert_eq!((found.refusal, found.visits), (0, visits));
            assert!(found.places.contains(&P4.corner));
        }
    }

    #[test]
    fn double_crossings() {
        let places = [(49810530, 498945629), (48500000, 502000000), (48500000, 502000001)];
        let window = (chart::place(47499999, 497945629), 24);
        finds(&CHAIN_002, Readings { a: 12205441, b: 9172617 }, window, &places, 3117);
        let line = chart::chain([50000000, 500000000, 49000000, 500000000, 51000000, 500000000], 1_000_000);
        let places = [(50100000, 499800000), (50100000, 500200000)];
        let window = (chart::place(50000000, 499700000), 20);
        finds(&line, Readings { a: 894427, b: 698348 }, window, &places, 2085);
    }

    #[test]
    fn the_points_of_document_002() {
        let places: [(&[(u32, u32)], u64); 4] = [
            (&[(59999999, 490000001), (60000000, 490000000)], 4097),
            (&[(60000000, 490100000)], 4025),
            (&[(60100001, 489999999), (60100003, 489999998), (60100002, 489999999), (60100000, 490000000)], 4225),
            (&[(60099999, 490100001), (60100000, 490100000)], 4209),
        ];
        for ((point, plain, scaled), (places, visits)) in POINTS_002.into_iter().zip(places) {
            let window = (chart::place(point.easting - 4194304, point.northing - 4194304), 23);
            finds(&CHAIN_002, plain, window, places, visits);
            finds(&Chain { factor: FACTOR_002, ..CHAIN_002 }, scaled, window, places, visits);
        }
    }
}
