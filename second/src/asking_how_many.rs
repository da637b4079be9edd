//! Makes requests of how_many from a seed. Each answer, each refusal and each edge of the allowance has its turn.

use crate::answers::CHAIN_READINGS;
use crate::asking::{self, FEW_VISITS, MANY_VISITS};
use crate::chart::{self, Chain, Place, Readings, MOST_EASTING, MOST_NORTHING};
use crate::how_many::{self, Figures};
use crate::numbers::MOST_CENTIMETRES;
use crate::pieces;
use crate::random::Random;
use crate::records;
use crate::refusals;
use crate::search::{self, Found, Job, MOST_TOLERANCE};
use crate::words::hex;

/// What is asked, before the allowance is chosen.
struct Question {
    chain: Chain,
    wanted: Readings,
    job: Job,
}

impl Question {
    /// The figures of its first visits, unless it is refused before it begins.
    fn figures(&self, most: u64) -> Option<Figures> {
        search::admit(&self.chain, self.wanted, &self.job).ok()?;
        Some(how_many::figures(&self.chain, self.wanted, &self.job, most as usize))
    }

    /// All its places, if a few visits find them.
    fn search(&self) -> Found {
        search::search(&self.chain, self.wanted, &Job { allowance: FEW_VISITS, ..self.job }, usize::MAX)
    }

    /// The place on the diagonal of its window, as far east as north of the corner.
    fn diagonal(&self, offset: u32) -> Place {
        chart::place(self.job.corner.easting + offset, self.job.corner.northing + offset)
    }
}

fn any_question(random: &mut Random) -> Question {
    let place = pieces::anywhere(random);
    let chain = asking::chain(random, place);
    let wanted = asking::wanted(random, &chain, place);
    Question { chain, wanted, job: asking::search_job(random, place) }
}

/// A question with any allowance, often at an edge.
pub fn asked(random: &mut Random) -> String {
    let question = any_question(random);
    let job = Job { allowance: allowance(random, &question), ..question.job };
    let (chain, job) = (asking::chain_words(random, &question.chain), asking::job_word(random, &job));
    format!("how_many {chain} {job} {} {}", question.wanted.a, question.wanted.b)
}

/// An allowance at an edge, or an ample one if the answer is cheap.
fn allowance(random: &mut Random, question: &Question) -> u64 {
    let most = if random.once_in(60) { MANY_VISITS } else { FEW_VISITS };
    let figures = match question.figures(most) {
        Some(figures) => figures,
        None => return random.pick(&[0, 1, FEW_VISITS, u64::MAX]),
    };
    let (some, visits) = (random.below(figures.visits + 1), figures.visits);
    let full = search::full_allowance(question.job.k);
    match figures.needed() {
        None => random.pick(&[most, most - 1, some, 0]),
        Some(_) if random.once_in(3) => u64::MAX,
        Some((_, needed)) => random.pick(&[needed, needed - 1, needed + 1, visits, visits - 1, full, full - 1, some, 0, 1]),
    }
}

/// A question about the last cell of its window, often its only place.
fn last_cell(random: &mut Random) -> Question {
    let k = exponent(random, 1);
    let last = (1 << k) - 1;
    question_with(random, k, |_| [last, last])
}

/// A question about a place in the last quarter of its window; often all its places are there.
fn last_quarter(random: &mut Random) -> Question {
    let k = exponent(random, 2);
    let half = 1 << (k - 1);
    question_with(random, k, |random| [half, half].map(|half| half + random.below(half.into()) as u32))
}

fn exponent(random: &mut Random, least: i64) -> u32 {
    let most = random.pick(&[7, 7, 7, 24]);
    random.between(least, most) as u32
}

/// A question about the readings at a place whose offsets from the corner of its window are given.
fn question_with(random: &mut Random, k: u32, offsets: impl Fn(&mut Random) -> [u32; 2]) -> Question {
    let last = (1 << k) - 1;
    let mut at = |most: u32| random.between(0, i64::from(most - last)) as u32;
    let corner = chart::place(at(MOST_EASTING), at(MOST_NORTHING));
    let [east, north] = offsets(random);
    let place = chart::place(corner.easting + east, corner.northing + north);
    let reach = 1 << random.between(4, 28);
    let chain = pieces::sound_chain(random, place, reach);
    let tolerance = random.pick(&[0, 0, 0, 1, 2]);
    Question { chain, wanted: chart::readings(&chain, place), job: Job { corner, k, tolerance, allowance: 0 } }
}

/// A kind of question, and whether the places of one that was made for it are where they should be.
type Kind = (fn(&mut Random) -> Question, fn(&Question, &[Place]) -> bool);

/// The kinds that pairs are made of, taken in turn.
const KINDS: [Kind; 5] = [
    (any_question, |_, places| places.is_empty()),
    (any_question, |_, places| places.len() == 1),
    (any_question, |_, places| places.len() > 1),
    (last_cell, |question, places| places == [question.diagonal((1 << question.job.k) - 1)]),
    (last_quarter, |question, places| {
        let from = question.diagonal(1 << (question.job.k - 1));
        let within = |place: &Place| place.easting >= from.easting && place.northing >= from.northing;
        places.len() > 1 && places.iter().all(within)
    }),
];

/// What the two requests of a pair are allowed, and whether the second is a search.
struct Pair {
    allowances: [u64; 2],
    searches: bool,
}

/// How many pairs there are about one kind of question.
const PAIRS: u64 = 6;

/// The pairs, taken in turn: the visits that are needed, and one less; the same with a search; all visits, and one less; an
/// ample allowance, with a search; one more than is needed, and 0; one more than all, and 1.
fn pair(turn: u64, needed: u64, visits: u64) -> Pair {
    let (allowances, searches) = match turn % PAIRS {
        0 => ([needed, needed - 1], false),
        1 => ([needed, needed], true),
        2 => ([visits, visits - 1], false),
        3 => ([u64::MAX, u64::MAX], true),
        4 => ([needed + 1, 0], false),
        _ => ([visits + 1, 1], false),
    };
    Pair { allowances, searches }
}

/// Two requests about one question.
pub fn paired(random: &mut Random, turn: u64) -> (String, String) {
    let kinds = KINDS.len() as u64;
    let (question, figures) = affordable(random, KINDS[(turn % kinds) as usize]);
    let needed = figures.needed().map_or(figures.visits, |(_, needed)| needed);
    let Pair { allowances, searches } = pair(turn / kinds, needed, figures.visits);
    let chain = asking::chain_words(random, &question.chain);
    let by_numbers = random.once_in(2);
    let [first, second] = allowances.map(|allowance| {
        let job = Job { allowance, ..question.job };
        let job = if by_numbers { asking::job_numbers(&job) } else { hex(&records::job_bytes(&job)) };
        format!("{chain} {job} {} {}", question.wanted.a, question.wanted.b)
    });
    let entries = 2 * figures.matches.len() as u64 + random.below(4);
    let verb = if searches { format!("search {entries} {}", asking::list_dirt(random)) } else { "how_many".into() };
    (format!("how_many {first}"), format!("{verb} {second}"))
}

/// A question of a kind, with the figures of its whole walk, which costs few visits but more than one.
fn affordable(random: &mut Random, (make, fits): Kind) -> (Question, Figures) {
    loop {
        let question = make(random);
        let found = question.search();
        let complete = found.refusal == 0 || found.refusal == refusals::NOWHERE;
        if complete && found.visits > 1 && fits(&question, &found.places) {
            let figures = how_many::figures(&question.chain, question.wanted, &question.job, FEW_VISITS as usize);
            return (question, figures);
        }
    }
}

/// The tests of a question in their order, each with its refusal: the lengths of chain, readings and job, a zero byte, a
/// reading, the chain, the window, the tolerance.
const TESTS: usize = 8;

/// A question with a fault: the test whose turn it is fails, those before it do not, and each after it may.
pub fn faulty(random: &mut Random, turn: u64) -> String {
    let first = turn as usize % TESTS;
    let mut wrong = [false; TESTS];
    wrong[first] = true;
    wrong[first + 1..].fill_with(|| random.once_in(2));
    let [chain_length, readings_length, job_length, zero, reading, unsound, window, tolerance] = wrong;
    let place = pieces::anywhere(random);
    let sound = pieces::sound_chain(random, place, 5000);
    let chain = if unsound { pieces::unsound_chain(random) } else { sound };
    let wanted = faulty_reading(random, chart::readings(&sound, place), reading);
    let job = faulty_job(random, place, window, tolerance);
    let chain = if chain_length {
        asking::byte_words(&misfit(random, &records::chain_bytes(&chain)), &chain)
    } else {
        asking::chain_words(random, &chain)
    };
    let mut bytes = pieces::job(&job);
    if zero {
        bytes[random.pick(&[9, 10, 11, 24, 25, 26, 27, 28, 29, 30, 31])] = random.pick(&[1, 0x80, 0xff]);
    }
    let job = match (job_length, zero) {
        (true, _) => hex(&misfit(random, &bytes)),
        (false, true) => hex(&bytes),
        _ => asking::job_word(random, &job),
    };
    let count = if readings_length { random.pick(&[0, 1, 3, 4]) } else { CHAIN_READINGS };
    let readings: String = [wanted.a, wanted.b].iter().cycle().take(count).map(|reading| format!(" {reading}")).collect();
    format!("how_many {chain} {job}{readings}")
}

/// The readings, or one or both of them beyond the limit.
fn faulty_reading(random: &mut Random, exact: Readings, wrong: bool) -> Readings {
    if !wrong {
        return exact;
    }
    let mut beyond = || random.pick(&[MOST_CENTIMETRES + 1, -MOST_CENTIMETRES - 1, i64::MIN, i64::MAX]);
    let (a, b) = (beyond(), beyond());
    random.pick(&[Readings { a, b }, Readings { a, ..exact }, Readings { b, ..exact }])
}

/// A job for the place, with a wrong window and a wrong tolerance if these are asked for.
fn faulty_job(random: &mut Random, place: Place, window: bool, tolerance: bool) -> Job {
    let k = random.below(25) as u32;
    let corner = pieces::corner_for(random, place, k);
    let (east, north) = (chart::place(MOST_EASTING + 1, 0), chart::place(0, MOST_NORTHING + 1));
    let wrong = random.pick(&[(corner, 25), (corner, 255), (east, 0), (north, 0), (east, k)]);
    let (corner, k) = if window { wrong } else { (corner, k) };
    let beyond = random.pick(&[MOST_TOLERANCE + 1, 1 << 31, u32::MAX]);
    let tolerance = if tolerance { beyond } else { random.pick(&[0, 1, MOST_TOLERANCE]) };
    Job { corner, k, tolerance, allowance: random.pick(&[0, 1, FEW_VISITS]) }
}

/// The bytes of a record with some cut off, or with some more.
fn misfit(random: &mut Random, record: &[u8]) -> Vec<u8> {
    let fitting = record.len();
    let any = random.below(fitting as u64) as usize;
    let mut bytes = record.to_vec();
    bytes.resize(random.pick(&[fitting - 1, fitting + 1, 2 * fitting, 0, any]), 0);
    bytes
}

#[cfg(test)]
mod tests {
    use super::*;
    use crate::answers;

    /// The numbers of an answer.
    fn answer(request: &str) -> Vec<u64> {
        answers::answer(request).unwrap().split(' ').map(|word| word.parse().unwrap()).collect()
    }

    /// The answers to the two requests of a pair, for the next turns of a kind of pair.
    fn answers_of(kind: usize, pair: u64) -> Vec<(Vec<u64>, Vec<u64>)> {
        let turns = (0..5).map(|round| kind as u64 + KINDS.len() as u64 * (pair + PAIRS * round));
        let both = turns.map(|turn| paired(&mut Random::for_item(3, turn), turn));
        both.map(|(first, second)| (answer(&first), answer(&second))).collect()
    }

    #[test]
    fn every_fault_has_its_turn() {
        for turn in 0..400 {
            let refusal = [1, 1, 1, 2, 3, 5, 6, 7][turn as usize % TESTS];
            assert_eq!(answer(&faulty(&mut Random::for_item(4, turn), turn)), [refusal, 0, 0, 0, 0], "{turn}");
        }
    }

    #[test]
    fn what_is_needed_is_enough_and_one_less_is_not() {
        for (kind, told) in [1, 2, 3, 2, 3].into_iter().enumerate() {
            for (enough, less) in answers_of(kind, 0) {
                assert_eq!(enough[..2], [0, told]);
                assert_eq!(less, [10, 0, 0, 0, enough[4] - 1]);
            }
        }
    }

    #[test]
    fn several_need_not_all_visits() {
        for kind in [2, 4] {
            assert!(answers_of(kind, 1).iter().any(|(told, found)| told[..2] == [0, 3] && found[0] == 10));
            assert!(answers_of(kind, 2).iter().any(|(all, less)| all[..2] == [0, 3] && all == less));
        }
    }

    #[test]
    fn an_ample_search_agrees() {
        for kind in 0..KINDS.len() {
            for (told, found) in answers_of(kind, 3) {
                match told[1] {
                    1 => assert_eq!((found[0], found[2]), (8, told[4])),
                    2 => assert_eq!((&found[..3], &found[3..5]), (&[0, 1, told[4]][..], &told[2..4])),
                    _ => assert!(found[0] == 0 && found[1] > 1 && found[2] >= told[4]),
                }
            }
        }
    }

    #[test]
    fn more_than_is_needed_and_next_to_nothing() {
        for kind in 0..KINDS.len() {
            for (more, nothing) in answers_of(kind, 4) {
                assert_eq!((more[0], nothing), (0, vec![10, 0, 0, 0, 0]));
            }
            assert!(answers_of(kind, 5).iter().all(|(more, one)| more[0] == 0 && one[4] == 1));
        }
    }
}
