// The same from Rust. A slice goes as its pointer and its length, a result as a reference, a struct as one with the C layout.
#[repr(C)]
#[derive(Default)]
struct Found {
    count: u64,
    visits: u64,
}

#[link(name = "lay", kind = "static")]
extern "C" {
    fn lay_centimetres(metres: f64, centimetres: &mut i64, mark: &mut u32) -> u32;
    fn lay_write_chain(buffer: *mut u8, length: usize, stations: *const u32, stations_length: usize, factor: u32) -> u32;
    #[rustfmt::skip]
    fn lay_write_job(
        buffer: *mut u8, length: usize, easting: u32, northing: u32, k: u32, tolerance: u32, allowance: u64,
    ) -> u32;
    #[rustfmt::skip]
    fn lay_search(
        list: *mut u32, entries: usize, chain: *const u8, chain_length: usize, factor: u32,
        readings: *const i64, readings_length: usize, job: *const u8, job_length: usize, found: &mut Found,
    ) -> u32;
}

// The scale of the chain, grid to ground, in millionths: this one leaves distances as they are.
const FACTOR: u32 = 1_000_000;

// The centimetres, and whether they are rounded: a mark of 0 says that they are not.
fn centimetres(metres: f64) -> Option<(i64, bool)> {
    let (mut whole, mut mark) = (0, 0);
    let refusal = unsafe { lay_centimetres(metres, &mut whole, &mut mark) };
    (refusal == 0).then_some((whole, mark != 0))
}

fn chain(stations: [u32; 6]) -> Option<[u8; 24]> {
    let mut chain = [0; 24];
    let refusal = unsafe { lay_write_chain(chain.as_mut_ptr(), chain.len(), stations.as_ptr(), stations.len(), FACTOR) };
    (refusal == 0).then_some(chain)
}

fn job(easting: u32, northing: u32, k: u32, tolerance: u32, allowance: u64) -> Option<[u8; 32]> {
    let mut job = [0; 32];
    let refusal = unsafe { lay_write_job(job.as_mut_ptr(), job.len(), easting, northing, k, tolerance, allowance) };
    (refusal == 0).then_some(job)
}

fn main() {
    if print_places().is_none() {
        println!("a number of metres, the chain or the job is refused");
    }
}

fn print_places() -> Option<()> {
    let ((a, a_rounded), (b, b_rounded)) = (centimetres(-100.0)?, centimetres(-200.0)?);
    let readings = [a, b];
    let chain = chain([0, 0, 30000, 0, 0, 40000])?;
    let job = job(30000, 40000, 1, 0, 100)?;
    let (mut list, mut found) = ([0u32; 8], Found::default());
    #[rustfmt::skip]
    let refusal = unsafe {
        lay_search(
            list.as_mut_ptr(), list.len(), chain.as_ptr(), chain.len(), FACTOR, readings.as_ptr(), readings.len(),
            job.as_ptr(), job.len(), &mut found,
        )
    };
    let rounded = (a_rounded || b_rounded) as u32;
    println!("refusal {refusal}, {} places, {} visits, rounded {rounded}", found.count, found.visits);
    for place in list[..2 * found.count as usize].chunks(2) {
        println!("{} {}", place[0], place[1]);
    }
    Some(())
}
