// The proved calls. A slice is a pointer and a length there; the number returned is 0 where the call is accepted, else its refusal's. This is the only file with
// unsafe code: each length is its slice's own, and no call keeps a pointer.
use crate::plan::Station;
use crate::{refusal, Refusal};

extern "C" {
    fn plan_judge(plan: *const u8, plan_len: usize, at: *mut [u64; 2]) -> u64;
    fn plan_read(plan: *const u8, plan_len: usize, stations: *mut Station, len: usize, at: *mut [u64; 2]) -> u64;
    fn plan_write(stations: *const Station, len: usize, n: u64, out: *mut u8, out_len: usize, at: *mut [u64; 2]) -> u64;
    fn plan_name(plan: *const u8, plan_len: usize, station: u64, at: *mut [u64; 2]) -> u64;
    fn engine_open(plan: *const u8, plan_len: usize, arity: u64, width: u64, capacity: u64, b: *mut u8, len: usize, at: *mut [u64; 2]) -> u64;
    fn engine_post(b: *mut u8, len: usize, station: u64, time: u64, kind: u64, value: u64, at: *mut [u64; 2]) -> u64;
    fn engine_retract(b: *mut u8, len: usize, number: u64, at: *mut [u64; 2]) -> u64;
    fn engine_run_station(b: *mut u8, len: usize, station: u64, at: *mut [u64; 2]) -> u64;
    fn engine_run_lowest(b: *mut u8, len: usize, at: *mut [u64; 3]) -> u64;
    fn engine_commit(b: *mut u8, len: usize, time: u64, out: *mut u8, out_len: usize, at: *mut [u64; 2]) -> u64;
    fn engine_record(b: *const u8, len: usize, station: u64, at: *mut [u64; 7]) -> u64;
    fn engine_next(b: *const u8, len: usize, at: *mut [u64; 2]) -> u64;
    fn engine_run_until(b: *mut u8, len: usize, time: u64, turns: u64, out: *mut u8, out_len: usize, at: *mut [u64; 1]) -> u64;
    fn calendar_open(n: u64, arity: u64, width: u64, b: *mut u8, len: usize) -> u64;
    fn calendar_register(b: *mut u8, len: usize, station: u64, time: u64) -> u64;
    fn calendar_unregister(b: *mut u8, len: usize, station: u64) -> u64;
    fn calendar_lowest(b: *const u8, len: usize, at: *mut [u64; 3]) -> u64;
    fn calendar_extract(b: *mut u8, len: usize, at: *mut [u64; 3]) -> u64;
    fn calendar_advance(b: *mut u8, len: usize, floor: u64) -> u64;
    fn account_open(n: u64, reading: u32, frame: u32, b: *mut u8, len: usize) -> u64;
    fn account_read(b: *mut u8, len: usize, n: u64, part: *const u8, part_len: usize) -> u64;
    fn account_charge(b: *const u8, len: usize, n: u64, station: u64, at: *mut [u64; 1]) -> u64;
    fn small_lists_write(out: *mut u8, len: usize) -> u64;
}

fn answer<const N: usize>(call: impl FnOnce(*mut [u64; N]) -> u64) -> Result<[u64; N], Refusal> {
    let mut at = [0; N];
    match call(&mut at) {
        0 => Ok(at),
        code => Err(refusal(code, at[0])),
    }
}

fn done(code: u64) -> Result<(), Refusal> {
    match code {
        0 => Ok(()),
        code => Err(refusal(code, 0)),
    }
}

pub fn judge(plan: &[u8]) -> Result<[u64; 2], Refusal> {
    answer(|at| unsafe { plan_judge(plan.as_ptr(), plan.len(), at) })
}

pub fn read_plan(plan: &[u8], stations: &mut [Station]) -> Result<[u64; 2], Refusal> {
    answer(|at| unsafe { plan_read(plan.as_ptr(), plan.len(), stations.as_mut_ptr(), stations.len(), at) })
}

pub fn write_plan(stations: &[Station], out: &mut [u8]) -> Result<[u64; 2], Refusal> {
    answer(|at| unsafe { plan_write(stations.as_ptr(), stations.len(), stations.len() as u64, out.as_mut_ptr(), out.len(), at) })
}

pub fn name(plan: &[u8], station: u64) -> Result<[u64; 2], Refusal> {
    answer(|at| unsafe { plan_name(plan.as_ptr(), plan.len(), station, at) })
}

pub fn open(plan: &[u8], arity: u64, width: u64, capacity: u64, b: &mut [u8]) -> Result<[u64; 2], Refusal> {
    answer(|at| unsafe { engine_open(plan.as_ptr(), plan.len(), arity, width, capacity, b.as_mut_ptr(), b.len(), at) })
}

pub fn post(b: &mut [u8], station: u64, time: u64, kind: u64, value: u64) -> Result<[u64; 2], Refusal> {
    answer(|at| unsafe { engine_post(b.as_mut_ptr(), b.len(), station, time, kind, value, at) })
}

pub fn retract(b: &mut [u8], number: u64) -> Result<[u64; 2], Refusal> {
    answer(|at| unsafe { engine_retract(b.as_mut_ptr(), b.len(), number, at) })
}

pub fn run_station(b: &mut [u8], station: u64) -> Result<[u64; 2], Refusal> {
    answer(|at| unsafe { engine_run_station(b.as_mut_ptr(), b.len(), station, at) })
}

pub fn run_lowest(b: &mut [u8]) -> Result<[u64; 3], Refusal> {
    answer(|at| unsafe { engine_run_lowest(b.as_mut_ptr(), b.len(), at) })
}

pub fn commit(b: &mut [u8], time: u64, out: &mut [u8]) -> Result<[u64; 2], Refusal> {
    answer(|at| unsafe { engine_commit(b.as_mut_ptr(), b.len(), time, out.as_mut_ptr(), out.len(), at) })
}

pub fn record(b: &[u8], station: u64) -> Result<[u64; 7], Refusal> {
    answer(|at| unsafe { engine_record(b.as_ptr(), b.len(), station, at) })
}

pub fn next(b: &[u8]) -> Result<[u64; 2], Refusal> {
    answer(|at| unsafe { engine_next(b.as_ptr(), b.len(), at) })
}

/// The number itself, which says more than a refusal's, and the time that goes with 17.
pub fn run_until(b: &mut [u8], time: u64, turns: u64, out: &mut [u8]) -> (u64, u64) {
    let mut at = [0];
    let code = unsafe { engine_run_until(b.as_mut_ptr(), b.len(), time, turns, out.as_mut_ptr(), out.len(), &mut at) };
    (code, at[0])
}

pub fn open_calendar(n: u64, arity: u64, width: u64, b: &mut [u8]) -> Result<(), Refusal> {
    done(unsafe { calendar_open(n, arity, width, b.as_mut_ptr(), b.len()) })
}

pub fn register(b: &mut [u8], station: u64, time: u64) -> Result<(), Refusal> {
    done(unsafe { calendar_register(b.as_mut_ptr(), b.len(), station, time) })
}

pub fn unregister(b: &mut [u8], station: u64) -> Result<(), Refusal> {
    done(unsafe { calendar_unregister(b.as_mut_ptr(), b.len(), station) })
}

pub fn lowest(b: &[u8]) -> Result<[u64; 3], Refusal> {
    answer(|at| unsafe { calendar_lowest(b.as_ptr(), b.len(), at) })
}

pub fn extract(b: &mut [u8]) -> Result<[u64; 3], Refusal> {
    answer(|at| unsafe { calendar_extract(b.as_mut_ptr(), b.len(), at) })
}

pub fn advance(b: &mut [u8], floor: u64) -> Result<(), Refusal> {
    done(unsafe { calendar_advance(b.as_mut_ptr(), b.len(), floor) })
}

pub fn open_account(n: u64, reading: u32, frame: u32, b: &mut [u8]) -> Result<(), Refusal> {
    done(unsafe { account_open(n, reading, frame, b.as_mut_ptr(), b.len()) })
}

pub fn read_part(b: &mut [u8], n: u64, part: &[u8]) -> Result<(), Refusal> {
    done(unsafe { account_read(b.as_mut_ptr(), b.len(), n, part.as_ptr(), part.len()) })
}

pub fn charge(b: &[u8], n: u64, station: u64) -> Result<[u64; 1], Refusal> {
    answer(|at| unsafe { account_charge(b.as_ptr(), b.len(), n, station, at) })
}

pub fn write_lists(out: &mut [u8]) -> Result<(), Refusal> {
    done(unsafe { small_lists_write(out.as_mut_ptr(), out.len()) })
}
