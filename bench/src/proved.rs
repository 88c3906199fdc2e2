//! The proved side: what the static libraries capi_validate, capi_advance, capi_run and capi_script export,
//! one call each, wrapped in safe functions. This is the one file that knows the boundary. Nothing checks
//! these declarations against the Rattle source.
//!
//! On the Rattle side, with `#[no_mangle] pub extern "C"`:
//!
//! ```text
//! khaonuat_validate(image: &[u8], size: u32, start: u32, store: &mut [u8]) -> u64
//!     the validator's answer
//! khaonuat_script(script: &[u8], out: &mut [u8]) -> usize
//!     one console session from its first line to its last: the bytes it printed into `out`,
//!     which is lent large enough
//! khaonuat_advance(dump: &[u16], size: u32, start: u16, closed: bool, sights: &[u8],
//!     place: &mut [usize; 4]) -> u64
//!     loads the dump, sets the switch, starts the unit at `start` by the command 27 and advances it;
//!     `place` is given the steps done and the address, X and Y behind them; a refusal leaves it as it was
//! khaonuat_run(dump: &[u16], size: u32, start: u16, closed: bool, sights: &[u8], items: &mut [u16],
//!     counts: &mut [usize; 2]) -> u64
//!     the same with the items that each step draws listed before it is done; `items` has room for its length divided by eight items, and `counts` is given the steps done
//!     and the items listed; a refusal leaves both as they were
//! ```
//!
//! A slice passes as a pointer and a length in elements, an array as a pointer. Answers in one number, from the top: one
//! byte that says which, 0 passed or advanced, 1 fault, 2 refused, and then
//!
//! | Answer | Bits 48 to 55 | Rest |
//! |---|---|---|
//! | passed | 0 | bits 0 to 31 the places |
//! | fault | its number | bits 32 to 47 the address, 0 to 31 the steps |
//! | advanced | 0 | bits 0 to 7 why it ended |
//! | refused | 0 | bits 0 to 7 its number |

use crate::compare::Place;
use crate::device::{Advanced, End, Ran, Refused};
use crate::drawing::Beam;
use crate::validator::Verdict;

/// The proved implementation, if it is linked in.
#[cfg(feature = "proved")]
pub struct Proved(());

#[cfg(not(feature = "proved"))]
pub enum Proved {}

#[cfg(feature = "proved")]
mod ffi {
    extern "C" {
        pub fn khaonuat_validate(
            image: *const u8,
            image_length: usize,
            size: u32,
            start: u32,
            store: *mut u8,
            store_length: usize,
        ) -> u64;
        pub fn khaonuat_script(script: *const u8, script_length: usize, out: *mut u8, out_length: usize) -> usize;
        pub fn khaonuat_advance(
            dump: *const u16,
            dump_length: usize,
            size: u32,
            start: u16,
            closed: bool,
            sights: *const u8,
            sights_length: usize,
            place: *mut [usize; 4],
        ) -> u64;
        pub fn khaonuat_run(
            dump: *const u16,
            dump_length: usize,
            size: u32,
            start: u16,
            closed: bool,
            sights: *const u8,
            sights_length: usize,
            items: *mut u16,
            items_length: usize,
            counts: *mut [usize; 2],
        ) -> u64;
    }
}

#[cfg(feature = "proved")]
impl Proved {
    pub fn linked() -> Option<Proved> {
        Some(Proved(()))
    }

    pub fn validate(&self, image: &[u8], size: u32, start: u32, store: &mut [u8]) -> Verdict {
        // SAFETY: both slices are lent for the call, and the callee is proved to keep to them.
        let answer = unsafe {
            ffi::khaonuat_validate(image.as_ptr(), image.len(), size, start, store.as_mut_ptr(), store.len())
        };
        verdict_of(answer)
    }

    /// The length of what was printed.
    pub fn script(&self, script: &[u8], out: &mut [u8]) -> usize {
        // SAFETY: as above.
        unsafe { ffi::khaonuat_script(script.as_ptr(), script.len(), out.as_mut_ptr(), out.len()) }
    }

    pub fn advance(&self, dump: &[u16], size: u32, start: u16, closed: bool, sights: &[u8]) -> Result<Place, Refused> {
        let mut place = [0; 4];
        // SAFETY: as above.
        let answer = unsafe {
            ffi::khaonuat_advance(
                dump.as_ptr(),
                dump.len(),
                size,
                start,
                closed,
                sights.as_ptr(),
                sights.len(),
                &mut place,
            )
        };
        place_of(answer, place)
    }

    pub fn run(
        &self,
        dump: &[u16],
        size: u32,
        start: u16,
        closed: bool,
        sights: &[u8],
        list: &mut [[u16; 8]],
    ) -> Result<Ran, Refused> {
        let items = list.as_flattened_mut();
        let mut counts = [0; 2];
        // SAFETY: as above.
        let answer = unsafe {
            ffi::khaonuat_run(
                dump.as_ptr(),
                dump.len(),
                size,
                start,
                closed,
                sights.as_ptr(),
                sights.len(),
                items.as_mut_ptr(),
                items.len(),
                &mut counts,
            )
        };
        ran_of(answer, counts)
    }
}

#[cfg(not(feature = "proved"))]
impl Proved {
    pub fn linked() -> Option<Proved> {
        None
    }

    pub fn validate(&self, _: &[u8], _: u32, _: u32, _: &mut [u8]) -> Verdict {
        match *self {}
    }

    pub fn script(&self, _: &[u8], _: &mut [u8]) -> usize {
        match *self {}
    }

    pub fn advance(&self, _: &[u16], _: u32, _: u16, _: bool, _: &[u8]) -> Result<Place, Refused> {
        match *self {}
    }

    pub fn run(&self, _: &[u16], _: u32, _: u16, _: bool, _: &[u8], _: &mut [[u16; 8]]) -> Result<Ran, Refused> {
        match *self {}
    }
}

#[cfg_attr(not(feature = "proved"), allow(dead_code))]
fn verdict_of(answer: u64) -> Verdict {
    match answer >> 56 {
        0 => Verdict::Passed { places: answer as u32 },
        1 => Verdict::Fault { fault: (answer >> 48) as u8, at: (answer >> 32) as u16, after: answer as u32 },
        2 => Verdict::Refused(answer as u8),
        _ => panic!("no answer of the validator: {answer:#018x}"),
    }
}

#[cfg_attr(not(feature = "proved"), allow(dead_code))]
fn end_of(answer: u64) -> Result<End, Refused> {
    match answer >> 56 {
        0 => Ok(End::of_number(answer as u8).unwrap_or_else(|| panic!("no end of a run: {answer:#018x}"))),
        2 => Err(Refused(answer as u8)),
        _ => panic!("no answer of a run: {answer:#018x}"),
    }
}

#[cfg_attr(not(feature = "proved"), allow(dead_code))]
fn place_of(answer: u64, [steps, address, x, y]: [usize; 4]) -> Result<Place, Refused> {
    let beam = Beam { x: x as u16, y: y as u16 };
    end_of(answer).map(|end| Place { advanced: Advanced { steps, end }, address: address as u16, beam })
}

#[cfg_attr(not(feature = "proved"), allow(dead_code))]
fn ran_of(answer: u64, [steps, items]: [usize; 2]) -> Result<Ran, Refused> {
    end_of(answer).map(|end| Ran { steps, end, items })
}
