//! The call: on bytes, and on a sheet.

use crate::answer::Answer;
use crate::refusal::Refusal;
use crate::sheet::Sheet;

/// What the optimiser may know as a block begins.
#[derive(Clone, Copy, Debug, PartialEq, Eq, Hash)]
#[repr(u32)]
pub enum Level {
    /// Touches nothing.
    Off = 0,
    /// Each block starts with nothing known.
    Local = 1,
    /// Blocks hand on what they know along forward edges.
    Forward = 2,
    /// A preparing walk finds what holds on every way into a block.
    Global = 3,
}

extern "C" {
    fn drifthurdle_clean(
        sheet: *const u8,
        sheet_len: usize,
        level: u32,
        sweep: u32,
        out: *mut u8,
        out_len: usize,
    ) -> i64;
}

/// Optimises the sheet's edits at a level, then sweeps dead spills if `sweep` is set.
///
/// Returns how many bytes were written to `out`; later bytes stay as they were. Every input is fine.
///
/// # Errors
///
/// The first rule that the sheet breaks, in the order of the scope's table; `out` is untouched then.
pub fn clean(sheet: &[u8], level: Level, sweep: bool, out: &mut [u8]) -> Result<usize, Refusal> {
    // SAFETY: both ranges are slices, and the call reads the first and writes within the second.
    let n = unsafe {
        drifthurdle_clean(
            sheet.as_ptr(),
            sheet.len(),
            level as u32,
            u32::from(sweep),
            out.as_mut_ptr(),
            out.len(),
        )
    };
    usize::try_from(n).map_err(|_| Refusal::of(n.saturating_neg()))
}

/// No answer is longer than this.
const MOST: usize = 1 << 17;

/// Optimises a sheet's edits at a level, then sweeps dead spills if `sweep` is set.
///
/// Makes the buffer that [`clean`] needs: first as long as the sheet, and twice as long each time that is not enough.
///
/// # Errors
///
/// The first rule that the sheet breaks; [`Refusal::block`] says which block breaks it.
pub fn clean_sheet(sheet: &Sheet, level: Level, sweep: bool) -> Result<Answer, Refusal> {
    let bytes = sheet.to_bytes();
    let mut out = vec![0; bytes.len()];
    loop {
        match clean(&bytes, level, sweep, &mut out) {
            Err(Refusal::Room) if out.len() < MOST => out = vec![0; 2 * out.len()],
            Err(refusal) => return Err(refusal),
            Ok(length) => {
                let written = out.get(..length).ok_or(Refusal::Archive)?;
                return Answer::read(sheet, written).ok_or(Refusal::Archive);
            }
        }
    }
}
