//! The proved checker of VIPR certificates, through the library for C.
use std::fmt;

/// The rules to check by: docs/FORMAT.md has both profiles.
#[derive(Clone, Copy, Debug, PartialEq, Eq)]
pub enum Profile {
    One = 1,
    Two = 2,
}

/// A verdict in numbers, as `struct vipr_answer` of vipr.h.
#[repr(C)]
#[derive(Clone, Copy, Debug, Default, PartialEq, Eq)]
pub struct Answer {
    pub cause: u32,
    pub place: u32,
    pub number: u64,
    pub solutions: u32,
    pub derived: u32,
    pub peak: u64,
    pub has_goal: u32,
    pub goal: u32,
}

/// The verdict on a text: the lines that `vipr check` prints, the claim in the first, and the numbers.
#[derive(Clone, Debug, PartialEq, Eq)]
pub enum Verdict {
    Verified(String, Answer),
    Refused(String, Answer),
}

/// Memory was refused, so there is no verdict.
#[derive(Clone, Copy, Debug, PartialEq, Eq)]
pub struct OutOfMemory;

impl fmt::Display for OutOfMemory {
    fn fmt(&self, f: &mut fmt::Formatter) -> fmt::Result {
        f.write_str("no memory")
    }
}

impl std::error::Error for OutOfMemory {}

extern "C" {
    fn vipr_report(
        profile: u32,
        text: *const u8,
        size: usize,
        lines: *mut u8,
        room: usize,
        length: *mut usize,
        answer: *mut Answer,
    ) -> i32;
}

/// VIPR_REPORT_ROOM of vipr.h: no report is longer.
const ROOM: usize = 512;

/// Checks a certificate's text by a profile of the rules.
pub fn check(text: &[u8], profile: Profile) -> Result<Verdict, OutOfMemory> {
    let (mut lines, mut length, mut answer) = ([0; ROOM], 0, Answer::default());
    // The pointers come from slices and references, which are never null, and they have as many bytes as is said.
    let status = unsafe {
        vipr_report(
            profile as u32,
            text.as_ptr(),
            text.len(),
            lines.as_mut_ptr(),
            ROOM,
            &mut length,
            &mut answer,
        )
    };
    let shown = String::from_utf8_lossy(&lines[..length.min(ROOM)]).into_owned();
    match status {
        0 => Ok(Verdict::Verified(shown, answer)),
        1 => Ok(Verdict::Refused(shown, answer)),
        _ => Err(OutOfMemory),
    }
}
