//! The library's functions as they are exported, each called with a slice's own pointer and length.

use crate::counts::Counts;

/// What the gate program prints: the answer, its place, the steps read, 0 if reading is refused, and the column of
/// [`Reason::OutOfShape`](crate::Reason), 0 with every other answer.
#[repr(C)]
#[derive(Clone, Copy, Debug, PartialEq, Eq)]
pub struct Printed {
    pub answer: u16,
    pub place: u32,
    pub steps: u16,
    pub column: u16,
}

#[repr(C)]
pub struct Reading {
    pub refusal: u16,
    pub place: u32,
    pub column: u16,
    pub counts: Counts,
}

#[repr(C)]
pub struct Writing {
    pub refusal: u16,
    pub place: u32,
    pub length: usize,
}

#[repr(C)]
pub struct Answer {
    pub refusal: u16,
    pub place: u32,
    pub column: u16,
}

extern "C" {
    fn peraduksi_read(
        text: *const u8,
        text_length: usize,
        forms: *mut u16,
        forms_length: usize,
        policy: *mut u16,
        policy_length: usize,
        steps: *mut u16,
        steps_length: usize,
    ) -> Reading;

    fn peraduksi_write(
        counts: Counts,
        forms: *const u16,
        forms_length: usize,
        policy: *const u16,
        policy_length: usize,
        steps: *const u16,
        steps_length: usize,
        out: *mut u8,
        out_length: usize,
    ) -> Writing;

    fn peraduksi_judge(
        counts: Counts,
        forms: *const u16,
        forms_length: usize,
        policy: *const u16,
        policy_length: usize,
        steps: *const u16,
        steps_length: usize,
    ) -> Answer;

    fn peraduksi_gate(file: *const u8, file_length: usize) -> Printed;
}

pub fn read(text: &[u8], forms: &mut [u16], policy: &mut [u16], steps: &mut [u16]) -> Reading {
    // SAFETY: each pointer and length are one slice's; those that are written to are borrowed for writing, so nothing overlaps them.
    unsafe {
        peraduksi_read(
            text.as_ptr(),
            text.len(),
            forms.as_mut_ptr(),
            forms.len(),
            policy.as_mut_ptr(),
            policy.len(),
            steps.as_mut_ptr(),
            steps.len(),
        )
    }
}

pub fn write(counts: Counts, forms: &[u16], policy: &[u16], steps: &[u16], out: &mut [u8]) -> Writing {
    // SAFETY: as in `read`.
    unsafe {
        peraduksi_write(
            counts,
            forms.as_ptr(),
            forms.len(),
            policy.as_ptr(),
            policy.len(),
            steps.as_ptr(),
            steps.len(),
            out.as_mut_ptr(),
            out.len(),
        )
    }
}

pub fn judge(counts: Counts, forms: &[u16], policy: &[u16], steps: &[u16]) -> Answer {
    // SAFETY: as in `read`; nothing is written to.
    unsafe {
        peraduksi_judge(counts, forms.as_ptr(), forms.len(), policy.as_ptr(), policy.len(), steps.as_ptr(), steps.len())
    }
}

pub fn gate(file: &[u8]) -> Printed {
    // SAFETY: as in `read`; nothing is written to.
    unsafe { peraduksi_gate(file.as_ptr(), file.len()) }
}
