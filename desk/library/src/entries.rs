//! The C declarations and their calls.

/// `nuldwich_reply`.
#[repr(C)]
pub struct Replied {
    pub number: u64,
    pub record: u64,
    pub core_low: u64,
    pub core_high: u64,
}

/// `nuldwich_judgement`.
#[repr(C)]
pub struct Judged {
    pub number: u64,
    pub record: u64,
    pub shown: u64,
    pub offset: u64,
    pub length: u64,
}

/// `nuldwich_needs`.
#[repr(C)]
pub struct Needed {
    pub number: u64,
    pub record: u64,
    pub steps: u64,
    pub facts: u64,
    pub pending: u64,
}

/// `nuldwich_sameness`.
#[repr(C)]
pub struct Compared {
    pub number: u64,
    pub record: u64,
    pub which: u64,
    pub same: u64,
}

extern "C" {
    #[link_name = "nuldwich_check"]
    fn c_check(ticket: *const u8, ticket_len: usize, answer: *mut u8, answer_len: usize) -> Replied;
    #[link_name = "nuldwich_judge"]
    fn c_judge(question: *const u8, question_len: usize, answer: *const u8, answer_len: usize) -> Judged;
    #[link_name = "nuldwich_need"]
    fn c_need(ticket: *const u8, ticket_len: usize) -> Needed;
    #[link_name = "nuldwich_same"]
    fn c_same(first: *const u8, first_len: usize, second: *const u8, second_len: usize) -> Compared;
    #[link_name = "nuldwich_version"]
    fn c_version() -> u64;
}

pub fn version() -> u64 {
    // It takes nothing and reads nothing.
    unsafe { c_version() }
}

pub fn check(ticket: &[u8], answer: &mut [u8]) -> Replied {
    // Both slices are valid for their lengths during the call, and do not overlap.
    unsafe { c_check(ticket.as_ptr(), ticket.len(), answer.as_mut_ptr(), answer.len()) }
}

pub fn judge(question: &[u8], answer: &[u8]) -> Judged {
    // Both slices are valid for their lengths during the call.
    unsafe { c_judge(question.as_ptr(), question.len(), answer.as_ptr(), answer.len()) }
}

pub fn need(ticket: &[u8]) -> Needed {
    // The slice is valid for its length during the call.
    unsafe { c_need(ticket.as_ptr(), ticket.len()) }
}

pub fn same(first: &[u8], second: &[u8]) -> Compared {
    // Both slices are valid for their lengths during the call.
    unsafe { c_same(first.as_ptr(), first.len(), second.as_ptr(), second.len()) }
}
