//! The entries of the library as safe functions.

use crate::operation::{Call, Entry};

/// What the library has for an entry; nothing when it is not linked.
pub fn linked(entry: &Entry) -> Option<Call> {
    #[cfg(feature = "library")]
    return linked::entry(entry.name);
    #[cfg(not(feature = "library"))]
    return {
        let _ = entry;
        None
    };
}

#[cfg(feature = "library")]
mod linked {
    use crate::operation::{Buffers, Call, Reply};

    /// `nuldwich_reply`.
    #[repr(C)]
    struct Replied {
        number: u64,
        record: u64,
        core_low: u64,
        core_high: u64,
    }

    impl From<Replied> for Reply {
        fn from(replied: Replied) -> Reply {
            [replied.number, replied.record, replied.core_low, replied.core_high, 0]
        }
    }

    /// `nuldwich_judgement`.
    #[repr(C)]
    struct Judged {
        number: u64,
        record: u64,
        shown: u64,
        offset: u64,
        length: u64,
    }

    impl From<Judged> for Reply {
        fn from(judged: Judged) -> Reply {
            [judged.number, judged.record, judged.shown, judged.offset, judged.length]
        }
    }

    /// `nuldwich_needs`.
    #[repr(C)]
    struct Needed {
        number: u64,
        record: u64,
        steps: u64,
        facts: u64,
        pending: u64,
    }

    impl From<Needed> for Reply {
        fn from(needed: Needed) -> Reply {
            [needed.number, needed.record, needed.steps, needed.facts, needed.pending]
        }
    }

    /// `nuldwich_sameness`.
    #[repr(C)]
    struct Compared {
        number: u64,
        record: u64,
        which: u64,
        same: u64,
    }

    impl From<Compared> for Reply {
        fn from(compared: Compared) -> Reply {
            [compared.number, compared.record, compared.which, compared.same, 0]
        }
    }

    extern "C" {
        #[link_name = "check"]
        fn c_check(ticket: *const u8, ticket_len: usize, answer: *mut u8, answer_len: usize) -> Replied;
        #[link_name = "nuldwich_check_in"]
        fn c_check_in(
            ticket: *const u8,
            ticket_len: usize,
            work: *mut i64,
            work_len: usize,
            answer: *mut u8,
            answer_len: usize,
        ) -> Replied;
        #[link_name = "judge"]
        fn c_judge(question: *const u8, question_len: usize, answer: *const u8, answer_len: usize) -> Judged;
        #[link_name = "nuldwich_need"]
        fn c_need(ticket: *const u8, ticket_len: usize) -> Needed;
        #[link_name = "nuldwich_same"]
        fn c_same(first: *const u8, first_len: usize, second: *const u8, second_len: usize) -> Compared;
    }

    /// The entry of a name.
    pub fn entry(name: &str) -> Option<Call> {
        match name {
            "check" => Some(check),
            "check_in" => Some(check_in),
            "judge" => Some(judge),
            "need" => Some(need),
            "same" => Some(same),
            _ => None,
        }
    }

    fn check(parts: &[Vec<u8>], lent: &mut Buffers) -> Reply {
        let (ticket, answer) = (&parts[0], &mut lent.answer);
        // Both slices are valid for their lengths during the call.
        unsafe { c_check(ticket.as_ptr(), ticket.len(), answer.as_mut_ptr(), answer.len()) }.into()
    }

    fn check_in(parts: &[Vec<u8>], lent: &mut Buffers) -> Reply {
        let (ticket, work, answer) = (&parts[0], &mut lent.work, &mut lent.answer);
        let (work, work_len) = (work.as_mut_ptr(), work.len());
        // The three slices are valid for their lengths during the call.
        unsafe { c_check_in(ticket.as_ptr(), ticket.len(), work, work_len, answer.as_mut_ptr(), answer.len()) }.into()
    }

    fn judge(parts: &[Vec<u8>], _: &mut Buffers) -> Reply {
        let (question, answer) = (&parts[0], &parts[1]);
        // Both slices are valid for their lengths during the call.
        unsafe { c_judge(question.as_ptr(), question.len(), answer.as_ptr(), answer.len()) }.into()
    }

    fn need(parts: &[Vec<u8>], _: &mut Buffers) -> Reply {
        let ticket = &parts[0];
        // The slice is valid for its length during the call.
        unsafe { c_need(ticket.as_ptr(), ticket.len()) }.into()
    }

    fn same(parts: &[Vec<u8>], _: &mut Buffers) -> Reply {
        let (first, second) = (&parts[0], &parts[1]);
        // Both slices are valid for their lengths during the call.
        unsafe { c_same(first.as_ptr(), first.len(), second.as_ptr(), second.len()) }.into()
    }
}
