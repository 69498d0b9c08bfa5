//! One answer of an output page, found by its answer headers (document 02, Note 1).

use crate::fault::PageFault;
use crate::read::Refusal;
use crate::word::{kind, payload, ANSWER};
use std::ops::Range;

/// Where the answer with this number, from 0, stands on the page, header word included; or refusal 10.
pub fn view(page: &[u32], answer: u32) -> Result<Range<usize>, Refusal> {
    view_with(None, page, answer)
}

/// The same with an error put in, for tests of tests.
pub fn view_with(
    fault: Option<PageFault>,
    page: &[u32],
    answer: u32,
) -> Result<Range<usize>, Refusal> {
    let walk = Walk { page, fault };
    let mut to_pass = match walk.has(PageFault::NumberedFromOne) {
        true => answer.saturating_sub(1),
        false => answer,
    };
    let mut at = 0;
    loop {
        at += walk.skipped(at);
        let end = walk.end_of_answer(at)?;
        if to_pass == 0 {
            return walk.given(at..end);
        }
        to_pass -= 1;
        at = end;
    }
}

struct Walk<'p> {
    page: &'p [u32],
    fault: Option<PageFault>,
}

impl Walk<'_> {
    fn has(&self, fault: PageFault) -> bool {
        self.fault == Some(fault)
    }

    /// How many words are gone past here: none, but for an error put in.
    fn skipped(&self, at: usize) -> usize {
        let no_headers = self.page[at..]
            .iter()
            .take_while(|&&word| kind(word) != ANSWER);
        match self.has(PageFault::NoHeaderSkipped) {
            true => no_headers.count(),
            false => 0,
        }
    }

    /// Where the answer ends whose header has to stand at this place, at most the page's length. Its header is all of it that is
    /// looked at.
    fn end_of_answer(&self, at: usize) -> Result<usize, Refusal> {
        let left = self.page.len() - at;
        if left == 0 {
            return self.refused(match self.has(PageFault::EndAtLastWord) {
                true => at.saturating_sub(1),
                false => at,
            });
        }
        let header = self.page[at];
        if kind(header) != ANSWER && !self.has(PageFault::AnyKind) {
            let zeros = self.page[at..].iter().all(|&word| word == 0);
            return self.refused(match self.has(PageFault::ZerosEndThePage) && zeros {
                true => self.page.len(),
                false => at,
            });
        }
        let inside = payload(header) as usize;
        let words = match self.has(PageFault::HeaderCounted) {
            true => inside.max(1),
            false => 1 + inside,
        };
        if words > left || words == left && self.has(PageFault::FullPageOverruns) {
            return match self.fault {
                Some(PageFault::OverrunCut) => Ok(self.page.len()),
                Some(PageFault::OverrunAtEnd) => self.refused(self.page.len()),
                _ => self.refused(at),
            };
        }
        let end = at + words;
        if self.has(PageFault::InsideLookedAt) {
            let next = (at + 1..end).find(|&inside| kind(self.page[inside]) == ANSWER);
            return Ok(next.unwrap_or(end));
        }
        Ok(end)
    }

    /// The wanted answer is passed: nothing more is looked at.
    fn given(&self, answer: Range<usize>) -> Result<Range<usize>, Refusal> {
        if self.has(PageFault::NextLookedAt) && answer.end < self.page.len() {
            self.end_of_answer(answer.end)?;
        }
        match self.has(PageFault::HeaderLeftOut) {
            true => Ok(answer.start + 1..answer.end),
            false => Ok(answer),
        }
    }

    fn refused<T>(&self, place: usize) -> Result<T, Refusal> {
        let place = match self.has(PageFault::PlaceTooFar) {
            true => place + 1,
            false => place,
        };
        Err(Refusal { number: 10, place })
    }
}
