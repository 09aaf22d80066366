use crate::answer::answer;
use crate::block::Block;
use crate::error::done;
use crate::raw::{self, Told};
use crate::{Answer, ClassId, Error, Linker, SiteId};
use std::fmt;

/// What one thread remembers of calls at megamorphic links, by site and receiver's class, so that the next one takes no lock (a method
/// cache: Deutsch and Schiffman 1984). It is a linker's, and remembers nothing of another one. What it remembers stays right whatever is
/// defined later, while the site's class and the receiver's are present.
pub struct Memo {
    block: Block,
    of: u64,
}

// SAFETY: another thread may make the next call, and a move to it, or a lock, orders the two.
unsafe impl Send for Memo {}

impl fmt::Debug for Memo {
    fn fmt(&self, to: &mut fmt::Formatter<'_>) -> fmt::Result {
        to.debug_struct("Memo").finish_non_exhaustive()
    }
}

impl Memo {
    pub(crate) fn of(linker: &Linker, sets: u32) -> Result<Memo, Error> {
        // SAFETY: the block is as large and stands as the library asks, and is a memo from `linkd_memo_blank` on.
        let (memo, status) = unsafe {
            let block = Block::new(raw::linkd_memo_size(), raw::linkd_memo_align());
            raw::linkd_memo_blank(block.at());
            let memo = Memo { block, of: linker.number() };
            let status = raw::linkd_memo_open(memo.at(), sets);
            (memo, status)
        };
        done(status, &Told::default())?;
        Ok(memo)
    }

    pub(crate) fn at(&self) -> *mut raw::Opaque {
        self.block.at()
    }

    /// Whether it remembers calls of the linker of this number.
    pub(crate) fn is_of(&self, linker: u64) -> bool {
        self.of == linker
    }

    /// As [`Linker::call`]; the answer is remembered where the site's link is megamorphic and the call has an outcome.
    pub fn ask(&mut self, linker: &mut Linker, site: SiteId, receiver: Option<ClassId>) -> Answer {
        if !self.is_of(linker.number()) {
            return linker.call(site, receiver);
        }
        let mut told = raw::Answer::default();
        let number = receiver.map_or(raw::NULL, ClassId::number);
        // SAFETY: the memo and the linker are borrowed alone.
        let status = unsafe { raw::linkd_memo_ask(self.at(), linker.at(), site.number(), number, &mut told) };
        assert_eq!(status, raw::DONE, "a linker and a memo are open until they are dropped");
        answer(told).expect("a linker doesn't miss")
    }

    /// What it remembers that a call comes to, by itself: none where it remembers nothing, and for null. It knows nothing of a site's link,
    /// nor that its loader is retired.
    #[inline]
    pub fn call(&mut self, site: SiteId, receiver: Option<ClassId>) -> Option<Answer> {
        let mut told = raw::Answer::default();
        let number = receiver.map_or(raw::NULL, ClassId::number);
        // SAFETY: the memo is borrowed alone.
        let status = unsafe { raw::linkd_memo_call(self.at(), site.number(), number, &mut told) };
        assert_eq!(status, raw::DONE, "a memo is open until it is dropped");
        answer(told)
    }
}

impl Drop for Memo {
    fn drop(&mut self) {
        // SAFETY: the memo lets all go, and its block goes after it.
        unsafe { raw::linkd_memo_close(self.at()) }
    }
}
