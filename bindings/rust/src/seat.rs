use crate::answer::answer;
use crate::block::Block;
use crate::error::done;
use crate::raw::{self, Told};
use crate::{Answer, ClassId, Error, Linker, Memo, SiteId};
use std::fmt;

/// One thread's place to read links without a lock. It may outlive its linker, and goes on answering by the links of its last refresh.
///
/// While it is refreshed it can't be used: this is no program, and is one without either of the two threads.
///
/// ```compile_fail,E0499
/// fn both(linker: &mut linkd::Linker, seat: &mut linkd::Seat, site: linkd::SiteId) {
///     std::thread::scope(|threads| {
///         threads.spawn(|| seat.refresh(linker));
///         threads.spawn(|| seat.call(site, None));
///     });
/// }
/// ```
///
/// ```
/// fn one(linker: &mut linkd::Linker, seat: &mut linkd::Seat) {
///     std::thread::scope(|threads| {
///         threads.spawn(|| seat.refresh(linker));
///     });
/// }
/// ```
pub struct Seat {
    block: Block,
    /// The linker of the last refresh.
    of: u64,
}

// SAFETY: another thread may make the next call, and a move to it, or a lock, orders the two. A call counts as one on the seat alone.
unsafe impl Send for Seat {}

impl fmt::Debug for Seat {
    fn fmt(&self, to: &mut fmt::Formatter<'_>) -> fmt::Result {
        to.debug_struct("Seat").finish_non_exhaustive()
    }
}

impl Seat {
    pub(crate) fn of(linker: &mut Linker) -> Result<Seat, Error> {
        // SAFETY: the block is as large and stands as the library asks, and is a seat from `linkd_seat_blank` on.
        let mut seat = unsafe {
            let block = Block::new(raw::linkd_seat_size(), raw::linkd_seat_align());
            raw::linkd_seat_blank(block.at());
            Seat { block, of: linker.number() }
        };
        seat.refresh(linker)?;
        Ok(seat)
    }

    /// Gives the seat the linker's links as they are now.
    pub fn refresh(&mut self, from: &mut Linker) -> Result<(), Error> {
        // SAFETY: the seat and the linker are borrowed alone.
        done(unsafe { raw::linkd_seat_refresh(self.block.at(), from.at()) }, &Told::default())?;
        self.of = from.number();
        Ok(())
    }

    /// What a call comes to by the links of the last refresh, at once. None is a miss: ask the linker.
    #[inline]
    pub fn call(&mut self, site: SiteId, receiver: Option<ClassId>) -> Option<Answer> {
        // SAFETY: the seat is borrowed alone.
        let bits = unsafe { raw::linkd_seat_answer(self.block.at(), site.0, receiver.map_or(raw::NULL, ClassId::number)) };
        answer(raw::Answer::of_bits(bits))
    }

    /// The same, and at a megamorphic link what the memo remembers of such calls, where it is the linker's of the last refresh; null throws
    /// there at once. None is a miss: ask by the memo ([`Memo::ask`]).
    #[inline]
    pub fn call_with(&mut self, memo: &mut Memo, site: SiteId, receiver: Option<ClassId>) -> Option<Answer> {
        if !memo.is_of(self.of) {
            return self.call(site, receiver);
        }
        let mut told = raw::Answer::default();
        let number = receiver.map_or(raw::NULL, ClassId::number);
        // SAFETY: the seat and the memo are borrowed alone, and the out place for the call.
        let status = unsafe { raw::linkd_seat_call_with(self.block.at(), memo.at(), site.0, number, &mut told) };
        assert_eq!(status, raw::DONE, "a seat has links and a memo is open until they are dropped");
        answer(told)
    }
}

impl Drop for Seat {
    fn drop(&mut self) {
        // SAFETY: the seat lets its links go, and its block goes after it.
        unsafe { raw::linkd_seat_leave(self.block.at()) }
    }
}
