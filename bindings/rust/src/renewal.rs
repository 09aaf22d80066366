use crate::block::Block;
use crate::error::done;
use crate::raw::{self, Counts, Told, NO_NUMBER};
use crate::{CallSiteId, ClassId, Error, Linker, LoaderId, SiteId, SwitchId};
use std::fmt;

/// The call sites and switch points that a program has let go, in any order: it asks for none of them again.
#[derive(Clone, Copy, Debug, Default)]
pub struct Released<'a> {
    /// A call site that is let go stays where a site that stays is bound to it, or the target of a later call site that stays invokes it.
    pub call_sites: &'a [CallSiteId],
    /// A switch point that is let go stays where the target of a call site that stays guards by it.
    pub switches: &'a [SwitchId],
}

impl Released<'_> {
    pub(crate) fn numbers(&self) -> (Vec<u32>, Vec<u32>) {
        let call_sites = self.call_sites.iter().map(|call_site| call_site.0);
        (call_sites.collect(), self.switches.iter().map(|switch| switch.0).collect())
    }
}

/// The ids that what stays has in the fresh linker of [`Linker::renew`] and [`Renewal::finish`]. None stands for what is gone, and for an id
/// that the old linker hadn't given.
#[derive(Clone, Debug)]
pub struct Renumbering {
    pub(crate) loaders: Vec<u32>,
    pub(crate) classes: Vec<u32>,
    pub(crate) sites: Vec<u32>,
    pub(crate) call_sites: Vec<u32>,
    pub(crate) switches: Vec<u32>,
}

fn new_number(numbers: &[u32], old: u32) -> Option<u32> {
    numbers.get(old as usize).copied().filter(|number| *number != NO_NUMBER)
}

impl Renumbering {
    /// One with room for so many, of which all are gone.
    pub(crate) fn with_room(counts: &Counts) -> Renumbering {
        let gone = |count: u32| vec![NO_NUMBER; count as usize];
        Renumbering {
            loaders: gone(counts.loaders),
            classes: gone(counts.classes),
            sites: gone(counts.sites),
            call_sites: gone(counts.call_sites),
            switches: gone(counts.switches),
        }
    }

    /// A loader that isn't retired stays.
    pub fn loader(&self, old: LoaderId) -> Option<LoaderId> {
        new_number(&self.loaders, old.0).map(LoaderId)
    }

    /// A class stays with its loader.
    pub fn class(&self, old: ClassId) -> Option<ClassId> {
        new_number(&self.classes, old.0).map(ClassId)
    }

    /// A site stays with its class, and so does its link.
    pub fn site(&self, old: SiteId) -> Option<SiteId> {
        new_number(&self.sites, old.0).map(SiteId)
    }

    /// A call site stays as [`Released`] says.
    pub fn call_site(&self, old: CallSiteId) -> Option<CallSiteId> {
        new_number(&self.call_sites, old.0).map(CallSiteId)
    }

    /// A switch point stays as [`Released`] says.
    pub fn switch(&self, old: SwitchId) -> Option<SwitchId> {
        new_number(&self.switches, old.0).map(SwitchId)
    }
}

/// What [`Linker::renew`] does, in steps between which the linker goes on: its lock is held for moments alone.
///
/// ```
/// # use linkd::{Error, Linker, Released, Renumbering};
/// # use std::sync::Mutex;
/// fn renew(shared: &Mutex<Linker>) -> Result<Renumbering, Error> {
///     let mut renewal = shared.lock().unwrap().begin_renewal(1_000, &Released::default())?;
///     loop {
///         renewal.take(&mut shared.lock().unwrap(), 1_000)?;
///         renewal.fill()?; // without the lock: it takes seconds where there are many classes
///         if renewal.take(&mut shared.lock().unwrap(), 0)? < 100 {
///             break; // few have come meanwhile
///         }
///     }
///     let mut linker = shared.lock().unwrap();
///     let (fresh, numbers) = renewal.finish(&mut linker)?; // the few events that are left
///     *linker = fresh; // before the lock is let go: what the old linker accepts from now on the fresh one never has
///     Ok(numbers)
/// }
/// ```
///
/// It is of the linker that it has begun with, and refuses another one by [`Error::OtherLinker`]. From the begin on that linker is asked for
/// nothing that was released: an event that names it ends the renewal by [`Error::Released`], which changes nothing of the linker. Several
/// renewals of one linker may be under way at a time; each finish gives a linker of its own.
pub struct Renewal {
    block: Block,
    of: u64,
    max_sites: u32,
}

// SAFETY: another thread may make the next call, and a move to it, or a lock, orders the two. Filling counts as a call on the renewal alone.
unsafe impl Send for Renewal {}

impl fmt::Debug for Renewal {
    fn fmt(&self, to: &mut fmt::Formatter<'_>) -> fmt::Result {
        to.debug_struct("Renewal").field("max_sites", &self.max_sites).finish_non_exhaustive()
    }
}

/// Why a renewal wasn't finished, and the renewal, which goes on: after [`Error::Memory`] it may be finished later.
#[derive(Debug)]
pub struct Unfinished {
    /// The renewal, as it was but for the events that were taken and carried over.
    pub renewal: Renewal,
    /// Why not.
    pub why: Error,
}

impl fmt::Display for Unfinished {
    fn fmt(&self, to: &mut fmt::Formatter<'_>) -> fmt::Result {
        write!(to, "the renewal isn't finished: {}", self.why)
    }
}

impl std::error::Error for Unfinished {}

impl From<Unfinished> for Error {
    fn from(unfinished: Unfinished) -> Error {
        unfinished.why
    }
}

impl Renewal {
    pub(crate) fn of(linker: &mut Linker, max_sites: u32, released: &Released) -> Result<Renewal, Error> {
        // SAFETY: the block is as large and stands as the library asks, and is a renewal from `linkd_renewal_blank` on.
        let renewal = unsafe {
            let block = Block::new(raw::linkd_renewal_size(), raw::linkd_renewal_align());
            raw::linkd_renewal_blank(block.at());
            Renewal { block, of: linker.number(), max_sites }
        };
        let (call_sites, switches) = released.numbers();
        // SAFETY: the renewal and the linker are borrowed alone, and what is read for the call.
        let status = unsafe {
            raw::linkd_renewal_begin_with(
                renewal.block.at(),
                linker.at(),
                max_sites,
                call_sites.as_ptr(),
                call_sites.len(),
                switches.as_ptr(),
                switches.len(),
            )
        };
        done(status, &Told::default())?;
        Ok(renewal)
    }

    fn check(&self, from: &Linker) -> Result<(), Error> {
        if from.number() == self.of {
            Ok(())
        } else {
            Err(Error::OtherLinker)
        }
    }

    /// Takes the next events that the linker has accepted since the begin, at most so many. How many are left then. An event is shared, and
    /// not copied. On [`Error::Memory`] none was taken, and it may be tried again.
    pub fn take(&mut self, from: &mut Linker, most: usize) -> Result<usize, Error> {
        self.check(from)?;
        let mut left = 0;
        // SAFETY: the renewal and the linker are borrowed alone, and the out place for the call.
        done(unsafe { raw::linkd_renewal_take(self.block.at(), from.at(), most, &mut left) }, &Told::default())?;
        Ok(left)
    }

    /// Makes the fresh linker: at first of what there was at the begin, which takes the most time, and then of each event that was taken. On
    /// [`Error::Memory`] it may be tried again.
    ///
    /// [`Error::SitesFull`], where more sites stay than `max_sites`, or are requested later; [`Error::Released`]. After either the renewal can
    /// only be dropped.
    pub fn fill(&mut self) -> Result<(), Error> {
        let mut told = Told::default();
        // SAFETY: the renewal is borrowed alone, and the out place for the call.
        let status = unsafe { raw::linkd_renewal_fill(self.block.at(), &mut told) };
        done(status, &told)
    }

    /// Takes what is left and carries it over. The fresh linker, and the ids there of what stays. What the old linker accepts from now on
    /// the fresh one never has.
    ///
    /// [`Error::OtherLinker`], [`Error::Memory`], and as [`fill`](Renewal::fill).
    pub fn finish(self, from: &mut Linker) -> Result<(Linker, Renumbering), Unfinished> {
        match self.end(from) {
            Ok(ended) => Ok(ended),
            Err(why) => Err(Unfinished { renewal: self, why }),
        }
    }

    fn end(&self, from: &mut Linker) -> Result<(Linker, Renumbering), Error> {
        self.check(from)?;
        let (mut told, fresh, mut numbers) = (Told::default(), Linker::blank(self.max_sites), from.renumbering());
        // SAFETY: the renewal and both linkers are borrowed alone, and are three; what is written is borrowed for the call.
        let status = unsafe {
            raw::linkd_renewal_finish_into(
                self.block.at(),
                from.at(),
                fresh.at(),
                &mut told,
                numbers.loaders.as_mut_ptr(),
                numbers.loaders.len(),
                numbers.classes.as_mut_ptr(),
                numbers.classes.len(),
                numbers.sites.as_mut_ptr(),
                numbers.sites.len(),
                numbers.call_sites.as_mut_ptr(),
                numbers.call_sites.len(),
                numbers.switches.as_mut_ptr(),
                numbers.switches.len(),
            )
        };
        done(status, &told)?;
        Ok((fresh, numbers))
    }
}

impl Drop for Renewal {
    fn drop(&mut self) {
        // SAFETY: the renewal lets go what was made, and its block goes after it.
        unsafe { raw::linkd_renewal_leave(self.block.at()) }
    }
}
