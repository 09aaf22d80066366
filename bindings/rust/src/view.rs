use crate::answer::{answer, link};
use crate::block::Block;
use crate::error::done;
use crate::raw::{self, Told};
use crate::{Answer, ClassId, Error, Link, Linker, SiteId};
use std::fmt;

/// What there was to link when it was taken: classes, sites and call sites. A compiler's thread prepares links in it without a lock, and
/// compiles by them for as long as that takes; [`Linker::install_links`] accepts them if they are from scratch then, so that no code rests
/// on a class hierarchy that was.
///
/// ```
/// # use linkd::{Error, Linker, SiteId};
/// # use std::sync::Mutex;
/// fn compile(linker: &Mutex<Linker>, sites: &[SiteId]) -> Result<(), Error> {
///     let mut view = linker.lock().unwrap().view()?;
///     let links = view.prepare(sites)?; // without the lock, as all that compiling takes
///     drop(view);
///     linker.lock().unwrap().install_links(&links)
/// }
/// ```
///
/// It may outlive its linker. While it stands a later event may have to copy what the view still has, so drop it once its links are
/// prepared.
pub struct View {
    block: Block,
}

// SAFETY: another thread may make the next call, and a move to it, or a lock, orders the two. A call counts as one on the view alone.
unsafe impl Send for View {}

impl fmt::Debug for View {
    fn fmt(&self, to: &mut fmt::Formatter<'_>) -> fmt::Result {
        to.debug_struct("View").finish_non_exhaustive()
    }
}

const TAKEN: &str = "a view is taken until it is dropped";

impl View {
    pub(crate) fn of(linker: &mut Linker) -> Result<View, Error> {
        // SAFETY: the block is as large and stands as the library asks, and is a view from `linkd_view_blank` on.
        let mut view = unsafe {
            let block = Block::new(raw::linkd_view_size(), raw::linkd_view_align());
            raw::linkd_view_blank(block.at());
            View { block }
        };
        view.take(linker)?;
        Ok(view)
    }

    /// Gives the view what there is to link now, in the place of what it had. On [`Error::Memory`] it has what it had.
    pub fn take(&mut self, from: &mut Linker) -> Result<(), Error> {
        // SAFETY: the view and the linker are borrowed alone.
        done(unsafe { raw::linkd_view_take(self.block.at(), from.at()) }, &Told::default())
    }

    /// After how many accepted events it was taken.
    pub fn serial(&mut self) -> u64 {
        let mut serial = 0;
        // SAFETY: the view is borrowed alone, and what is read and written is borrowed for the call; so in all calls below.
        let status = unsafe { raw::linkd_view_serial(self.block.at(), &mut serial) };
        assert_eq!(status, raw::DONE, "{TAKEN}");
        serial
    }

    /// What a call came to when the view was taken, on null or on an object of the class, linked or not.
    pub fn call(&mut self, site: SiteId, receiver: Option<ClassId>) -> Answer {
        let mut told = raw::Answer::default();
        let number = receiver.map_or(raw::NULL, ClassId::number);
        let status = unsafe { raw::linkd_view_call(self.block.at(), site.number(), number, &mut told) };
        assert_eq!(status, raw::DONE, "{TAKEN}");
        answer(told).expect("a view doesn't miss")
    }

    /// The links of the sites from scratch, 1 to 256 of them, as they were when the view was taken: all or none, each with its site.
    /// Nothing is installed.
    ///
    /// [`Error::BatchSize`]; [`Error::UnknownSite`] and [`Error::Repeated`], of the first site that wasn't requested then or comes a second
    /// time; [`Error::NotReady`], of the first site that had no link; [`Error::Memory`].
    pub fn prepare(&mut self, sites: &[SiteId]) -> Result<Vec<(SiteId, Link)>, Error> {
        let mut told = Told::default();
        let numbers: Vec<u32> = sites.iter().map(|site| site.number()).collect();
        let mut links = vec![raw::Link::default(); sites.len()];
        let (from, to) = (numbers.as_ptr(), links.as_mut_ptr());
        let status = unsafe { raw::linkd_view_prepare(self.block.at(), from, numbers.len(), to, links.len(), &mut told) };
        done(status, &told)?;
        let prepared = links.iter().map(|of| link(of).expect("a site that is prepared has a link"));
        Ok(sites.iter().copied().zip(prepared).collect())
    }
}

impl Drop for View {
    fn drop(&mut self) {
        // SAFETY: the view lets go what it has, and its block goes after it.
        unsafe { raw::linkd_view_leave(self.block.at()) }
    }
}
