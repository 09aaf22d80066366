use crate::answer::{answer, link, raw_link, resolution};
use crate::block::Block;
use crate::error::done;
use crate::invocation::{invocation, Invocation};
use crate::raw::{self, Told};
use crate::{
    Answer, CallSiteId, ClassId, Error, Limits, Link, Linked, LoaderId, Memo, Released, Renewal, Renumbering, Resolution, Seat, SiteId,
    SwitchId, Target, View,
};
use std::fmt;
use std::sync::atomic::{AtomicU64, Ordering};

/// Whether a call site gets other targets later, and how (java.lang.invoke).
#[derive(Clone, Copy, Debug, PartialEq, Eq, Hash)]
pub enum CallSiteKind {
    /// ConstantCallSite.
    Constant,
    /// MutableCallSite.
    Mutable,
    /// VolatileCallSite.
    Volatile,
}

impl CallSiteKind {
    fn number(self) -> u32 {
        match self {
            CallSiteKind::Constant => 1,
            CallSiteKind::Mutable => 2,
            CallSiteKind::Volatile => 3,
        }
    }
}

/// An open linker. What it is asked by an event is done, or refused without a change.
pub struct Linker {
    block: Block,
    max_sites: u32,
    number: u64,
}

/// How many linkers were opened: each has a number, by which seats and memos tell whose they are.
static OPENED: AtomicU64 = AtomicU64::new(0);

// SAFETY: another thread may make the next call, and a move to it, or a lock, orders the two.
unsafe impl Send for Linker {}

impl fmt::Debug for Linker {
    fn fmt(&self, to: &mut fmt::Formatter<'_>) -> fmt::Result {
        to.debug_struct("Linker").field("max_sites", &self.max_sites).finish_non_exhaustive()
    }
}

/// What an event made.
fn number(status: u32, told: &Told) -> Result<u32, Error> {
    done(status, told).map(|()| told.number)
}

const OPEN: &str = "a linker is open until it is dropped";

/// What a call writes into an array, and tells the length of. None where it tells of nothing.
fn copied<T: Clone + Default>(mut call: impl FnMut(*mut T, usize, &mut usize) -> u32) -> Option<Vec<T>> {
    let (mut items, mut length) = (Vec::new(), 0);
    let mut status = call(items.as_mut_ptr(), 0, &mut length);
    if status == raw::TOO_SHORT {
        items.resize(length, T::default());
        status = call(items.as_mut_ptr(), items.len(), &mut length);
    }
    assert_ne!(status, raw::CLOSED, "{OPEN}");
    (status == raw::DONE).then_some(items)
}

impl Linker {
    /// A linker without classes, in which at most so many sites may be requested: 1 to 1,048,576, or else [`Error::Malformed`]. There may be
    /// 1,048,576 loaders, classes, call sites and switch points.
    pub fn open(max_sites: u32) -> Result<Linker, Error> {
        // SAFETY: the linker is no one else's yet.
        Linker::opened(max_sites, |at| unsafe { raw::linkd_open(at, max_sites) })
    }

    /// A linker without classes, which gives at most so many numbers of each kind. [`Error::Malformed`], where there can be no such limits.
    pub fn open_with(limits: Limits) -> Result<Linker, Error> {
        let Limits { sites, loaders, classes, call_sites, switches } = limits;
        // SAFETY: the linker is no one else's yet.
        Linker::opened(sites, |at| unsafe { raw::linkd_open_with(at, sites, loaders, classes, call_sites, switches) })
    }

    /// One that the call opens.
    fn opened(max_sites: u32, open: impl FnOnce(*mut raw::Opaque) -> u32) -> Result<Linker, Error> {
        assert_eq!(crate::version(), raw::VERSION, "the archive is of another version of the header than this crate");
        let linker = Linker::blank(max_sites);
        done(open(linker.at()), &Told::default())?;
        Ok(linker)
    }

    /// One that isn't open yet.
    pub(crate) fn blank(max_sites: u32) -> Linker {
        // SAFETY: the block is as large and stands as the library asks, and is a linker from `linkd_blank` on.
        let block = unsafe {
            let block = Block::new(raw::linkd_size(), raw::linkd_align());
            raw::linkd_blank(block.at());
            block
        };
        Linker { block, max_sites, number: OPENED.fetch_add(1, Ordering::Relaxed) }
    }

    pub(crate) fn at(&self) -> *mut raw::Opaque {
        self.block.at()
    }

    pub(crate) fn number(&self) -> u64 {
        self.number
    }

    /// A loader more.
    pub fn new_loader(&mut self) -> Result<LoaderId, Error> {
        let mut told = Told::default();
        // SAFETY: the linker is borrowed alone, and what is read and written is borrowed for the call; so in all calls below.
        let status = unsafe { raw::linkd_new_loader(self.at(), &mut told) };
        number(status, &told).map(LoaderId)
    }

    /// Defines a class in the first loader, by [`define_in`](Linker::define_in).
    pub fn define(&mut self, file: &[u8]) -> Result<ClassId, Error> {
        self.define_in(LoaderId::FIRST, file)
    }

    /// Defines a class, after its parents: [`DefineFault::MissingParent`](crate::DefineFault::MissingParent) is no end, and
    /// [`refused_name`](Linker::refused_name) names the parent. The major version of its file is 45 to [`NEWEST_OF_17`](crate::NEWEST_OF_17).
    pub fn define_in(&mut self, loader: LoaderId, file: &[u8]) -> Result<ClassId, Error> {
        let mut told = Told::default();
        let status = unsafe { raw::linkd_define(self.at(), loader.0, file.as_ptr(), file.len(), &mut told) };
        number(status, &told).map(ClassId)
    }

    /// As [`define_in`](Linker::define_in), but the major version is 45 to `newest`. A file of a version above
    /// [`NEWEST_OF_17`](crate::NEWEST_OF_17) is read as one of 61.0 is, and linked as SE 17 says. With [`NEWEST_KNOWN`](crate::NEWEST_KNOWN)
    /// files up to Java 25's are taken; of later ones nothing is known.
    pub fn define_up_to(&mut self, loader: LoaderId, newest: u16, file: &[u8]) -> Result<ClassId, Error> {
        let mut told = Told::default();
        let status = unsafe { raw::linkd_define_up_to(self.at(), loader.0, newest, file.as_ptr(), file.len(), &mut told) };
        number(status, &told).map(ClassId)
    }

    /// The loader finds under the name, in modified UTF-8, the class that the loader `to` finds.
    pub fn delegate(&mut self, loader: LoaderId, name: &[u8], to: LoaderId) -> Result<(), Error> {
        let mut told = Told::default();
        let status = unsafe { raw::linkd_delegate(self.at(), loader.0, name.as_ptr(), name.len(), to.0, &mut told) };
        done(status, &told)
    }

    /// Requests the invocation at the pc of the class's method, by its place among those that the class declares.
    pub fn request(&mut self, class: ClassId, method: u16, pc: u16) -> Result<SiteId, Error> {
        let mut told = Told::default();
        let status = unsafe { raw::linkd_request(self.at(), class.0, method.into(), pc.into(), &mut told) };
        number(status, &told).map(SiteId)
    }

    /// A call site of this type, a method descriptor.
    pub fn new_call_site(&mut self, kind: CallSiteKind, descriptor: &[u8], target: &Target) -> Result<CallSiteId, Error> {
        let (mut told, parts) = (Told::default(), target.parts());
        let status = unsafe {
            raw::linkd_new_call_site_of(
                self.at(),
                kind.number(),
                descriptor.as_ptr(),
                descriptor.len(),
                parts.as_ptr(),
                parts.len(),
                &mut told,
            )
        };
        number(status, &told).map(CallSiteId)
    }

    /// The call site has this target from now on.
    pub fn set_target(&mut self, call_site: CallSiteId, target: &Target) -> Result<(), Error> {
        let (mut told, parts) = (Told::default(), target.parts());
        let status = unsafe { raw::linkd_set_target_of(self.at(), call_site.0, parts.as_ptr(), parts.len(), &mut told) };
        done(status, &told)
    }

    /// A switch point, which is valid.
    pub fn new_switch(&mut self) -> Result<SwitchId, Error> {
        let mut told = Told::default();
        let status = unsafe { raw::linkd_new_switch(self.at(), &mut told) };
        number(status, &told).map(SwitchId)
    }

    /// The switch points are invalid for good.
    pub fn invalidate(&mut self, switches: &[SwitchId]) -> Result<(), Error> {
        let mut told = Told::default();
        let numbers: Vec<u32> = switches.iter().map(|switch| switch.0).collect();
        let status = unsafe { raw::linkd_invalidate(self.at(), numbers.as_ptr(), numbers.len(), &mut told) };
        done(status, &told)
    }

    /// The site, an invokedynamic, runs what the call site runs.
    pub fn bind(&mut self, site: SiteId, call_site: CallSiteId) -> Result<(), Error> {
        let mut told = Told::default();
        let status = unsafe { raw::linkd_bind(self.at(), site.0, call_site.0, &mut told) };
        done(status, &told)
    }

    /// The loader goes, with its classes and the sites in them.
    pub fn retire(&mut self, loader: LoaderId) -> Result<(), Error> {
        let mut told = Told::default();
        let status = unsafe { raw::linkd_retire(self.at(), loader.0, &mut told) };
        done(status, &told)
    }

    /// The loaders go at once, with their classes and the sites in them: all or none. Only what stays holds one, so loaders that record each
    /// other go. One that comes twice goes once; where there are none nothing changes.
    ///
    /// [`Error::RetireAll`], of the first that can't go.
    pub fn retire_all(&mut self, loaders: &[LoaderId]) -> Result<(), Error> {
        let mut told = Told::default();
        let numbers: Vec<u32> = loaders.iter().map(|loader| loader.0).collect();
        let status = unsafe { raw::linkd_retire_all(self.at(), numbers.as_ptr(), numbers.len(), &mut told) };
        done(status, &told).map_err(|error| match error {
            Error::Retire(fault) => Error::RetireAll { loader: LoaderId(told.number), fault },
            other => other,
        })
    }

    /// The call sites and the switch points go at once: all or none. A site that is bound to one of these call sites is
    /// [`Unlinked::Gone`](crate::Unlinked::Gone), and what their targets name holds no loader any more. Only what stays holds one, so call sites
    /// that invoke each other go. One that comes twice goes once; where there are none nothing changes.
    ///
    /// [`Error::Release`].
    pub fn release(&mut self, call_sites: &[CallSiteId], switches: &[SwitchId]) -> Result<(), Error> {
        let mut told = Told::default();
        let sites: Vec<u32> = call_sites.iter().map(|call_site| call_site.0).collect();
        let points: Vec<u32> = switches.iter().map(|switch| switch.0).collect();
        let status = unsafe { raw::linkd_release(self.at(), sites.as_ptr(), sites.len(), points.as_ptr(), points.len(), &mut told) };
        done(status, &told)
    }

    /// Links the sites from scratch, 1 to 256 of them: all or none.
    pub fn install(&mut self, sites: &[SiteId]) -> Result<(), Error> {
        let mut told = Told::default();
        let numbers: Vec<u32> = sites.iter().map(|site| site.0).collect();
        let status = unsafe { raw::linkd_install(self.at(), numbers.as_ptr(), numbers.len(), &mut told) };
        done(status, &told)
    }

    /// Installs these links, of 1 to 256 sites: all or none. Each has to be its site's link from scratch now, wherever and whenever it was
    /// looked up, as in a [`View`].
    ///
    /// In this order: [`Error::Malformed`], where a plain link throws or a table has more than eight rows; [`Error::BatchSize`];
    /// [`Error::UnknownSite`] and [`Error::Repeated`], of the first site that wasn't requested or comes a second time; [`Error::Stale`],
    /// of the first site whose link is another one now, or [`Error::NotReady`], of the first site that has none, whichever of the two
    /// comes first.
    pub fn install_links(&mut self, links: &[(SiteId, Link)]) -> Result<(), Error> {
        let (mut told, mut present) = (Told::default(), raw::Link::default());
        let rows: Vec<_> = links.iter().map(|(site, link)| raw::LinkRow { site: site.0, link: raw_link(link) }).collect();
        let status = unsafe { raw::linkd_install_links(self.at(), rows.as_ptr(), rows.len(), &mut told, &mut present) };
        if status == raw::STALE {
            let present = link(&present).expect("a site whose link is stale has another one");
            return Err(Error::Stale { site: SiteId(told.place), present });
        }
        done(status, &told)
    }

    /// Requests the invocation as [`request`](Linker::request) does, and installs its link unless there is one: this one call links an
    /// invocation that is met.
    ///
    /// What refuses the request is an error here. What refuses the install is told beside the site: [`Error::NotReady`], of which
    /// [`awaited_class`](Linker::awaited_class) names the class, or [`Error::Memory`].
    pub fn link(&mut self, class: ClassId, method: u16, pc: u16) -> Result<Linked, Error> {
        // A link is written once the place was requested, and no link is of such a kind.
        let (mut told, mut present) = (Told::default(), raw::Link { kind: u32::MAX, ..raw::Link::default() });
        let status = unsafe { raw::linkd_link_place(self.at(), class.0, method.into(), pc.into(), &mut present, &mut told) };
        let done = done(status, &told);
        if present.kind == u32::MAX {
            return Err(done.expect_err("a place that is linked was requested"));
        }
        let link = done.map(|()| link(&present).expect("a place that is linked has a link"));
        Ok(Linked { site: SiteId(told.number), link })
    }

    /// Links from scratch those of the sites that have a link now, at most 256 of them, and installs these links: all or none. Gives what is
    /// installed then at each of the sites, in their order. The others are passed over: sites that have no link now, and ids under which nothing
    /// was requested. They may come more than once. Where all are passed over there is no event.
    ///
    /// [`Error::BatchSize`], where more than 256 of the sites have a link; [`Error::Repeated`], of the first site that has a link and comes a
    /// second time; [`Error::Memory`].
    pub fn install_ready(&mut self, sites: &[SiteId]) -> Result<Vec<(SiteId, Option<Link>)>, Error> {
        let mut told = Told::default();
        let numbers: Vec<u32> = sites.iter().map(|site| site.0).collect();
        let mut links = vec![raw::Link::default(); sites.len()];
        let (from, to) = (numbers.as_ptr(), links.as_mut_ptr());
        let status = unsafe { raw::linkd_install_ready(self.at(), from, numbers.len(), to, links.len(), &mut told) };
        done(status, &told)?;
        Ok(sites.iter().copied().zip(links.iter().map(link)).collect())
    }

    /// Whether the bytes are a class file whose major version is 45 to `newest`, as [`define_up_to`](Linker::define_up_to) reads them, which
    /// asks for more. So a program that reads a class itself before it defines it calls this first. Nothing is defined.
    ///
    /// [`Error::NoClassFile`], [`Error::Memory`].
    pub fn check(&mut self, newest: u16, file: &[u8]) -> Result<(), Error> {
        let mut told = Told::default();
        let status = unsafe { raw::linkd_check(self.at(), newest, file.as_ptr(), file.len(), &mut told) };
        done(status, &told)
    }

    /// The sites, rising, whose links the last accepted event removed.
    pub fn dropped(&mut self) -> Vec<SiteId> {
        let at = self.at();
        let numbers = copied(|out, capacity, length| unsafe { raw::linkd_dropped(at, out, capacity, length) });
        numbers.expect("there is always such a list").into_iter().map(SiteId).collect()
    }

    /// How many selections, special searches and evaluations of call sites the last accepted event took: what it cost beside the sites
    /// that it dropped.
    pub fn last_work(&mut self) -> u64 {
        let mut work = 0;
        let status = unsafe { raw::linkd_last_work(self.at(), &mut work) };
        assert_eq!(status, raw::DONE, "{OPEN}");
        work
    }

    /// Does the last event in the second of the two instances of all that the linker keeps, where it isn't done there, so that the next event
    /// doesn't pay for it: for when a program waits. No later call is answered otherwise.
    ///
    /// [`Error::Memory`]: the next event copies all that the linker keeps.
    pub fn catch_up(&mut self) -> Result<(), Error> {
        let status = unsafe { raw::linkd_catch_up(self.at()) };
        done(status, &Told::default())
    }

    /// What a call comes to now, on null or on an object of the class, linked or not.
    #[inline]
    pub fn call(&mut self, site: SiteId, receiver: Option<ClassId>) -> Answer {
        let mut told = raw::Answer::default();
        let status = unsafe { raw::linkd_call(self.at(), site.0, receiver.map_or(raw::NULL, ClassId::number), &mut told) };
        assert_eq!(status, raw::DONE, "{OPEN}");
        answer(told).expect("a linker doesn't miss")
    }

    /// What a call of the method comes to, on null or on an object of the class, where no code makes it, as by reflection, a method handle or
    /// native code. A static method and an instance initialization method are called themselves; of others one is selected by the receiver
    /// (JVMS SE 17 §5.4.6), as by an invokevirtual or, where the class is an interface, an invokeinterface (§6.5).
    ///
    /// [`Error::NoSuchPlace`], where there is no such class or method, or the class is retired.
    pub fn select(&mut self, class: ClassId, method: u16, receiver: Option<ClassId>) -> Result<Answer, Error> {
        let mut told = raw::Answer::default();
        let receiver = receiver.map_or(raw::NULL, ClassId::number);
        let status = unsafe { raw::linkd_select(self.at(), class.0, method.into(), receiver, &mut told) };
        done(status, &Told::default())?;
        Ok(answer(told).expect("a linker doesn't miss"))
    }

    /// What a reference to the method of this name and descriptor in the class `named` resolves to for the class `from` (JVMS SE 17 §5.4.3.3,
    /// where `named` is an interface §5.4.3.4; access: §5.4.4). Both texts are in modified UTF-8. It looks at no instruction: whether the method
    /// is static the program has to see. Methods of java/lang/invoke/MethodHandle and VarHandle are found as those of any class.
    ///
    /// [`Error::UnknownClass`], where one of the two was never defined or is retired.
    pub fn resolve(&mut self, from: ClassId, named: ClassId, name: &[u8], descriptor: &[u8]) -> Result<Resolution, Error> {
        let mut told = raw::Resolution::default();
        let status = unsafe {
            raw::linkd_resolve(self.at(), from.0, named.0, name.as_ptr(), name.len(), descriptor.as_ptr(), descriptor.len(), &mut told)
        };
        done(status, &Told::default())?;
        Ok(resolution(told))
    }

    /// Whether the class is accessible to the class `from` (JVMS SE 17 §5.4.4), as for new, checkcast and fields.
    ///
    /// [`Error::UnknownClass`], where one of the two was never defined or is retired.
    pub fn class_accessible(&mut self, from: ClassId, class: ClassId) -> Result<bool, Error> {
        let mut accessible = 0;
        let status = unsafe { raw::linkd_class_accessible(self.at(), from.0, class.0, &mut accessible) };
        done(status, &Told::default())?;
        Ok(accessible == 1)
    }

    /// The link that is installed at the site, if there is one.
    pub fn link_of(&mut self, site: SiteId) -> Option<Link> {
        let mut told = raw::Link::default();
        let status = unsafe { raw::linkd_link_of(self.at(), site.0, &mut told) };
        assert_eq!(status, raw::DONE, "{OPEN}");
        link(&told)
    }

    /// The class that the loader finds under the name, in modified UTF-8 (JVMS SE 17 §5.3): one that it has defined or was delegated. None
    /// too where the loader was never made, or is retired.
    pub fn lookup(&mut self, loader: LoaderId, name: &[u8]) -> Option<ClassId> {
        let mut class = 0;
        let status = unsafe { raw::linkd_lookup(self.at(), loader.0, name.as_ptr(), name.len(), &mut class) };
        assert_ne!(status, raw::CLOSED, "{OPEN}");
        (status == raw::DONE).then_some(ClassId(class))
    }

    /// The name of the class as its file has it (JVMS SE 17 §4.2.1), in modified UTF-8, be the class retired or not.
    pub fn class_name(&mut self, class: ClassId) -> Option<Vec<u8>> {
        let at = self.at();
        copied(|out, capacity, length| unsafe { raw::linkd_class_name(at, class.0, out, capacity, length) })
    }

    /// The name (JVMS SE 17 §4.2.2) of the method at this place among those that the class declares, in modified UTF-8. None where there is
    /// no such class or method.
    pub fn method_name(&mut self, class: ClassId, method: u16) -> Option<Vec<u8>> {
        let at = self.at();
        copied(|out, capacity, length| unsafe { raw::linkd_method_name(at, class.0, method.into(), out, capacity, length) })
    }

    /// The descriptor of that method (JVMS SE 17 §4.3.3), as well.
    pub fn method_descriptor(&mut self, class: ClassId, method: u16) -> Option<Vec<u8>> {
        let at = self.at();
        copied(|out, capacity, length| unsafe { raw::linkd_method_type(at, class.0, method.into(), out, capacity, length) })
    }

    /// The invocations in that method's code, by rising pc; a request of one may be [`Error::NotLinkable`]. None where there is no such
    /// class or method.
    pub fn method_invocations(&mut self, class: ClassId, method: u16) -> Option<Vec<Invocation>> {
        let at = self.at();
        let found = copied(|out, capacity, length| unsafe { raw::linkd_invocations(at, class.0, method.into(), out, capacity, length) });
        Some(found?.iter().map(|of| invocation(method, of)).collect())
    }

    /// The invocations in the codes of all methods of the class, method by method. None where there is no such class.
    pub fn invocations(&mut self, class: ClassId) -> Option<Vec<Invocation>> {
        self.class_name(class)?;
        Some((0..=u16::MAX).map_while(|method| self.method_invocations(class, method)).flatten().collect())
    }

    /// The name, in modified UTF-8, of the class that the refusal of the last event told of: the parent of
    /// [`DefineFault::MissingParent`](crate::DefineFault::MissingParent), [`NotAnInterface`](crate::DefineFault::NotAnInterface) or
    /// [`InaccessibleParent`](crate::DefineFault::InaccessibleParent). None where it told of none. [`Error::NoClassFile`] and
    /// [`Error::Malformed`] leave what the event before has told, and so does [`answer`](Linker::answer).
    pub fn refused_name(&mut self) -> Option<Vec<u8>> {
        let at = self.at();
        copied(|out, capacity, length| unsafe { raw::linkd_refused_name(at, out, capacity, length) })
    }

    /// The name, in modified UTF-8, of the class for which the site waits: where a call there is
    /// [`Unlinked::WantsNamed`](crate::Unlinked::WantsNamed), [`WantsCallerHost`](crate::Unlinked::WantsCallerHost) or
    /// [`WantsMethodHost`](crate::Unlinked::WantsMethodHost), and so an install of it [`Error::NotReady`]. None where it waits for none.
    pub fn awaited_class(&mut self, site: SiteId) -> Option<Vec<u8>> {
        let at = self.at();
        copied(|out, capacity, length| unsafe { raw::linkd_awaited(at, site.0, out, capacity, length) })
    }

    /// The answer to a command of docs/FORMATS.md. On [`Error::Memory`] it was obeyed, or nothing has changed.
    pub fn answer(&mut self, line: &str) -> Result<String, Error> {
        let (told, mut length) = (Told::default(), 0);
        done(unsafe { raw::linkd_answer(self.at(), line.as_ptr(), line.len(), &mut length) }, &told)?;
        let mut text = vec![0; length];
        done(unsafe { raw::linkd_take(self.at(), text.as_mut_ptr(), text.len(), &mut length) }, &told)?;
        text.truncate(length);
        Ok(String::from_utf8_lossy(&text).into_owned())
    }

    /// A fresh linker that has what stays of this one, which is left as it is, and the ids there: of what is retired or not used any more
    /// something stays in a linker, so a program that runs for long goes over to a fresh one from time to time. What stays are the loaders
    /// that aren't retired, their classes and the sites in these, and call sites and switch points as [`Released`] says; a site that stays has
    /// its link. So many sites may be requested there, 1 to 1,048,576, or else [`Error::Malformed`]; its other limits are this one's.
    ///
    /// A seat goes over by its next [`refresh`](Seat::refresh) from the fresh linker, and a view by its next [`take`](View::take); a memo is
    /// one of the old linker.
    ///
    /// [`Error::SitesFull`], where more sites stay; [`Error::Memory`].
    pub fn renew(&mut self, max_sites: u32, released: &Released) -> Result<(Linker, Renumbering), Error> {
        let (fresh, mut numbers) = (Linker::blank(max_sites), self.renumbering());
        let (call_sites, switches) = released.numbers();
        // SAFETY: both linkers are borrowed alone, and are two; what is read and written is borrowed for the call.
        let status = unsafe {
            raw::linkd_renew_into(
                self.at(),
                fresh.at(),
                max_sites,
                call_sites.as_ptr(),
                call_sites.len(),
                switches.as_ptr(),
                switches.len(),
                numbers.loaders.as_mut_ptr(),
                numbers.loaders.len(),
                numbers.classes.as_mut_ptr(),
                numbers.classes.len(),
                numbers.sites.as_mut_ptr(),
                numbers.sites.len(),
                numbers.call_sites.as_mut_ptr(),
                numbers.call_sites.len(),
                numbers.switches.as_mut_ptr(),
                numbers.switches.len(),
            )
        };
        done(status, &Told::default())?;
        Ok((fresh, numbers))
    }

    /// Room for the new numbers of all that there ever was.
    pub(crate) fn renumbering(&mut self) -> Renumbering {
        let mut counts = raw::Counts::default();
        assert_eq!(unsafe { raw::linkd_counts(self.at(), &mut counts) }, raw::DONE, "{OPEN}");
        Renumbering::with_room(&counts)
    }

    /// Begins to do in steps what [`renew`](Linker::renew) does in one call: between these steps the linker goes on.
    ///
    /// [`Error::Malformed`], where `max_sites` isn't 1 to 1,048,576; [`Error::Memory`].
    pub fn begin_renewal(&mut self, max_sites: u32, released: &Released) -> Result<Renewal, Error> {
        Renewal::of(self, max_sites, released)
    }

    /// A place for one thread to read links.
    pub fn seat(&mut self) -> Result<Seat, Error> {
        Seat::of(self)
    }

    /// What there is to link now, in which a thread prepares links without a lock.
    pub fn view(&mut self) -> Result<View, Error> {
        View::of(self)
    }

    /// What one thread remembers of calls at megamorphic links, in so many sets of two.
    pub fn memo(&self, sets: u32) -> Result<Memo, Error> {
        Memo::of(self, sets)
    }
}

impl Drop for Linker {
    fn drop(&mut self) {
        // SAFETY: the linker lets all go, and its block goes after it.
        unsafe { raw::linkd_close(self.at()) }
    }
}
