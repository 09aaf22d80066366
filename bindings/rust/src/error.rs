//! Why the linker refuses.
use crate::raw::Told;
use crate::{CallSiteId, ClassId, Link, LoaderId, SiteId, SwitchId};
use std::fmt;

/// An enum of the header's numbers: its variants, each with its number and with what it says to a reader.
macro_rules! numbered {
    ($(#[$doc:meta])* $name:ident { $($(#[$about:meta])* $variant:ident = $number:literal: $text:literal,)* }) => {
        $(#[$doc])*
        #[derive(Clone, Copy, Debug, PartialEq, Eq, Hash)]
        #[non_exhaustive]
        pub enum $name {
            $($(#[$about])* $variant = $number,)*
        }

        impl $name {
            pub(crate) fn of(number: u32) -> Option<$name> {
                match number {
                    $($number => Some($name::$variant),)*
                    _ => None,
                }
            }
        }

        impl fmt::Display for $name {
            fn fmt(&self, to: &mut fmt::Formatter<'_>) -> fmt::Result {
                to.write_str(match self {
                    $($name::$variant => $text,)*
                })
            }
        }
    };
}
pub(crate) use numbered;

numbered! {
    /// Why a class isn't defined (JVMS SE 17 §5.3.5).
    DefineFault {
        /// The loader was never made, or is retired.
        UnknownLoader = 1: "unknown loader",
        /// The loader finds a class of this name already.
        AlreadyRecorded = 2: "the loader has a class of this name",
        /// The class is its own parent.
        NamesItself = 3: "the class names itself as a parent",
        /// A direct superclass or superinterface isn't there yet: define it first.
        MissingParent = 4: "a parent is missing",
        /// The superclass is an interface.
        SuperIsInterface = 5: "the superclass is an interface",
        /// The superclass is final.
        FinalSuper = 6: "the superclass is final",
        /// A superinterface is none.
        NotAnInterface = 7: "a superinterface is no interface",
        /// A parent can't be accessed from the class.
        InaccessibleParent = 8: "a parent is inaccessible",
        /// Another loader than the first one defines java/lang/Object.
        SecondObject = 9: "a second java/lang/Object",
        /// There are as many classes as the linker may have.
        Full = 10: "there is no room for more classes",
    }
}

numbered! {
    /// Why bytes are no class file (JVMS SE 17 chapter 4).
    ClassFault {
        /// More than 1,000,000 bytes.
        TooLarge = 1: "it is too large",
        /// It doesn't begin with ca fe ba be.
        BadMagic = 2: "it has no magic number",
        /// Its major version isn't one that is taken, or from 56 on its minor version isn't 0.
        BadVersion = 3: "its version isn't one that is taken",
        /// It is cut.
        Truncated = 4: "it is cut short",
        /// An entry of its pool isn't as it must be.
        Pool = 5: "an entry of its pool is bad",
        /// It is a module's.
        ModuleFile = 6: "it is a module's",
        /// Its superclass isn't as it must be.
        BadSuper = 7: "its superclass is bad",
        /// Two methods have one name and type.
        DuplicateMethod = 8: "two methods have one name and type",
        /// A method has two codes.
        TwoCodes = 9: "a method has two codes",
        /// A code isn't as it must be.
        Code = 10: "a code is bad",
        /// It goes on after its end.
        TrailingBytes = 11: "it goes on after its end",
        /// A field or a method isn't as it must be.
        BadMember = 12: "a field or a method is bad",
        /// A number names a wrong entry of the pool.
        BadLink = 13: "a number names a wrong entry of its pool",
        /// Its nest isn't as it must be.
        BadNest = 14: "its nest is bad",
    }
}

numbered! {
    /// Why a loader doesn't find a class by another.
    DelegateFault {
        /// One of the two was never made, or is retired.
        UnknownLoader = 1: "unknown loader",
        /// The other loader doesn't find it either.
        NotRecorded = 2: "the other loader has no class of this name",
        /// The loader finds a class of this name already.
        AlreadyRecorded = 3: "the loader has a class of this name",
    }
}

numbered! {
    /// Why an invocation isn't linked.
    NotLinkable {
        /// It names a method of an array type.
        ArrayReceiver = 1: "it names an array type",
        /// It names one of java/lang/invoke/MethodHandle or VarHandle.
        PolymorphicSignature = 2: "it is signature-polymorphic",
    }
}

numbered! {
    /// Why a call site isn't made, or has no new target.
    CallSiteFault {
        /// There is no such call site, or it is released.
        UnknownCallSite = 1: "unknown call site",
        /// A constant call site keeps its target.
        Constant = 2: "it is constant",
        /// The type isn't the call site's.
        WrongType = 3: "a method has another type",
        /// There is no such method.
        UnknownMethod = 4: "unknown method",
        /// The method isn't static.
        NotStatic = 5: "a method isn't static",
        /// There is no such switch point, or it is released.
        UnknownSwitch = 6: "unknown switch point",
        /// The target is deeper than 64, or has more than 255 parts.
        TooDeep = 7: "the target is too deep or too large",
        /// There are as many of them as the linker may have.
        Full = 8: "there is no room for more",
        /// It would invoke a call site that isn't older.
        InvokerOrder = 9: "it invokes a call site that isn't older",
    }
}

/// Why a loader isn't retired.
#[derive(Clone, Copy, Debug, PartialEq, Eq, Hash)]
#[non_exhaustive]
pub enum RetireFault {
    /// Never made, or retired.
    UnknownLoader,
    /// The first loader stays.
    FirstLoader,
    /// This class, of a loader that stays, has an ancestor of the loader.
    Inherited(ClassId),
    /// This loader, which stays, records a class of the loader.
    Recorded(LoaderId),
    /// This call site's target names a method of one of the loader's classes.
    Targeted(CallSiteId),
}

impl fmt::Display for RetireFault {
    fn fmt(&self, to: &mut fmt::Formatter<'_>) -> fmt::Result {
        match self {
            RetireFault::UnknownLoader => to.write_str("unknown loader"),
            RetireFault::FirstLoader => to.write_str("the first loader stays"),
            RetireFault::Inherited(class) => write!(to, "{class} has an ancestor of it"),
            RetireFault::Recorded(loader) => write!(to, "{loader} records a class of it"),
            RetireFault::Targeted(call_site) => write!(to, "{call_site} names a method of it"),
        }
    }
}

/// Why call sites and switch points aren't released.
#[derive(Clone, Copy, Debug, PartialEq, Eq, Hash)]
#[non_exhaustive]
pub enum ReleaseFault {
    /// This call site, the first of those that were given, was never made, or is released.
    UnknownCallSite(CallSiteId),
    /// This switch point, the first of those that were given, was never made, or is released.
    UnknownSwitch(SwitchId),
    /// The target of this call site, which stays, invokes one of the call sites.
    Invoked(CallSiteId),
    /// The target of this call site, which stays, guards by one of the switch points.
    Guarded(CallSiteId),
}

impl fmt::Display for ReleaseFault {
    fn fmt(&self, to: &mut fmt::Formatter<'_>) -> fmt::Result {
        match self {
            ReleaseFault::UnknownCallSite(call_site) => write!(to, "there is no {call_site}"),
            ReleaseFault::UnknownSwitch(point) => write!(to, "there is no {point}"),
            ReleaseFault::Invoked(call_site) => write!(to, "{call_site} invokes one of the call sites"),
            ReleaseFault::Guarded(call_site) => write!(to, "{call_site} guards by one of the switch points"),
        }
    }
}

/// Why the linker refuses a call, or couldn't obey it. It is as before then.
#[derive(Clone, Debug, PartialEq, Eq, Hash)]
#[non_exhaustive]
pub enum Error {
    /// The class isn't defined.
    Define(DefineFault),
    /// The bytes are no class file.
    NoClassFile {
        /// Why not.
        fault: ClassFault,
        /// The pool's entry, the member or the method.
        place: u32,
        /// More closely, of a pool or a code; else 0.
        cause: u32,
        /// The pc of a fault of a code; else 0.
        pc: u32,
    },
    /// There is no such class, or it is retired.
    UnknownClass,
    /// The class has no such method, or no invocation there.
    NoSuchPlace,
    /// The invocation isn't linked.
    NotLinkable(NotLinkable),
    /// As many sites are requested as may be.
    SitesFull,
    /// The call site isn't made, or has no new target.
    CallSite(CallSiteFault),
    /// The site is no invokedynamic.
    NotDynamic,
    /// The site is bound, to this call site.
    AlreadyBound(CallSiteId),
    /// The call site's type isn't the invokedynamic's.
    TypeMismatch,
    /// The link that was given isn't the site's link from scratch now.
    Stale {
        /// The first such site of those that were given.
        site: SiteId,
        /// The link that it has from scratch now.
        present: Link,
    },
    /// The site has no link from scratch now, or had none when the view was taken.
    NotReady(SiteId),
    /// Nothing is requested under this number.
    UnknownSite(SiteId),
    /// The site comes twice.
    Repeated(SiteId),
    /// No sites, or more than 256.
    BatchSize,
    /// Want of memory.
    Memory,
    /// The loader doesn't find the class by the other.
    Delegate(DelegateFault),
    /// There are as many loaders as the linker may have.
    LoadersFull,
    /// The loader isn't retired.
    Retire(RetireFault),
    /// None of several loaders is retired.
    RetireAll {
        /// The first of those that were given that can't go.
        loader: LoaderId,
        /// Why it can't.
        fault: RetireFault,
    },
    /// Call sites and switch points aren't released.
    Release(ReleaseFault),
    /// A type, a target or a link that is none, or a number that is too large.
    Malformed,
    /// Since a renewal began an event has named what was released and is gone. The renewal can't be finished.
    Released {
        /// Of the call site or the switch point that is gone.
        number: u32,
        /// How many of the old linker's events the fresh one has.
        events: u32,
    },
    /// The renewal has begun with another linker.
    OtherLinker,
    /// A status or a fault that this crate has no name for.
    Other {
        /// Of `linkd_status`.
        status: u32,
        /// By the status.
        fault: u32,
    },
}

impl fmt::Display for Error {
    fn fmt(&self, to: &mut fmt::Formatter<'_>) -> fmt::Result {
        match self {
            Error::Define(fault) => write!(to, "the class isn't defined: {fault}"),
            Error::NoClassFile { fault, place, cause, pc } => {
                write!(to, "no class file: {fault} (place {place}, cause {cause}, pc {pc})")
            }
            Error::UnknownClass => to.write_str("unknown class"),
            Error::NoSuchPlace => to.write_str("the class has no such method, or no invocation there"),
            Error::NotLinkable(why) => write!(to, "the invocation isn't linked: {why}"),
            Error::SitesFull => to.write_str("there is no room for more sites"),
            Error::CallSite(fault) => write!(to, "the call site is refused: {fault}"),
            Error::NotDynamic => to.write_str("the site is no invokedynamic"),
            Error::AlreadyBound(call_site) => write!(to, "the site is bound to {call_site}"),
            Error::TypeMismatch => to.write_str("the call site has another type than the invokedynamic"),
            Error::Stale { site, present } => write!(to, "{site} has another link now: {present}"),
            Error::NotReady(site) => write!(to, "{site} has no link"),
            Error::UnknownSite(site) => write!(to, "{site} isn't requested"),
            Error::Repeated(site) => write!(to, "{site} comes twice"),
            Error::BatchSize => to.write_str("no sites, or more than 256"),
            Error::Memory => to.write_str("want of memory"),
            Error::Delegate(fault) => write!(to, "no delegation: {fault}"),
            Error::LoadersFull => to.write_str("there is no room for more loaders"),
            Error::Retire(fault) => write!(to, "the loader isn't retired: {fault}"),
            Error::RetireAll { loader, fault } => write!(to, "{loader} isn't retired, nor are the others: {fault}"),
            Error::Release(fault) => write!(to, "nothing is released: {fault}"),
            Error::Malformed => to.write_str("a type, a target or a link that is none, or a number that is too large"),
            Error::Released { number, events } => write!(to, "event {events} names {number}, which was released and is gone"),
            Error::OtherLinker => to.write_str("the renewal has begun with another linker"),
            Error::Other { status, fault } => write!(to, "status {status}, fault {fault}"),
        }
    }
}

impl std::error::Error for Error {}

/// The error of a retirement, by its number.
fn retire_fault(told: &Told) -> Option<RetireFault> {
    Some(match told.fault {
        1 => RetireFault::UnknownLoader,
        2 => RetireFault::FirstLoader,
        3 => RetireFault::Inherited(ClassId(told.place)),
        4 => RetireFault::Recorded(LoaderId(told.place)),
        5 => RetireFault::Targeted(CallSiteId(told.place)),
        _ => return None,
    })
}

/// The error of a release, by its number.
fn release_fault(told: &Told) -> Option<ReleaseFault> {
    Some(match told.fault {
        1 => ReleaseFault::UnknownCallSite(CallSiteId(told.place)),
        2 => ReleaseFault::UnknownSwitch(SwitchId(told.place)),
        3 => ReleaseFault::Invoked(CallSiteId(told.place)),
        4 => ReleaseFault::Guarded(CallSiteId(told.place)),
        _ => return None,
    })
}

/// The error of a status other than 0, or none where it has no name here. A stale link is told with the present one, by its caller.
fn named(status: u32, told: &Told) -> Option<Error> {
    let site = SiteId(told.place);
    Some(match status {
        1 => Error::Define(DefineFault::of(told.fault)?),
        2 => Error::UnknownClass,
        3 => Error::NoSuchPlace,
        4 => Error::NotLinkable(NotLinkable::of(told.fault)?),
        5 => Error::SitesFull,
        6 => Error::CallSite(CallSiteFault::of(told.fault)?),
        7 => Error::NotDynamic,
        8 => Error::AlreadyBound(CallSiteId(told.place)),
        9 => Error::TypeMismatch,
        11 => Error::NotReady(site),
        12 => Error::UnknownSite(site),
        13 => Error::Repeated(site),
        14 => Error::BatchSize,
        15 => Error::Memory,
        16 => Error::Delegate(DelegateFault::of(told.fault)?),
        17 => Error::LoadersFull,
        19 => Error::Retire(retire_fault(told)?),
        20 => Error::Release(release_fault(told)?),
        32 => Error::NoClassFile { fault: ClassFault::of(told.fault)?, place: told.place, cause: told.cause, pc: told.at },
        33 => Error::Malformed,
        37 => Error::Released { number: told.place, events: told.number },
        _ => return None,
    })
}

/// Done, or the error.
pub(crate) fn done(status: u32, told: &Told) -> Result<(), Error> {
    if status == crate::raw::DONE {
        return Ok(());
    }
    Err(named(status, told).unwrap_or(Error::Other { status, fault: told.fault }))
}
