//! Which method does this JVM call run, now? An owner of the linker of `include/linkd.h`, in safe Rust.
//!
//! ```no_run
//! # fn main() -> Result<(), Box<dyn std::error::Error>> {
//! let mut linker = linkd::Linker::open(1_000)?;
//! linker.define(&std::fs::read("Object.class")?)?;
//! let class = linker.define(&std::fs::read("Main.class")?)?;
//! let site = linker.request(class, 1, 4)?; // the second method that it declares, at pc 4
//! linker.install(&[site])?;
//! println!("on null it {}", linker.call(site, None));
//! # Ok(())
//! # }
//! ```
//!
//! What the header says that a host owes is kept by types: a linker, a seat, a memo, a view and a renewal lie in blocks that aren't moved and go with
//! them, each call borrows its own alone (`&mut`), and ids are numbers that a linker may have given. After a `Mutex` a linker is shared by
//! threads, of which each has a [`Seat`], a [`Memo`] for megamorphic links, and a [`View`] if it compiles. One thing is left to the
//! program, since no type says it: it makes no call from a signal handler, or in a forked child of a process with threads.
mod answer;
mod block;
mod error;
mod invocation;
mod limits;
mod linker;
mod memo;
mod raw;
mod renewal;
mod seat;
mod view;

pub use answer::{Answer, Link, Linked, Method, Outcome, Resolution, Resolved, Row, Target, Throwable, Unlinked};
pub use error::{CallSiteFault, ClassFault, DefineFault, DelegateFault, Error, NotLinkable, ReleaseFault, RetireFault};
pub use invocation::{Instruction, Invocation};
pub use limits::Limits;
pub use linker::{CallSiteKind, Linker};
pub use memo::Memo;
pub use renewal::{Released, Renewal, Renumbering, Unfinished};
pub use seat::Seat;
pub use view::View;

use std::fmt;

/// The version of the header of the library that is linked with. [`Linker::open`] wants the one that this crate is written for.
pub fn version() -> u32 {
    // SAFETY: it only answers a number.
    unsafe { raw::linkd_version() }
}

/// The newest major version of class files of SE 17 (JVMS SE 17 §4.1), and so the newest one that [`Linker::define`] takes.
pub const NEWEST_OF_17: u16 = 61;

/// The newest major version of class files of which it is known how they are read: that of Java 25. The editions of the specification from
/// SE 17 to SE 25 say the same of all that is read. It isn't claimed that a JVM of SE 17 would take such a file.
pub const NEWEST_KNOWN: u16 = 69;

/// A number of the linker, of one kind.
macro_rules! id {
    ($(#[$doc:meta])* $name:ident, $word:literal) => {
        $(#[$doc])*
        #[derive(Clone, Copy, Debug, PartialEq, Eq, PartialOrd, Ord, Hash)]
        pub struct $name(pub(crate) u32);

        impl $name {
            /// The id of a number that was kept elsewhere, as in compiled code. A linker gives those below [`Limits::MOST`].
            pub const fn from_number(number: u32) -> Option<$name> {
                if number < Limits::MOST {
                    Some($name(number))
                } else {
                    None
                }
            }

            /// The number that the linker has given.
            pub const fn number(self) -> u32 {
                self.0
            }
        }

        impl fmt::Display for $name {
            fn fmt(&self, to: &mut fmt::Formatter<'_>) -> fmt::Result {
                write!(to, concat!($word, " {}"), self.0)
            }
        }
    };
}

id!(
    /// A class that is defined.
    ClassId,
    "class"
);
id!(
    /// A loader.
    LoaderId,
    "loader"
);
id!(
    /// An invocation that is requested.
    SiteId,
    "site"
);
id!(
    /// A call site of java.lang.invoke.
    CallSiteId,
    "call site"
);
id!(
    /// A switch point of java.lang.invoke.
    SwitchId,
    "switch point"
);

impl LoaderId {
    /// The loader that is there from the start.
    pub const FIRST: LoaderId = LoaderId(0);
}
