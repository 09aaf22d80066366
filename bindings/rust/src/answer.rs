//! What a call comes to, links, and targets of call sites.
use crate::error::numbered;
use crate::{raw, CallSiteId, ClassId, Error, SiteId, SwitchId};
use std::fmt;

numbered! {
    /// What a call throws (JVMS SE 17 §6.5).
    Throwable {
        /// java/lang/NoSuchMethodError.
        NoSuchMethodError = 1: "NoSuchMethodError",
        /// java/lang/IllegalAccessError.
        IllegalAccessError = 2: "IllegalAccessError",
        /// java/lang/IncompatibleClassChangeError.
        IncompatibleClassChangeError = 3: "IncompatibleClassChangeError",
        /// java/lang/AbstractMethodError.
        AbstractMethodError = 4: "AbstractMethodError",
        /// java/lang/NullPointerException.
        NullPointerException = 5: "NullPointerException",
    }
}

numbered! {
    /// Why a site has no link.
    Unlinked {
        /// The class that the instruction names isn't there yet.
        WantsNamed = 1: "it wants the class that is named",
        /// The nest host of the caller's class isn't.
        WantsCallerHost = 2: "it wants the caller's nest host",
        /// The nest host of the method's class isn't.
        WantsMethodHost = 3: "it wants the method's nest host",
        /// An invokedynamic without a call site.
        Unbound = 4: "it is bound to no call site",
        /// The class of the site is retired, or the call site to which it is bound is released.
        Gone = 5: "its class is retired, or its call site is released",
        /// Nothing is requested under this number.
        NoSite = 6: "it isn't requested",
    }
}

/// What a linked call does.
#[derive(Clone, Copy, Debug, PartialEq, Eq, Hash)]
pub enum Outcome {
    /// This method runs.
    Run {
        /// The class that declares it.
        class: ClassId,
        /// Its place among those that the class declares.
        method: u16,
    },
    /// This is thrown.
    Throws(Throwable),
}

impl fmt::Display for Outcome {
    fn fmt(&self, to: &mut fmt::Formatter<'_>) -> fmt::Result {
        match self {
            Outcome::Run { class, method } => write!(to, "runs method {method} of {class}"),
            Outcome::Throws(throwable) => write!(to, "throws {throwable}"),
        }
    }
}

/// What a call comes to.
#[derive(Clone, Copy, Debug, PartialEq, Eq, Hash)]
pub enum Answer {
    /// It is linked, or could be.
    Outcome(Outcome),
    /// No object can be such a receiver here.
    BadReceiver,
    /// It has no link.
    Unlinked(Unlinked),
}

impl fmt::Display for Answer {
    fn fmt(&self, to: &mut fmt::Formatter<'_>) -> fmt::Result {
        match self {
            Answer::Outcome(outcome) => outcome.fmt(to),
            Answer::BadReceiver => to.write_str("can't have such a receiver"),
            Answer::Unlinked(why) => write!(to, "is unlinked: {why}"),
        }
    }
}

/// A method of a class.
#[derive(Clone, Copy, Debug, PartialEq, Eq, Hash)]
pub struct Method {
    /// The class that declares it.
    pub class: ClassId,
    /// Its place among those that the class declares.
    pub method: u16,
}

impl fmt::Display for Method {
    fn fmt(&self, to: &mut fmt::Formatter<'_>) -> fmt::Result {
        write!(to, "method {} of {}", self.method, self.class)
    }
}

/// What a reference to a method resolves to (JVMS SE 17 §5.4.3.3, §5.4.3.4).
#[derive(Clone, Copy, Debug, PartialEq, Eq, Hash)]
pub struct Resolution {
    /// The method that was found, accessible or not.
    pub found: Option<Method>,
    /// What the resolution comes to.
    pub comes_to: Resolved,
}

/// What a resolution comes to.
#[derive(Clone, Copy, Debug, PartialEq, Eq, Hash)]
pub enum Resolved {
    /// The reference resolves to the method that was found.
    Found,
    /// This is thrown.
    Throws(Throwable),
    /// It isn't known yet, since a nest host isn't there: [`Unlinked::WantsCallerHost`] or [`Unlinked::WantsMethodHost`].
    Unlinked(Unlinked),
}

/// An invocation that was requested, and its link.
#[derive(Clone, Debug, PartialEq, Eq, Hash)]
pub struct Linked {
    /// The site.
    pub site: SiteId,
    /// The link that is installed there now, or why none is.
    pub link: Result<Link, Error>,
}

/// A receiver's class, and what a call on an object of it comes to.
pub type Row = (ClassId, Outcome);

/// What each call at a site comes to: a link that is installed there, or that was prepared for it.
#[derive(Clone, Debug, PartialEq, Eq, Hash)]
pub enum Link {
    /// Each call throws.
    Fault(Throwable),
    /// Each call runs this method, and has no receiver. A plain link that throws is none.
    Plain(Outcome),
    /// Each call on an object comes to this.
    Direct(Outcome),
    /// An invokevirtual, by the receiver's class: at most eight rows, by rising class.
    VirtualTable(Vec<Row>),
    /// An invokeinterface, by the receiver's class, as well.
    InterfaceTable(Vec<Row>),
    /// There are too many classes for a table.
    Megamorphic,
}

/// An outcome in a link: `5.2` is method 2 of class 5.
struct Short(Outcome);

impl fmt::Display for Short {
    fn fmt(&self, to: &mut fmt::Formatter<'_>) -> fmt::Result {
        match self.0 {
            Outcome::Run { class, method } => write!(to, "{}.{method}", class.number()),
            throws @ Outcome::Throws(_) => throws.fmt(to),
        }
    }
}

fn write_table(kind: &str, rows: &[Row], to: &mut fmt::Formatter<'_>) -> fmt::Result {
    to.write_str(kind)?;
    for (place, &(receiver, outcome)) in rows.iter().enumerate() {
        let comma = if place == 0 { "" } else { "," };
        write!(to, "{comma} {} -> {}", receiver.number(), Short(outcome))?;
    }
    Ok(())
}

/// By numbers of classes and of methods in them: `direct 5.2`, `virtual 3 -> 4.0, 5 -> throws AbstractMethodError`, `megamorphic`.
impl fmt::Display for Link {
    fn fmt(&self, to: &mut fmt::Formatter<'_>) -> fmt::Result {
        match self {
            Link::Fault(throwable) => write!(to, "fault {throwable}"),
            Link::Plain(outcome) => write!(to, "plain {}", Short(*outcome)),
            Link::Direct(outcome) => write!(to, "direct {}", Short(*outcome)),
            Link::VirtualTable(rows) => write_table("virtual", rows, to),
            Link::InterfaceTable(rows) => write_table("interface", rows, to),
            Link::Megamorphic => to.write_str("megamorphic"),
        }
    }
}

/// What a call site runs (java.lang.invoke.CallSite).
#[derive(Clone, Debug, PartialEq, Eq, Hash)]
pub enum Target {
    /// A static method: the class, and the method's place in it.
    Method(ClassId, u16),
    /// The first while the switch point is valid, then the second (java.lang.invoke.SwitchPoint).
    Guard(SwitchId, Box<Target>, Box<Target>),
    /// What this call site runs (java.lang.invoke.CallSite.dynamicInvoker).
    Invoker(CallSiteId),
}

impl Target {
    /// Its parts as linkd.h has them, a guard before its first part and its fallback.
    pub(crate) fn parts(&self) -> Vec<raw::TargetPart> {
        let mut parts = Vec::new();
        self.push_parts(&mut parts);
        parts
    }

    fn push_parts(&self, parts: &mut Vec<raw::TargetPart>) {
        match self {
            Target::Method(class, method) => {
                parts.push(raw::TargetPart { kind: 0, number: class.number(), value: (*method).into() });
            }
            Target::Guard(switch, first, fallback) => {
                parts.push(raw::TargetPart { kind: 1, number: switch.number(), value: 0 });
                first.push_parts(parts);
                fallback.push_parts(parts);
            }
            Target::Invoker(call_site) => {
                parts.push(raw::TargetPart { kind: 2, number: call_site.number(), value: 0 });
            }
        }
    }
}

/// As docs/FORMATS.md has it, in JSON.
impl fmt::Display for Target {
    fn fmt(&self, to: &mut fmt::Formatter<'_>) -> fmt::Result {
        match self {
            Target::Method(class, method) => write!(to, "{{\"method\":[{},{method}]}}", class.number()),
            Target::Guard(switch, first, second) => {
                write!(to, "{{\"guard\":{},\"target\":{first},\"fallback\":{second}}}", switch.number())
            }
            Target::Invoker(call_site) => write!(to, "{{\"invoker\":{}}}", call_site.number()),
        }
    }
}

/// An outcome by its numbers, or none where it is none.
#[inline]
fn outcome(kind: u32, class: u32, value: u32) -> Option<Outcome> {
    match kind {
        0 => Some(Outcome::Run { class: ClassId(class), method: u16::try_from(value).ok()? }),
        1 => Some(Outcome::Throws(Throwable::of(value)?)),
        _ => None,
    }
}

const NO_SUCH_NUMBER: &str = "linkd.h has such a number";

/// An answer, or none on a miss.
#[inline]
pub(crate) fn answer(of: raw::Answer) -> Option<Answer> {
    match of.kind {
        2 => Some(Answer::BadReceiver),
        3 => Some(Answer::Unlinked(Unlinked::of(of.value).expect(NO_SUCH_NUMBER))),
        4 => None,
        kind => Some(Answer::Outcome(outcome(kind, of.class_number, of.value).expect(NO_SUCH_NUMBER))),
    }
}

/// A resolution: its method is there but where none was found.
pub(crate) fn resolution(of: raw::Resolution) -> Resolution {
    let found = (of.class_number != raw::NO_NUMBER)
        .then(|| Method { class: ClassId(of.class_number), method: u16::try_from(of.method).expect(NO_SUCH_NUMBER) });
    let comes_to = match of.kind {
        0 => Resolved::Found,
        1 => Resolved::Throws(Throwable::of(of.value).expect(NO_SUCH_NUMBER)),
        _ => Resolved::Unlinked(Unlinked::of(of.value).expect(NO_SUCH_NUMBER)),
    };
    Resolution { found, comes_to }
}

fn row(of: &raw::Row) -> Row {
    (ClassId(of.receiver), outcome(of.kind, of.class_number, of.value).expect(NO_SUCH_NUMBER))
}

/// A link, or none where none is installed.
pub(crate) fn link(of: &raw::Link) -> Option<Link> {
    let rows = of.rows.iter().take(of.count as usize).map(row);
    let mut first = of.rows.iter().map(row).map(|(_, outcome)| outcome);
    Some(match of.kind {
        0 => return None,
        1 => match first.next() {
            Some(Outcome::Throws(throwable)) => Link::Fault(throwable),
            _ => unreachable!("a fault throws"),
        },
        2 => Link::Plain(first.next().expect(NO_SUCH_NUMBER)),
        3 => Link::Direct(first.next().expect(NO_SUCH_NUMBER)),
        4 => Link::VirtualTable(rows.collect()),
        5 => Link::InterfaceTable(rows.collect()),
        6 => Link::Megamorphic,
        _ => unreachable!("{NO_SUCH_NUMBER}"),
    })
}

fn raw_row(&(receiver, outcome): &Row) -> raw::Row {
    let receiver = receiver.number();
    match outcome {
        Outcome::Run { class, method } => raw::Row { receiver, kind: 0, class_number: class.number(), value: method.into() },
        Outcome::Throws(throwable) => raw::Row { receiver, kind: 1, class_number: 0, value: throwable as u32 },
    }
}

/// A link of these rows. There is room for eight; that there are more is told by their count, and refused by the library.
fn raw_rows(kind: u32, rows: &[Row]) -> raw::Link {
    let count = u32::try_from(rows.len()).unwrap_or(u32::MAX);
    let mut link = raw::Link { kind, count, ..raw::Link::default() };
    for (place, row) in link.rows.iter_mut().zip(rows) {
        *place = raw_row(row);
    }
    link
}

fn raw_single(kind: u32, outcome: Outcome) -> raw::Link {
    raw_rows(kind, &[(ClassId(0), outcome)])
}

/// The numbers of a link.
pub(crate) fn raw_link(of: &Link) -> raw::Link {
    match of {
        Link::Fault(throwable) => raw_single(1, Outcome::Throws(*throwable)),
        Link::Plain(outcome) => raw_single(2, *outcome),
        Link::Direct(outcome) => raw_single(3, *outcome),
        Link::VirtualTable(rows) => raw_rows(4, rows),
        Link::InterfaceTable(rows) => raw_rows(5, rows),
        Link::Megamorphic => raw_rows(6, &[]),
    }
}
