//! The worked example of the repository's README, and what a bad input gets. What is expected is what JVMS SE 17 §5.3.5, §5.4.6 and §6.5
//! say.
mod file;

use linkd::{
    Answer, CallSiteFault, CallSiteId, CallSiteKind, ClassFault, ClassId, DefineFault, DelegateFault, Error, Instruction, Invocation,
    Limits, Link, Linked, Linker, LoaderId, Method, NotLinkable, Outcome, ReleaseFault, Released, Renewal, Resolution, Resolved,
    RetireFault, SiteId, SwitchId, Target, Throwable, Unlinked, NEWEST_KNOWN, NEWEST_OF_17,
};
use std::sync::{Arc, Mutex};

const PUBLIC: u16 = 0x0001;
const PUBLIC_STATIC: u16 = 0x0009;
const INVOKEVIRTUAL: u8 = 182;
const INVOKESTATIC: u8 = 184;

const OBJECT: &str = "java/lang/Object";

fn object() -> Vec<u8> {
    file::class(OBJECT, None, &[])
}

/// A class with a method f.
fn with_f(name: &str, superclass: &str) -> Vec<u8> {
    file::class(name, Some(superclass), &[(PUBLIC, "f", vec![])])
}

/// M, whose static method m calls A.f at pc 0, Z.f at 3, an array's clone at 6 and MethodHandle.invoke at 9.
fn caller() -> Vec<u8> {
    let calls = vec![
        (INVOKEVIRTUAL, "A", "f", "()V"),
        (INVOKEVIRTUAL, "Z", "f", "()V"),
        (INVOKEVIRTUAL, "[LA;", "clone", "()Ljava/lang/Object;"),
        (INVOKEVIRTUAL, "java/lang/invoke/MethodHandle", "invoke", "()V"),
    ];
    file::class("M", Some(OBJECT), &[(PUBLIC_STATIC, "m", calls), (PUBLIC_STATIC, "n", vec![])])
}

struct World {
    linker: Linker,
    a: ClassId,
    b: ClassId,
    m: ClassId,
    site: SiteId,
}

/// Object, A with f, B below it without, and M, whose call of A.f is installed.
fn world() -> Result<World, Error> {
    let mut linker = Linker::open(100)?;
    linker.define(&object())?;
    let a = linker.define(&with_f("A", OBJECT))?;
    let b = linker.define(&file::class("B", Some("A"), &[]))?;
    let m = linker.define(&caller())?;
    let site = linker.request(m, 0, 0)?;
    linker.install(&[site])?;
    Ok(World { linker, a, b, m, site })
}

fn runs(class: ClassId) -> Outcome {
    Outcome::Run { class, method: 0 }
}

fn answers(class: ClassId) -> Answer {
    Answer::Outcome(runs(class))
}

#[test]
fn a_class_that_overrides_drops_the_link() -> Result<(), Error> {
    let World { mut linker, a, b, site, .. } = world()?;
    assert_eq!(linker.link_of(site), Some(Link::Direct(runs(a))));
    assert_eq!(linker.call(site, Some(b)), answers(a));
    assert_eq!(linker.call(site, None), Answer::Outcome(Outcome::Throws(Throwable::NullPointerException)));
    assert_eq!(linker.dropped(), []);

    let c = linker.define(&with_f("C", "A"))?;
    assert_eq!(linker.dropped(), [site]);
    assert_eq!(linker.link_of(site), None);
    assert_eq!(linker.call(site, Some(c)), answers(c));

    linker.install(&[site])?;
    let rows = vec![(a, runs(a)), (b, runs(a)), (c, runs(c))];
    assert_eq!(linker.link_of(site), Some(Link::VirtualTable(rows)));
    Ok(())
}

#[test]
fn a_seat_answers_by_its_last_refresh() -> Result<(), Error> {
    let World { mut linker, a, b, site, .. } = world()?;
    let mut seat = linker.seat()?;
    assert_eq!(seat.call(site, Some(b)), Some(answers(a)));
    assert_eq!(seat.call(site, None), Some(Answer::Outcome(Outcome::Throws(Throwable::NullPointerException))));
    let c = linker.define(&with_f("C", "A"))?;
    linker.install(&[site])?;
    assert_eq!(seat.call(site, Some(c)), None);
    seat.refresh(&mut linker)?;
    assert_eq!(seat.call(site, Some(c)), Some(answers(c)));
    // A seat may outlive its linker.
    drop(linker);
    assert_eq!(seat.call(site, Some(c)), Some(answers(c)));
    Ok(())
}

#[test]
fn threads_share_a_linker_behind_a_lock() -> Result<(), Error> {
    let World { linker, a, b, site, .. } = world()?;
    let shared = Arc::new(Mutex::new(linker));
    let threads: Vec<_> = (0..4)
        .map(|_| {
            let shared = Arc::clone(&shared);
            std::thread::spawn(move || {
                let mut seat = shared.lock().unwrap().seat().unwrap();
                for _ in 0..1_000 {
                    assert_eq!(seat.call(site, Some(b)), Some(answers(a)));
                }
                shared.lock().unwrap().call(site, Some(b))
            })
        })
        .collect();
    for thread in threads {
        assert_eq!(thread.join().unwrap(), answers(a));
    }
    Ok(())
}

#[test]
fn bytes_that_are_no_class_file_are_refused_by_name() -> Result<(), Error> {
    let mut linker = Linker::open(1)?;
    let fault_of = |bytes: &[u8], linker: &mut Linker| match linker.define(bytes) {
        Err(Error::NoClassFile { fault, .. }) => fault,
        other => panic!("{other:?}"),
    };
    assert_eq!(fault_of(&[], &mut linker), ClassFault::Truncated);
    assert_eq!(fault_of(b"no class file", &mut linker), ClassFault::BadMagic);
    assert_eq!(fault_of(&[0xca, 0xfe, 0xba, 0xbe, 0, 0, 0, 62], &mut linker), ClassFault::BadVersion);
    let mut longer = object();
    longer.push(0);
    assert_eq!(fault_of(&longer, &mut linker), ClassFault::TrailingBytes);
    let said = linker.define(b"no class file").unwrap_err().to_string();
    assert_eq!(said, "no class file: it has no magic number (place 0, cause 0, pc 0)");
    Ok(())
}

#[test]
fn later_class_files_are_defined_up_to_a_version() -> Result<(), Error> {
    let mut linker = Linker::open(1)?;
    let bad_version = |defined| matches!(defined, Err(Error::NoClassFile { fault: ClassFault::BadVersion, .. }));
    let file = file::class_of_version(65, OBJECT, None, &[]);
    assert!(bad_version(linker.define(&file)));
    assert!(bad_version(linker.define_up_to(LoaderId::FIRST, 64, &file)));
    let object = linker.define_up_to(LoaderId::FIRST, NEWEST_KNOWN, &file)?;
    assert_eq!(linker.class_name(object).as_deref(), Some(OBJECT.as_bytes()));
    linker.define_up_to(LoaderId::FIRST, 65, &file::class_of_version(65, "A", Some(OBJECT), &[]))?;
    linker.define_up_to(LoaderId::FIRST, NEWEST_OF_17, &with_f("B", "A"))?;
    assert!(bad_version(linker.define(&file::class_of_version(NEWEST_OF_17 + 1, "C", Some("B"), &[]))));
    linker.define(&file::class_of_version(NEWEST_OF_17, "C", Some("B"), &[]))?;
    Ok(())
}

#[test]
fn definitions_are_refused_by_name() -> Result<(), Error> {
    let mut linker = Linker::open(1)?;
    assert_eq!(linker.define(&with_f("A", OBJECT)), Err(Error::Define(DefineFault::MissingParent)));
    linker.define(&object())?;
    linker.define(&with_f("A", OBJECT))?;
    assert_eq!(linker.define(&with_f("A", OBJECT)), Err(Error::Define(DefineFault::AlreadyRecorded)));
    assert_eq!(linker.define(&with_f("X", "X")), Err(Error::Define(DefineFault::NamesItself)));
    let other = linker.new_loader()?;
    assert_eq!(linker.define_in(other, &object()), Err(Error::Define(DefineFault::SecondObject)));
    assert_eq!(linker.define_in(other, &with_f("D", "A")), Err(Error::Define(DefineFault::MissingParent)));
    assert_eq!(linker.delegate(other, b"N", LoaderId::FIRST), Err(Error::Delegate(DelegateFault::NotRecorded)));
    linker.delegate(other, b"A", LoaderId::FIRST)?;
    assert_eq!(linker.delegate(other, b"A", LoaderId::FIRST), Err(Error::Delegate(DelegateFault::AlreadyRecorded)));
    linker.define_in(other, &with_f("D", "A"))?;
    assert_eq!(linker.retire(LoaderId::FIRST), Err(Error::Retire(RetireFault::FirstLoader)));
    linker.retire(other)?;
    assert_eq!(linker.retire(other), Err(Error::Retire(RetireFault::UnknownLoader)));
    Ok(())
}

/// Loader 1 has C and records D, and loader 2 has D and records C: each alone is held by the other.
#[test]
fn loaders_that_record_each_other_go_at_once() -> Result<(), Error> {
    let World { mut linker, a, b, site, .. } = world()?;
    let (first, second, third) = (linker.new_loader()?, linker.new_loader()?, linker.new_loader()?);
    for loader in [first, second] {
        linker.delegate(loader, b"A", LoaderId::FIRST)?;
    }
    let c = linker.define_in(first, &with_f("C", "A"))?;
    let d = linker.define_in(second, &with_f("D", "A"))?;
    linker.delegate(first, b"D", second)?;
    linker.delegate(second, b"C", first)?;
    linker.delegate(third, b"C", first)?;
    linker.install(&[site])?;
    let rows = [(a, a), (b, a), (c, c), (d, d)].map(|(of, by)| (of, runs(by)));
    let all = Some(Link::VirtualTable(rows.to_vec()));
    assert_eq!(linker.retire(first), Err(Error::Retire(RetireFault::Recorded(second))));
    assert_eq!(linker.retire(second), Err(Error::Retire(RetireFault::Recorded(first))));
    let held = Error::RetireAll { loader: first, fault: RetireFault::Recorded(third) };
    assert_eq!(linker.retire_all(&[second, first]), Err(held.clone()));
    assert_eq!(held.to_string(), "loader 1 isn't retired, nor are the others: loader 3 records a class of it");
    assert_eq!(
        linker.retire_all(&[third, LoaderId::FIRST]),
        Err(Error::RetireAll { loader: LoaderId::FIRST, fault: RetireFault::FirstLoader })
    );
    linker.retire_all(&[])?;
    assert_eq!((linker.link_of(site), linker.dropped()), (all, vec![]));
    linker.retire_all(&[first, second, third, first])?;
    assert_eq!((linker.link_of(site), linker.dropped()), (None, vec![site]));
    assert_eq!((linker.call(site, Some(b)), linker.call(site, Some(c))), (answers(a), Answer::BadReceiver));
    assert_eq!(linker.retire_all(&[second]), Err(Error::RetireAll { loader: second, fault: RetireFault::UnknownLoader }));
    linker.install(&[site])?;
    Ok(())
}

/// The first call site's target names a method of loader 1, the second invokes the first, and the third guards by the switch point.
#[test]
fn call_sites_go_before_the_loader_that_they_hold() -> Result<(), Error> {
    let World { mut linker, m, .. } = world()?;
    let loader = linker.new_loader()?;
    linker.delegate(loader, OBJECT.as_bytes(), LoaderId::FIRST)?;
    let n = linker.define_in(loader, &file::class("N", Some(OBJECT), &[(PUBLIC_STATIC, "n", vec![])]))?;
    let point = linker.new_switch()?;
    let (mutable, method) = (CallSiteKind::Mutable, Target::Method(m, 1));
    let plain = linker.new_call_site(mutable, b"()V", &Target::Method(n, 0))?;
    let invoking = linker.new_call_site(mutable, b"()V", &Target::Invoker(plain))?;
    let target = Box::new(method.clone());
    let guarded = linker.new_call_site(mutable, b"()V", &Target::Guard(point, target.clone(), target))?;
    assert_eq!(linker.retire(loader), Err(Error::Retire(RetireFault::Targeted(plain))));
    assert_eq!(linker.release(&[plain], &[]), Err(Error::Release(ReleaseFault::Invoked(invoking))));
    assert_eq!(linker.release(&[plain, invoking], &[point]), Err(Error::Release(ReleaseFault::Guarded(guarded))));
    linker.release(&[], &[])?;
    linker.release(&[plain, invoking, plain], &[])?;
    linker.retire(loader)?;
    let unknown = Error::Release(ReleaseFault::UnknownCallSite(invoking));
    assert_eq!(linker.release(&[invoking, plain], &[]), Err(unknown.clone()));
    assert_eq!(unknown.to_string(), "nothing is released: there is no call site 1");
    let gone = Err(Error::CallSite(CallSiteFault::UnknownCallSite));
    assert_eq!(linker.set_target(plain, &method), gone);
    assert_eq!(linker.new_call_site(mutable, b"()V", &method)?.number(), 3);
    linker.release(&[guarded], &[point])?;
    assert_eq!(linker.release(&[], &[point]), Err(Error::Release(ReleaseFault::UnknownSwitch(point))));
    Ok(())
}

#[test]
fn requests_and_installs_are_refused_by_name() -> Result<(), Error> {
    let World { mut linker, m, site, .. } = world()?;
    assert_eq!(linker.request(m, 0, 1), Err(Error::NoSuchPlace));
    assert_eq!(linker.request(m, 9, 0), Err(Error::NoSuchPlace));
    assert_eq!(linker.request(m, 0, 6), Err(Error::NotLinkable(NotLinkable::ArrayReceiver)));
    assert_eq!(linker.request(m, 0, 9), Err(Error::NotLinkable(NotLinkable::PolymorphicSignature)));
    let pending = linker.request(m, 0, 3)?;
    assert_eq!(linker.install(&[pending]), Err(Error::NotReady(pending)));
    assert_eq!(linker.call(pending, None), Answer::Unlinked(Unlinked::WantsNamed));
    assert_eq!(linker.install(&[site, site]), Err(Error::Repeated(site)));
    assert_eq!(linker.install(&[]), Err(Error::BatchSize));
    assert_eq!(linker.install(&[site; 257]), Err(Error::BatchSize));
    assert_eq!(Linker::open(0).unwrap_err(), Error::Malformed);
    assert_eq!(Linker::open(1_048_577).unwrap_err(), Error::Malformed);
    Ok(())
}

#[test]
fn ids_of_another_linker_are_refused_by_name() -> Result<(), Error> {
    let World { m, site, .. } = world()?;
    let mut empty = Linker::open(1)?;
    assert_eq!(empty.request(m, 0, 0), Err(Error::UnknownClass));
    assert_eq!(empty.install(&[site]), Err(Error::UnknownSite(site)));
    assert_eq!(empty.call(site, None), Answer::Unlinked(Unlinked::NoSite));
    assert_eq!(empty.link_of(site), None);
    Ok(())
}

#[test]
fn a_call_site_has_targets() -> Result<(), Error> {
    let World { mut linker, a, m, site, .. } = world()?;
    let switch = linker.new_switch()?;
    let first = Box::new(Target::Method(m, 1));
    let target = Target::Guard(switch, first.clone(), first);
    assert_eq!(target.to_string(), r#"{"guard":0,"target":{"method":[3,1]},"fallback":{"method":[3,1]}}"#);
    let call_site = linker.new_call_site(CallSiteKind::Mutable, b"()V", &target)?;
    linker.set_target(call_site, &Target::Method(m, 0))?;
    let not_static = linker.set_target(call_site, &Target::Method(a, 0));
    assert_eq!(not_static, Err(Error::CallSite(CallSiteFault::NotStatic)));
    linker.invalidate(&[switch])?;
    assert_eq!(linker.bind(site, call_site), Err(Error::NotDynamic));
    let constant = linker.new_call_site(CallSiteKind::Constant, b"()V", &Target::Invoker(call_site))?;
    assert_eq!(linker.set_target(constant, &Target::Method(m, 1)), Err(Error::CallSite(CallSiteFault::Constant)));
    assert_eq!(linker.new_call_site(CallSiteKind::Volatile, b"V", &Target::Method(m, 1)), Err(Error::Malformed));
    Ok(())
}

#[test]
fn a_command_is_answered_as_text() -> Result<(), Error> {
    let World { mut linker, .. } = world()?;
    assert_eq!(linker.answer(r#"{"do":"links"}"#)?, r#"{"links":[[0,{"direct":{"run":[1,0]}}]]}"#);
    assert_eq!(linker.answer("")?, r#"{"error":"BadCommand"}"#);
    Ok(())
}

/// Loader 1's class C 4 goes with it, so that D has another number in the fresh linker; of two call sites and two switch points the first
/// ones are let go, but the first switch point guards the second call site.
#[test]
fn a_fresh_linker_has_what_stays() -> Result<(), Error> {
    let World { mut linker, a, b, m, site } = world()?;
    let loader = linker.new_loader()?;
    linker.delegate(loader, OBJECT.as_bytes(), LoaderId::FIRST)?;
    linker.delegate(loader, b"A", LoaderId::FIRST)?;
    let c = linker.define_in(loader, &with_f("C", "A"))?;
    linker.retire(loader)?;
    let d = linker.define(&with_f("D", "A"))?;
    linker.install(&[site])?;
    let (first, second) = (linker.new_switch()?, linker.new_switch()?);
    let plain = linker.new_call_site(CallSiteKind::Mutable, b"()V", &Target::Method(m, 1))?;
    let target = Box::new(Target::Method(m, 1));
    let guarded = linker.new_call_site(CallSiteKind::Mutable, b"()V", &Target::Guard(first, target.clone(), target))?;
    let mut seat = linker.seat()?;

    let released = Released { call_sites: &[plain], switches: &[first] };
    let (mut fresh, numbers) = linker.renew(50, &released)?;
    assert_eq!((numbers.loader(LoaderId::FIRST), numbers.loader(loader)), (Some(LoaderId::FIRST), None));
    assert_eq!((numbers.class(m), numbers.class(c), numbers.class(d)), (Some(m), None, Some(c)));
    assert_eq!((numbers.site(site), numbers.site(SiteId::from_number(1).unwrap())), (Some(site), None));
    assert_eq!((numbers.call_site(plain), numbers.call_site(guarded)), (None, Some(plain)));
    assert_eq!((numbers.switch(first), numbers.switch(second)), (Some(first), Some(second)));
    // D is class 4 there. The seat goes on by the old numbers until it is refreshed, and the old linker by itself.
    let rows = vec![(a, runs(a)), (b, runs(a)), (c, runs(c))];
    assert_eq!(fresh.link_of(site), Some(Link::VirtualTable(rows)));
    assert_eq!((seat.call(site, Some(d)), linker.call(site, Some(d))), (Some(answers(d)), answers(d)));
    seat.refresh(&mut fresh)?;
    drop(linker);
    assert_eq!((seat.call(site, Some(c)), fresh.call(site, Some(c))), (Some(answers(c)), answers(c)));

    assert_eq!(fresh.renew(0, &Released::default()).err(), Some(Error::Malformed));
    let other = fresh.request(m, 0, 3)?;
    assert_eq!(fresh.renew(1, &Released::default()).err(), Some(Error::SitesFull));
    let (_, again) = fresh.renew(2, &Released::default())?;
    assert_eq!((again.site(other), again.switch(second)), (Some(other), Some(second)));
    Ok(())
}

/// Loader 1 is retired with its class C 4 before the begin, so that D, which is defined since, is class 4 in the fresh linker; of two call
/// sites the first one is let go.
#[test]
fn a_renewal_goes_on_beside_its_linker() -> Result<(), Error> {
    let World { mut linker, a, b, m, site } = world()?;
    let (loader, late, point) = (linker.new_loader()?, linker.new_loader()?, linker.new_switch()?);
    linker.delegate(loader, OBJECT.as_bytes(), LoaderId::FIRST)?;
    let c = linker.define_in(loader, &with_f("C", OBJECT))?;
    linker.retire(loader)?;
    let plain = linker.new_call_site(CallSiteKind::Mutable, b"()V", &Target::Method(m, 1))?;

    let mut renewal = linker.begin_renewal(50, &Released { call_sites: &[plain], switches: &[] })?;
    assert_eq!(renewal.take(&mut linker, 2)?, 0);
    renewal.fill()?;
    let d = linker.define(&with_f("D", "A"))?;
    assert_eq!(renewal.take(&mut linker, usize::MAX)?, 0);
    renewal.fill()?;
    linker.install(&[site])?;
    let target = Box::new(Target::Method(m, 1));
    let guarded = linker.new_call_site(CallSiteKind::Mutable, b"()V", &Target::Guard(point, target.clone(), target))?;
    linker.invalidate(&[point])?;
    linker.retire(late)?;
    assert_eq!(renewal.take(&mut linker, 0)?, 4);

    let (mut fresh, numbers) = renewal.finish(&mut linker)?;
    assert_eq!((numbers.loader(loader), numbers.class(c), numbers.class(d)), (None, None, Some(c)));
    assert_eq!((numbers.call_site(plain), numbers.call_site(guarded), numbers.switch(point)), (None, Some(plain), Some(point)));
    assert_eq!((numbers.class(a), numbers.class(b), numbers.site(site)), (Some(a), Some(b), Some(site)));
    let rows = |of| Link::VirtualTable(vec![(a, runs(a)), (b, runs(a)), (of, runs(of))]);
    assert_eq!((linker.link_of(site), fresh.link_of(site)), (Some(rows(d)), Some(rows(c))));
    assert_eq!((linker.call(site, Some(d)), fresh.call(site, Some(c))), (answers(d), answers(c)));
    // What was retired since the begin is there, retired.
    assert_eq!(numbers.loader(late), Some(loader));
    assert_eq!(fresh.retire(loader), Err(Error::Retire(RetireFault::UnknownLoader)));
    // The old linker is as it was, and the fresh one goes on by itself.
    drop(linker);
    let e = fresh.define(&with_f("E", "A"))?;
    assert_eq!((e, fresh.dropped()), (d, vec![site]));
    Ok(())
}

/// A renewal of the linker, with all that it has.
fn filled(linker: &mut Linker, max_sites: u32, released: &Released) -> Result<Renewal, Error> {
    let mut renewal = linker.begin_renewal(max_sites, released)?;
    renewal.take(linker, usize::MAX)?;
    renewal.fill()?;
    Ok(renewal)
}

#[test]
fn a_renewal_is_refused_by_name() -> Result<(), Error> {
    let World { mut linker, m, site, .. } = world()?;
    let World { linker: mut other, .. } = world()?;
    let nothing = Released::default();
    assert_eq!(linker.begin_renewal(0, &nothing).err(), Some(Error::Malformed));
    assert_eq!(linker.begin_renewal(1_048_577, &nothing).err(), Some(Error::Malformed));

    let mut renewal = filled(&mut linker, 1, &nothing)?;
    assert_eq!(renewal.take(&mut other, 1), Err(Error::OtherLinker));
    let unfinished = renewal.finish(&mut other).unwrap_err();
    assert_eq!(
        (unfinished.to_string(), unfinished.why),
        ("the renewal isn't finished: the renewal has begun with another linker".into(), Error::OtherLinker)
    );
    let (mut fresh, numbers) = unfinished.renewal.finish(&mut linker)?;
    assert_eq!((fresh.call(site, None), numbers.site(site)), (linker.call(site, None), Some(site)));

    let mut full = filled(&mut linker, 1, &nothing)?;
    linker.request(m, 0, 3)?;
    assert_eq!(full.take(&mut linker, 1)?, 0);
    assert_eq!(full.fill(), Err(Error::SitesFull));
    assert_eq!(full.finish(&mut linker).unwrap_err().why, Error::SitesFull);
    assert_eq!(filled(&mut linker, 1, &nothing).err(), Some(Error::SitesFull));

    let plain = linker.new_call_site(CallSiteKind::Mutable, b"()V", &Target::Method(m, 1))?;
    let renewal = filled(&mut linker, 2, &Released { call_sites: &[plain], switches: &[] })?;
    linker.set_target(plain, &Target::Method(m, 1))?;
    let unfinished = renewal.finish(&mut linker).unwrap_err();
    let why = Error::Released { number: plain.number(), events: 8 };
    assert_eq!((unfinished.why.to_string(), unfinished.why), ("event 8 names 0, which was released and is gone".into(), why));
    Ok(())
}

#[test]
fn a_thread_fills_while_others_define() -> Result<(), Error> {
    const NAMES: [&str; 6] = ["C1", "C2", "C3", "C4", "C5", "C6"];
    let World { linker, site, .. } = world()?;
    let shared = Mutex::new(linker);
    let define = |name: &str| -> Result<(), Error> {
        let mut linker = shared.lock().unwrap();
        linker.define(&with_f(name, "A"))?;
        linker.install(&[site])
    };
    let mut renewal = shared.lock().unwrap().begin_renewal(100, &Released::default())?;
    std::thread::scope(|threads| -> Result<(), Error> {
        let definers: Vec<_> = NAMES.into_iter().map(|name| threads.spawn(move || define(name))).collect();
        while renewal.take(&mut shared.lock().unwrap(), 3)? > 0 {
            renewal.fill()?;
        }
        renewal.fill()?;
        definers.into_iter().try_for_each(|definer| definer.join().unwrap())
    })?;
    let mut linker = shared.lock().unwrap();
    let (mut fresh, numbers) = renewal.finish(&mut linker)?;
    for number in 0..10 {
        let class = ClassId::from_number(number);
        assert_eq!(class.and_then(|class| numbers.class(class)), class);
        assert_eq!(linker.call(site, class), fresh.call(site, class));
    }
    let link = fresh.link_of(site);
    assert!(link.is_some());
    assert_eq!(link, linker.link_of(site));
    Ok(())
}

#[test]
fn a_memo_remembers_megamorphic_calls() -> Result<(), Error> {
    const NAMES: [&str; 9] = ["C1", "C2", "C3", "C4", "C5", "C6", "C7", "C8", "C9"];
    let World { mut linker, a, site, .. } = world()?;
    let mut late = Vec::new();
    for name in NAMES {
        late.push(linker.define(&with_f(name, "A"))?);
    }
    linker.install(&[site])?;
    assert_eq!(linker.link_of(site), Some(Link::Megamorphic));

    let (mut seat, mut memo) = (linker.seat()?, linker.memo(64)?);
    for &class in &late {
        assert_eq!(seat.call_with(&mut memo, site, Some(class)), None);
        assert_eq!(memo.ask(&mut linker, site, Some(class)), answers(class));
        assert_eq!(seat.call_with(&mut memo, site, Some(class)), Some(answers(class)));
    }
    assert_eq!(seat.call(site, Some(late[0])), None);
    assert_eq!(seat.call_with(&mut memo, site, Some(a)), None);
    assert_eq!(memo.call(site, Some(late[0])), Some(answers(late[0])));
    assert_eq!((memo.call(site, Some(a)), memo.call(site, None)), (None, None));
    let null = Answer::Outcome(Outcome::Throws(Throwable::NullPointerException));
    assert_eq!(seat.call_with(&mut memo, site, None), Some(null));

    // A class that comes later changes nothing of what is remembered, and another linker's memo says nothing here.
    linker.define(&with_f("D", "C1"))?;
    seat.refresh(&mut linker)?;
    assert_eq!(seat.call_with(&mut memo, site, Some(late[0])), Some(answers(late[0])));
    let World { linker: other, .. } = world()?;
    let mut stranger = other.memo(64)?;
    assert_eq!(stranger.ask(&mut linker, site, Some(late[0])), answers(late[0]));
    assert_eq!(seat.call_with(&mut stranger, site, Some(late[0])), None);
    Ok(())
}

/// A class below A that overrides f, and the link of the world's call of A.f from then on.
fn overridden(World { linker, a, b, .. }: &mut World) -> Result<(ClassId, Link), Error> {
    let c = linker.define(&with_f("C", "A"))?;
    Ok((c, Link::VirtualTable(vec![(*a, runs(*a)), (*b, runs(*a)), (c, runs(c))])))
}

#[test]
fn a_view_is_of_when_it_was_taken() -> Result<(), Error> {
    let mut world = world()?;
    let (a, b, site) = (world.a, world.b, world.site);
    let mut view = world.linker.view()?;
    // Four definitions, a request and an install.
    assert_eq!(view.serial(), 6);
    let (c, table) = overridden(&mut world)?;
    assert_eq!(view.serial(), 6);
    assert_eq!(view.call(site, Some(b)), answers(a));
    assert_eq!(view.call(site, Some(c)), Answer::BadReceiver);
    assert_eq!(view.call(site, None), Answer::Outcome(Outcome::Throws(Throwable::NullPointerException)));
    assert_eq!(view.prepare(&[site])?, [(site, Link::Direct(runs(a)))]);

    view.take(&mut world.linker)?;
    assert_eq!(view.serial(), 7);
    assert_eq!(view.call(site, Some(c)), answers(c));
    assert_eq!(view.prepare(&[site])?, [(site, table)]);
    // Nothing was installed.
    assert_eq!(world.linker.link_of(site), None);
    Ok(())
}

#[test]
fn a_view_outlives_its_linker_and_goes_to_another_thread() -> Result<(), Error> {
    let World { mut linker, a, b, m, site } = world()?;
    let other = linker.request(m, 0, 3)?;
    linker.define(&with_f("Z", OBJECT))?;
    let mut view = linker.view()?;
    drop(linker);
    let thread = std::thread::spawn(move || (view.call(site, Some(b)), view.prepare(&[other, site])));
    let (answer, links) = thread.join().unwrap();
    assert_eq!(answer, answers(a));
    let z = ClassId::from_number(4).unwrap();
    assert_eq!(links?, [(other, Link::Direct(runs(z))), (site, Link::Direct(runs(a)))]);
    Ok(())
}

#[test]
fn a_preparation_in_a_view_is_refused_by_name() -> Result<(), Error> {
    let World { mut linker, m, site, .. } = world()?;
    let pending = linker.request(m, 0, 3)?;
    let mut view = linker.view()?;
    let unknown = SiteId::from_number(9).unwrap();
    assert_eq!(view.prepare(&[]), Err(Error::BatchSize));
    assert_eq!(view.prepare(&[site; 257]), Err(Error::BatchSize));
    assert_eq!(view.prepare(&[site, unknown]), Err(Error::UnknownSite(unknown)));
    assert_eq!(view.prepare(&[site, site]), Err(Error::Repeated(site)));
    assert_eq!(view.prepare(&[site, pending]), Err(Error::NotReady(pending)));
    assert_eq!(view.call(pending, None), Answer::Unlinked(Unlinked::WantsNamed));
    assert_eq!(view.call(unknown, None), Answer::Unlinked(Unlinked::NoSite));
    Ok(())
}

#[test]
fn an_install_of_links_is_stale_and_then_accepted() -> Result<(), Error> {
    let mut world = world()?;
    let (a, site) = (world.a, world.site);
    let prepared = world.linker.view()?.prepare(&[site])?;
    world.linker.install_links(&prepared)?;
    let (_, table) = overridden(&mut world)?;

    let mut linker = world.linker;
    let stale = linker.install_links(&prepared);
    assert_eq!(stale, Err(Error::Stale { site, present: table.clone() }));
    assert_eq!(stale.unwrap_err().to_string(), "site 0 has another link now: virtual 1 -> 1.0, 2 -> 1.0, 4 -> 4.0");
    assert_eq!(linker.link_of(site), None);
    linker.install_links(&[(site, table.clone())])?;
    assert_eq!(linker.link_of(site), Some(table.clone()));

    // A link of another kind, or of classes that aren't there, is stale as well.
    let Link::VirtualTable(rows) = table.clone() else { panic!("{table}") };
    let stranger = Link::Direct(runs(ClassId::from_number(65_535).unwrap()));
    for other in [Link::InterfaceTable(rows), stranger, Link::Plain(runs(a)), Link::Megamorphic, Link::VirtualTable(vec![])] {
        assert_eq!(linker.install_links(&[(site, other)]), Err(Error::Stale { site, present: table.clone() }));
    }
    Ok(())
}

/// Prepares the site's link in a view without the lock, and installs it, again where it is stale then. How often it was.
fn compile(shared: &Mutex<Linker>, site: SiteId) -> Result<u32, Error> {
    let mut stale = 0;
    loop {
        let mut view = shared.lock().unwrap().view()?;
        let links = view.prepare(&[site])?;
        drop(view);
        let installed = shared.lock().unwrap().install_links(&links);
        match installed {
            Err(Error::Stale { .. }) => stale += 1,
            outcome => return outcome.map(|()| stale),
        }
    }
}

#[test]
fn threads_compile_in_views_while_another_defines() -> Result<(), Error> {
    const NAMES: [&str; 6] = ["C1", "C2", "C3", "C4", "C5", "C6"];
    let World { linker, a, b, site, .. } = world()?;
    let shared = Mutex::new(linker);
    let mut rows = vec![(a, runs(a)), (b, runs(a))];
    std::thread::scope(|threads| -> Result<(), Error> {
        let compilers: Vec<_> = (0..2).map(|_| threads.spawn(|| (0..200).try_for_each(|_| compile(&shared, site).map(drop)))).collect();
        for name in NAMES {
            let class = shared.lock().unwrap().define(&with_f(name, "A"))?;
            rows.push((class, runs(class)));
        }
        compilers.into_iter().try_for_each(|compiler| compiler.join().unwrap())
    })?;
    assert_eq!(compile(&shared, site)?, 0);
    assert_eq!(shared.lock().unwrap().link_of(site), Some(Link::VirtualTable(rows)));
    Ok(())
}

#[test]
fn an_install_of_links_is_refused_by_name() -> Result<(), Error> {
    let World { mut linker, a, m, site, .. } = world()?;
    let pending = linker.request(m, 0, 3)?;
    let unknown = SiteId::from_number(9).unwrap();
    let direct = Link::Direct(runs(a));
    let of = |sites: &[SiteId]| sites.iter().map(|&site| (site, direct.clone())).collect::<Vec<_>>();
    assert_eq!(linker.install_links(&[]), Err(Error::BatchSize));
    assert_eq!(linker.install_links(&of(&[site; 257])), Err(Error::BatchSize));
    assert_eq!(linker.install_links(&of(&[site, unknown])), Err(Error::UnknownSite(unknown)));
    assert_eq!(linker.install_links(&of(&[site, site])), Err(Error::Repeated(site)));
    assert_eq!(linker.install_links(&of(&[site, pending])), Err(Error::NotReady(pending)));
    let throws = Link::Plain(Outcome::Throws(Throwable::AbstractMethodError));
    assert_eq!(linker.install_links(&[(site, throws)]), Err(Error::Malformed));
    let nine = Link::VirtualTable(vec![(a, runs(a)); 9]);
    assert_eq!(linker.install_links(&[(site, nine)]), Err(Error::Malformed));
    assert_eq!(linker.link_of(site), Some(direct));
    Ok(())
}

/// N, whose method x calls M.n and M.none, without an object, y nothing, and z M.n and A.f.
fn other_caller() -> Vec<u8> {
    let n = (INVOKESTATIC, "M", "n", "()V");
    let x = vec![n, (INVOKESTATIC, "M", "none", "()V")];
    let z = vec![n, (INVOKEVIRTUAL, "A", "f", "()V")];
    file::class("N", Some(OBJECT), &[(PUBLIC_STATIC, "x", x), (PUBLIC_STATIC, "y", vec![]), (PUBLIC_STATIC, "z", z)])
}

#[test]
fn links_of_each_form_are_installed_by_value() -> Result<(), Error> {
    let World { mut linker, a, m, site, .. } = world()?;
    let n = linker.define(&other_caller())?;
    let (plain, fault) = (linker.request(n, 0, 0)?, linker.request(n, 0, 3)?);
    let method = Outcome::Run { class: m, method: 1 };
    let links = [(plain, Link::Plain(method)), (fault, Link::Fault(Throwable::NoSuchMethodError)), (site, Link::Direct(runs(a)))];
    assert_eq!(linker.view()?.prepare(&[plain, fault, site])?, links);
    linker.install_links(&links)?;
    for (site, link) in links {
        assert_eq!(linker.link_of(site), Some(link));
    }
    for name in ["C1", "C2", "C3", "C4", "C5", "C6", "C7"] {
        linker.define(&with_f(name, "A"))?;
    }
    linker.install_links(&[(site, Link::Megamorphic)])?;
    assert_eq!(linker.link_of(site), Some(Link::Megamorphic));
    Ok(())
}

#[test]
fn a_link_is_told_by_numbers() {
    let class = |number| ClassId::from_number(number).unwrap();
    let method = |of, method| Outcome::Run { class: class(of), method };
    let throws = Outcome::Throws(Throwable::AbstractMethodError);
    assert_eq!(Link::Fault(Throwable::NoSuchMethodError).to_string(), "fault NoSuchMethodError");
    assert_eq!(Link::Plain(method(3, 1)).to_string(), "plain 3.1");
    assert_eq!(Link::Direct(method(5, 2)).to_string(), "direct 5.2");
    assert_eq!(Link::Direct(throws).to_string(), "direct throws AbstractMethodError");
    let rows = vec![(class(3), method(4, 0)), (class(5), throws)];
    assert_eq!(Link::VirtualTable(rows.clone()).to_string(), "virtual 3 -> 4.0, 5 -> throws AbstractMethodError");
    assert_eq!(Link::InterfaceTable(rows).to_string(), "interface 3 -> 4.0, 5 -> throws AbstractMethodError");
    assert_eq!(Link::VirtualTable(vec![]).to_string(), "virtual");
    assert_eq!(Link::Megamorphic.to_string(), "megamorphic");
}

#[test]
fn ids_are_made_of_the_numbers_that_a_linker_gives() -> Result<(), Error> {
    let World { mut linker, a, m, site, .. } = world()?;
    assert_eq!(ClassId::from_number(m.number()), Some(m));
    assert_eq!(SiteId::from_number(site.number()), Some(site));
    assert_eq!(linker.call(SiteId::from_number(0).unwrap(), ClassId::from_number(2)), answers(a));
    assert_eq!((LoaderId::from_number(0), LoaderId::from_number(1_048_576)), (Some(LoaderId::FIRST), None));
    assert_eq!(ClassId::from_number(1_048_575).map(ClassId::number), Some(1_048_575));
    assert_eq!((ClassId::from_number(1_048_576), ClassId::from_number(u32::MAX)), (None, None));
    assert_eq!(SiteId::from_number(1_048_575).map(SiteId::number), Some(1_048_575));
    assert_eq!((SiteId::from_number(1_048_576), CallSiteId::from_number(1_048_576), SwitchId::from_number(1_048_576)), (None, None, None));
    Ok(())
}

#[test]
fn a_linker_has_limits_of_its_own() -> Result<(), Error> {
    let limits = Limits { sites: 1, loaders: 2, classes: 3, call_sites: 1, switches: 1 };
    let mut linker = Linker::open_with(limits)?;
    linker.define(&object())?;
    let a = linker.define(&with_f("A", OBJECT))?;
    let m = linker.define(&caller())?;
    assert_eq!(linker.define(&with_f("B", OBJECT)), Err(Error::Define(DefineFault::Full)));
    assert_eq!(linker.new_loader()?.number(), 1);
    assert_eq!(linker.new_loader(), Err(Error::LoadersFull));
    linker.request(m, 0, 0)?;
    assert_eq!(linker.request(m, 0, 3), Err(Error::SitesFull));
    linker.new_switch()?;
    assert_eq!(linker.new_switch(), Err(Error::CallSite(CallSiteFault::Full)));
    let target = Target::Method(m, 1);
    linker.new_call_site(CallSiteKind::Mutable, b"()V", &target)?;
    assert_eq!(linker.new_call_site(CallSiteKind::Mutable, b"()V", &target), Err(Error::CallSite(CallSiteFault::Full)));

    // A fresh linker has the limits, too, but for the sites.
    let (mut fresh, numbers) = linker.renew(2, &Released::default())?;
    assert_eq!(numbers.class(a), Some(a));
    assert_eq!(fresh.new_loader(), Err(Error::LoadersFull));
    assert_eq!(fresh.request(m, 0, 3)?.number(), 1);
    Ok(())
}

#[test]
fn limits_are_refused_or_as_wide_as_may_be() -> Result<(), Error> {
    let wide = Limits::of_sites(1);
    assert_eq!(Linker::open_with(Limits { sites: 0, ..wide }).err(), Some(Error::Malformed));
    for too_many in [
        Limits { sites: Limits::MOST + 1, ..wide },
        Limits { loaders: Limits::MOST + 1, ..wide },
        Limits { classes: Limits::MOST + 1, ..wide },
        Limits { call_sites: Limits::MOST + 1, ..wide },
        Limits { switches: Limits::MOST + 1, ..wide },
    ] {
        assert_eq!(Linker::open_with(too_many).err(), Some(Error::Malformed), "{too_many:?}");
    }
    let mut linker = Linker::open_with(Limits { sites: 1, loaders: 0, classes: 0, call_sites: 0, switches: 0 })?;
    for number in 1..=2_000 {
        assert_eq!(linker.new_loader()?.number(), number);
    }
    Ok(())
}

#[test]
fn classes_and_methods_have_names() -> Result<(), Error> {
    let World { mut linker, a, m, .. } = world()?;
    assert_eq!(linker.lookup(LoaderId::FIRST, b"A"), Some(a));
    assert_eq!(linker.lookup(LoaderId::FIRST, b"Z"), None);
    let other = linker.new_loader()?;
    assert_eq!(linker.lookup(other, b"A"), None);
    linker.delegate(other, b"A", LoaderId::FIRST)?;
    assert_eq!(linker.lookup(other, b"A"), Some(a));
    let d = linker.define_in(other, &with_f("D", "A"))?;
    assert_eq!(linker.lookup(other, b"D"), Some(d));
    linker.retire(other)?;
    assert_eq!(linker.lookup(other, b"D"), None);

    let unknown = ClassId::from_number(99).unwrap();
    assert_eq!(linker.class_name(m).as_deref(), Some(&b"M"[..]));
    assert_eq!(linker.class_name(d).as_deref(), Some(&b"D"[..]));
    assert_eq!(linker.class_name(unknown), None);
    assert_eq!(linker.method_name(m, 1).as_deref(), Some(&b"n"[..]));
    assert_eq!(linker.method_descriptor(m, 1).as_deref(), Some(&b"()V"[..]));
    assert_eq!((linker.method_name(m, 2), linker.method_descriptor(m, 2)), (None, None));
    assert_eq!(linker.method_name(unknown, 0), None);
    Ok(())
}

#[test]
fn invocations_are_those_of_the_code() -> Result<(), Error> {
    let World { mut linker, a, b, m, site } = world()?;
    let at = |method, pc, instruction| Invocation { method, pc, instruction };
    let in_m = [0, 3, 6, 9].map(|pc| at(0, pc, Instruction::InvokeVirtual));
    assert_eq!(linker.method_invocations(m, 0).as_deref(), Some(&in_m[..]));
    assert_eq!(linker.method_invocations(m, 1), Some(vec![]));
    assert_eq!(linker.method_invocations(m, 2), None);

    let n = linker.define(&other_caller())?;
    let static_at = |method, pc| at(method, pc, Instruction::InvokeStatic);
    let in_n = vec![static_at(0, 0), static_at(0, 3), static_at(2, 0), at(2, 3, Instruction::InvokeVirtual)];
    assert_eq!(linker.invocations(n), Some(in_n));
    assert_eq!(linker.invocations(b), Some(vec![]));
    assert_eq!(linker.invocations(ClassId::from_number(99).unwrap()), None);

    let last = linker.invocations(n).and_then(|all| all.last().copied()).unwrap();
    let again = linker.request(n, last.method, last.pc)?;
    assert_ne!(again, site);
    assert_eq!(linker.call(again, Some(b)), answers(a));
    assert_eq!(last.instruction.to_string(), "invokevirtual");
    Ok(())
}

#[test]
fn what_is_missing_has_a_name() -> Result<(), Error> {
    let World { mut linker, m, site, .. } = world()?;
    assert_eq!(linker.refused_name(), None);
    assert_eq!(linker.define(&with_f("D", "Above")), Err(Error::Define(DefineFault::MissingParent)));
    assert_eq!(linker.refused_name().as_deref(), Some(&b"Above"[..]));
    // Bytes that are no class file are no event.
    assert!(linker.define(b"no class file").is_err());
    assert_eq!(linker.refused_name().as_deref(), Some(&b"Above"[..]));
    let pending = linker.request(m, 0, 3)?;
    assert_eq!(linker.refused_name(), None);

    assert_eq!(linker.install(&[pending]), Err(Error::NotReady(pending)));
    assert_eq!(linker.awaited_class(pending).as_deref(), Some(&b"Z"[..]));
    assert_eq!(linker.awaited_class(site), None);
    linker.define(&with_f("Z", OBJECT))?;
    assert_eq!(linker.awaited_class(pending), None);
    linker.install(&[pending])
}

const PRIVATE: u16 = 0x0002;
const PROTECTED: u16 = 0x0004;
const PUBLIC_ABSTRACT: u16 = 0x0401;
const PUBLIC_INTERFACE: u16 = 0x0601;
const PACKAGE_CLASS: u16 = 0x0020;
const ABSTRACT_CLASS: u16 = 0x0421;

/// Classes of which no code calls a method. Of A the methods are f, the static s, the private p, <init> and the protected r; of the interface
/// I it is g.
struct Uncalled {
    linker: Linker,
    object: ClassId,
    a: ClassId,
    b: ClassId,
    i: ClassId,
    c: ClassId,
}

fn uncalled() -> Result<Uncalled, Error> {
    let mut linker = Linker::open(100)?;
    let object = linker.define(&file::class(OBJECT, None, &[(PUBLIC, "h", vec![])]))?;
    let of_a = [(PUBLIC, "f"), (PUBLIC_STATIC, "s"), (PRIVATE, "p"), (PUBLIC, "<init>"), (PROTECTED, "r")];
    let a = linker.define(&file::class("A", Some(OBJECT), &of_a.map(|(flags, name)| (flags, name, vec![]))))?;
    let b = linker.define(&file::class("B", Some("A"), &["f", "p", "s"].map(|name| (PUBLIC, name, vec![]))))?;
    let i = linker.define(&interface())?;
    let c = linker.define(&with_g("C", &[(PUBLIC, "g", vec![])]))?;
    Ok(Uncalled { linker, object, a, b, i, c })
}

/// I, which declares g.
fn interface() -> Vec<u8> {
    file::Class { flags: PUBLIC_INTERFACE, name: "I", methods: &[(PUBLIC_ABSTRACT, "g", vec![])], ..file::Class::default() }.bytes()
}

/// A class that implements I, with these methods.
fn with_g(name: &str, methods: &[file::Method]) -> Vec<u8> {
    file::Class { name, interfaces: &["I"], methods, ..file::Class::default() }.bytes()
}

fn throws(throwable: Throwable) -> Answer {
    Answer::Outcome(Outcome::Throws(throwable))
}

#[test]
fn a_method_is_selected_without_an_invocation() -> Result<(), Error> {
    let Uncalled { mut linker, object, a, b, i, c } = uncalled()?;
    let run = |class, method| Ok(Answer::Outcome(Outcome::Run { class, method }));
    // 5.4.6: the method of the receiver's class that overrides, or the method itself.
    assert_eq!(linker.select(a, 0, Some(a)), run(a, 0));
    assert_eq!(linker.select(a, 0, Some(b)), run(b, 0));
    assert_eq!(linker.select(b, 0, Some(b)), run(b, 0));
    // 6.5, invokevirtual: null.
    assert_eq!(linker.select(a, 0, None), Ok(throws(Throwable::NullPointerException)));
    // A private method is the selected one, whatever is below it.
    assert_eq!(linker.select(a, 2, Some(b)), run(a, 2));
    assert_eq!(linker.select(a, 2, None), Ok(throws(Throwable::NullPointerException)));
    // Nothing overrides an instance initialization method (2.9.1), and a static one has no receiver.
    assert_eq!(linker.select(a, 3, Some(b)), run(a, 3));
    for receiver in [None, Some(object), Some(b), Some(i)] {
        assert_eq!(linker.select(a, 1, receiver), run(a, 1));
    }
    // No A: what isn't below it, and classes of which there is no object.
    let bare = file::Class { flags: ABSTRACT_CLASS, name: "Bare", superclass: Some("A"), ..file::Class::default() };
    let bare = linker.define(&bare.bytes())?;
    for receiver in [object, c, i, bare] {
        assert_eq!(linker.select(a, 0, Some(receiver)), Ok(Answer::BadReceiver));
    }
    assert_eq!(linker.select(b, 0, Some(a)), Ok(Answer::BadReceiver));
    Ok(())
}

#[test]
fn an_interface_method_is_selected_without_an_invocation() -> Result<(), Error> {
    let Uncalled { mut linker, object, a, i, c, .. } = uncalled()?;
    assert_eq!(linker.select(i, 0, Some(c)), Ok(answers(c)));
    assert_eq!(linker.select(i, 0, Some(a)), Ok(Answer::BadReceiver));
    assert_eq!(linker.select(i, 0, None), Ok(throws(Throwable::NullPointerException)));
    // 6.5, invokeinterface: none is selected, or one that is neither public nor private. A private one overrides nothing (5.4.5).
    let lacking = linker.define(&with_g("Lacking", &[]))?;
    assert_eq!(linker.select(i, 0, Some(lacking)), Ok(throws(Throwable::AbstractMethodError)));
    let hiding = linker.define(&with_g("Hiding", &[(PRIVATE, "g", vec![])]))?;
    assert_eq!(linker.select(i, 0, Some(hiding)), Ok(throws(Throwable::AbstractMethodError)));
    let narrow = linker.define(&with_g("Narrow", &[(0, "g", vec![])]))?;
    assert_eq!(linker.select(i, 0, Some(narrow)), Ok(throws(Throwable::IllegalAccessError)));
    // A method of the class that implements I is called as any other.
    assert_eq!(linker.select(narrow, 0, Some(narrow)), Ok(answers(narrow)));

    assert_eq!(linker.select(i, 1, Some(c)), Err(Error::NoSuchPlace));
    assert_eq!(linker.select(ClassId::from_number(99).unwrap(), 0, Some(c)), Err(Error::NoSuchPlace));
    let other = linker.new_loader()?;
    linker.delegate(other, b"A", LoaderId::FIRST)?;
    let d = linker.define_in(other, &with_f("D", "A"))?;
    assert_eq!(linker.select(a, 0, Some(d)), Ok(answers(d)));
    linker.retire(other)?;
    assert_eq!(linker.select(a, 0, Some(d)), Ok(Answer::BadReceiver));
    assert_eq!(linker.select(d, 0, Some(object)), Err(Error::NoSuchPlace));
    Ok(())
}

/// A resolution that finds the method.
fn found(class: ClassId, method: u16, comes_to: Resolved) -> Resolution {
    Resolution { found: Some(Method { class, method }), comes_to }
}

#[test]
fn a_reference_is_resolved_without_an_invocation() -> Result<(), Error> {
    let Uncalled { mut linker, object, a, b, i, c } = uncalled()?;
    let illegal = Resolved::Throws(Throwable::IllegalAccessError);
    let none = Resolution { found: None, comes_to: Resolved::Throws(Throwable::NoSuchMethodError) };
    // 5.4.3.3: in the class, in a superclass, in a superinterface.
    assert_eq!(linker.resolve(c, b, b"f", b"()V")?, found(b, 0, Resolved::Found));
    assert_eq!(linker.resolve(c, b, b"h", b"()V")?, found(object, 0, Resolved::Found));
    let lacking = linker.define(&with_g("Lacking", &[]))?;
    assert_eq!(linker.resolve(c, lacking, b"g", b"()V")?, found(i, 0, Resolved::Found));
    assert_eq!(linker.resolve(c, a, b"s", b"()V")?, found(a, 1, Resolved::Found));
    assert_eq!(linker.resolve(c, a, b"g", b"()V")?, none);
    assert_eq!(linker.resolve(c, a, b"f", b"(I)V")?, none);
    // 5.4.3.4: in the interface, and a public method of java/lang/Object.
    assert_eq!(linker.resolve(a, i, b"g", b"()V")?, found(i, 0, Resolved::Found));
    assert_eq!(linker.resolve(a, i, b"h", b"()V")?, found(object, 0, Resolved::Found));
    assert_eq!(linker.resolve(a, i, b"f", b"()V")?, none);
    // 5.4.4: a private method, and a protected one, which a class below it in another package may name.
    assert_eq!(linker.resolve(a, a, b"p", b"()V")?, found(a, 2, Resolved::Found));
    assert_eq!(linker.resolve(c, a, b"p", b"()V")?, found(a, 2, illegal));
    assert_eq!(linker.resolve(c, a, b"r", b"()V")?, found(a, 4, Resolved::Found));
    let below = linker.define(&file::class("q/Below", Some("A"), &[]))?;
    let beside = linker.define(&file::class("q/Beside", Some(OBJECT), &[]))?;
    assert_eq!(linker.resolve(below, below, b"r", b"()V")?, found(a, 4, Resolved::Found));
    assert_eq!(linker.resolve(beside, a, b"r", b"()V")?, found(a, 4, illegal));
    // The class that is named isn't accessible; the method would be.
    let hidden = hidden(&mut linker)?;
    assert_eq!(linker.resolve(c, hidden, b"f", b"()V")?, found(hidden, 0, Resolved::Found));
    assert_eq!(linker.resolve(beside, hidden, b"f", b"()V")?, found(hidden, 0, illegal));

    let unknown = ClassId::from_number(99).unwrap();
    assert_eq!(linker.resolve(unknown, a, b"f", b"()V"), Err(Error::UnknownClass));
    assert_eq!(linker.resolve(a, unknown, b"f", b"()V"), Err(Error::UnknownClass));
    Ok(())
}

/// A class of no package that only its package may access.
fn hidden(linker: &mut Linker) -> Result<ClassId, Error> {
    let class = file::Class { flags: PACKAGE_CLASS, name: "Hidden", methods: &[(PUBLIC, "f", vec![])], ..file::Class::default() };
    linker.define(&class.bytes())
}

#[test]
fn a_resolution_waits_for_a_nest_host() -> Result<(), Error> {
    let Uncalled { mut linker, a, .. } = uncalled()?;
    let mate = file::Class { name: "Mate", nest_host: Some("Host"), ..file::Class::default() };
    let mate = linker.define(&mate.bytes())?;
    let waits = Resolved::Unlinked(Unlinked::WantsCallerHost);
    assert_eq!(linker.resolve(mate, a, b"p", b"()V")?, found(a, 2, waits));
    assert_eq!(linker.resolve(mate, a, b"f", b"()V")?, found(a, 0, Resolved::Found));
    // Host doesn't list Mate, which is the host of its own nest then (5.4.4).
    linker.define(&file::class("Host", Some(OBJECT), &[]))?;
    assert_eq!(linker.resolve(mate, a, b"p", b"()V")?, found(a, 2, Resolved::Throws(Throwable::IllegalAccessError)));
    Ok(())
}

#[test]
fn methods_of_a_method_handle_are_found() -> Result<(), Error> {
    let Uncalled { mut linker, a, .. } = uncalled()?;
    let methods = [(0x0191, "invoke", vec![]), (PUBLIC, "type", vec![])];
    let handle = linker.define(&file::class("java/lang/invoke/MethodHandle", Some(OBJECT), &methods))?;
    assert_eq!(linker.resolve(a, handle, b"invoke", b"()V")?, found(handle, 0, Resolved::Found));
    assert_eq!(linker.resolve(a, handle, b"type", b"()V")?, found(handle, 1, Resolved::Found));
    assert_eq!(linker.select(handle, 1, Some(handle)), Ok(Answer::Outcome(Outcome::Run { class: handle, method: 1 })));
    Ok(())
}

#[test]
fn a_class_is_accessible_in_its_package_or_everywhere() -> Result<(), Error> {
    let Uncalled { mut linker, a, i, .. } = uncalled()?;
    let hidden = hidden(&mut linker)?;
    let beside = linker.define(&file::class("q/Beside", Some(OBJECT), &[]))?;
    assert_eq!(linker.class_accessible(a, hidden), Ok(true));
    assert_eq!(linker.class_accessible(hidden, hidden), Ok(true));
    assert_eq!(linker.class_accessible(beside, hidden), Ok(false));
    assert_eq!((linker.class_accessible(beside, a), linker.class_accessible(hidden, i)), (Ok(true), Ok(true)));
    // A class of the same name's package that another loader defines is in another run-time package (5.3).
    let other = linker.new_loader()?;
    linker.delegate(other, OBJECT.as_bytes(), LoaderId::FIRST)?;
    let d = linker.define_in(other, &file::class("D", Some(OBJECT), &[]))?;
    assert_eq!((linker.class_accessible(d, hidden), linker.class_accessible(d, a)), (Ok(false), Ok(true)));
    linker.retire(other)?;
    assert_eq!(linker.class_accessible(d, a), Err(Error::UnknownClass));
    assert_eq!(linker.class_accessible(a, d), Err(Error::UnknownClass));
    Ok(())
}

#[test]
fn bytes_are_checked_and_not_defined() -> Result<(), Error> {
    let mut linker = Linker::open(1)?;
    let fault_of = |checked| match checked {
        Err(Error::NoClassFile { fault, .. }) => Some(fault),
        _ => None,
    };
    assert_eq!(fault_of(linker.check(NEWEST_KNOWN, &[])), Some(ClassFault::Truncated));
    assert_eq!(fault_of(linker.check(NEWEST_KNOWN, b"no class file")), Some(ClassFault::BadMagic));
    let file = file::class_of_version(65, "A", Some("Nowhere"), &[]);
    assert_eq!(fault_of(linker.check(NEWEST_OF_17, &file)), Some(ClassFault::BadVersion));
    // No parent is looked for, and no class is there then.
    for _ in 0..2 {
        linker.check(65, &file)?;
    }
    assert_eq!(linker.lookup(LoaderId::FIRST, b"A"), None);
    assert_eq!(linker.define(&object())?.number(), 0);
    Ok(())
}

#[test]
fn an_invocation_is_linked_by_one_call() -> Result<(), Error> {
    let mut linker = Linker::open(2)?;
    linker.define(&object())?;
    let m = linker.define(&caller())?;
    // M calls A.f at pc 0, and A isn't there.
    let met = linker.link(m, 0, 0)?;
    let site = met.site;
    assert_eq!(met.link, Err(Error::NotReady(site)));
    assert_eq!(linker.awaited_class(site).as_deref(), Some(&b"A"[..]));
    let a = linker.define(&with_f("A", OBJECT))?;
    let linked = Linked { site, link: Ok(Link::Direct(runs(a))) };
    assert_eq!(linker.link(m, 0, 0)?, linked);
    assert_eq!(linker.link(m, 0, 0)?, linked);
    assert_eq!(linker.link_of(site), Some(Link::Direct(runs(a))));
    // A class below A that overrides f, and the link is made anew.
    let c = linker.define(&with_f("C", "A"))?;
    assert_eq!(linker.dropped(), [site]);
    let table = Link::VirtualTable(vec![(a, runs(a)), (c, runs(c))]);
    assert_eq!(linker.link(m, 0, 0)?, Linked { site, link: Ok(table) });

    // What refuses the request. Z has no f, so that each call throws NoSuchMethodError (5.4.3.3).
    assert_eq!(linker.link(m, 0, 6), Err(Error::NotLinkable(NotLinkable::ArrayReceiver)));
    assert_eq!(linker.link(m, 0, 1), Err(Error::NoSuchPlace));
    assert_eq!(linker.link(m, 2, 0), Err(Error::NoSuchPlace));
    assert_eq!(linker.link(ClassId::from_number(99).unwrap(), 0, 0), Err(Error::UnknownClass));
    linker.define(&file::class("Z", Some(OBJECT), &[]))?;
    assert_eq!(linker.link(m, 0, 3)?.link, Ok(Link::Fault(Throwable::NoSuchMethodError)));
    let n = linker.define(&other_caller())?;
    assert_eq!(linker.link(n, 0, 0), Err(Error::SitesFull));
    Ok(())
}

#[test]
fn those_of_several_sites_are_installed_that_have_a_link() -> Result<(), Error> {
    let mut world = world()?;
    let (a, m, site) = (world.a, world.m, world.site);
    let n = world.linker.define(&other_caller())?;
    // M calls A.f and Z.f, and Z isn't there. N calls M.n, which is static.
    let (waits, plain) = (world.linker.request(m, 0, 3)?, world.linker.request(n, 0, 0)?);
    let (direct, method) = (Link::Direct(runs(a)), Link::Plain(Outcome::Run { class: m, method: 1 }));
    let links = [(plain, Some(method.clone())), (waits, None), (site, Some(direct))];
    assert_eq!(world.linker.install_ready(&[plain, waits, site])?, links);
    assert_eq!((world.linker.link_of(plain), world.linker.link_of(waits)), (Some(method.clone()), None));
    assert_eq!(world.linker.dropped(), []);

    // C overrides f, which drops one of them. Z has no f, so that each call throws NoSuchMethodError (5.4.3.3).
    let (_, table) = overridden(&mut world)?;
    assert_eq!(world.linker.dropped(), [site]);
    let links = [(site, Some(table.clone())), (waits, None), (plain, Some(method.clone()))];
    assert_eq!(world.linker.install_ready(&[site, waits, plain])?, links);
    assert_eq!(world.linker.dropped(), []);
    world.linker.define(&file::class("Z", Some(OBJECT), &[]))?;
    let fault = Link::Fault(Throwable::NoSuchMethodError);
    assert_eq!(world.linker.install_ready(&[site, waits])?, [(site, Some(table)), (waits, Some(fault.clone()))]);
    assert_eq!((world.linker.link_of(waits), world.linker.link_of(plain)), (Some(fault), Some(method)));
    Ok(())
}

#[test]
fn sites_without_a_link_are_passed_over() -> Result<(), Error> {
    let mut world = world()?;
    let (_, table) = overridden(&mut world)?;
    let World { mut linker, m, site, .. } = world;
    let waits = linker.request(m, 0, 3)?;
    // Another loader's class, which calls A.f, goes with its loader.
    let other = linker.new_loader()?;
    linker.delegate(other, OBJECT.as_bytes(), LoaderId::FIRST)?;
    linker.delegate(other, b"A", LoaderId::FIRST)?;
    let d = linker.define_in(other, &file::class("D", Some(OBJECT), &[(PUBLIC_STATIC, "d", vec![(INVOKEVIRTUAL, "A", "f", "()V")])]))?;
    let gone = linker.request(d, 0, 0)?;
    assert_eq!(linker.install_ready(&[gone])?, [(gone, Some(table.clone()))]);
    linker.retire(other)?;
    let unknown = SiteId::from_number(9).unwrap();

    linker.install_ready(&[waits, site])?;
    // A selection for each of A, B and C.
    assert_eq!(linker.last_work(), 3);
    let serial = linker.view()?.serial();
    assert_eq!(linker.install_ready(&[])?, []);
    let none = [(unknown, None), (waits, None), (gone, None), (waits, None), (unknown, None)];
    assert_eq!(linker.install_ready(&none.clone().map(|(site, _)| site))?, none);
    assert_eq!(linker.install_ready(&[waits; 257])?, vec![(waits, None); 257]);
    // There was no event.
    assert_eq!((linker.last_work(), linker.view()?.serial()), (3, serial));
    let links = [(unknown, None), (site, Some(table)), (unknown, None)];
    assert_eq!(linker.install_ready(&[unknown, site, unknown])?, links);
    assert_eq!(linker.view()?.serial(), serial + 1);
    Ok(())
}

#[test]
fn an_install_of_sites_that_have_a_link_is_refused_by_name() -> Result<(), Error> {
    let mut linker = Linker::open(258)?;
    linker.define(&object())?;
    let m = linker.define(&caller())?;
    // N calls M.n 257 times, and then Z.n, and Z isn't there.
    let calls = [vec![(INVOKESTATIC, "M", "n", "()V"); 257], vec![(INVOKESTATIC, "Z", "n", "()V")]].concat();
    let n = linker.define(&file::class("N", Some(OBJECT), &[(PUBLIC_STATIC, "x", calls)]))?;
    let sites = (0..258).map(|call| linker.request(n, 0, 3 * call)).collect::<Result<Vec<_>, _>>()?;
    let (ready, waits) = (&sites[..257], sites[257]);
    assert_eq!(linker.install_ready(&sites), Err(Error::BatchSize));
    assert_eq!(linker.install_ready(&[ready[0]; 257]), Err(Error::BatchSize));
    assert_eq!(linker.install_ready(&[waits, ready[0], ready[1], waits, ready[1]]), Err(Error::Repeated(ready[1])));
    for &site in &sites {
        assert_eq!(linker.link_of(site), None);
    }
    let links = linker.install_ready(&sites[1..])?;
    let plain = Link::Plain(Outcome::Run { class: m, method: 1 });
    let wanted: Vec<_> = sites[1..].iter().map(|&site| (site, (site != waits).then(|| plain.clone()))).collect();
    assert_eq!(links, wanted);
    assert_eq!((linker.link_of(ready[0]), linker.link_of(ready[256])), (None, Some(plain)));
    Ok(())
}

#[test]
fn the_last_event_has_its_work() -> Result<(), Error> {
    let mut world = world()?;
    overridden(&mut world)?;
    world.linker.install(&[world.site])?;
    // A selection for each of A, B and C.
    assert_eq!(world.linker.last_work(), 3);
    world.linker.new_loader()?;
    assert_eq!(world.linker.last_work(), 0);
    Ok(())
}

#[test]
fn a_linker_that_catches_up_goes_on_as_before() -> Result<(), Error> {
    let mut world = world()?;
    world.linker.catch_up()?;
    world.linker.install(&[world.site])?;
    world.linker.catch_up()?;
    world.linker.catch_up()?;
    overridden(&mut world)?;
    world.linker.catch_up()?;
    assert_eq!(world.linker.dropped(), [world.site]);
    assert_eq!(world.linker.link_of(world.site), None);
    world.linker.install(&[world.site])?;
    assert_eq!(world.linker.last_work(), 3);
    Ok(())
}

#[test]
fn the_library_is_of_the_header() {
    let header = include_str!("../../../include/linkd.h");
    assert!(header.contains(&format!("#define LINKD_VERSION {}\n", linkd::version())));
    assert!(header.contains(&format!("#define LINKD_NEWEST_KNOWN {NEWEST_KNOWN}\n")));
}
