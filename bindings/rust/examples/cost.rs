//! What a call costs from Rust, at a seat and on a linker. It does what bench/cost.c does, by the same words, and prints the same.
use linkd::{Answer, ClassId, Linker, Outcome, Seat, SiteId};
use std::error::Error;
use std::time::Instant;

const CALLS: u32 = 5_000_000;
const TURNS: usize = 7;

/// The nanoseconds of one call, and the sum of the classes that were answered.
fn turn(mut call: impl FnMut() -> Option<Answer>) -> (f64, u64) {
    let start = Instant::now();
    let mut sum = 0;
    for _ in 0..CALLS {
        match call() {
            Some(Answer::Outcome(Outcome::Run { class, .. })) => sum += u64::from(class.number()),
            other => panic!("no answer: {other:?}"),
        }
    }
    (start.elapsed().as_secs_f64() * 1e9 / f64::from(CALLS), sum)
}

fn measure(linker: &mut Linker, seat: &mut Seat, site: SiteId, receiver: ClassId) {
    let (mut by_seat, mut by_linker, mut sum) = (f64::MAX, f64::MAX, 0);
    for _ in 0..TURNS {
        let (one, first) = turn(|| seat.call(site, Some(receiver)));
        let (other, second) = turn(|| Some(linker.call(site, Some(receiver))));
        by_seat = by_seat.min(one);
        by_linker = by_linker.min(other);
        sum += first + second;
    }
    println!("{by_seat:.2} {by_linker:.2} {sum}");
}

fn main() -> Result<(), Box<dyn Error>> {
    let words: Vec<String> = std::env::args().skip(1).collect();
    let [method, pc, receiver, paths @ ..] = words.as_slice() else { return Err("METHOD PC RECEIVER FILE..".into()) };
    let mut linker = Linker::open(1)?;
    let mut classes = Vec::new();
    for path in paths {
        classes.push(linker.define(&std::fs::read(path)?)?);
    }
    let last = *classes.last().ok_or("no class file")?;
    let site = linker.request(last, method.parse()?, pc.parse()?)?;
    linker.install(&[site])?;
    let mut seat = linker.seat()?;
    measure(&mut linker, &mut seat, site, classes[receiver.parse::<usize>()?]);
    Ok(())
}
