//! An owner of a linker in Rust, over the crate of bindings/rust. It defines class files, links one invocation of the last one, and tells what
//! that comes to.
//!
//!     host METHOD PC FILE..
//!
//! METHOD is the method's place among those that the class declares.
use linkd::{Linker, LoaderId, NEWEST_KNOWN};
use std::error::Error;
use std::process::ExitCode;

fn run(words: &[String]) -> Result<(), Box<dyn Error + Send + Sync>> {
    let [method, pc, paths @ ..] = words else {
        return Err("METHOD PC FILE..".into());
    };
    let mut linker = Linker::open(1)?;
    let mut classes = Vec::new();
    for path in paths {
        let file = std::fs::read(path).map_err(|fault| format!("{path}: {fault}"))?;
        classes.push(
            linker
                .define_up_to(LoaderId::FIRST, NEWEST_KNOWN, &file)
                .map_err(|fault| format!("{path}: {fault}"))?,
        );
    }
    let last = *classes.last().ok_or("no class file")?;
    let site = linker.request(last, method.parse()?, pc.parse()?)?;
    linker.install(&[site])?;
    println!("{}", linker.answer("{\"do\":\"links\"}")?);
    // Another thread may make the next calls.
    let calls = std::thread::spawn(move || {
        println!("on null it {}", linker.call(site, None));
        for class in classes {
            println!("on {class} it {}", linker.call(site, Some(class)));
        }
    });
    calls.join().map_err(|_| "the thread has panicked".into())
}

fn main() -> ExitCode {
    let words: Vec<String> = std::env::args().skip(1).collect();
    match run(&words) {
        Ok(()) => ExitCode::SUCCESS,
        Err(fault) => {
            eprintln!("host: {fault}");
            ExitCode::FAILURE
        }
    }
}
