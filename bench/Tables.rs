// The same calls over other tables, to be timed from outside: each of so many threads makes so many look-ups of 1,000 links in a
// table of so many sites. The words are the table (mutex-map, rwlock-map, mutex-array or atomic), the sites, the threads and the
// calls of each. `atomic` is one atomic load and an array that nobody changes: the least that a call can cost.
use std::collections::HashMap;
use std::hint::black_box;
use std::sync::atomic::{AtomicUsize, Ordering};
use std::sync::{Mutex, RwLock};
use std::thread;

// As large as a link of this linker: a tag and eight rows of a class and an outcome.
#[derive(Clone, Copy)]
struct Link {
    method: u32,
    _rows: [u32; 33],
}

fn next(site: u32) -> u32 {
    if site < 935 { site + 65 } else { site % 65 }
}

fn link(site: u32) -> Link {
    Link { method: site, _rows: [0; 33] }
}

fn look_up(threads: u32, calls: u32, find: impl Fn(u32) -> Option<u32> + Sync) -> u64 {
    thread::scope(|scope| {
        let workers: Vec<_> = (0..threads)
            .map(|_| {
                scope.spawn(|| {
                    let (mut site, mut answers) = (0, 0u64);
                    for _ in 0..calls {
                        if black_box(find(black_box(site))).is_some() {
                            answers += 1;
                        }
                        site = next(site);
                    }
                    answers
                })
            })
            .collect();
        workers.into_iter().map(|worker| worker.join().unwrap()).sum()
    })
}

fn main() {
    let words: Vec<String> = std::env::args().collect();
    let number = |at: usize| words[at].parse::<u32>().unwrap();
    let (sites, threads, calls) = (number(2), number(3), number(4));
    let map: HashMap<u32, Link> = (0..1000).map(|site| (site, link(site))).collect();
    let array: Vec<Option<Link>> = (0..sites).map(|site| (site < 1000).then(|| link(site))).collect();
    let answers = match words[1].as_str() {
        "mutex-map" => {
            let table = Mutex::new(map);
            look_up(threads, calls, |site| table.lock().unwrap().get(&site).map(|link| link.method))
        }
        "rwlock-map" => {
            let table = RwLock::new(map);
            look_up(threads, calls, |site| table.read().unwrap().get(&site).map(|link| link.method))
        }
        "mutex-array" => {
            let table = Mutex::new(array);
            look_up(threads, calls, |site| {
                let table = table.lock().unwrap();
                table.get(site as usize).and_then(|link| link.map(|link| link.method))
            })
        }
        "atomic" => {
            let count = AtomicUsize::new(array.len());
            look_up(threads, calls, |site| {
                if site as usize >= count.load(Ordering::SeqCst) {
                    return None;
                }
                array[site as usize].map(|link| link.method)
            })
        }
        other => panic!("no table {other}"),
    };
    println!("{answers}");
}
