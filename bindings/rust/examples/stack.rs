//! Replays each FILE on a thread with a stack of KB kilobytes: `cargo run --release --example stack KB FILE..`. A stack that is too
//! small ends the process by a signal, so the least KB that ends well is the need (`docs/DECISIONS.md`, "Called from Rust").

use std::{env, fs, process, thread};

fn main() {
    let mut words = env::args().skip(1);
    let Some(kb) = words.next().and_then(|word| word.parse::<usize>().ok()) else {
        eprintln!("usage: stack KB FILE..");
        process::exit(2);
    };
    for name in words {
        let script = fs::read(&name).expect("a script");
        let small = thread::Builder::new().stack_size(kb * 1024);
        let thread = small.spawn(move || slack::replay(&script).len());
        let bytes = thread.expect("a thread").join().expect("no panic");
        println!("{name}: {bytes} bytes of answers");
    }
}
