//! The original and the port beside each other.
//!
//!     compare run [ROUNDS [SEED]]    ROUNDS random inputs of each kind, beside the exhaustive ones
//!     compare bench [TURNS]          times of both sides, in turns
//!     compare record FOLDER          a sample of the original's answers, into FOLDER/data and FOLDER/stdout
mod bench;
mod escaping;
mod framing;
mod groups;
mod known;
mod make;
mod reading;
mod record;
mod tally;
mod writing;

fn main() {
    let words: Vec<String> = std::env::args().skip(1).collect();
    let number = |i: usize, default: u64| words.get(i).map_or(default, |w| w.parse().expect("a number"));
    match words.first().map(String::as_str) {
        Some("run") => run(number(1, 20_000) as usize, number(2, 1)),
        Some("bench") => bench::run(number(1, 15) as usize),
        Some("record") => record::run(words.get(1).expect("a folder").as_ref(), 1),
        _ => {
            eprintln!("usage: compare run [ROUNDS [SEED]] | bench [TURNS] | record FOLDER");
            std::process::exit(2);
        }
    }
}

fn run(rounds: usize, seed: u64) {
    let mut tally = tally::Tally::default();
    let mut random = make::Random::new(seed);
    escaping::run(&mut tally, &mut random, rounds);
    framing::run(&mut tally, &mut random, rounds);
    reading::run(&mut tally, &mut random, rounds);
    writing::run(&mut tally, &mut random, rounds);
    groups::run(&mut tally, &mut random, rounds);
    known::run();
    tally.print();
    println!("no difference");
}
