// The same turns as crates/measure/src/turns.rs, under a `std::sync::Mutex`: each turn enters the thread's number.
// Prints the sum of the numbers to standard output, and the time to standard error.
use std::sync::Mutex;
use std::time::Instant;

/// The turns that the threads take between them.
const TURNS: u32 = 320_000;

fn main() {
    let threads: u32 = std::env::args()
        .nth(2)
        .and_then(|word| word.parse().ok())
        .expect("usage: turns WORK THREADS");
    let start = Instant::now();
    let numbers = Mutex::new(Vec::<u32>::new());
    std::thread::scope(|scope| {
        for number in 1..=threads {
            let numbers = &numbers;
            scope.spawn(move || {
                for _ in 0..TURNS / threads {
                    numbers.lock().unwrap().push(number);
                }
            });
        }
    });
    let numbers = numbers.into_inner().unwrap();
    let sum: u64 = numbers.iter().map(|number| u64::from(*number)).sum();
    let time = start.elapsed().as_nanos();
    println!("turns {threads} {sum}");
    eprintln!("{time} ns");
}
