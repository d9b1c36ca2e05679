//! Four threads that send what they did over a channel, and take work behind a mutex.
use std::sync::{mpsc, Arc, Mutex};
use std::thread;

fn main() {
    let (to, from) = mpsc::channel();
    let left = Arc::new(Mutex::new(400));
    let threads: Vec<_> = (0..4u64)
        .map(|me| {
            let (to, left) = (to.clone(), Arc::clone(&left));
            thread::spawn(move || loop {
                let mut now = left.lock().unwrap();
                if *now == 0 {
                    return;
                }
                *now -= 1;
                drop(now);
                to.send((0..me * 20).map(std::hint::black_box).sum::<u64>() * 4 + me).unwrap();
            })
        })
        .collect();
    drop(to);
    let sum = from.iter().fold(0u64, |sum, one| sum.wrapping_mul(31).wrapping_add(one));
    for thread in threads {
        thread.join().unwrap();
    }
    println!("{sum}");
}
