//! Runs in turn, so that what else the machine does meets both alike.

const ROUNDS: usize = 15;

/// Times ours and the Rust in turn, each in seconds over `count` frames; a line with the medians, their ratio, and the
/// smallest and largest ratio of one round.
pub fn compare(name: &str, count: usize, mut ours: impl FnMut() -> f64, mut rust: impl FnMut() -> f64) {
    // The first run of each finds cold caches and is not counted.
    let _ = (ours(), rust());
    let rounds: Vec<[f64; 2]> = (0..ROUNDS).map(|_| [ours(), rust()]).collect();
    let [a, b] = [0, 1].map(|i| 1e6 * median(rounds.iter().map(|round| round[i])) / count as f64);
    let ratios = || rounds.iter().map(|[ours, rust]| rust / ours);
    let (least, most) = (ratios().fold(f64::MAX, f64::min), ratios().fold(0.0, f64::max));
    println!(
        "{name:14} ours {a:6.2} us, the Rust {b:6.2} us, {:.2} times its speed ({least:.2} to {most:.2})",
        b / a
    );
}

fn median(times: impl Iterator<Item = f64>) -> f64 {
    let mut list: Vec<f64> = times.collect();
    list.sort_by(f64::total_cmp);
    list[list.len() / 2]
}
