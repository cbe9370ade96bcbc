//! Compares the proved library with the plain program of bench/reference, and then times both.
//! Arguments: how many images, orders and lives (thousands each), and a seed.
mod cases;
mod library;
mod random;
#[path = "../reference/mod.rs"]
mod reference;
mod times;

fn main() {
    let numbers: Vec<u64> = std::env::args()
        .skip(1)
        .map(|a| a.parse().expect("a number"))
        .collect();
    let thousands = numbers.first().copied().unwrap_or(40);
    let seed = numbers.get(1).copied().unwrap_or(1);
    let agreed = cases::compare(thousands * 1_000, seed);
    println!("all {agreed} cases agreed");
    times::measure(seed);
}
