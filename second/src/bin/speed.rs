//! Measures the proved library and the second program side by side, in one run. Each time is the best of three.

#[path = "../calls.rs"]
#[allow(dead_code)]
mod calls;
#[path = "../proved.rs"]
mod proved;
#[path = "../speed/mod.rs"]
mod speed;

fn main() {
    println!("{:44} {:>20} {:>20} {:>7}", "", "proved ms (MB/s)", "second ms (MB/s)", "ratio");
    speed::wire::measure();
    speed::ubf::measure();
    speed::load::measure();
}
