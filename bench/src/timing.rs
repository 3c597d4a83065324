//! Times taken in turns, and how they are printed.

use std::hint::black_box;
use std::time::Instant;

pub fn millis<T>(run: impl FnOnce() -> T) -> (f64, T) {
    let began = Instant::now();
    let result = black_box(run());
    (began.elapsed().as_secs_f64() * 1e3, result)
}

/// The least and the median.
pub fn figures(mut times: Vec<f64>) -> (f64, f64) {
    times.sort_by(f64::total_cmp);
    (times[0], times[times.len() / 2])
}

pub fn print_times(name: &str, proved: Vec<f64>, rust: Vec<f64>, note: String) {
    let ((a, a_mid), (b, b_mid)) = (figures(proved), figures(rust));
    println!("{name:<16} {:>6.2} {:>6.2}   {a:>9.3} {a_mid:>9.3}   {b:>9.3} {b_mid:>9.3}   {note}", a / b, a_mid / b_mid);
}

/// The head of a table: what is timed, and the unit.
pub fn heading(what: &str, unit: &str) {
    heading_of(what, unit, "proved", "Rust");
}

/// The same, by the names of what is timed side by side.
pub fn heading_of(what: &str, unit: &str, first: &str, second: &str) {
    println!("\n{what:<16} {:>13}   {:>19}   {:>19}", format!("{first} / {second}"), format!("{first}, {unit}"), format!("{second}, {unit}"));
    println!("{:<16} {:>6} {:>6}   {:>9} {:>9}   {:>9} {:>9}", "", "least", "median", "least", "median", "least", "median");
}
