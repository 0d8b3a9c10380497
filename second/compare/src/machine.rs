//! What the machine did beside the measuring: figures are no better than that.

use std::fs::read_to_string;
use std::thread::available_parallelism;

/// Prints the load of the last minute and how many processors there are.
pub fn print_load(when: &str) {
    let unknown = || "not known".to_owned();
    let load = load().unwrap_or_else(unknown);
    let processors = available_parallelism().map_or_else(|_| unknown(), |count| count.to_string());
    println!("load {when}: {load}; processors: {processors}");
}

fn load() -> Option<String> {
    let text = read_to_string("/proc/loadavg").ok()?;
    text.split_whitespace().next().map(str::to_owned)
}
