//! Situations that the comparison must meet, with how often each was met.

/// Adds one to each situation that a call met.
pub fn add(times: &mut [u64], met: &[bool]) {
    for (times, met) in times.iter_mut().zip(met) {
        *times += u64::from(*met);
    }
}

pub fn print(what: &str, names: &[&str], times: &[u64]) {
    let all: Vec<String> = names
        .iter()
        .zip(times)
        .map(|(name, times)| format!("{name} {times}"))
        .collect();
    println!("{what}: {}", all.join(", "));
}

/// The situations that were not met.
pub fn missing(what: &'static str, names: &[&str], times: &[u64]) -> Vec<String> {
    let unmet = names.iter().zip(times).filter(|(_, times)| **times == 0);
    unmet
        .map(|(name, _)| format!("no {what}: {name}"))
        .collect()
}
