//! How much to compare.

use std::env;

/// The number in an environment variable where it is larger than `least`: it can only add trials.
pub fn at_least(name: &str, least: u64) -> u64 {
    let asked = env::var(name).unwrap_or_default();
    asked.parse().unwrap_or(0).max(least)
}
