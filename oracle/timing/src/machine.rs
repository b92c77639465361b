//! What it was measured on.

use std::fs;
use std::process::Command;

fn field(file: &str, name: &str) -> String {
    let text = fs::read_to_string(file).unwrap_or_default();
    let line = text.lines().find(|line| line.starts_with(name));
    let value = line.and_then(|line| line.split_once(':'));
    value.map_or("unknown".to_string(), |(_, v)| v.trim().to_string())
}

fn first_line(command: &str, argument: &str) -> String {
    let output = Command::new(command).arg(argument).output();
    let text = output.map(|o| String::from_utf8_lossy(&o.stdout).into_owned());
    let text = text.unwrap_or_default();
    text.lines().next().unwrap_or("unknown").to_string()
}

pub fn load() -> String {
    let text = fs::read_to_string("/proc/loadavg").unwrap_or_default();
    text.split(' ').take(3).collect::<Vec<_>>().join(" ")
}

pub fn describe() -> String {
    let processors = std::thread::available_parallelism().map_or(0, |n| n.get());
    format!(
        "{}, {} processors, cache {}, memory {}, Linux {}, {}",
        field("/proc/cpuinfo", "model name"),
        processors,
        field("/proc/cpuinfo", "cache size"),
        field("/proc/meminfo", "MemTotal"),
        first_line("uname", "-r"),
        first_line("rustc", "--version"),
    )
}
