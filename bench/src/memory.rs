//! The peak memory of a process that reads a file and checks it.

use crate::pochahuic;
use std::io;
use std::process::Command;

/// In the process that is measured: checks the file and prints its peak memory in bytes.
pub fn print_peak(path: &str) -> io::Result<()> {
    let file = std::fs::read(path)?;
    pochahuic::check(&file).map_err(io::Error::other)?;
    let status = std::fs::read_to_string("/proc/self/status")?;
    let peak = status.lines().find_map(|line| line.strip_prefix("VmHWM:"));
    let number = peak.and_then(|words| words.trim().strip_suffix(" kB")?.parse::<usize>().ok());
    println!("{}", number.ok_or(io::Error::other("no VmHWM"))? * 1024);
    Ok(())
}

/// The peak memory in bytes of a process of its own that checks this file.
pub fn peak_of_a_check(file: &[u8]) -> io::Result<usize> {
    let program = std::env::current_exe()?;
    let path = program.with_file_name("measured.csv");
    std::fs::write(&path, file)?;
    let printed = Command::new(&program).arg("memory").arg(&path).output()?;
    std::fs::remove_file(&path)?;
    let number = String::from_utf8_lossy(&printed.stdout).trim().parse();
    number.map_err(|_| io::Error::other("the process that is measured printed no number"))
}
