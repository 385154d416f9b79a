//! Runs a plain job, as bindings/c/jobs.c does.
use std::io::{Read, Write, stdin, stdout};
use x3d::{Aim, World};

fn numbers(words: &[&str]) -> Vec<i64> {
    words
        .iter()
        .map(|word| word.parse().expect("a whole number"))
        .collect()
}

fn main() -> Result<(), Box<dyn std::error::Error>> {
    let mut job = Vec::new();
    stdin().read_to_end(&mut job)?;
    let mark = b"scene\n";
    let at = if job.starts_with(mark) {
        0
    } else {
        1 + job
            .windows(7)
            .position(|w| w == b"\nscene\n")
            .expect("a line scene")
    };
    let mut world = match World::open(&job[at + mark.len()..]) {
        Ok(world) => world,
        Err(refusal) => {
            eprintln!("{}", refusal.line);
            std::process::exit(if refusal.is_memory { 5 } else { 1 });
        }
    };
    for line in std::str::from_utf8(&job[..at])?.lines() {
        let words: Vec<_> = line.split(' ').collect();
        let n = numbers(&words[1..]);
        let number = u64::try_from(n[0])?;
        if words[0] == "clock" {
            world.clock(number, n[1])?;
        } else {
            world.point(
                number,
                n[1],
                u8::try_from(n[2])?,
                n[3] == 1,
                &Aim::new([n[4], n[5], n[6]], [n[7], n[8], n[9]]),
            )?;
        }
    }
    stdout().write_all(world.trace(0)?.as_bytes())?;
    stdout().write_all(world.scene()?.as_bytes())?;
    Ok(())
}
