//! The `cavity` program: random and changed texts through its standard input, against the printout.
use super::text::{any_text, STEPS};
use super::{refusals, Group, Part};
use crate::random::Random;
use crate::reference::text::print;
use crate::tally::Tally;
use std::io::{Read, Write};
use std::path::Path;
use std::process::{Command, Stdio};

pub const GROUP: Group = Group { name: "program", run, wanted: |_| (refusals(1..=8, &["filled"]), 5) };

/// What the program prints, where it ends without a fault.
fn printed(program: &Path, text: &[u8]) -> Result<String, String> {
    let command = Command::new(program).stdin(Stdio::piped()).stdout(Stdio::piped()).spawn();
    let mut child = command.map_err(|e| format!("{}: {e}", program.display()))?;
    // A program that has read enough may close its input: not a fault.
    let _ = child.stdin.take().unwrap().write_all(text);
    let mut out = String::new();
    child.stdout.take().unwrap().read_to_string(&mut out).map_err(|e| e.to_string())?;
    let status = child.wait().map_err(|e| e.to_string())?;
    if status.success() {
        Ok(out)
    } else {
        Err(status.to_string())
    }
}

fn run(part: &Part) -> Tally {
    let mut tally = Tally::default();
    for seed in part.seeds(1_000) {
        let text = any_text(&mut Random::new(6_000_000 + seed));
        let Some(expected) = print(&text, STEPS) else { continue };
        let kind = expected.strip_prefix("R,").map_or("filled".to_string(), |n| format!("R{:>2}", n.trim_end()));
        let got = printed(&part.program, &text);
        tally.compare(kind, &Ok(expected), &got, || String::from_utf8_lossy(&text).into_owned());
    }
    tally
}
