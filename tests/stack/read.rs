//! How much stack compiled functions take, read off their code.
//!
//! `objdump -dr --no-show-raw-insn LIBRARY | read MOST_FRAME FUNCTION=MOST ..` follows every path
//! through every function, keeps how many bytes of stack are taken at each instruction, and adds up
//! along the calls. It prints a line for each function named, and fails where a frame is over
//! MOST_FRAME, a function with all that it calls over its MOST, where a function that nothing calls
//! has no MOST, and at everything that it can't follow: a stack pointer set in another way, a call
//! or jump through a register, recursion, two paths that meet with different depths.
//!
//! On x86-64 a frame has the return address. Functions of the C library count with that alone:
//! painted.c has what they take.

mod code;
mod frames;
#[cfg(test)]
mod tests;

use std::collections::{BTreeMap, BTreeSet};
use std::io::Read;
use std::process::ExitCode;

use code::{functions, number};
use frames::{frame, with_calls};

/// The lines to print, and what is wrong.
fn report(
    listing: &str,
    most_frame: i64,
    most: &BTreeMap<String, i64>,
) -> Result<(Vec<String>, Vec<String>), String> {
    let (of, code) = functions(listing)?;
    let mut frames = BTreeMap::new();
    for (name, code) in &code {
        frames.insert(
            name.clone(),
            frame(of, code).map_err(|e| format!("{name}: {e}"))?,
        );
    }
    let called: BTreeSet<&String> = frames
        .values()
        .flat_map(|f| &f.calls)
        .map(|(name, _)| name)
        .collect();
    let (mut lines, mut wrong) = (vec![], vec![]);
    for (name, frame) in &frames {
        if frame.taken > most_frame {
            wrong.push(format!(
                "{name} has a frame of {} bytes, over {most_frame}",
                frame.taken
            ));
        }
        if !called.contains(name) && !most.contains_key(name) {
            wrong.push(format!("{name} is held to no figure"));
        }
    }
    for (name, most) in most {
        let Some(frame) = frames.get(name) else {
            wrong.push(format!("there is no {name}"));
            continue;
        };
        let (taken, way) = with_calls(name, of, &frames, &[])?;
        lines.push(format!(
            "{name}: frame {}, with all that it calls {taken} ({})",
            frame.taken,
            way.join(", ")
        ));
        if taken > *most {
            wrong.push(format!("{name} takes {taken} bytes, over {most}"));
        }
    }
    Ok((lines, wrong))
}

fn figures() -> Option<(i64, BTreeMap<String, i64>)> {
    let mut words = std::env::args().skip(1);
    let most_frame = number(&words.next()?)?;
    let most = words.map(|word| {
        let (name, most) = word.split_once('=')?;
        Some((name.to_string(), number(most)?))
    });
    Some((most_frame, most.collect::<Option<_>>()?))
}

fn main() -> ExitCode {
    let Some((most_frame, most)) = figures() else {
        eprintln!(
            "usage: objdump -dr --no-show-raw-insn LIBRARY | read MOST_FRAME FUNCTION=MOST .."
        );
        return ExitCode::from(2);
    };
    let mut listing = String::new();
    let read = std::io::stdin()
        .read_to_string(&mut listing)
        .map_err(|e| e.to_string());
    match read.and_then(|_| report(&listing, most_frame, &most)) {
        Ok((lines, wrong)) => {
            lines.iter().for_each(|line| println!("{line}"));
            wrong.iter().for_each(|line| println!("stack: {line}"));
            if wrong.is_empty() {
                ExitCode::SUCCESS
            } else {
                ExitCode::FAILURE
            }
        }
        Err(why) => {
            println!("stack: {why}");
            ExitCode::FAILURE
        }
    }
}
