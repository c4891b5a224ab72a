//! What functions take: each by itself, and along its calls.

use std::collections::{BTreeMap, BTreeSet};

use crate::code::{Effect, Instruction, Processor};

/// What a function takes by itself, and at which depth it calls which others.
#[derive(Default)]
pub struct Frame {
    pub taken: i64,
    pub calls: BTreeSet<(String, i64)>,
}

/// The paths through a function, as far as they are followed.
struct Walk<'a> {
    of: Processor,
    code: &'a [Instruction],
    /// How much is taken at each instruction, where a path has come to it.
    depths: Vec<Option<i64>>,
    /// How much is taken where a table says how it goes on.
    tables: BTreeSet<i64>,
    frame: Frame,
}

impl Walk<'_> {
    /// Follows every path from an instruction on.
    fn from(&mut self, start: usize, depth: i64) -> Result<(), String> {
        let mut ways = vec![(start, depth)];
        while let Some((i, depth)) = ways.pop() {
            let seen = self.depths.get(i).ok_or("a path runs past the end")?;
            if seen.is_some_and(|other| other != depth) {
                return Err(format!("two depths at {:x}", self.code[i].at));
            }
            if seen.is_none() {
                self.depths[i] = Some(depth);
                ways.extend(self.step(i, depth)?);
            }
        }
        Ok(())
    }

    /// Where it goes on from an instruction.
    fn step(&mut self, i: usize, depth: i64) -> Result<Vec<(usize, i64)>, String> {
        let c = &self.code[i];
        let frame = &mut self.frame;
        frame.taken = frame.taken.max(depth);
        match (&c.effect, &c.names) {
            (Effect::Take(bytes), _) => return Ok(vec![(i + 1, depth + bytes)]),
            (Effect::Call, None) => return Err(format!("it calls itself at {:x}", c.at)),
            (Effect::Call, Some(name)) => {
                frame.calls.insert((name.clone(), depth));
            }
            (Effect::Jump { to, may_fall }, names) => {
                let mut ways = vec![];
                if *may_fall {
                    ways.push((i + 1, depth));
                }
                if let Some(name) = names {
                    // To another function, which returns for this one.
                    let before = depth - self.of.at_entry();
                    frame.calls.insert((name.clone(), before));
                } else {
                    let to = self.code.iter().position(|c| c.at == *to);
                    ways.push((to.ok_or("a jump leads out")?, depth));
                }
                return Ok(ways);
            }
            (Effect::Table, _) => {
                self.tables.insert(depth);
                return Ok(vec![]);
            }
            (Effect::Return, _) => return Ok(vec![]),
            (Effect::Other, _) => {}
        }
        Ok(vec![(i + 1, depth)])
    }
}

/// Follows every path through a function.
pub fn frame(of: Processor, code: &[Instruction]) -> Result<Frame, String> {
    let mut walk = Walk {
        of,
        code,
        depths: vec![None; code.len()],
        tables: BTreeSet::new(),
        frame: Frame::default(),
    };
    walk.from(0, of.at_entry())?;
    // Where tables lead is not in the listing: to all that no path has come to, with the stack as it is. Rattle has no function pointers, so that
    // no jump through a register is a call.
    let tables: Vec<i64> = walk.tables.iter().copied().collect();
    while let (Some(start), [depth, others @ ..]) =
        (walk.depths.iter().position(Option::is_none), &tables[..])
    {
        if !others.is_empty() {
            return Err("tables at different depths".to_string());
        }
        walk.from(start, *depth)?;
    }
    Ok(walk.frame)
}

/// The stack that a function takes with all that it calls, and the functions on the way to the
/// deepest place.
pub fn with_calls(
    name: &str,
    of: Processor,
    frames: &BTreeMap<String, Frame>,
    above: &[&str],
) -> Result<(i64, Vec<String>), String> {
    if above.contains(&name) {
        return Err(format!("{name} calls itself"));
    }
    let Some(frame) = frames.get(name) else {
        return Ok((of.at_entry(), vec![name.to_string()]));
    };
    let above = [above, &[name]].concat();
    let mut deepest = (frame.taken, vec![]);
    for (callee, depth) in &frame.calls {
        let (taken, way) = with_calls(callee, of, frames, &above)?;
        if deepest.0 < depth + taken {
            deepest = (depth + taken, way);
        }
    }
    deepest.1.insert(0, name.to_string());
    Ok(deepest)
}
