//! The listing of objdump, as the functions in it: what each instruction does to the stack, and
//! where it goes on.

use std::collections::BTreeMap;

/// What an instruction does to the stack and to where the function goes on.
pub enum Effect {
    /// Takes so many bytes; gives them back where negative.
    Take(i64),
    /// Calls the function that the relocation or the operand names.
    Call,
    /// Goes to the address, and on to the next instruction too where it may.
    Jump {
        to: u64,
        may_fall: bool,
    },
    /// Goes where a table says.
    Table,
    Return,
    /// Does neither.
    Other,
}

pub struct Instruction {
    pub at: u64,
    pub effect: Effect,
    /// What the linker is to put there: the name of a function, if it is a call or a jump.
    pub names: Option<String>,
}

#[derive(Clone, Copy)]
pub enum Processor {
    X86,
    Arm,
}

impl Processor {
    /// What a call has taken when the function starts: the return address.
    pub fn at_entry(self) -> i64 {
        match self {
            Processor::X86 => 8,
            Processor::Arm => 0,
        }
    }

    fn effect(self, mnemonic: &str, operands: &str) -> Result<Effect, String> {
        match self {
            Processor::X86 => x86(mnemonic, operands),
            Processor::Arm => arm(mnemonic, operands),
        }
        .ok_or_else(|| format!("can't follow {mnemonic} {operands}"))
    }
}

/// A number as objdump writes it, `0x1f` or `31`, with a sign perhaps.
pub fn number(text: &str) -> Option<i64> {
    let (sign, digits) = match text.strip_prefix('-') {
        Some(digits) => (-1, digits),
        None => (1, text),
    };
    let value = match digits.strip_prefix("0x") {
        Some(hex) => i64::from_str_radix(hex, 16),
        None => digits.parse(),
    };
    value.ok().map(|value| sign * value)
}

/// The address that a jump names, `4c <name+0x4c>`, as its last operand.
fn target(operands: &str) -> Option<u64> {
    let (before, _) = operands.split_once(" <")?;
    let address = before.rsplit([' ', ',']).next()?;
    u64::from_str_radix(address, 16).ok()
}

fn jump(operands: &str, may_fall: bool) -> Option<Effect> {
    target(operands).map(|to| Effect::Jump { to, may_fall })
}

fn x86(mnemonic: &str, operands: &str) -> Option<Effect> {
    // Older listings name the width of what is always eight bytes.
    let mnemonic = match mnemonic {
        "pushq" | "popq" | "callq" | "retq" | "jmpq" => mnemonic.trim_end_matches('q'),
        _ => mnemonic,
    };
    let (source, into) = match operands.rsplit_once(',') {
        Some((source, into)) => (source, into),
        None => ("", operands),
    };
    let sets_stack = ["%rsp", "%esp", "%sp"].contains(&into);
    match mnemonic {
        "push" => Some(Effect::Take(8)),
        "pop" if !sets_stack => Some(Effect::Take(-8)),
        "sub" if sets_stack => Some(Effect::Take(number(source.strip_prefix('$')?)?)),
        "add" if sets_stack => Some(Effect::Take(-number(source.strip_prefix('$')?)?)),
        "lea" if sets_stack => Some(Effect::Take(-number(source.strip_suffix("(%rsp)")?)?)),
        "cmp" | "test" => Some(Effect::Other),
        "call" => (!operands.contains('*')).then_some(Effect::Call),
        "jmp" if operands.contains('*') => Some(Effect::Table),
        "jmp" => jump(operands, false),
        "ret" | "ud2" => Some(Effect::Return),
        _ if mnemonic.starts_with('j') => jump(operands, true),
        "leave" | "enter" => None,
        "xchg" if operands.contains("sp") => None,
        _ if sets_stack => None,
        _ if mnemonic.starts_with("push") || mnemonic.starts_with("pop") => {
            // popcnt is the one that has nothing to do with the stack.
            (mnemonic == "popcnt").then_some(Effect::Other)
        }
        _ => Some(Effect::Other),
    }
}

fn arm(mnemonic: &str, operands: &str) -> Option<Effect> {
    // A store that moves the stack pointer first, a load that moves it afterwards.
    if let Some((_, moved)) = operands.split_once("[sp, #") {
        if let Some(by) = moved.strip_suffix("]!") {
            return Some(Effect::Take(-number(by)?));
        }
    }
    if let Some((_, by)) = operands.split_once("[sp], ") {
        return Some(Effect::Take(-number(by.strip_prefix('#')?)?));
    }
    match mnemonic {
        "sub" | "add" if operands.starts_with("sp, ") => {
            let by = number(operands.strip_prefix("sp, sp, #")?)?;
            Some(Effect::Take(if mnemonic == "sub" { by } else { -by }))
        }
        "cmp" | "cmn" | "tst" => Some(Effect::Other),
        _ if operands == "sp" || operands.starts_with("sp, ") => None,
        "bl" => Some(Effect::Call),
        "blr" => None,
        "b" => jump(operands, false),
        "br" => Some(Effect::Table),
        "cbz" | "cbnz" | "tbz" | "tbnz" => jump(operands, true),
        "ret" | "udf" => Some(Effect::Return),
        _ if mnemonic.starts_with("b.") => jump(operands, true),
        _ => Some(Effect::Other),
    }
}

pub type Code = BTreeMap<String, Vec<Instruction>>;

/// The functions of a listing, each with its instructions.
pub fn functions(listing: &str) -> Result<(Processor, Code), String> {
    let mut processor = None;
    let mut code = Code::new();
    let mut name = String::new();
    for line in listing.lines() {
        if let Some((_, format)) = line.split_once("file format ") {
            processor = Some(match format {
                "elf64-x86-64" => Processor::X86,
                "elf64-littleaarch64" => Processor::Arm,
                _ => return Err(format!("can't read {format}")),
            });
        } else if let Some(named) = line.strip_suffix(">:") {
            let (_, named) = named.split_once(" <").ok_or(line)?;
            name = named.to_string();
            if code.insert(name.clone(), Vec::new()).is_some() {
                return Err(format!("two functions are called {name}"));
            }
        } else if let Some((at, text)) = line.split_once(":\t") {
            let of = processor.ok_or("no file format is said")?;
            let instruction = instruction(of, at, text).map_err(|e| format!("{name}: {e}"))?;
            code.get_mut(&name).ok_or(line)?.push(instruction);
        } else if let Some((_, relocation)) = line.split_once(": R_") {
            let last = code.get_mut(&name).and_then(|all| all.last_mut());
            last.ok_or(line)?.names = relocation.split_once('\t').map(|(_, to)| function(to));
        }
    }
    let processor = processor.ok_or("the listing has no functions")?;
    Ok((processor, code))
}

/// Words before a mnemonic of x86-64.
const PREFIXES: [&str; 7] = ["rep", "repz", "repnz", "lock", "notrack", "data16", "cs"];

fn instruction(of: Processor, at: &str, text: &str) -> Result<Instruction, String> {
    let at = u64::from_str_radix(at.trim(), 16).map_err(|e| e.to_string())?;
    // Arm's listing has remarks behind //.
    let text = text.split("  //").next().unwrap_or(text).replace('\t', " ");
    let mut words = text.split_whitespace().peekable();
    while words.next_if(|word| PREFIXES.contains(word)).is_some() {}
    let mnemonic = words.next().unwrap_or("nop");
    let operands = words.collect::<Vec<_>>().join(" ");
    let effect = of.effect(mnemonic, &operands)?;
    Ok(Instruction {
        at,
        effect,
        names: None,
    })
}

/// The function that a relocation names, `.text.slots::group-0x4`.
fn function(relocation: &str) -> String {
    let name = relocation.strip_prefix(".text.").unwrap_or(relocation);
    match name.rfind(['+', '-']) {
        Some(end) if number(&name[end + 1..]).is_some() => name[..end].to_string(),
        _ => name.to_string(),
    }
}
