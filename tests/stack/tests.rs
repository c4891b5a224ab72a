use std::collections::BTreeMap;

use crate::code::functions;
use crate::frames::{frame, with_calls};
use crate::report;

const X86: &str = "a.o:     file format elf64-x86-64\n\n0000000000000000 <f>:\n";
const ARM: &str = "a.o:     file format elf64-littleaarch64\n\n0000000000000000 <f>:\n";

/// What f takes by itself and with all that it calls, in a listing that starts so.
fn taken(start: &str, lines: &[&str]) -> Result<(i64, i64), String> {
    let (of, code) = functions(&(start.to_string() + &lines.join("\n")))?;
    let mut frames = BTreeMap::new();
    for (name, code) in &code {
        frames.insert(name.clone(), frame(of, code)?);
    }
    Ok((frames["f"].taken, with_calls("f", of, &frames, &[])?.0))
}

#[test]
fn takes_and_gives_back() {
    let lines = [
        " 0:\tpush   %rbx",
        " 1:\tsub    $0x20,%rsp",
        " 5:\tadd    $0x20,%rsp",
        " 9:\tpop    %rbx",
        " a:\tret",
    ];
    assert_eq!(taken(X86, &lines), Ok((48, 48)));
    let lines = [
        " 0:\tpushq  $0x1",
        " 2:\tlea    0x8(%rsp),%rsp",
        " 7:\tretq",
    ];
    assert_eq!(taken(X86, &lines), Ok((16, 16)));
    let lines = [
        " 0:\tsub\tsp, sp, #0x70",
        " 4:\tstp\tx29, x30, [sp, #16]",
        " 8:\tadd\tsp, sp, #0x70",
        " c:\tret",
    ];
    assert_eq!(taken(ARM, &lines), Ok((112, 112)));
    let lines = [
        " 0:\tstr\tx25, [sp, #-64]!",
        " 4:\tldr\tx25, [sp], #64",
        " 8:\tret",
    ];
    assert_eq!(taken(ARM, &lines), Ok((64, 64)));
}

#[test]
fn adds_up_along_calls() {
    let lines = [
        " 0:\tpush   %rbx",
        " 1:\tcall   6 <f+0x6>",
        "\t\t\t2: R_X86_64_PLT32\t.text.g-0x4",
        " 6:\tpop    %rbx",
        " 7:\tret",
        "0000000000000000 <g>:",
        " 0:\tsub    $0x10,%rsp",
        " 4:\tadd    $0x10,%rsp",
        " 8:\tret",
    ];
    assert_eq!(taken(X86, &lines), Ok((16, 40)));
    let lines = [
        " 0:\tstr\tx30, [sp, #-16]!",
        " 4:\tbl\t0 <f>",
        "\t\t\t4: R_AARCH64_CALL26\tmemset",
        " 8:\tldr\tx30, [sp], #16",
        " c:\tret",
    ];
    assert_eq!(taken(ARM, &lines), Ok((16, 16)));
}

#[test]
fn a_jump_to_another_function_leaves_nothing_behind() {
    let lines = [
        " 0:\tsub    $0x10,%rsp",
        " 4:\tadd    $0x10,%rsp",
        " 8:\tjmp    d <f+0xd>",
        "\t\t\t9: R_X86_64_PLT32\t.text.g-0x4",
        "0000000000000000 <g>:",
        " 0:\tpush   %rax",
        " 1:\tpop    %rax",
        " 2:\tret",
    ];
    assert_eq!(taken(X86, &lines), Ok((24, 24)));
}

#[test]
fn follows_every_path() {
    // The second way round takes more, behind the first return.
    let lines = [
        " 0:\tcbz\tx0, c <f+0xc>",
        " 4:\tmov\tx0, #0x0",
        " 8:\tret",
        " c:\tsub\tsp, sp, #0x200",
        "10:\tadd\tsp, sp, #0x200",
        "14:\tret",
    ];
    assert_eq!(taken(ARM, &lines), Ok((512, 512)));
}

#[test]
fn a_table_leads_to_what_is_left() {
    let lines = [
        " 0:\tpush   %rbx",
        " 1:\tnotrack jmp *%rax",
        " 3:\tsub    $0x10,%rsp",
        " 7:\tadd    $0x10,%rsp",
        " b:\tpop    %rbx",
        " c:\tret",
    ];
    assert_eq!(taken(X86, &lines), Ok((32, 32)));
}

#[test]
fn refuses_what_it_cant_follow() {
    let refused = |start, lines: &[&str]| assert!(taken(start, lines).is_err(), "{lines:?}");
    refused(X86, &[" 0:\tand    $0xfffffffffffffff0,%rsp", " 4:\tret"]);
    refused(X86, &[" 0:\tsub    %rax,%rsp", " 4:\tret"]);
    refused(X86, &[" 0:\tcall   *%rax", " 4:\tret"]);
    refused(X86, &[" 0:\tpush   %rax", " 1:\tjmp    0 <f>"]);
    refused(ARM, &[" 0:\tmov\tsp, x9", " 4:\tret"]);
    refused(ARM, &[" 0:\tsub\tsp, sp, x9", " 4:\tret"]);
    refused(ARM, &[" 0:\tblr\tx9", " 4:\tret"]);
    refused(ARM, &[" 0:\tbl\t0 <f>", " 4:\tret"]);
    refused(
        ARM,
        &[
            " 0:\tbl\t0 <f>",
            "\t\t\t0: R_AARCH64_CALL26\t.text.f",
            " 4:\tret",
        ],
    );
    refused(ARM, &[" 0:\tmov\tx0, #0x0"]);
}

#[test]
fn holds_to_figures() {
    let listing = ARM.to_string() + " 0:\tsub\tsp, sp, #0x70\n 4:\tadd\tsp, sp, #0x70\n 8:\tret\n";
    let wrong = |most_frame, figures: &[(&str, i64)]| {
        let most = figures
            .iter()
            .map(|&(name, most)| (name.to_string(), most))
            .collect();
        report(&listing, most_frame, &most).map(|(_, wrong)| wrong.len())
    };
    assert_eq!(wrong(112, &[("f", 112)]), Ok(0));
    assert_eq!(wrong(111, &[("f", 112)]), Ok(1));
    assert_eq!(wrong(112, &[("f", 111)]), Ok(1));
    assert_eq!(wrong(112, &[]), Ok(1));
    assert_eq!(wrong(112, &[("f", 112), ("g", 112)]), Ok(1));
}
