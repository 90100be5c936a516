//! Frames and depths of small disassemblies, of each form that occurs, and what has to be refused.

use crate::depth::{depths, Depth, OF_THE_C_LIBRARY};
use crate::frame::{frame_of, Callee, Frame};
use crate::object::Object;

/// A disassembly: for each function its name and its instructions, `|` before what a relocation names. Each instruction is one byte long, each function
/// stands in a section of its own.
fn code(functions: &[(&str, &[&str])]) -> String {
    let mut text = String::from("x.o:     file format elf64-x86-64\n\n");
    for (name, instructions) in functions {
        text += &format!("\nDisassembly of section .text.{name}:\n\n0000000000000000 <{name}>:\n");
        for (at, instruction) in instructions.iter().enumerate() {
            match instruction.split_once('|') {
                None => text += &format!("  {at:x}:\t{instruction}\n"),
                Some((front, place)) => {
                    text += &format!("  {at:x}:\t{front}\t{at:x}: R_X86_64_PLT32\t{place}\n")
                }
            }
        }
    }
    text
}

fn object(functions: &[(&str, &[&str])]) -> Object {
    Object::read(&code(functions), "").expect("an object")
}

fn frame(instructions: &[&str]) -> Result<Frame, String> {
    let object = object(&[("f", instructions)]);
    frame_of(&object, &object.functions[0])
}

fn own(instructions: &[&str]) -> u64 {
    frame(instructions).expect("a frame").own
}

fn depth_of(functions: &[(&str, &[&str])]) -> Result<Vec<Depth>, String> {
    depths(&object(functions))
}

#[track_caller]
fn refused<T: std::fmt::Debug>(what: Result<T, String>, why: &str) {
    let said = what.expect_err("refused");
    assert!(said.contains(why), "refused, but: {said}");
}

#[test]
fn frames() {
    assert_eq!(own(&["ret"]), 8);
    assert_eq!(
        own(&[
            "push   %rbp",
            "push   %rbx",
            "pop    %rbx",
            "pop    %rbp",
            "ret"
        ]),
        24
    );
    assert_eq!(
        own(&["sub    $0x28,%rsp", "add    $0x28,%rsp", "ret"]),
        8 + 0x28
    );
    // shorter to write: adding -128 takes 128, taking -128 adds them
    assert_eq!(
        own(&[
            "add    $0xffffffffffffff80,%rsp",
            "sub    $0xffffffffffffff80,%rsp",
            "ret"
        ]),
        8 + 128
    );
    assert_eq!(
        own(&["lea    -0x18(%rsp),%rsp", "lea    0x18(%rsp),%rsp", "ret"]),
        8 + 0x18
    );
    // an argument is put there before a call
    assert_eq!(
        frame(&[
            "sub    $0x8,%rsp",
            "push   0x20(%rsp)",
            "call   3 <f+0x3>|memset-0x4",
            "add    $0x10,%rsp",
            "ret"
        ])
        .unwrap()
        .calls[0]
            .above,
        24
    );
}

#[test]
fn frames_by_a_base() {
    assert_eq!(
        own(&[
            "push   %rbp",
            "mov    %rsp,%rbp",
            "sub    $0x40,%rsp",
            "leave",
            "ret"
        ]),
        16 + 0x40
    );
    // rounded down to 32: at most 24 bytes more
    assert_eq!(
        own(&[
            "push   %rbp",
            "mov    %rsp,%rbp",
            "push   %rbx",
            "and    $0xffffffffffffffe0,%rsp",
            "sub    $0x20,%rsp",
            "lea    -0x8(%rbp),%rsp",
            "pop    %rbx",
            "pop    %rbp",
            "ret"
        ]),
        24 + 24 + 0x20
    );
    // what %rbp was set to is gone once something else is put there
    refused(
        frame(&["mov    %rsp,%rbp", "mov    %rax,%rbp", "leave", "ret"]),
        "not read",
    );
}

#[test]
fn large_frames() {
    // page by page
    assert_eq!(
        own(&[
            "sub    $0x1000,%rsp",
            "movq   $0x0,(%rsp)",
            "sub    $0x6e8,%rsp",
            "add    $0x16e8,%rsp",
            "ret"
        ]),
        8 + 0x16e8
    );
    // in a loop, down to a register
    let taken = [
        "sub    $0x1000,%rsp",
        "movq   $0x0,(%rsp)",
        "cmp    %r11,%rsp",
    ];
    let left = ["sub    $0xc38,%rsp", "add    $0x16c38,%rsp", "ret"];
    let by_sub = [
        &["mov    %rsp,%r11", "sub    $0x16000,%r11"][..],
        &taken,
        &["jne    2 <f+0x2>"],
        &left,
    ];
    let by_lea = [
        &["lea    -0x16000(%rsp),%r11"][..],
        &taken,
        &["jne    1 <f+0x1>"],
        &left,
    ];
    assert_eq!(own(&by_sub.concat()), 8 + 0x16c38);
    assert_eq!(own(&by_lea.concat()), 8 + 0x16c38);
    let unknown = [
        &["mov    %rdi,%r11"][..],
        &taken,
        &["jne    1 <f+0x1>"],
        &left,
    ];
    refused(frame(&unknown.concat()), "unknown size");
    // by pieces smaller than a page, a whole number of them
    let by_pieces = |end: &'static str| {
        [
            "mov    %rsp,%r11",
            end,
            "sub    $0xc00,%rsp",
            "movq   $0x0,(%rsp)",
            "cmp    %r11,%rsp",
            "jne    2 <f+0x2>",
            "add    $0x6000,%rsp",
            "ret",
        ]
    };
    assert_eq!(own(&by_pieces("sub    $0x6000,%r11")), 8 + 0x6000);
    refused(frame(&by_pieces("sub    $0x6400,%r11")), "unknown size");
}

#[test]
fn buffers() {
    // the loop that touches it goes down by whole pieces, past its end
    let taken = |size: &'static str, past: &'static str| {
        [
            "push   %rbp",
            "mov    %rsp,%rbp",
            "mov    %rsp,%rsi",
            size,
            "cmp    %rsp,%rsi",
            past,
            "xorq   $0x0,(%rsp)",
            "sub    $0xc00,%rsp",
            "cmp    %rsp,%rsi",
            "jl     6 <f+0x6>",
            "mov    %rsi,%rsp",
            "mov    %rbp,%rsp",
            "pop    %rbp",
            "ret",
        ]
    };
    let past = "jge    a <f+0xa>";
    assert_eq!(own(&taken("sub    $0x90,%rsi", past)), 16 + 0xc00);
    assert_eq!(own(&taken("sub    $0xc08,%rsi", past)), 16 + 0x1800);
    refused(frame(&taken("sub    %rdi,%rsi", past)), "unknown size");
    refused(
        frame(&taken("sub    $0x90,%rsi", "jge    b <f+0xb>")),
        "unknown size",
    );
}

#[test]
fn below_the_stack_pointer() {
    assert_eq!(
        own(&[
            "push   %rbx",
            "mov    %rax,-0x58(%rsp)",
            "pop    %rbx",
            "ret"
        ]),
        16 + 128
    );
    assert_eq!(own(&["mov    %ax,-0x8(%rsp,%rcx,2)", "ret"]), 8 + 128);
    assert_eq!(own(&["mov    0x48(%rsp),%rbx", "ret"]), 8);
    assert_eq!(
        own(&[
            "push   %rbp",
            "mov    %rsp,%rbp",
            "mov    %edi,-0x14(%rbp)",
            "pop    %rbp",
            "ret"
        ]),
        16 + 128
    );
}

#[test]
fn both_ways_of_a_branch() {
    assert_eq!(
        own(&[
            "test   %rax,%rax",
            "je     5 <f+0x5>",
            "sub    $0x100,%rsp",
            "add    $0x100,%rsp",
            "ret",
            "push   %rbx",
            "pop    %rbx",
            "jmp    4 <f+0x4>"
        ]),
        8 + 0x100
    );
    refused(
        frame(&["je     2 <f+0x2>", "push   %rbx", "pop    %rcx", "ret"]),
        "two heights",
    );
}

#[test]
fn what_is_not_read_is_refused() {
    refused(frame(&["sub    %rax,%rsp", "ret"]), "not read");
    refused(frame(&["mov    %rax,%rsp", "ret"]), "not read");
    refused(frame(&["xchg   %rsp,%rax", "ret"]), "not read");
    refused(frame(&["sub    $0x10,%esp", "ret"]), "not read");
    refused(
        frame(&["and    $0xffffffffffffffe0,%rsp", "ret"]),
        "not read",
    );
    refused(frame(&["push   %rbx", "ret"]), "something left");
    refused(frame(&["pop    %rbx", "ret"]), "more is taken off");
    refused(frame(&["push   %rbx"]), "without a return");
    refused(frame(&["ret", "mov    %rax,%rbx"]), "nothing leads to");
    refused(frame(&["jmp    9 <f+0x9>", "ret"]), "nowhere");
    assert_eq!(own(&["ret", "nop", "data16 cs nopw 0x0(%rax,%rax,1)"]), 8);
}

#[test]
fn calls_by_a_pointer_are_refused() {
    refused(frame(&["call   *%rax", "ret"]), "a call by a pointer");
    refused(frame(&["call   *0x8(%rdi)", "ret"]), "a call by a pointer");
    refused(frame(&["jmp    *%rax"]), "goes by no table");
}

#[test]
fn jumps_by_a_table() {
    let code = code(&[(
        "f",
        &[
            "lea    0x0(%rip),%rcx|.rodata.f+0x4",
            "jmp    *%rax",
            "push   %rbx",
            "pop    %rbx",
            "ret",
            "ret",
        ],
    )]);
    // a table at 8 of .rodata.f: its first entry leads to 2, its second to 5
    let table = "RELOCATION RECORDS FOR [.rodata.f]:\nOFFSET           TYPE              VALUE\n\
        0000000000000008 R_X86_64_PC32     .text.f+0x0000000000000002\n\
        000000000000000c R_X86_64_PC32     .text.f+0x0000000000000009\n";
    let object = Object::read(&code, table).expect("an object");
    assert_eq!(object.functions[0].tables, [2, 5]);
    assert_eq!(frame_of(&object, &object.functions[0]).unwrap().own, 16);
    // one entry is missing: what it leads to is noticed
    let shorter = table.rsplit_once("000000000000000c").unwrap().0;
    let object = Object::read(&code, shorter).expect("an object");
    refused(frame_of(&object, &object.functions[0]), "nothing leads to");
    let absolute = table.replace("PC32", "64");
    refused(Object::read(&code, &absolute), "a table that is not read");
}

const LEAF: (&str, &[&str]) = ("leaf", &["sub    $0x10,%rsp", "add    $0x10,%rsp", "ret"]);

#[test]
fn the_deepest_path() {
    let middle: &[&str] = &[
        "push   %rbx",
        "call   2 <middle+0x2>|.text.leaf-0x4",
        "sub    $0x100,%rsp",
        "call   4 <middle+0x4>|memcpy-0x4",
        "add    $0x100,%rsp",
        "pop    %rbx",
        "ret",
    ];
    let top: &[&str] = &[
        "sub    $0x1000,%rsp",
        "call   2 <top+0x2>|middle-0x4",
        "add    $0x1000,%rsp",
        "call   4 <top+0x4>|leaf-0x4",
        "ret",
    ];
    let depths = depth_of(&[LEAF, ("middle", middle), ("top", top)]).expect("depths");
    let bytes: Vec<_> = depths.iter().map(|depth| depth.bytes).collect();
    let of_middle = 16 + 0x100 + OF_THE_C_LIBRARY;
    assert_eq!(bytes, [24, of_middle, 8 + 0x1000 + of_middle]);
    let path: Vec<_> = depths[2].path.iter().map(|stop| &stop.name[..]).collect();
    assert_eq!(path, ["top", "middle", "memcpy"]);
    let sum: u64 = depths[2].path.iter().map(|stop| stop.bytes).sum();
    assert_eq!(sum, depths[2].bytes);
    assert_eq!(
        depths[2].outside.iter().collect::<Vec<_>>(),
        ["memcpy"],
        "what is called outside"
    );
}

#[test]
fn a_call_that_takes_the_place_of_a_return() {
    // nothing of this function is left on the stack then
    let goes_on: &[&str] = &[
        "sub    $0x8,%rsp",
        "add    $0x8,%rsp",
        "jmp    3 <goes_on+0x3>|.text.leaf-0x4",
    ];
    let depths = depth_of(&[LEAF, ("goes_on", goes_on)]).expect("depths");
    assert_eq!(depths[1].bytes, 24);
    assert_eq!(depths[1].path.len(), 2);
    let outside = frame(&["jmp    1 <f+0x1>|memset-0x4"]).expect("a frame");
    assert_eq!(outside.calls[0].to, Callee::Outside("memset".to_string()));
    assert_eq!(outside.calls[0].above, 0);
    refused(
        frame(&["push   %rbx", "jmp    2 <f+0x2>|memset-0x4"]),
        "above a frame",
    );
}

#[test]
fn what_calls_itself_is_refused() {
    let itself: &[&str] = &["call   1 <itself+0x1>|.text.itself-0x4", "ret"];
    refused(
        depth_of(&[LEAF, ("itself", itself)]),
        "itself calls itself: itself > itself",
    );
    // within one section a call needs no relocation
    refused(
        depth_of(&[("itself", &["call   0 <itself>", "ret"])]),
        "calls itself",
    );
    let one: &[&str] = &["call   1 <one+0x1>|.text.two-0x4", "ret"];
    let two: &[&str] = &[
        "call   1 <two+0x1>|.text.leaf-0x4",
        "jmp    2 <two+0x2>|one-0x4",
    ];
    refused(
        depth_of(&[LEAF, ("one", one), ("two", two)]),
        "one calls itself round about: one > two > one",
    );
}

#[test]
fn what_is_exported() {
    let records = "SYMBOL TABLE:\n\
        0000000000000000 l     F .text.a::b\t0000000000000010 a::b\n\
        0000000000000000 g     F .text.plan\t0000000000000010 plan\n\
        0000000000000000         *UND*\t0000000000000000 memcpy\n";
    let object = Object::read(&code(&[LEAF]), records).expect("an object");
    assert_eq!(object.exported, ["plan"]);
}
