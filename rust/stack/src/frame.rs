//! What one function puts on the stack: its height at every instruction, found by following every way through its code.
//!
//! A height counts the bytes from above the return address down to the stack pointer. Every instruction has to have one height only, every one has to be
//! reached, and a return has to be at the height of the return address alone; whatever moves the stack pointer in a way that is not read is a fault. So a
//! misread function is noticed.

use crate::object::{Function, Instruction, Object, Place};

/// The return address.
const RETURN: i64 = 8;

/// A function that calls nothing may use so many bytes below its stack pointer.
const RED_ZONE: i64 = 128;

/// Large frames are taken by pieces, each no larger than a page.
const PAGE: i64 = 4096;

#[derive(Clone, Debug, PartialEq)]
pub enum Callee {
    Inside(usize),
    Outside(String),
}

/// A call, and how many bytes lie above the return address that is the callee's.
#[derive(Clone, Debug, PartialEq)]
pub struct Call {
    pub to: Callee,
    pub above: u64,
}

#[derive(Clone, Debug, PartialEq)]
pub struct Frame {
    /// The return address, the frame at its deepest, and the red zone where it is used.
    pub own: u64,
    pub calls: Vec<Call>,
}

/// The height, and that at which %rbp was set, while it stands for a height.
#[derive(Clone, Copy, Debug, PartialEq)]
struct State {
    height: i64,
    base: Option<i64>,
}

/// What follows an instruction.
enum Next {
    Falls,
    Ends,
    Jumps { to: u64, falls: bool },
    ByTable,
}

pub fn frame_of(object: &Object, function: &Function) -> Result<Frame, String> {
    let mut walk = Walk {
        object,
        function,
        states: vec![None; function.code.len()],
        waiting: Vec::new(),
        deepest: RETURN,
        calls: Vec::new(),
    };
    walk.arrive(
        0,
        State {
            height: RETURN,
            base: None,
        },
    )?;
    while let Some(place) = walk.waiting.pop() {
        walk.step(place)?;
    }
    walk.all_reached()?;
    walk.calls.sort_by_key(|call| call.above);
    walk.calls.dedup();
    Ok(Frame {
        own: walk.deepest as u64,
        calls: walk.calls,
    })
}

struct Walk<'a> {
    object: &'a Object,
    function: &'a Function,
    states: Vec<Option<State>>,
    waiting: Vec<usize>,
    deepest: i64,
    calls: Vec<Call>,
}

impl Walk<'_> {
    fn fault<T>(&self, place: usize, what: &str) -> Result<T, String> {
        let instruction = &self.function.code[place];
        Err(format!(
            "{}: {what} at {:x}: {}",
            self.function.name, instruction.at, instruction.text
        ))
    }

    fn arrive(&mut self, place: usize, state: State) -> Result<(), String> {
        if state.height < RETURN {
            return self.fault(
                place,
                "more is taken off the stack than was put there, before",
            );
        }
        self.deepest = self.deepest.max(state.height);
        match self.states[place] {
            None => {
                self.states[place] = Some(state);
                self.waiting.push(place);
            }
            Some(before) if before.height != state.height => {
                return self.fault(place, "two heights of the stack");
            }
            Some(before) if before.base.is_some() && before.base != state.base => {
                self.states[place] = Some(State {
                    base: None,
                    ..before
                });
                self.waiting.push(place);
            }
            Some(_) => {}
        }
        Ok(())
    }

    fn step(&mut self, place: usize) -> Result<(), String> {
        let Some(state) = self.states[place] else {
            return Ok(());
        };
        if let Some(size) = self.probes(place)? {
            return self.probe_loop(place, state, size);
        }
        if let Some((size, deepest)) = self.buffer(place)? {
            return self.buffer_loop(place, state, size, deepest);
        }
        let instruction = &self.function.code[place];
        let (name, operands) = parts_of(&instruction.text);
        if operands.last() != Some(&"%rsp") && reaches_below(&operands, state) {
            self.deepest = self.deepest.max(state.height + RED_ZONE);
        }
        let after = match moved(name, &operands, state) {
            Some(after) => after,
            None => return self.fault(place, "the stack pointer moves in a way that is not read"),
        };
        match self.next(place, name, &operands, state)? {
            Next::Falls => self.fall(place, after),
            Next::Ends => Ok(()),
            Next::Jumps { to, falls } => {
                let Some(target) = self.place_at(to) else {
                    return self.fault(place, "a jump into nowhere");
                };
                self.arrive(target, after)?;
                if falls {
                    self.fall(place, after)?;
                }
                Ok(())
            }
            Next::ByTable => {
                if self.function.tables.is_empty() {
                    return self.fault(place, "a jump that goes by no table");
                }
                for to in &self.function.tables {
                    match self.place_at(*to) {
                        Some(target) => self.arrive(target, after)?,
                        None => return self.fault(place, "a table that leads into nowhere"),
                    }
                }
                Ok(())
            }
        }
    }

    fn fall(&mut self, place: usize, state: State) -> Result<(), String> {
        if place + 1 < self.function.code.len() {
            return self.arrive(place + 1, state);
        }
        self.fault(place, "the code ends without a return")
    }

    fn place_at(&self, at: u64) -> Option<usize> {
        self.function.code.iter().position(|i| i.at == at)
    }

    fn next(
        &mut self,
        place: usize,
        name: &str,
        operands: &[&str],
        state: State,
    ) -> Result<Next, String> {
        match name {
            "ret" | "retq" if operands.is_empty() => {
                if state.height != RETURN {
                    return self.fault(place, "a return with something left on the stack");
                }
                Ok(Next::Ends)
            }
            "ud2" | "hlt" | "int3" => Ok(Next::Ends),
            "call" | "callq" => {
                let to = self.callee(place, operands)?;
                // a call of what never comes back may end the code
                let outside = matches!(to, Callee::Outside(_));
                self.calls.push(Call {
                    to,
                    above: state.height as u64,
                });
                let last = place + 1 == self.function.code.len();
                Ok(if outside && last {
                    Next::Ends
                } else {
                    Next::Falls
                })
            }
            _ if name.starts_with('j') => self.jump(place, name, operands, state),
            _ if name.starts_with("ret") || name.starts_with("loop") || name == "enter" => {
                self.fault(place, "an instruction that is not read")
            }
            _ => Ok(Next::Falls),
        }
    }

    /// A jump within the function, by a table, or into another function, which then returns in this one's place.
    fn jump(
        &mut self,
        place: usize,
        name: &str,
        operands: &[&str],
        state: State,
    ) -> Result<Next, String> {
        let falls = !matches!(name, "jmp" | "jmpq");
        if operands.first().is_some_and(|o| o.starts_with('*')) {
            return Ok(Next::ByTable);
        }
        let instruction = &self.function.code[place];
        if instruction.places.is_empty() {
            if let Some(to) = target_of(operands) {
                if self.place_at(to).is_some() {
                    return Ok(Next::Jumps { to, falls });
                }
            }
        }
        let to = self.callee(place, operands)?;
        if state.height != RETURN {
            return self.fault(place, "another function is gone on with above a frame");
        }
        self.calls.push(Call { to, above: 0 });
        Ok(if falls { Next::Falls } else { Next::Ends })
    }

    fn callee(&self, place: usize, operands: &[&str]) -> Result<Callee, String> {
        if operands.first().is_some_and(|o| o.starts_with('*')) {
            return self.fault(place, "a call by a pointer");
        }
        let instruction = &self.function.code[place];
        let found = match instruction.places.first() {
            Some(to) => self.named(to),
            None => target_of(operands)
                .and_then(|at| self.object.starting_at(&self.function.section, at))
                .map(Callee::Inside),
        };
        match found {
            Some(callee) => Ok(callee),
            None => self.fault(place, "a call into nowhere"),
        }
    }

    /// A relocation counts from the end of its four bytes.
    fn named(&self, place: &Place) -> Option<Callee> {
        if let Some(function) = self.object.named(&place.name) {
            return (place.plus == -4).then_some(Callee::Inside(function));
        }
        if place.name.starts_with(".text") {
            let at = u64::try_from(place.plus + 4).ok()?;
            return self.object.starting_at(&place.name, at).map(Callee::Inside);
        }
        (place.plus == -4).then(|| Callee::Outside(place.name.clone()))
    }

    /// A frame of many pages is taken in a loop that touches each, down to where a register was set before it:
    /// `mov %rsp,%r11; sub $N,%r11` or `lea -N(%rsp),%r11`, then `sub $PIECE,%rsp; movq $0x0,(%rsp); cmp %r11,%rsp; jne` back to the `sub`.
    fn probes(&self, place: usize) -> Result<Option<i64>, String> {
        let code = &self.function.code;
        let text = |i: usize| code.get(i).map_or("", |x: &Instruction| x.text.as_str());
        let (compare, ends) = parts_of(text(place + 2));
        let (jump, to) = parts_of(text(place + 3));
        let Some(piece) = piece_of(text(place)) else {
            return Ok(None);
        };
        let back = jump == "jne" && target_of(&to) == Some(code[place].at);
        if !back || compare != "cmp" || ends.get(1) != Some(&"%rsp") {
            return Ok(None);
        }
        let end = ends[0];
        let size = match place.checked_sub(1).map(|i| parts_of(text(i))) {
            Some(("lea", o)) if o.len() == 2 && o[1] == end => offset(o[0], "%rsp").map(|n| -n),
            Some(("sub", o)) if o.len() == 2 && o[1] == end => match place.checked_sub(2) {
                Some(i) if parts_of(text(i)) == ("mov", vec!["%rsp", end]) => number(o[0]),
                _ => None,
            },
            _ => None,
        };
        match size {
            Some(size) if size > 0 && size % piece == 0 => Ok(Some(size)),
            _ => self.fault(place, "a frame of unknown size is taken"),
        }
    }

    /// A buffer of known size within a block of code, and how far the loop that touches it may go down:
    /// `mov %rsp,%rsi; sub $N,%rsi`, then `cmp %rsp,%rsi; jge` past the loop `xorq $0x0,(%rsp); sub $PIECE,%rsp; cmp %rsp,%rsi; jl`, and `mov %rsi,%rsp`.
    fn buffer(&self, place: usize) -> Result<Option<(i64, i64)>, String> {
        let code = &self.function.code;
        let parts = |i: usize| {
            parts_of(
                code.get(place + i)
                    .map_or("", |x: &Instruction| x.text.as_str()),
            )
        };
        let jumps = |i: usize, name: &str, to: usize| {
            let (jump, where_to) = parts(i);
            jump == name && code.get(place + to).map(|x| x.at) == target_of(&where_to)
        };
        let ("mov", from) = parts(0) else {
            return Ok(None);
        };
        let &[pointer, end] = from.as_slice() else {
            return Ok(None);
        };
        let compared = ("cmp", vec!["%rsp", end]);
        if pointer != "%rsp" || parts(2) != compared || parts(6) != compared {
            return Ok(None);
        }
        let whole = jumps(3, "jge", 8)
            && parts(4) == ("xorq", vec!["$0x0", "(%rsp)"])
            && jumps(7, "jl", 4)
            && parts(8) == ("mov", vec![end, "%rsp"]);
        let size = match parts(1) {
            ("sub", o) if o.len() == 2 && o[1] == end => number(o[0]),
            _ => None,
        };
        match (
            whole,
            size,
            code.get(place + 5).and_then(|x| piece_of(&x.text)),
        ) {
            (true, Some(size), Some(piece)) if size > 0 && size % 8 == 0 => {
                Ok(Some((size, (size + piece - 1) / piece * piece)))
            }
            _ => self.fault(place, "a buffer of unknown size is taken"),
        }
    }

    fn buffer_loop(
        &mut self,
        place: usize,
        state: State,
        size: i64,
        deepest: i64,
    ) -> Result<(), String> {
        let at = |more: i64| State {
            height: state.height + more,
            ..state
        };
        self.deepest = self.deepest.max(at(deepest).height);
        for i in place + 1..place + 9 {
            self.states[i] = Some(at(deepest));
        }
        self.fall(place + 8, at(size))
    }

    fn probe_loop(&mut self, place: usize, state: State, size: i64) -> Result<(), String> {
        let after = State {
            height: state.height + size,
            ..state
        };
        for i in place..place + 4 {
            self.states[i] = Some(after);
        }
        self.fall(place + 3, after)
    }

    fn all_reached(&self) -> Result<(), String> {
        for (place, state) in self.states.iter().enumerate() {
            let text = &self.function.code[place].text;
            let (name, operands) = parts_of(text);
            let idle = name.starts_with("nop")
                || (name == "xchg" && operands == ["%ax", "%ax"])
                || matches!(name, "int3" | "ud2" | "hlt");
            if state.is_none() && !idle {
                return self.fault(place, "code that nothing leads to");
            }
        }
        Ok(())
    }
}

/// The state after an instruction, or none where it moves the stack pointer in a way that is not read.
fn moved(name: &str, operands: &[&str], state: State) -> Option<State> {
    let by = |more: i64| {
        Some(State {
            height: state.height + more,
            ..state
        })
    };
    let lost = State {
        base: None,
        ..state
    };
    match (name, operands) {
        ("push" | "pushq" | "pushf" | "pushfq", _) => by(8),
        ("pop" | "popq", ["%rsp"]) => None,
        ("pop" | "popq", [to]) => Some(State {
            height: state.height - 8,
            base: state.base.filter(|_| !is_base(to)),
        }),
        ("popf" | "popfq", _) => by(-8),
        ("sub" | "subq", [n, "%rsp"]) => by(number(n)?),
        ("add" | "addq", [n, "%rsp"]) => by(-number(n)?),
        ("lea" | "leaq", [from, "%rsp"]) => match offset(from, "%rsp") {
            Some(n) => by(-n),
            None => Some(State {
                height: state.base? - offset(from, "%rbp")?,
                ..state
            }),
        },
        ("mov" | "movq", ["%rsp", "%rbp"]) => Some(State {
            base: Some(state.height),
            ..state
        }),
        ("mov" | "movq", ["%rbp", "%rsp"]) => Some(State {
            height: state.base?,
            ..state
        }),
        ("leave" | "leaveq", _) => Some(State {
            height: state.base? - 8,
            base: None,
        }),
        // the pointer is a multiple of 8: rounding it down takes 8 bytes less than the unit at most
        ("and" | "andq", [n, "%rsp"]) => {
            state.base?;
            let unit = number(n)?.checked_neg()?;
            (unit >= 8 && unit.count_ones() == 1).then_some(())?;
            by(unit - 8)
        }
        ("xchg" | "xadd" | "cmpxchg", _) if operands.iter().any(|o| is_pointer(o)) => None,
        ("xchg" | "xadd" | "cmpxchg", _) if operands.iter().any(|o| is_base(o)) => Some(lost),
        ("enter", _) => None,
        _ if name.starts_with("cmp") || name.starts_with("test") => Some(state),
        (_, [.., to]) if is_pointer(to) => None,
        (_, [.., to]) if is_base(to) => Some(lost),
        _ => Some(state),
    }
}

/// The piece by which a loop takes a frame.
fn piece_of(text: &str) -> Option<i64> {
    match parts_of(text) {
        ("sub", o) if o.len() == 2 && o[1] == "%rsp" => {
            number(o[0]).filter(|n| (8..=PAGE).contains(n) && n % 8 == 0)
        }
        _ => None,
    }
}

fn is_pointer(operand: &str) -> bool {
    matches!(operand, "%rsp" | "%esp" | "%sp" | "%spl")
}

fn is_base(operand: &str) -> bool {
    matches!(operand, "%rbp" | "%ebp" | "%bp" | "%bpl")
}

/// Whether an operand lies below the stack pointer.
fn reaches_below(operands: &[&str], state: State) -> bool {
    operands.iter().any(|operand| {
        let below = |register| displacement(operand, register);
        below("%rsp").is_some_and(|n| n < 0)
            || state
                .base
                .zip(below("%rbp"))
                .is_some_and(|(base, n)| base - n > state.height)
    })
}

/// `0x20(%rsp)`, and nothing but the register in the brackets.
fn offset(operand: &str, register: &str) -> Option<i64> {
    let (_, inner) = operand.split_once('(')?;
    (inner.strip_suffix(')')? == register)
        .then(|| displacement(operand, register))
        .flatten()
}

/// `0x20(%rsp,%rax,8)`: the number before the brackets.
fn displacement(operand: &str, register: &str) -> Option<i64> {
    let (before, inner) = operand.split_once('(')?;
    if !inner.starts_with(register) {
        return None;
    }
    let before = before.rsplit(':').next().unwrap_or(before);
    if before.is_empty() {
        return Some(0);
    }
    hexadecimal(before)
}

/// `$0x28`; what is too large for a signed number is a negative one.
fn number(operand: &str) -> Option<i64> {
    hexadecimal(operand.strip_prefix('$')?)
}

fn hexadecimal(text: &str) -> Option<i64> {
    match text.strip_prefix('-') {
        Some(rest) => hexadecimal(rest)?.checked_neg(),
        None => u64::from_str_radix(text.strip_prefix("0x")?, 16)
            .ok()
            .map(|n| n as i64),
    }
}

/// `1a8 <name+0x1a8>`
fn target_of(operands: &[&str]) -> Option<u64> {
    let word = operands.first()?.split_whitespace().next()?;
    u64::from_str_radix(word, 16).ok()
}

const PREFIXES: [&str; 14] = [
    "bnd", "notrack", "lock", "rep", "repz", "repnz", "data16", "addr32", "cs", "ds", "es", "fs",
    "gs", "ss",
];

/// The name of an instruction, its prefixes left out, and its operands.
fn parts_of(text: &str) -> (&str, Vec<&str>) {
    let mut rest = text.trim();
    loop {
        let (word, after) = rest.split_once(char::is_whitespace).unwrap_or((rest, ""));
        if PREFIXES.contains(&word) || word.starts_with("rex") {
            rest = after.trim_start();
            continue;
        }
        return (word, operands_of(after.trim()));
    }
}

/// Set apart by commas, but for those in brackets. A target in angle brackets belongs to its address, whatever is in it.
fn operands_of(text: &str) -> Vec<&str> {
    if text.contains(" <") {
        return vec![text];
    }
    let mut found = Vec::new();
    let mut depth = 0;
    let mut from = 0;
    for (at, letter) in text.char_indices() {
        match letter {
            '(' => depth += 1,
            ')' => depth -= 1,
            ',' if depth == 0 => {
                found.push(text[from..at].trim());
                from = at + 1;
            }
            _ => {}
        }
    }
    if from < text.len() {
        found.push(text[from..].trim());
    }
    found
}
