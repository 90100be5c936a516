//! How deep a call goes: the frames along its deepest path. A path that comes back to one of its own functions is a fault.

use crate::frame::{frame_of, Callee, Frame};
use crate::object::Object;
use std::collections::BTreeSet;

/// What the C library's copying functions are counted: they keep what they do in registers, and none of them calls another.
pub const OF_THE_C_LIBRARY: u64 = 512;
pub const C_LIBRARY: [&str; 5] = ["memcpy", "memmove", "memset", "memcmp", "bcmp"];

/// A function on a path, and the bytes that it puts there.
#[derive(Clone, Debug, PartialEq)]
pub struct Stop {
    pub name: String,
    pub bytes: u64,
}

#[derive(Clone, Debug, Default, PartialEq)]
pub struct Depth {
    pub bytes: u64,
    pub path: Vec<Stop>,
    /// All that is called outside the object, on any path.
    pub outside: BTreeSet<String>,
}

/// The depth of every function, or what is wrong.
pub fn depths(object: &Object) -> Result<Vec<Depth>, String> {
    let frames = object
        .functions
        .iter()
        .map(|function| frame_of(object, function))
        .collect::<Result<Vec<_>, _>>()?;
    let mut search = Search {
        object,
        frames,
        found: vec![None; object.functions.len()],
        under_way: Vec::new(),
    };
    (0..object.functions.len())
        .map(|function| search.depth(function))
        .collect()
}

struct Search<'a> {
    object: &'a Object,
    frames: Vec<Frame>,
    found: Vec<Option<Depth>>,
    under_way: Vec<usize>,
}

impl Search<'_> {
    fn depth(&mut self, function: usize) -> Result<Depth, String> {
        if let Some(depth) = &self.found[function] {
            return Ok(depth.clone());
        }
        if let Some(from) = self.under_way.iter().position(|f| *f == function) {
            return Err(self.circle(from));
        }
        self.under_way.push(function);
        let name = &self.object.functions[function].name;
        let frame = self.frames[function].clone();
        let mut depth = Depth {
            bytes: frame.own,
            path: vec![Stop {
                name: name.clone(),
                bytes: frame.own,
            }],
            outside: BTreeSet::new(),
        };
        for call in &frame.calls {
            let below = match &call.to {
                Callee::Inside(callee) => self.depth(*callee)?,
                Callee::Outside(name) => outside(name),
            };
            depth.outside.extend(below.outside);
            if call.above + below.bytes > depth.bytes {
                depth.bytes = call.above + below.bytes;
                depth.path = vec![Stop {
                    name: name.clone(),
                    bytes: call.above,
                }];
                depth.path.extend(below.path);
            }
        }
        self.under_way.pop();
        self.found[function] = Some(depth.clone());
        Ok(depth)
    }

    fn circle(&self, from: usize) -> String {
        let circle = &self.under_way[from..];
        let name = |f: &usize| self.object.functions[*f].name.as_str();
        let names: Vec<_> = circle.iter().chain(circle.first()).map(name).collect();
        let how = if circle.len() > 1 { " round about" } else { "" };
        format!("{} calls itself{how}: {}", names[0], names.join(" > "))
    }
}

/// Nothing is known of what else is outside, and nothing is counted; whether it may be called is asked elsewhere.
fn outside(name: &str) -> Depth {
    let bytes = if C_LIBRARY.contains(&name) {
        OF_THE_C_LIBRARY
    } else {
        0
    };
    Depth {
        bytes,
        path: vec![Stop {
            name: name.to_string(),
            bytes,
        }],
        outside: BTreeSet::from([name.to_string()]),
    }
}
