// Rendered from crates/rl_program/src/command.rt by tools/render, which erases contracts: change that file, and render again.
//! The commands of `rl_tool`.

use crate::rattle_std::prelude::{String};
use crate::rattle_std::alloc::Allocator;

#[derive(Clone, Copy, PartialEq, Eq, Debug)]
pub enum Command {
    Text,
    Read,
    Attr,
}

impl Command {
    pub fn from_name(name: &str) -> Option<Command> {
        match name {
            "text" => Some(Command::Text),
            "read" => Some(Command::Read),
            "attr" => Some(Command::Attr),
            _ => None,
        }
    }

    pub fn parse_arguments<A: Allocator>(args: &[String<A>]) -> Option<Command> {
        match args {
            [_, name] => Command::from_name(name.as_str()),
            _ => None,
        }
    }
}
