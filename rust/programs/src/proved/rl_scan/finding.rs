// Rendered from crates/rl_scan/src/finding.rt by tools/render, which erases contracts: change that file, and render again.
//! The findings of a source.

use crate::rl_scan::hidden::character_id;
use crate::rl_scan::literal::Literal;
use crate::rl_restyle::Rule;

#[derive(Clone, Copy)]
pub(crate) struct Place {
    pub lo: usize,
    pub hi: usize,
}

impl Place {
    pub(crate) fn after(self, at: usize) -> Place {
        Place {
            lo: at.saturating_add(self.lo),
            hi: at.saturating_add(self.hi),
        }
    }
}

#[derive(Clone, Copy)]
pub(crate) struct Fault<'t> {
    pub id: &'static str,
    pub message: &'static str,
    pub piece: &'t str,
    pub literal: Option<&'t str>,
}

pub(crate) enum Finding<'t> {
    Literal(Literal<'t>),
    Error(Fault<'t>),
    Hidden(char),
    Change {
        old: &'t str,
        new: &'t str,
        rules: &'t [Rule],
    },
}

impl<'t> Finding<'t> {
    pub(crate) fn id(&self) -> &'static str {
        match self {
            Finding::Literal(_) => "literal",
            Finding::Error(fault) => fault.id,
            Finding::Hidden(c) => character_id(*c),
            Finding::Change { .. } => "style",
        }
    }
}
