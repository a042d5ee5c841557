// Rendered from crates/rl_scan/src/modes.rt by tools/render, which erases contracts: change that file, and render again.
//! The modes of `rl_scan`, and the sets of modes in which options have an effect.

#[derive(Clone, Copy, PartialEq, Eq, Debug)]
pub(crate) enum Mode {
    Page,
    List,
    Only,
    Find,
    Bad,
    Invisible,
    Fix,
    Check,
    Diff,
}

#[rustfmt::skip]
pub(crate) const SELECTING: [(&str, Mode); 12] = [
    ("--help", Mode::Page), ("--version", Mode::Page), ("--rules", Mode::Page), ("--generate", Mode::Page),
    ("--fix", Mode::Fix), ("--check", Mode::Check), ("--diff", Mode::Diff), ("--bad", Mode::Bad),
    ("--invisible", Mode::Invisible), ("--find", Mode::Find), ("--number", Mode::Find), ("--only", Mode::Only),
];

#[derive(Clone, Copy)]
pub(crate) struct Modes {
    members: &'static [Mode],
    pub hint: &'static str,
}

#[rustfmt::skip]
pub(crate) const ALL: Modes = Modes {
    members: &[Mode::List, Mode::Only, Mode::Find, Mode::Bad, Mode::Invisible, Mode::Fix, Mode::Check, Mode::Diff],
    hint: "",
};

#[rustfmt::skip]
pub(crate) const FIND: Modes = Modes { members: &[Mode::Find], hint: "use --find" };

#[rustfmt::skip]
pub(crate) const NUMBER: Modes = Modes { members: &[Mode::Find], hint: "use only one of them" };

#[rustfmt::skip]
pub(crate) const BAD: Modes = Modes { members: &[Mode::Bad], hint: "use --bad" };

#[rustfmt::skip]
pub(crate) const LITERALS: Modes = Modes { members: &[Mode::List, Mode::Only, Mode::Find], hint: "use --only, --find or no mode" };

#[rustfmt::skip]
pub(crate) const TOKENS: Modes = Modes {
    members: &[Mode::List, Mode::Only, Mode::Find, Mode::Bad],
    hint: "use --bad, --only, --find or no mode",
};

#[rustfmt::skip]
pub(crate) const READING: Modes = Modes {
    members: &[Mode::List, Mode::Only, Mode::Find, Mode::Bad, Mode::Invisible],
    hint: "use only one of them",
};

#[rustfmt::skip]
pub(crate) const LISTING: Modes = Modes {
    members: &[Mode::List, Mode::Only, Mode::Find, Mode::Bad, Mode::Invisible, Mode::Check],
    hint: "use a mode other than --fix and --diff",
};

#[rustfmt::skip]
pub(crate) const REWRITING: Modes = Modes { members: &[Mode::Fix, Mode::Check, Mode::Diff], hint: "use --fix, --check or --diff" };

#[rustfmt::skip]
pub(crate) const BAD_OR_REWRITING: Modes = Modes {
    members: &[Mode::Bad, Mode::Fix, Mode::Check, Mode::Diff],
    hint: "use --bad, --fix, --check or --diff",
};

#[rustfmt::skip]
pub(crate) const BAD_OR_INVISIBLE: Modes = Modes { members: &[Mode::Bad, Mode::Invisible], hint: "use --bad or --invisible" };

impl Mode {
    pub(crate) fn words(self) -> &'static str {
        match self {
            Mode::Page => "with --help, --version, --rules or --generate",
            Mode::List => "without a mode",
            Mode::Only => "with --only",
            Mode::Find => "with --find",
            Mode::Bad => "with --bad",
            Mode::Invisible => "with --invisible",
            Mode::Fix => "with --fix",
            Mode::Check => "with --check",
            Mode::Diff => "with --diff",
        }
    }

    pub(crate) fn is_among(self, modes: Modes) -> bool {
        modes.members.contains(&self)
    }
}
