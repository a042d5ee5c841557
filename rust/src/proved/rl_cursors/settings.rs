// Rendered from crates/rl_cursors/src/settings.rt by tools/render, which erases contracts: change that file, and render again.
//! Reads the next setting of a text, or the error at its position.

use crate::rl_cursors::next_literals::{NextLiteral, next_literal};
use crate::rl_cursors::syntax_error::{Part, SyntaxError, SyntaxErrorKind, lexer_error};
use crate::rl_lexer::{Form, Lexeme, Tokens};

#[derive(Clone, Copy)]
pub struct NextSetting<'t> {
    pub name: Lexeme<'t>,
    pub value: NextLiteral<'t>,
}

#[derive(Clone, Copy)]
pub struct SettingRejection<'t> {
    pub name: Option<Lexeme<'t>>,
    pub error: SyntaxError,
}

#[derive(Clone, Copy)]
pub enum SettingStep<'t> {
    End,
    Setting(NextSetting<'t>),
    Rejected(SettingRejection<'t>),
}

#[inline]
fn depth_after(form: Form, depth: usize) -> usize {
    match form {
        Form::Delimiter('(' | '[' | '{') => depth + 1,
        Form::Delimiter(_) => depth.saturating_sub(1),
        _ => depth,
    }
}

#[inline]
fn tree_end(form: Form, hi: usize, following: &Tokens<'_>) -> usize {
    let mut ahead = following.fork();
    let mut depth = depth_after(form, 0);
    let mut end = hi;
    while depth > 0 {
        let Some(token) = ahead.next() else {
            return end;
        };
        depth = depth_after(token.form, depth);
        end = token.hi;
    }
    end
}

#[inline(never)]
pub(crate) fn missed(tokens: &Tokens<'_>, end: usize, part: Part) -> SyntaxError {
    if tokens.rest().is_empty() {
        let kind = SyntaxErrorKind::EndOfInput(part);
        return SyntaxError {
            kind,
            lo: end,
            hi: end,
        };
    }
    if let Some(error) = tokens.error() {
        let kind = lexer_error(error.kind);
        return SyntaxError {
            kind,
            lo: error.at,
            hi: error.at,
        };
    }
    let mut ahead = tokens.fork();
    match ahead.next() {
        Some(token) => SyntaxError {
            kind: SyntaxErrorKind::Expected(part),
            lo: token.lo,
            hi: tree_end(token.form, token.hi, &ahead),
        },
        None => unreachable!(),
    }
}

#[inline(always)]
pub(crate) fn take_name<'t>(tokens: &mut Tokens<'t>, end: usize) -> Result<Lexeme<'t>, SyntaxError> {
    let before = tokens.fork();
    match tokens.next() {
        Some(token) => match token.form {
            Form::Identifier => Ok(token),
            _ => Err(missed(&before, end, Part::Name)),
        },
        None => Err(missed(&before, end, Part::Name)),
    }
}

#[inline]
pub(crate) fn is_mark(form: Form, mark: char) -> bool {
    match form {
        Form::Mark(c) => c == mark,
        _ => false,
    }
}

#[cfg_attr(debug_assertions, inline)]
#[cfg_attr(not(debug_assertions), inline(always))]
pub(crate) fn take_mark(
    tokens: &mut Tokens<'_>,
    end: usize,
    mark: char,
    part: Part,
) -> Result<(), SyntaxError> {
    let before = tokens.fork();
    match tokens.next() {
        Some(token) => {
            if is_mark(token.form, mark) {
                Ok(())
            } else {
                Err(missed(&before, end, part))
            }
        }
        None => Err(missed(&before, end, part)),
    }
}

#[inline(always)]
pub(crate) fn take_literal<'t>(
    tokens: &mut Tokens<'t>,
    end: usize,
) -> Result<NextLiteral<'t>, SyntaxError> {
    match next_literal(tokens) {
        Some(literal) => Ok(literal),
        None => Err(missed(tokens, end, Part::Literal)),
    }
}

#[inline(always)]
fn take_comma(tokens: &mut Tokens<'_>, end: usize) -> Result<(), SyntaxError> {
    if tokens.rest().is_empty() {
        return Ok(());
    }
    take_mark(tokens, end, ',', Part::Comma)
}

#[inline(always)]
fn take_value<'t>(tokens: &mut Tokens<'t>, end: usize) -> Result<NextLiteral<'t>, SyntaxError> {
    take_mark(tokens, end, '=', Part::Equals)?;
    let value = take_literal(tokens, end)?;
    take_comma(tokens, end)?;
    Ok(value)
}

#[cfg_attr(debug_assertions, inline)]
#[cfg_attr(not(debug_assertions), inline(always))]
fn take_setting<'t>(
    tokens: &mut Tokens<'t>,
    end: usize,
) -> Result<NextSetting<'t>, SettingRejection<'t>> {
    let name = match take_name(tokens, end) {
        Ok(name) => name,
        Err(error) => return Err(SettingRejection { name: None, error }),
    };
    match take_value(tokens, end) {
        Ok(value) => Ok(NextSetting { name, value }),
        Err(error) => {
            let name = Some(name);
            Err(SettingRejection { name, error })
        }
    }
}

#[inline]
pub fn next_setting<'t>(tokens: &mut Tokens<'t>, end: usize) -> SettingStep<'t> {
    if tokens.rest().is_empty() {
        return SettingStep::End;
    }
    let mut ahead = tokens.fork();
    match take_setting(&mut ahead, end) {
        Ok(setting) => {
            *tokens = ahead;
            SettingStep::Setting(setting)
        }
        Err(rejection) => SettingStep::Rejected(rejection),
    }
}
