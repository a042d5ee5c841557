//! The search for the comma that ends the value of an attribute's entry.

/// The class of a token tree. The search for the end of a value treats all trees of a class alike.
#[derive(Clone, Copy, PartialEq)]
pub(crate) enum Shape {
    /// A punctuation character, such as `,` or `<`.
    Mark(char),
    /// A `<` with another punctuation character directly after it. It may begin `<<`.
    Joint,
    /// A `<` that opens angle brackets, as the caller knows from the token after the `>` that closes them.
    Open,
    /// A `<` that may open angle brackets, or be an operator. It ends the value where an operator is expected.
    Ambiguous,
    /// The keyword `as`, before a type.
    As,
    /// A keyword in a type, with more of the type after it, such as `dyn`.
    InType,
    /// A keyword before an expression, such as `move` or `return`.
    BeforeOperand,
    /// Another identifier.
    Word,
    /// A group in braces, which may be the body of a closure.
    Braces,
    /// A token tree of no other class.
    Other,
}

impl Shape {
    /// Returns the class of an identifier or a keyword.
    #[inline]
    pub(crate) fn of_word(word: &str) -> Shape {
        match word {
            "as" => Shape::As,
            "const" | "dyn" | "extern" | "fn" | "for" | "impl" | "mut" | "unsafe" => Shape::InType,
            "async" | "break" | "else" | "if" | "in" | "match" | "move" | "return" | "static"
            | "while" => Shape::BeforeOperand,
            _ => Shape::Word,
        }
    }
}

/// The position of the search in an expression.
#[derive(Clone, Copy, PartialEq)]
enum Position {
    /// An operand begins here. `<` begins a path such as `<A as B>::C`, and `|` a closure.
    Operand,
    /// An operator may follow. `<` and `|` are operators.
    Operator,
    /// The parameters of a closure are open.
    Parameters,
    /// The parameters of a closure are closed. The body or `->` follows.
    Body,
    /// The search is in the return type of a closure, which ends at the braces of the body.
    ReturnType,
    /// The search is in the type after `as`.
    Cast,
}

/// Finds the comma or semicolon that ends a value. It is the first one outside of angle brackets and of a closure's parameters. The
/// caller passes the token trees one by one.
///
/// A group in other brackets is one tree. `<` opens angle brackets where an operand or a type is expected, after `::`, and inside of
/// other angle brackets. Elsewhere `<` is an operator.
pub(crate) struct ValueEnd {
    depth: usize,
    position: Position,
    /// The two previous token trees. An item is `None` if the value has no tree that far before.
    before: [Option<Shape>; 2],
}

impl Default for ValueEnd {
    #[inline]
    fn default() -> Self {
        ValueEnd {
            depth: 0,
            position: Position::Operand,
            before: [None, None],
        }
    }
}

impl ValueEnd {
    /// Whether the next token tree, whose class is `next`, ends the value: a comma, a semicolon or an ambiguous `<`. Any other tree
    /// becomes part of the value.
    #[inline]
    pub(crate) fn is_at(&mut self, next: Shape) -> bool {
        if self.depth == 0 && self.ends(next) {
            return true;
        }
        if self.position == Position::Cast && self.is_after('-') && next != Shape::Mark('>') {
            // The minus after the type was an operator.
            self.position = Position::Operand;
        }
        if self.opens(next) {
            self.depth += 1;
            if matches!(self.position, Position::Operand | Position::Body) {
                self.position = Position::Operator;
            }
        } else if self.depth == 0 {
            self.position = self.position_after(next);
        } else if next == Shape::Mark('>') && !self.is_after('-') {
            self.depth -= 1;
        }
        self.before = [self.before[1], Some(next)];
        false
    }

    #[inline]
    fn ends(&self, next: Shape) -> bool {
        match next {
            Shape::Mark(',' | ';') => self.position != Position::Parameters,
            Shape::Ambiguous => !self.opens(next),
            _ => false,
        }
    }

    #[inline]
    fn is_after(&self, mark: char) -> bool {
        self.before[1] == Some(Shape::Mark(mark))
    }

    /// Whether the type after `as` may end here. It doesn't end with a lifetime, with a keyword or with `->`.
    #[inline]
    fn is_after_type(&self) -> bool {
        match self.before[0] {
            Some(Shape::Mark('\'')) => false,
            Some(Shape::Mark('-')) if self.is_after('>') => false,
            _ => matches!(
                self.before[1],
                Some(Shape::Word | Shape::Other | Shape::Mark('>'))
            ),
        }
    }

    /// Whether the next tree opens angle brackets.
    #[inline]
    fn opens(&self, next: Shape) -> bool {
        let is_less = matches!(next, Shape::Mark('<') | Shape::Joint | Shape::Ambiguous);
        let after_path = [Some(Shape::Mark(':')); 2];
        match self.position {
            _ if !is_less => next == Shape::Open,
            Position::ReturnType => true,
            // After a type that doesn't end with a name, `<` is an operator.
            Position::Cast => self.before[1] == Some(Shape::Word) || !self.is_after_type(),
            Position::Operand | Position::Body if self.before[1] != Some(Shape::Joint) => true,
            // After a keyword, as in `for<'a> fn(&'a str)`.
            _ if self.before[1] == Some(Shape::InType) => true,
            _ => self.depth > 0 || self.before == after_path,
        }
    }

    /// Returns the position after the next tree, which is outside of angle brackets.
    #[inline]
    fn position_after(&self, next: Shape) -> Position {
        match (self.position, next) {
            (Position::Parameters, Shape::Mark('|')) => Position::Body,
            (Position::Body, Shape::Mark('>')) if self.is_after('-') => Position::ReturnType,
            // The minus may begin `->`, or the body.
            (Position::Body, Shape::Mark('-')) => Position::Body,
            // The second `|` of the operator `||` begins no closure.
            (Position::Operand, Shape::Mark('|')) if self.is_after('|') => Position::Operand,
            (Position::Operand | Position::Body, Shape::Mark('|')) => Position::Parameters,
            (Position::ReturnType, Shape::Braces) => Position::Operator,
            (Position::Parameters | Position::ReturnType, _) => self.position,
            (Position::Cast, _) if self.is_in_type(next) => Position::Cast,
            (_, Shape::As) => Position::Cast,
            (_, Shape::Mark(':' | '?')) => Position::Operator,
            (_, Shape::Mark(_) | Shape::Joint | Shape::BeforeOperand) => Position::Operand,
            _ => Position::Operator,
        }
    }

    /// Whether the next tree is part of the type after `as`.
    #[inline]
    fn is_in_type(&self, next: Shape) -> bool {
        match next {
            Shape::Mark('>') => self.is_after('-'),
            Shape::Mark('&' | '*' | '!' | '\'') => !self.is_after_type(),
            Shape::Mark(mark) => mark == ':' || mark == '-' && self.is_after_type(),
            Shape::Joint => false,
            _ => true,
        }
    }
}

#[cfg(test)]
mod tests {
    use super::{Shape, ValueEnd};

    /// Returns the value at the start of a text. In the text `{` represents a group in braces, `(` another group, `m` the keyword
    /// `move`, `q` the keyword `async`, `A` the keyword `as`, `d` the keyword `dyn`, `≤` a `<` that
    /// opens angle brackets, `?` one that may open them, and `‹` a `<` directly before another punctuation character.
    fn value_of(text: &str) -> &str {
        let mut end = ValueEnd::default();
        let is_end = |c: char| match c {
            ' ' => false,
            '{' => end.is_at(Shape::Braces),
            'm' => end.is_at(Shape::of_word("move")),
            'q' => end.is_at(Shape::of_word("async")),
            'A' => end.is_at(Shape::of_word("as")),
            'd' => end.is_at(Shape::of_word("dyn")),
            '≤' => end.is_at(Shape::Open),
            '?' => end.is_at(Shape::Ambiguous),
            '‹' => end.is_at(Shape::Joint),
            'a'..='z' => end.is_at(Shape::Word),
            '(' | '0'..='9' => end.is_at(Shape::Other),
            _ => end.is_at(Shape::Mark(c)),
        };
        &text[..text.find(is_end).unwrap_or(text.len())]
    }

    #[test]
    fn a_comma_ends_a_value() {
        let values = "1 § x § x::f( § x < y § x < y - z § x::y < z § -1 § x.f( > 2 § { § &[( § x ‹< y § x || y § x A u - y < z\
 § x A u & y < z § x A &u | y < z § x A h::<g> + y < z § x A ( ‹< y";
        for value in values.split(" § ") {
            let text = std::format!("{value}, b > c");
            assert_eq!(value_of(&text), value);
            assert_eq!(value_of(value), value);
        }
    }

    #[test]
    fn commas_in_angle_brackets_do_not() {
        let values = "x::<y, z>::f( § x::<y, z<u, v>, w> § <x<y, z> as f<u, v>>::f( § x::<(, fn( -> y, z>::f( § x::<y> < z\
 § x A &d i<a, j = u> § x A n<t, u> - y § x A f( -> n<t, u> § x A &'a n<t, u> A o<t, u> < y\
 § x A *n<t, u> + y < z § -<x A f<u, v>>::c § x < <x A f<u, v>>::c § y + <x A f<u, v>>::c < z § h≤k, v>\
 § &d i≤a, j = u> § d< 'a, 'b> f( -> h≤k, v>";
        for value in values.split(" § ") {
            let text = std::format!("{value}, b");
            assert_eq!(value_of(&text), value);
        }
    }

    #[test]
    fn nor_do_those_of_a_closure() {
        let values = "|x, y| x § || x § m |x, y: z<u, v>| x < y § q |x, y| x § |x, y| -> z<u, v> { § |x| -> fn( -> z<u, v> { § |x, y| x | y\
 § &|x, y| x § || |x, y| x § x = |x, y| x";
        for value in values.split(" § ") {
            let text = std::format!("{value}, b | c, d");
            assert_eq!(value_of(&text), value);
        }
        // After an operand, `|` is an operator.
        assert_eq!(value_of("x | y, z | w"), "x | y");
        assert_eq!(value_of("|x| x < y, z > w"), "|x| x < y");
        // A minus without `>` begins the body.
        assert_eq!(value_of("|x| -x < y, z > w"), "|x| -x < y");
        // After the braces of the body, `<` is an operator.
        assert_eq!(value_of("|x| -> y { < z, w > v"), "|x| -> y { < z");
        // `<` opens angle brackets after two colons, not after one.
        assert_eq!(value_of("x: < y, z > w"), "x: < y");
        assert_eq!(value_of("x; y, z"), "x");
        // An ambiguous `<` ends the value where an operator is expected.
        assert_eq!(value_of("h? k, v> ::w"), "h");
        assert_eq!(value_of("x A h? k, v>::w, b"), "x A h? k, v>::w");
        assert_eq!(value_of("-? k, v>::w, b"), "-? k, v>::w");
    }
}
