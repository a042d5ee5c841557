//! The tests in `tests` use procedural macros that read literals.
