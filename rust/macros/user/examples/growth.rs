//! Prints the times of the package's calls per setting of a macro's input. A macro measured them when this example was compiled.

fn main() {
    print!("{}", navyspindle_macros::call_times!());
}
