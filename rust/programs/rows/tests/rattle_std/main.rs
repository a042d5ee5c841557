//! Tests that `rattle_std` has the results of Rattle's std, kit 13f, in special cases.
//!
//! Each expected value was printed by a Rattle program that makes the same calls. If the replacement is deliberately more limited,
//! the test says so.

#[cfg(target_os = "linux")]
#[path = "../directory/mod.rs"]
mod directory;
mod fakes;
#[cfg(target_os = "linux")]
mod files;
mod memory;
mod pieces;
#[cfg(target_os = "linux")]
mod room;
#[cfg(target_os = "linux")]
mod streams;
mod writing;

#[path = "../../src/failing.rs"]
mod failing;

use navyspindle_programs::rattle_std;
