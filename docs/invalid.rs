//! Invalid literals, for the command of README.md. This file isn't compiled.

const FOLDER: &str = "C:\dir";
const MASK: u8 = 0b102;
const LIMIT: u8 = 256_u8;
