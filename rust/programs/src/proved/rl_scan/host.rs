// Rendered from crates/rl_scan/src/host.rt by tools/render, which erases contracts: change that file, and render again.
//! Reads the program's arguments.

use crate::rattle_std::prelude::{HostRuntime, String, Vec, vec};
use crate::rl_files::path_text;
use crate::rattle_std::alloc::AllocError;
use crate::rattle_std::env::{Env, FillError};

const USUAL_LEN: usize = 256;

fn argument_within(
    rt: &HostRuntime,
    at: usize,
    len: usize,
) -> Result<Result<Vec<u8>, FillError>, AllocError> {
    let mut bytes = vec![in rt.alloc(); 0_u8; len]?;
    match rt.arg(at, bytes.as_mut_slice()) {
        Ok(count) => {
            bytes.truncate(count);
            Ok(Ok(bytes))
        }
        Err(error) => Ok(Err(error)),
    }
}

fn argument(rt: &HostRuntime, at: usize) -> Result<Option<Vec<u8>>, AllocError> {
    let mut len = USUAL_LEN;
    for _ in 0..64 {
        match argument_within(rt, at, len)? {
            Ok(bytes) => return Ok(Some(bytes)),
            Err(FillError::NotPresent) => return Ok(None),
            Err(FillError::TooLong) => len = len.saturating_add(len),
        }
    }
    Err(AllocError)
}

pub(crate) fn host_arguments(rt: &HostRuntime) -> Result<Vec<String>, AllocError> {
    let mut all = Vec::new(rt.alloc());
    for at in 0..usize::MAX {
        let Some(bytes) = argument(rt, at)? else {
            break;
        };
        all.push(path_text(rt.alloc(), bytes.as_slice())?)?;
    }
    Ok(all)
}
