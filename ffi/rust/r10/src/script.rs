//! What a script says, before a recorder is opened by it.
use crate::Refusal;
use r10_sys as sys;
use std::fmt;

/// What a script says of its medium.
#[derive(Clone, Copy, Debug, PartialEq, Eq)]
pub struct Script {
    /// How many blocks of 512 bytes it has.
    pub blocks: usize,
    /// How many of the blocks are reserved for the directory
    pub directory: usize,
    /// How many channels are recorded.
    pub channels: usize,
}

/// Why a script cannot be taken.
#[derive(Clone, Debug, PartialEq, Eq)]
pub struct ScriptError {
    /// What it is refused by: [`Refusal::Script`], or [`Refusal::NoMemory`], which says nothing of the script
    pub refusal: Refusal,
    /// the line that is wrong, from 1, where it is known
    pub line: Option<usize>,
    /// what is wrong there, as the program `r10` prints it
    pub text: String,
}

impl fmt::Display for ScriptError {
    fn fmt(&self, f: &mut fmt::Formatter) -> fmt::Result {
        if self.text.is_empty() { self.refusal.fmt(f) } else { f.write_str(&self.text) }
    }
}

impl std::error::Error for ScriptError {}

/// What a script says of its medium, or what is wrong with it.
pub fn check_script(script: &str) -> Result<Script, ScriptError> {
    let mut text = vec![0; 64];
    loop {
        let mut info = sys::r10_script_info::default();
        // SAFETY: slices are read or written in the call alone, by their lengths; the rest is this function's.
        let number = unsafe { sys::r10_check_script(script.as_ptr(), script.len(), &mut info, text.as_mut_ptr(), text.len()) };
        if number == sys::R10_OK {
            return Ok(Script { blocks: info.blocks, directory: info.directory, channels: info.channels });
        }
        if info.length > text.len() {
            text.resize(info.length, 0);
            continue;
        }
        text.truncate(info.length);
        let text = String::from_utf8_lossy(&text).into_owned();
        return Err(ScriptError { refusal: Refusal::new(number), line: (info.line > 0).then_some(info.line), text });
    }
}
