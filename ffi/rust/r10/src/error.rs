//! Why a call did not do its work.
use crate::{Region, ScriptError};
use r10_sys as sys;
use std::{fmt, io};

/// The variants, their numbers in `r10.h`, and what each says.
macro_rules! refusals {
    ($($(#[$doc:meta])* $name:ident = $number:ident: $text:literal,)*) => {
        /// Why a call did not do its work: what its number in `r10.h` stands for.
        ///
        /// A call that was refused changed nothing, but for two: [`Refusal::Overflow`] is counted as a loss, and after
        /// [`Refusal::Medium`] the recorder is failed.
        #[derive(Clone, Copy, Debug, PartialEq, Eq, Hash)]
        #[non_exhaustive]
        pub enum Refusal {
            $($(#[$doc])* $name,)*
            /// A number that this crate does not know: the library is a later one.
            Other(u32),
        }

        impl Refusal {
            pub(crate) fn new(number: u32) -> Refusal {
                match number {
                    $(sys::$number => Refusal::$name,)*
                    other => Refusal::Other(other),
                }
            }

            /// The number, as in `r10.h`.
            pub fn number(self) -> u32 {
                match self {
                    $(Refusal::$name => sys::$number,)*
                    Refusal::Other(number) => number,
                }
            }

            fn text(self) -> &'static str {
                match self {
                    $(Refusal::$name => $text,)*
                    Refusal::Other(_) => "no number of this library",
                }
            }
        }
    };
}

refusals! {
    /// The recorder met a failure of the medium before.
    Failed = R10_FAILED: "the recorder met a failure of the medium before",
    /// No medium is mounted.
    NotMounted = R10_NOT_MOUNTED: "no medium is mounted",
    /// A medium is mounted already.
    Mounted = R10_MOUNTED: "a medium is mounted already",
    /// A file is being recorded.
    Busy = R10_BUSY: "a file is being recorded",
    /// No file is being recorded.
    NotRecording = R10_NOT_RECORDING: "no file is being recorded",
    /// No channel has this ID.
    NoChannel = R10_NO_CHANNEL: "no channel has this ID",
    /// The message is not of the channel's kind.
    WrongKind = R10_WRONG_KIND: "the message is not of the channel's kind",
    /// A field of the message is out of its range.
    BadMessage = R10_BAD_MESSAGE: "a field of the message is out of its range",
    /// The message or the setup text is too long.
    TooLong = R10_TOO_LONG: "the message or the setup text is too long",
    /// A count has more than 48 bits.
    CountRange = R10_COUNT_RANGE: "a count has more than 48 bits",
    /// A count is below the last one.
    CountBack = R10_COUNT_BACK: "a count is below the last one",
    /// The channel's lane is full.
    Overflow = R10_OVERFLOW: "the channel's lane is full",
    /// There is no such date or time.
    BadCivil = R10_BAD_CIVIL: "there is no such date or time",
    /// There was no tick yet.
    NoTime = R10_NO_TIME: "there was no tick yet",
    /// A file's name is 1 to 56 letters, digits, dots, underscores or dashes.
    BadName = R10_BAD_NAME: "a file's name is 1 to 56 letters, digits, dots, underscores or dashes",
    /// A file has this name.
    NameTaken = R10_NAME_TAKEN: "a file has this name",
    /// An event number is over 4095.
    BadEvent = R10_BAD_EVENT: "an event number is over 4095",
    /// The last file is not closed: it wants a seal.
    Unsealed = R10_UNSEALED: "the last file is not closed: it wants a seal",
    /// There is no such file.
    NoFile = R10_NO_FILE: "there is no such file",
    /// The cursor is older than an erase.
    Stale = R10_STALE: "the cursor is older than an erase",
    /// There is no such cursor.
    NoCursor = R10_NO_CURSOR: "there is no such cursor",
    /// The cursor's queue is not empty.
    Unread = R10_UNREAD: "the cursor's queue is not empty",
    /// The directory is full.
    DirectoryFull = R10_DIRECTORY_FULL: "the directory is full",
    /// The medium is full.
    MediumFull = R10_MEDIUM_FULL: "the medium is full",
    /// The medium's directory cannot be taken.
    BadDirectory = R10_BAD_DIRECTORY: "the medium's directory cannot be taken",
    /// The file is not one that this recorder wrote, or does not fit its directory entry.
    BadFile = R10_BAD_FILE: "the file is not one that this recorder wrote, or does not fit its directory entry",
    /// The medium failed in this call.
    Medium = R10_MEDIUM: "the medium failed in this call",
    /// Memory was refused.
    NoMemory = R10_NO_MEMORY: "memory was refused",
    /// The script cannot be taken.
    Script = R10_SCRIPT: "the script cannot be taken",
    /// The region has another number of blocks than the script says.
    Blocks = R10_BLOCKS: "the region has another number of blocks than the script says",
    /// Less memory was lent than the call needs.
    Room = R10_ROOM: "less memory was lent than the call needs",
    /// The list has no such place.
    Place = R10_PLACE: "the list has no such place",
    /// The recorder is not open.
    Closed = R10_CLOSED: "the recorder is not open",
    /// The recorder is open already.
    Open = R10_OPEN: "the recorder is open already",
}

impl fmt::Display for Refusal {
    fn fmt(&self, f: &mut fmt::Formatter) -> fmt::Result {
        f.write_str(self.text())
    }
}

impl std::error::Error for Refusal {}

/// What the calls of this crate fail by: a program's functions answer it, and `?` turns each of the others into it.
#[derive(Debug)]
#[non_exhaustive]
pub enum Error {
    /// A call was refused.
    Refused(Refusal),
    /// The file or the device under the recorder failed.
    Disk(io::Error),
    /// A script cannot be taken.
    Script(ScriptError),
}

impl fmt::Display for Error {
    fn fmt(&self, f: &mut fmt::Formatter) -> fmt::Result {
        match self {
            Error::Refused(it) => it.fmt(f),
            Error::Disk(it) => it.fmt(f),
            Error::Script(it) => it.fmt(f),
        }
    }
}

impl std::error::Error for Error {
    fn source(&self) -> Option<&(dyn std::error::Error + 'static)> {
        match self {
            Error::Refused(it) => Some(it),
            Error::Disk(it) => Some(it),
            Error::Script(it) => Some(it),
        }
    }
}

impl From<Refusal> for Error {
    fn from(it: Refusal) -> Error {
        Error::Refused(it)
    }
}

impl From<io::Error> for Error {
    fn from(it: io::Error) -> Error {
        Error::Disk(it)
    }
}

impl From<ScriptError> for Error {
    fn from(it: ScriptError) -> Error {
        Error::Script(it)
    }
}

impl From<NotOpened> for Error {
    fn from(it: NotOpened) -> Error {
        Error::Refused(it.refusal)
    }
}

/// A recorder that was not opened: why, and the region that was to be under it.
#[derive(Debug)]
#[non_exhaustive]
pub struct NotOpened {
    /// Why.
    pub refusal: Refusal,
    /// What was given, as it was, but for a format that failed amid its writes.
    pub region: Region,
}

impl fmt::Display for NotOpened {
    fn fmt(&self, f: &mut fmt::Formatter) -> fmt::Result {
        self.refusal.fmt(f)
    }
}

impl std::error::Error for NotOpened {
    fn source(&self) -> Option<&(dyn std::error::Error + 'static)> {
        Some(&self.refusal)
    }
}

/// What a [`Refusal::BadDirectory`] or a [`Refusal::BadFile`] was about.
#[derive(Clone, Copy, Debug, PartialEq, Eq)]
#[non_exhaustive]
pub enum Fault {
    /// A directory that cannot be taken.
    Directory {
        /// Its first block that cannot be taken.
        block: u64,
    },
    /// A file that is not one of this recorder.
    File {
        /// Where in it the first wrong packet is, in bytes.
        offset: u64,
        /// What is wrong there: a name as `r10 check` prints it.
        name: &'static str,
        /// The number of the rule that it breaks.
        rule: Option<u16>,
    },
}

impl Fault {
    pub(crate) fn of(info: &sys::r10_fault_info) -> Option<Fault> {
        let name = match info.fault {
            sys::R10_FAULT_TRUNCATED => "Truncated",
            sys::R10_FAULT_SYNC => "Sync",
            sys::R10_FAULT_HEADER_SUM => "HeaderSum",
            sys::R10_FAULT_LENGTH => "Length",
            sys::R10_FAULT_DATA_SUM => "DataSum",
            sys::R10_FAULT_BODY => "Body",
            _ => "Rule",
        };
        match info.number {
            sys::R10_BAD_DIRECTORY => Some(Fault::Directory { block: info.at }),
            sys::R10_BAD_FILE => Some(Fault::File { offset: info.at, name, rule: (info.fault == sys::R10_FAULT_RULE).then_some(info.rule) }),
            _ => None,
        }
    }
}

impl fmt::Display for Fault {
    fn fmt(&self, f: &mut fmt::Formatter) -> fmt::Result {
        match self {
            Fault::Directory { block } => write!(f, "block {block} of the directory cannot be taken"),
            Fault::File { offset, name, rule: Some(rule) } => write!(f, "{offset} {name} {rule}"),
            Fault::File { offset, name, rule: None } => write!(f, "{offset} {name}"),
        }
    }
}
