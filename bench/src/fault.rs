//! Why there are no figures.

use std::fmt;
use std::io;

/// Why a call of the recorder is refused.
#[derive(Clone, Copy, Debug, PartialEq, Eq)]
pub enum Refusal {
    NoSuchChannel,
    WrongKind,
    BadMessage,
    TooLong,
    CountRange,
    CountBack,
    Overflow,
    MediumFull,
    BadFile,
    Medium,
}

#[derive(Debug)]
pub enum Fault {
    System(io::Error),
    Refused(Refusal),
    Lost,
}

impl From<io::Error> for Fault {
    fn from(error: io::Error) -> Fault {
        Fault::System(error)
    }
}

impl From<Refusal> for Fault {
    fn from(refusal: Refusal) -> Fault {
        Fault::Refused(refusal)
    }
}

impl fmt::Display for Fault {
    fn fmt(&self, f: &mut fmt::Formatter) -> fmt::Result {
        match self {
            Fault::System(error) => write!(f, "{error}"),
            Fault::Refused(refusal) => write!(f, "refused: {refusal:?}"),
            Fault::Lost => write!(f, "messages were lost"),
        }
    }
}

impl std::error::Error for Fault {}
