use crate::de::CID_NAME;
use crate::{Refusal, Refused};
use alloc::{
    boxed::Box,
    string::{String, ToString},
    vec::Vec,
};
use core::fmt;

/// Why a type is not read, or a value not written, and where.
#[derive(Debug)]
pub struct Error(Box<Inner>);

#[derive(Debug)]
struct Inner {
    cause: Cause,
    place: Option<usize>,
    path: Vec<String>, // from the inside
}

#[derive(Debug)]
enum Cause {
    Refused(Refusal),
    Said(String),
    #[cfg(feature = "std")]
    Io(std::io::Error),
}

impl Error {
    fn new(cause: Cause, place: Option<usize>) -> Error {
        let path = Vec::new();
        Error(Box::new(Inner { cause, place, path }))
    }

    /// Why the bytes are not a block, or the value has none: `None` if the type or the writer
    /// objects.
    pub fn refusal(&self) -> Option<Refusal> {
        match self.0.cause {
            Cause::Refused(refusal) => Some(refusal),
            _ => None,
        }
    }

    /// For a read: the offset of the item to which the type objects, or that of the refusal.
    pub fn place(&self) -> Option<usize> {
        self.0.place
    }

    /// For a write: the keys and indices that lead to what has no block.
    pub fn path(&self) -> impl Iterator<Item = &str> {
        self.0.path.iter().rev().map(String::as_str)
    }

    /// With this place, if it has none and is not that of a reader.
    pub(crate) fn or_at(mut self, place: usize) -> Error {
        match self.0.cause {
            #[cfg(feature = "std")]
            Cause::Io(_) => {}
            _ => self.0.place = self.0.place.or(Some(place)),
        }
        self
    }

    /// For bytes after this many others.
    pub(crate) fn further(mut self, before: usize) -> Error {
        self.0.place = self.0.place.map(|it| before + it);
        self
    }

    /// For what is within this part.
    pub(crate) fn within(mut self, part: impl ToString) -> Error {
        self.0.path.push(part.to_string());
        self
    }
}

impl fmt::Display for Error {
    fn fmt(&self, f: &mut fmt::Formatter<'_>) -> fmt::Result {
        match &self.0.cause {
            Cause::Refused(refusal) => write!(f, "{refusal}")?,
            Cause::Said(message) => f.write_str(message)?,
            #[cfg(feature = "std")]
            Cause::Io(error) => write!(f, "{error}")?,
        }
        if let Some(place) = self.0.place {
            write!(f, ", at {place}")?;
        }
        let mut before = ", at ";
        for part in self.path() {
            write!(f, "{before}{part}")?;
            before = "/";
        }
        Ok(())
    }
}

#[cfg(not(feature = "std"))]
impl serde::ser::StdError for Error {}

#[cfg(feature = "std")]
impl std::error::Error for Error {
    fn source(&self) -> Option<&(dyn std::error::Error + 'static)> {
        match &self.0.cause {
            Cause::Io(error) => Some(error),
            _ => None,
        }
    }
}

impl From<Refused> for Error {
    fn from(refused: Refused) -> Error {
        Error::new(Cause::Refused(refused.refusal), Some(refused.place))
    }
}

impl From<Refusal> for Error {
    fn from(refusal: Refusal) -> Error {
        Error::new(Cause::Refused(refusal), None)
    }
}

#[cfg(feature = "std")]
impl From<std::io::Error> for Error {
    fn from(error: std::io::Error) -> Error {
        Error::new(Cause::Io(error), None)
    }
}

#[cfg(feature = "std")]
impl From<Error> for std::io::Error {
    fn from(error: Error) -> std::io::Error {
        let kind = match error.0.cause {
            Cause::Io(error) => return error,
            Cause::Refused(Refusal::Eof) => std::io::ErrorKind::UnexpectedEof,
            _ => std::io::ErrorKind::InvalidData,
        };
        std::io::Error::new(kind, error)
    }
}

impl serde::de::Error for Error {
    fn custom<T: fmt::Display>(message: T) -> Error {
        Error::new(Cause::Said(message.to_string()), None)
    }

    /// A CID asks by this name if what serde held back is from a block.
    fn missing_field(field: &'static str) -> Error {
        match field {
            CID_NAME => serde::de::Error::custom(CID_NAME),
            _ => serde::de::Error::custom(format_args!("missing field `{field}`")),
        }
    }
}

impl serde::ser::Error for Error {
    fn custom<T: fmt::Display>(message: T) -> Error {
        serde::de::Error::custom(message)
    }
}
