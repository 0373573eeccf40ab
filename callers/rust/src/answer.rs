use core::fmt;

/// Makes the kinds of items, in the order of their numbers, and the list of them.
macro_rules! kinds {
    ($($kind:ident $words:literal,)*) => {
        /// What an item is.
        #[derive(Clone, Copy, Debug, PartialEq, Eq, Hash)]
        pub enum Kind {
            $(#[doc = $words] $kind,)*
        }

        /// The kinds, by their numbers.
        pub(crate) const KINDS: &[Kind] = &[$(Kind::$kind),*];
    };
}

kinds! {
    Null "null",
    Bool "false or true",
    Integer "an integer of -2^64 .. 2^64 - 1",
    String "a text",
    Bytes "a byte string",
    List "a list",
    Map "a map",
    Link "a link, which is a CID",
}

/// Makes the causes of a refusal, each with its number in the library and its words, and the
/// refusal, which has a cause and a place.
macro_rules! causes {
    (
        $(#[$causes_doc:meta])*
        enum $causes:ident {
            $($code:literal $cause:ident $words:literal,)*
            $other:ident $fields:tt $other_words:literal
        }
        $(#[$refused_doc:meta])*
        struct $refused:ident {
            $(#[$place_doc:meta])*
            place: $place:ty
        }
    ) => {
        $(#[$causes_doc])*
        #[derive(Clone, Copy, Debug, PartialEq, Eq, Hash)]
        #[non_exhaustive]
        pub enum $causes {
            $(#[doc = $words] $cause,)*
            #[doc = $other_words]
            $other $fields,
        }

        impl $causes {
            pub(crate) fn of_code(code: i32) -> Option<Self> {
                match code {
                    $($code => Some(Self::$cause),)*
                    _ => None,
                }
            }

            fn words(&self) -> &'static str {
                match self {
                    $(Self::$cause => $words,)*
                    Self::$other { .. } => $other_words,
                }
            }

            /// The refusal at a place.
            pub const fn at(self, place: $place) -> $refused {
                let refusal = self;
                $refused { refusal, place }
            }
        }

        impl From<$refused> for $causes {
            fn from(refused: $refused) -> Self {
                refused.refusal
            }
        }

        $(#[$refused_doc])*
        #[derive(Clone, Copy, Debug, PartialEq, Eq, Hash)]
        pub struct $refused {
            /// why
            pub refusal: $causes,
            $(#[$place_doc])*
            pub place: $place,
        }

        impl fmt::Display for $refused {
            fn fmt(&self, f: &mut fmt::Formatter<'_>) -> fmt::Result {
                write!(f, "{}, at {}", self.refusal, self.place)
            }
        }

        #[cfg(feature = "std")]
        impl std::error::Error for $causes {}

        #[cfg(feature = "std")]
        impl std::error::Error for $refused {}
    };
}

causes! {
    /// Why bytes, or what a tape tells, are not a block, or why bytes or a text are not a CID.
    enum Refusal {
        -1 Msg "a link holds no CID",
        -3 Eof "the bytes end too early",
        -4 Mismatch "a key that is not a text, or another tag than that of a link",
        -5 Unsupported "a float or another simple value, a link without a byte string, or a reserved width",
        -8 RequireUtf8 "a text that is not UTF-8",
        -12 DepthOverflow "lists and maps are nested too deep",
        -14 TrailingData "bytes after the item",
        -15 IndefiniteSize "an indefinite length or a break",
        -16 NonMinimal "a number or a length in more bytes than it needs",
        -17 UnorderedKey "a key that does not come after the one before it",
        -20 NoToken "an invalid token",
        -26 InvalidCid "the bytes are no CID",
        -28 UnknownBase "the first character names no base that is read here",
        -29 TooLong "the text is longer than that of any CID",
        -30 InvalidCharacter "a character is not in the alphabet of the base",
        -31 InvalidLength "the last character begins a byte and does not end it",
        -32 TrailingBits "bits that are not zero stand after the last byte",
        -33 LeadingZero "the text begins with a zero byte, as no CID does",
        -34 InvalidVersion "version 0 has no prefix, and version 1 has one",
        NoRoom {
            /// how many bytes, or tokens, need room
            needed: usize,
        } "no room"
    }
    /// Why bytes are not a block, and where.
    struct Refused {
        /// The offset of the byte with which the refusal comes, or the number of bytes, if they
        /// end too early.
        place: usize
    }
}

causes! {
    /// Why bytes are not a CAR file.
    enum CarRefusal {
        -24 Truncated "the file is cut short",
        -25 InvalidLength "a length is not in shortest form or too large",
        -26 InvalidCid "no name stands before a block",
        -27 OtherHeader "the header is not that of version 1",
        -35 InvalidOffset "the offsets of version 2 are invalid",
        NoBlock(Refusal) "the header is no block"
    }
    /// Why bytes are not a CAR file, and where.
    struct CarRefused {
        /// the offset in the file of the header or the section that is at fault
        place: u64
    }
}

causes! {
    /// Why bytes are not a block of DAG-PB, or have no data model, or why data is not written as one.
    enum NodeRefusal {
        -53 Truncated "a field of the node is cut short",
        -54 InvalidVarint "a number of the node is too large",
        -55 UnexpectedField "a field of the node cannot be there",
        -56 NoHash "a link of the node has no CID",
        -57 InvalidCid "a link of the node has other bytes than a CID",
        -58 NameNotText "the name of a link is not UTF-8",
        -59 NotANode "the data is not that of a DAG-PB node",
        -60 UnsortedLinks "the links are not sorted by their names",
        NoBlock(Refusal) "the data is not a block, or there is no room"
    }
    /// Why bytes are not a block of DAG-PB, and where.
    struct NodeRefused {
        /// The offset of the fault; 0 for a name that is not UTF-8.
        place: usize
    }
}

impl fmt::Display for NodeRefusal {
    fn fmt(&self, f: &mut fmt::Formatter<'_>) -> fmt::Result {
        match self {
            NodeRefusal::NoBlock(refusal) => refusal.fmt(f),
            _ => f.write_str(self.words()),
        }
    }
}

/// What a number of the library says of a node, at this place, if what is put needs this much room.
pub(crate) fn node_answer(code: i32, needed: usize, place: usize) -> Result<(), NodeRefused> {
    match NodeRefusal::of_code(code) {
        Some(refusal) => Err(refusal.at(place)),
        None => match answer_of(code, needed) {
            Ok(_) => Ok(()), // 0
            Err(refusal) => Err(NodeRefusal::NoBlock(refusal).at(place)),
        },
    }
}

impl fmt::Display for Refusal {
    fn fmt(&self, f: &mut fmt::Formatter<'_>) -> fmt::Result {
        f.write_str(self.words())
    }
}

impl fmt::Display for CarRefusal {
    fn fmt(&self, f: &mut fmt::Formatter<'_>) -> fmt::Result {
        f.write_str(self.words())?;
        match self {
            CarRefusal::NoBlock(refusal) => write!(f, ": {refusal}"),
            _ => Ok(()),
        }
    }
}

/// The refusal if there is no room for what the library would put.
pub(crate) const NO_ROOM: i32 = -21;

/// What a number of the library says, if it asked for this much room.
pub(crate) fn answer_of(code: i32, needed: usize) -> Result<Kind, Refusal> {
    match (
        usize::try_from(code).map(|it| KINDS.get(it)),
        Refusal::of_code(code),
    ) {
        (Ok(Some(kind)), _) => Ok(*kind),
        (_, Some(refusal)) => Err(refusal),
        _ if code == NO_ROOM => Err(Refusal::NoRoom { needed }),
        _ => unreachable!("the library answers no {code}"),
    }
}
