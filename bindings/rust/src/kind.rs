//! The types of blocks and of EXT entries: numbers with names.

use std::fmt;

/// The type of a block: a number, of which an advisory block may have any.
///
/// ```
/// use hunk::Kind;
///
/// assert_eq!(format!("{:?}, {:?}", Kind(0x3E9), Kind(1234)), "CODE, Kind(1234)");
/// ```
#[derive(Clone, Copy, PartialEq, Eq, PartialOrd, Ord, Hash)]
#[repr(transparent)]
pub struct Kind(pub u32);

/// The type of an EXT entry.
///
/// ```
/// use hunk::EntryKind;
///
/// assert_eq!(EntryKind(129), EntryKind::REF32);
/// assert_eq!(format!("{:?}", EntryKind::COMMON), "COMMON");
/// ```
#[derive(Clone, Copy, PartialEq, Eq, PartialOrd, Ord, Hash)]
pub struct EntryKind(pub u32);

/// Gives numbers their names, as constants and in `Debug`.
macro_rules! named {
    ($of:ident: $($name:ident = $number:expr),*) => {
        impl $of {
            $(
                #[doc = concat!("The number of ", stringify!($name), ".")]
                pub const $name: $of = $of($number);
            )*
        }

        impl fmt::Debug for $of {
            fn fmt(&self, f: &mut fmt::Formatter<'_>) -> fmt::Result {
                match *self {
                    $($of::$name => f.write_str(stringify!($name)),)*
                    $of(number) => write!(f, "{}({number})", stringify!($of)),
                }
            }
        }
    };
}

named!(Kind: NAME = 0x3E8, CODE = 0x3E9, DATA = 0x3EA, BSS = 0x3EB, RELOC32 = 0x3EC, RELOC16 = 0x3ED, RELOC8 = 0x3EE,
    EXT = 0x3EF, SYMBOL = 0x3F0, DEBUG = 0x3F1, END = 0x3F2, DREL32 = 0x3F7, DREL16 = 0x3F8, DREL8 = 0x3F9,
    RELRELOC32 = 0x3FD, ABSRELOC16 = 0x3FE);

named!(EntryKind: SYMB = 0, DEF = 1, ABS = 2, REF32 = 129, COMMON = 130, REF16 = 131, REF8 = 132, DEXT32 = 133,
    DEXT16 = 134, DEXT8 = 135, RELREF32 = 136, RELCOMMON = 137, ABSREF16 = 138, ABSREF8 = 139);

impl Kind {
    /// Whether a block of this kind is the content of a hunk: CODE, DATA or BSS.
    ///
    /// ```
    /// use hunk::Kind;
    ///
    /// assert!(Kind::BSS.is_content() && !Kind::DEBUG.is_content());
    /// ```
    #[must_use]
    pub fn is_content(self) -> bool {
        matches!(self, Kind::CODE | Kind::DATA | Kind::BSS)
    }
}

impl EntryKind {
    /// Whether the entry defines its name; all others refer to it.
    ///
    /// ```
    /// use hunk::EntryKind;
    ///
    /// assert!(EntryKind::DEF.is_definition() && !EntryKind::REF32.is_definition());
    /// ```
    #[must_use]
    pub fn is_definition(self) -> bool {
        self <= EntryKind::ABS
    }
}
