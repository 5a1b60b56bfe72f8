// @generated: erased from crates/target_lexicon/src/data_model.rt by tools/erase. Don't edit it here.
//! The data models of C, and the sizes of its types.

/// The size of a type.
///
/// # Examples
///
/// ```
/// use target_lexicon::{CDataModel, Size};
///
/// assert_eq!(CDataModel::LP64.long_size(), Size::U64);
/// ```
#[derive(Clone, Copy, Debug, PartialEq, Eq, Hash)]
pub enum Size {
    /// 8 bits.
    U8,
    /// 16 bits.
    U16,
    /// 32 bits.
    U32,
    /// 64 bits.
    U64,
}

impl Size {
    /// The number of bits.
    ///
    /// # Examples
    ///
    /// ```
    /// assert_eq!(target_lexicon::Size::U16.bits(), 16);
    /// ```
    pub const fn bits(self) -> u8 {
        match self {
            Size::U8 => 8,
            Size::U16 => 16,
            Size::U32 => 32,
            Size::U64 => 64,
        }
    }

    /// The number of bytes, of 8 bits each.
    ///
    /// # Examples
    ///
    /// ```
    /// assert_eq!(target_lexicon::Size::U16.bytes(), 2);
    /// ```
    pub const fn bytes(self) -> u8 {
        match self {
            Size::U8 => 1,
            Size::U16 => 2,
            Size::U32 => 4,
            Size::U64 => 8,
        }
    }
}

/// The sizes of C's types: <https://en.cppreference.com/w/c/language/arithmetic_types>
///
/// # Examples
///
/// ```
/// use target_lexicon::{CDataModel, TripleRef};
///
/// let triple = TripleRef::from_str("x86_64-unknown-linux-gnu").unwrap();
/// assert_eq!(triple.data_model(), Ok(CDataModel::LP64));
/// ```
#[non_exhaustive]
#[derive(Clone, Copy, Debug, PartialEq, Eq, Hash)]
pub enum CDataModel {
    /// Mostly on 16-bit Windows: `long` and pointers have 32 bits.
    LP32,
    /// Mostly on 32-bit Windows and 32-bit Unix: `int`, `long` and pointers have 32 bits.
    ILP32,
    /// Mostly on 64-bit Windows: `long long` and pointers have 64 bits.
    LLP64,
    /// Mostly on 64-bit Unix: `long` and pointers have 64 bits.
    LP64,
    /// Rare, on early 64-bit Unix systems: `int`, `long` and pointers have 64 bits.
    ILP64,
}

impl CDataModel {
    /// The name of the model.
    pub(crate) const fn name(self) -> &'static str {
        match self {
            CDataModel::LP32 => "LP32",
            CDataModel::ILP32 => "ILP32",
            CDataModel::LLP64 => "LLP64",
            CDataModel::LP64 => "LP64",
            CDataModel::ILP64 => "ILP64",
        }
    }

    /// The size of a pointer in the default address space.
    ///
    /// # Examples
    ///
    /// ```
    /// use target_lexicon::{CDataModel, Size};
    ///
    /// assert_eq!(CDataModel::LLP64.pointer_width(), Size::U64);
    /// ```
    pub const fn pointer_width(self) -> Size {
        match self {
            CDataModel::LP32 | CDataModel::ILP32 => Size::U32,
            CDataModel::LLP64 | CDataModel::LP64 | CDataModel::ILP64 => Size::U64,
        }
    }

    /// The size of a C `short`. C requires at least 16 bits.
    ///
    /// # Examples
    ///
    /// ```
    /// use target_lexicon::{CDataModel, Size};
    ///
    /// assert_eq!(CDataModel::LLP64.short_size(), Size::U16);
    /// ```
    pub const fn short_size(self) -> Size {
        match self {
            CDataModel::LP32
            | CDataModel::ILP32
            | CDataModel::LLP64
            | CDataModel::LP64
            | CDataModel::ILP64 => Size::U16,
        }
    }

    /// The size of a C `int`. C requires at least 16 bits.
    ///
    /// # Examples
    ///
    /// ```
    /// use target_lexicon::{CDataModel, Size};
    ///
    /// assert_eq!(CDataModel::LLP64.int_size(), Size::U32);
    /// ```
    pub const fn int_size(self) -> Size {
        match self {
            CDataModel::LP32 => Size::U16,
            CDataModel::ILP32 | CDataModel::LLP64 | CDataModel::LP64 => Size::U32,
            CDataModel::ILP64 => Size::U64,
        }
    }

    /// The size of a C `long`. C requires at least 32 bits.
    ///
    /// # Examples
    ///
    /// ```
    /// use target_lexicon::{CDataModel, Size};
    ///
    /// assert_eq!(CDataModel::LLP64.long_size(), Size::U32);
    /// ```
    pub const fn long_size(self) -> Size {
        match self {
            CDataModel::LP32 | CDataModel::ILP32 | CDataModel::LLP64 => Size::U32,
            CDataModel::LP64 | CDataModel::ILP64 => Size::U64,
        }
    }

    /// The size of a C `long long`. C requires at least 64 bits.
    ///
    /// # Examples
    ///
    /// ```
    /// use target_lexicon::{CDataModel, Size};
    ///
    /// assert_eq!(CDataModel::LLP64.long_long_size(), Size::U64);
    /// ```
    pub const fn long_long_size(self) -> Size {
        match self {
            CDataModel::LP32
            | CDataModel::ILP32
            | CDataModel::LLP64
            | CDataModel::LP64
            | CDataModel::ILP64 => Size::U64,
        }
    }

    /// The size of a C `float`.
    ///
    /// # Examples
    ///
    /// ```
    /// use target_lexicon::{CDataModel, Size};
    ///
    /// assert_eq!(CDataModel::LLP64.float_size(), Size::U32);
    /// ```
    pub const fn float_size(self) -> Size {
        Size::U32
    }

    /// The size of a C `double`.
    ///
    /// # Examples
    ///
    /// ```
    /// use target_lexicon::{CDataModel, Size};
    ///
    /// assert_eq!(CDataModel::LLP64.double_size(), Size::U64);
    /// ```
    pub const fn double_size(self) -> Size {
        Size::U64
    }
}
