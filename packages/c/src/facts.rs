//! The facts of a triple, as numbers: where an enum has no answer, 0, and otherwise 1 more than its index. The
//! functions return wide values, and so are inlined.
use crate::fact_groups::{DriverFacts, FormatFacts, QueryFacts};
use target_lexicon::{CDataModel, TripleRef};
use target_names::TypeLayout;

/// The sizes of C's types in bytes; all 0 if they aren't known.
#[repr(C)]
#[derive(Clone, Copy)]
pub struct TypeSizes {
    pub short: u8,
    pub int: u8,
    pub long: u8,
    pub long_long: u8,
    pub float: u8,
    pub double: u8,
}

/// The layout of a type of C in bytes; both numbers are 0 if there is no answer.
#[repr(C)]
pub struct LayoutNumbers {
    pub size: u8,
    pub alignment: u8,
}

/// Facts, and those of the next group. A later version adds a group at the end.
#[repr(C)]
pub struct Both<First, Next>(First, Next);

pub type FirstFacts = Both<QueryFacts, FormatFacts>;
pub type Facts = Both<FirstFacts, DriverFacts>;

impl<'a, First: From<&'a TripleRef<'a>>, Next: From<&'a TripleRef<'a>>> From<&'a TripleRef<'a>> for Both<First, Next> {
    #[inline(always)]
    fn from(triple: &'a TripleRef<'a>) -> Self {
        Both(triple.into(), triple.into())
    }
}

impl AsMut<QueryFacts> for QueryFacts {
    fn as_mut(&mut self) -> &mut QueryFacts {
        self
    }
}

impl<First: AsMut<QueryFacts>, Next> AsMut<QueryFacts> for Both<First, Next> {
    fn as_mut(&mut self) -> &mut QueryFacts {
        self.0.as_mut()
    }
}

impl From<Option<TypeLayout>> for LayoutNumbers {
    fn from(layout: Option<TypeLayout>) -> LayoutNumbers {
        let (size, alignment) = layout.map_or((0, 0), |it| (it.size, it.alignment));
        LayoutNumbers { size, alignment }
    }
}

/// The sizes of C's types by the number of the data model; all 0 without one.
pub(crate) static TYPE_SIZES: [TypeSizes; 6] = [
    TypeSizes { short: 0, int: 0, long: 0, long_long: 0, float: 0, double: 0 },
    TypeSizes::new(target_names::TypeSizes::in_model(CDataModel::LP32)),
    TypeSizes::new(target_names::TypeSizes::in_model(CDataModel::ILP32)),
    TypeSizes::new(target_names::TypeSizes::in_model(CDataModel::LLP64)),
    TypeSizes::new(target_names::TypeSizes::in_model(CDataModel::LP64)),
    TypeSizes::new(target_names::TypeSizes::in_model(CDataModel::ILP64)),
];

impl TypeSizes {
    pub(crate) const fn new(of: target_names::TypeSizes) -> TypeSizes {
        let target_names::TypeSizes { short, int, long, long_long, float, double, .. } = of;
        TypeSizes { short, int, long, long_long, float, double }
    }
}
