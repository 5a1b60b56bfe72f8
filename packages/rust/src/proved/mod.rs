// @generated: erased from crates/lexicon_fields/src/lib.rt and crates/target_lexicon/src/lib.rt by tools/erase. Don't edit it here.
pub(crate) mod architecture;
pub(crate) mod binary_format;
pub(crate) mod calling_convention;
pub(crate) mod data_model;
pub(crate) mod decimal;
pub(crate) mod default_format;
pub(crate) mod defaults;
pub(crate) mod deployment_target;
pub(crate) mod display;
pub(crate) mod endianness;
pub(crate) mod environment;
pub(crate) mod exception;
pub(crate) mod explanation;
pub(crate) mod field;
pub(crate) mod known_vendor;
pub(crate) mod operating_system;
pub(crate) mod parse;
pub(crate) mod pointer_width;
pub(crate) mod queries;
pub(crate) mod reading;
pub(crate) mod refusal;
pub(crate) mod settle;
pub(crate) mod settles_as;
pub(crate) mod special;
pub(crate) mod table;
pub(crate) mod triple;
pub(crate) mod triple_ref;
pub(crate) mod vendor;
pub(crate) mod vendor_ref;

pub use architecture::Architecture;
pub use architecture::{
    Aarch64Architecture, ArmArchitecture, CleverArchitecture, Mips32Architecture,
    Mips64Architecture, Riscv32Architecture, Riscv64Architecture, X86_32Architecture,
    Z80Architecture,
};
pub use binary_format::BinaryFormat;
pub use calling_convention::CallingConvention;
pub use data_model::{CDataModel, Size};
pub use default_format::default_binary_format;
pub use defaults::{DefaultToHost, DefaultToUnknown};
pub use deployment_target::{version_text, DeploymentTarget, MAX_VERSION_LENGTH};
pub use endianness::Endianness;
pub use environment::Environment;
pub use exception::RoundTripException;
pub use explanation::{Explanation, Source, Sources, TextPart};
pub use field::Field;
pub use known_vendor::KnownVendor;
pub use operating_system::OperatingSystem;
pub use parse::explain;
pub use pointer_width::PointerWidth;
pub use refusal::{refusal_prefix, Refusal};
pub use table::fixed_row;
pub use triple::Triple;
pub use triple_ref::TripleRef;
pub use vendor::{CustomVendor, Vendor};
pub use vendor_ref::VendorRef;
