//! The readings of a library by a segment, an index or a word.

use super::answer::{Answer, Row, Tell};
use super::numbers::{Asks, Words};
use super::views::record;
use super::{Export, Rust, export, linked};
use crate::library::typeinfo_refusal;
use crate::readings::{Kind, NOTHING};
use crate::{
    ArrayDesc, ConstValue, Error, ImpFile, ResolvedHreftype, TypeDescription, TypeInfoEntry,
    TypeLib,
};

pub(super) fn exports() -> Vec<Export> {
    let mut exports = indexed();
    exports.extend(members());
    exports.extend(worded());
    exports
}

/// A typeinfo, or the number of the refusal.
impl Tell for Result<TypeInfoEntry<'_>, Error> {
    fn tell(self, lent: &[u8]) -> Answer {
        match self {
            Ok(typeinfo) => typeinfo.as_bytes().tell(lent),
            Err(error) => Answer::Refused(typeinfo_refusal(error)),
        }
    }
}

fn indexed() -> Vec<Export> {
    vec![
        export!(OneOut msft_segment, Asks::Segment, Library, |lib, [index, ..]| {
            let place = lib.segment(index);
            place.map(|(at, len)| Row::new().sizes([at, len])).tell(lib.data())
        }),
        export!(OneOut msft_segment_data, Asks::Segment, Library, |lib, [index, ..]| {
            lib.segment_data(index).tell(lib.data())
        }),
        export!(One msft_typeinfo_offset, Asks::Type, Library, |lib, [index, ..]| {
            lib.typeinfo_offset(index).tell(lib.data())
        }),
        export!(OneOut msft_typeinfo, Asks::Type, Library, |lib, [index, ..]| {
            lib.typeinfo(index).tell(lib.data())
        }),
        // The reference makes the list of the names.
        export!(TwoOut msft_member_name, Asks::Member, Library, |lib, [index, k, ..]| {
            lib.member_names(index).get(k).copied().tell(lib.data())
        }),
    ]
}

/// Exports that ask for a member of a typeinfo by its index: its identifier and the offset of its name
/// stand behind the typeinfo's records, its name in a table of the library.
macro_rules! of_members {
    ($rust:ident: $($form:ident $name:ident $method:ident),* $(,)?) => {
        vec![$(export!($form $name, Asks::Record(Kind::TypeInfo), $rust, |lib, numbers| {
            let Some(bytes) = record(lib, Kind::TypeInfo, numbers) else {
                return Answer::Refused(NOTHING);
            };
            lib.$method(&TypeInfoEntry::new(bytes), numbers[2]).tell(lib.data())
        })),*]
    };
}

fn members() -> Vec<Export> {
    let mut exports = of_members!(Lent:
        Three msft_func_memid func_memid,
        Three msft_var_memid var_memid,
        Three msft_func_name_offset func_name_offset,
        Three msft_var_name_offset var_name_offset,
    );
    exports.extend(of_members!(Library:
        ThreeOut msft_func_name func_name,
        ThreeOut msft_var_name var_name,
    ));
    exports
}

/// Exports that ask for what a word names, told as it is or made a row first.
macro_rules! of_words {
    ($($name:ident $words:ident $method:ident $($row:ident)?),* $(,)?) => {
        vec![$(export!(WordOut $name, Asks::Word(Words::$words), Library, |lib, [word, ..]| {
            let value = lib.$method(word as i32);
            $(let value = value.map(|value| $row(lib, value));)?
            value.tell(lib.data())
        })),*]
    };
}

fn worded() -> Vec<Export> {
    of_words!(
        msft_name_bytes Name name_bytes,
        msft_name Name name,
        msft_string Text string,
        msft_guid Guid guid,
        msft_type_desc Descriptor type_desc pair,
        msft_array_desc Array array_desc array,
        msft_type_description Descriptor type_description description,
        msft_imp_file ImportFile imp_file file,
        msft_resolve_hreftype Reference resolve_hreftype,
        msft_resolve_hreftype_full Reference resolve_hreftype_full reference,
        msft_const_value Constant const_value constant,
    )
}

fn pair(_: &TypeLib, (first, second): (i32, i32)) -> Row {
    Row::new().le(first.to_le_bytes()).le(second.to_le_bytes())
}

fn array(lib: &TypeLib, array: ArrayDesc) -> Row {
    Row::new().place(lib.data(), array.held())
}

fn file(lib: &TypeLib, file: ImpFile) -> Row {
    Row::new().place(lib.data(), file.held())
}

/// The case's code as document 01 has it in a sheet, and what the case holds.
fn description(lib: &TypeLib, description: TypeDescription) -> Row {
    let coded = |code: u8| Row::new().le([code]);
    match description {
        TypeDescription::Base(code) => coded(1).le(code.to_le_bytes()),
        TypeDescription::Pointer(field) => coded(2).le(field.to_le_bytes()),
        TypeDescription::SafeArray(field) => coded(3).le(field.to_le_bytes()),
        TypeDescription::CArray(array) => coded(4).place(lib.data(), array.held()),
        TypeDescription::UserDefined(href) => coded(5).le(href.to_le_bytes()),
    }
}

/// 1 and the index of a typeinfo; or 2, the import record, and 0 or 1 and the import file.
fn reference(lib: &TypeLib, reference: ResolvedHreftype) -> Row {
    let (imp_info, imp_file) = match reference {
        ResolvedHreftype::Internal(index) => return Row::new().le([1]).sizes([index]),
        ResolvedHreftype::External { imp_info, imp_file } => (imp_info, imp_file),
    };
    let row = Row::new().le([2]).place(lib.data(), imp_info.held());
    match imp_file {
        None => row.le([0]),
        Some(file) => row.le([1]).place(lib.data(), file.held()),
    }
}

/// The code of the constant's type, and the value at its own width: a float by its bits, a truth as
/// 0 or 1, a text as 0 where it is null, else 1 and its place.
fn constant(lib: &TypeLib, constant: ConstValue) -> Row {
    let row = Row::new().le(constant.vt().to_le_bytes());
    match constant {
        ConstValue::Empty | ConstValue::Null | ConstValue::Void => row,
        ConstValue::NullBstr => row.le([0]),
        ConstValue::Bstr(text) => row.le([1]).place(lib.data(), text),
        ConstValue::Decimal(bytes) => row.place(lib.data(), bytes),
        ConstValue::Bool(x) => row.le([u8::from(x)]),
        ConstValue::I1(x) => row.le(x.to_le_bytes()),
        ConstValue::UI1(x) => row.le(x.to_le_bytes()),
        ConstValue::I2(x) => row.le(x.to_le_bytes()),
        ConstValue::UI2(x) => row.le(x.to_le_bytes()),
        ConstValue::I4(x) | ConstValue::Error(x) => row.le(x.to_le_bytes()),
        ConstValue::Int(x) | ConstValue::Hresult(x) => row.le(x.to_le_bytes()),
        ConstValue::UI4(x) | ConstValue::UInt(x) => row.le(x.to_le_bytes()),
        ConstValue::R4(x) => row.le(x.to_bits().to_le_bytes()),
        ConstValue::R8(x) | ConstValue::Date(x) => row.le(x.to_bits().to_le_bytes()),
        ConstValue::Cy(x) | ConstValue::I8(x) => row.le(x.to_le_bytes()),
        ConstValue::UI8(x) | ConstValue::Filetime(x) => row.le(x.to_le_bytes()),
        ConstValue::Raw { bits, .. } => row.le(bits.to_le_bytes()),
    }
}
