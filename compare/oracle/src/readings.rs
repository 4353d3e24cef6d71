//! What the reference answers to every method of a record, as bytes.

use crate::text_check::{TextCheck, text_check};
use crate::{
    ArrayDesc, FuncRecord, Guid, GuidEntry, ImpFile, ImpInfo, NameEntry, ParameterInfo, RefRecord,
    SafeArrayBound, TypeInfoEntry, TypeKind, VarRecord, vt_name,
};

/// What is asked: a kind of record, one of two conversions from a number, or the check of a text.
/// The discriminant is the kind's number in the recorded file.
#[derive(Clone, Copy, Debug, PartialEq, Eq, PartialOrd, Ord, Hash)]
#[repr(u8)]
pub enum Kind {
    Guid = 0,
    GuidEntry = 1,
    Param = 2,
    RefRecord = 3,
    ImpInfo = 4,
    ArrayDesc = 5,
    ImpFile = 6,
    TypeInfo = 7,
    Var = 8,
    Func = 9,
    VtName = 10,
    TypeKind = 11,
    Name = 12,
    TextCheck = 13,
}

impl Kind {
    /// Every kind, by number.
    pub const ALL: [Kind; 14] = [
        Kind::Guid,
        Kind::GuidEntry,
        Kind::Param,
        Kind::RefRecord,
        Kind::ImpInfo,
        Kind::ArrayDesc,
        Kind::ImpFile,
        Kind::TypeInfo,
        Kind::Var,
        Kind::Func,
        Kind::VtName,
        Kind::TypeKind,
        Kind::Name,
        Kind::TextCheck,
    ];

    /// The kind's name in what the replay prints.
    pub fn name(self) -> &'static str {
        match self {
            Kind::Guid => "guid",
            Kind::GuidEntry => "guidentry",
            Kind::Param => "param",
            Kind::RefRecord => "refrecord",
            Kind::ImpInfo => "impinfo",
            Kind::ArrayDesc => "arraydesc",
            Kind::ImpFile => "impfile",
            Kind::TypeInfo => "typeinfo",
            Kind::Var => "var",
            Kind::Func => "func",
            Kind::VtName => "vt_name",
            Kind::TypeKind => "typekind",
            Kind::Name => "name",
            Kind::TextCheck => "textcheck",
        }
    }

    /// Whether this is asked of a place, as a kind of record or a text is, and is no conversion from a number.
    pub fn is_record(self) -> bool {
        !matches!(self, Kind::VtName | Kind::TypeKind)
    }

    /// The length below which the reference holds no record of this kind.
    /// It names no constant for a GUID's 16 bytes and an array descriptor's 8. A name entry holds a
    /// text of any length, and a text of any length is checked.
    pub fn fixed_part(self) -> usize {
        match self {
            Kind::Guid => 16,
            Kind::GuidEntry => GuidEntry::SIZE,
            Kind::Param => ParameterInfo::SIZE,
            Kind::RefRecord => RefRecord::SIZE,
            Kind::ImpInfo => ImpInfo::SIZE,
            Kind::ArrayDesc => 8,
            Kind::ImpFile => ImpFile::HEADER_SIZE,
            Kind::TypeInfo => TypeInfoEntry::SIZE,
            Kind::Var => VarRecord::BASE_SIZE,
            Kind::Func => FuncRecord::BASE_SIZE,
            Kind::VtName | Kind::TypeKind | Kind::Name | Kind::TextCheck => 0,
        }
    }
}

/// One method's answer.
pub struct Reading {
    pub method: &'static str,
    /// Whether the method can answer `None` for a record that the reference holds.
    pub optional: bool,
    /// `VALUE` and the value at its own width, or `NOTHING` alone.
    pub answer: Vec<u8>,
}

/// The first byte of an answer that is a value.
pub const VALUE: u8 = 0;
/// Document 01's number for the reference's `None`, and for a record that it cannot hold.
pub const NOTHING: u8 = 9;

/// The answers of all methods of `kind` for the `len` bytes at `at` of the lent bytes, in the
/// order in which the reference's file declares them. `arg` is the index for the methods that take
/// one, the number itself for `VtName` and `TypeKind`, and what the numbers of a name entry are made
/// from.
///
/// A record not wholly inside the lent bytes, or shorter than its fixed part, is one that the
/// reference never holds: document 01 makes it `NOTHING` to every method, and the reference is not
/// asked. The only exception is `VarRecord::from_raw`, which itself refuses a record too short.
pub fn readings(kind: Kind, lent: &[u8], at: u32, len: u32, arg: u32) -> Vec<Reading> {
    let start = at as usize;
    let inside = lent.get(start..start + len as usize);
    let whole = inside.filter(|bytes| bytes.len() >= kind.fixed_part());
    let index = arg as usize;

    // Names the methods to call on the record, if there is one.
    macro_rules! methods {
        ($record:expr; $($method:ident $(($arg:expr))?),* $(,)?) => {{
            let record = $record;
            vec![$(reading(
                stringify!($method),
                lent,
                record.map(|record| record.$method($($arg)?)),
            )),*]
        }};
    }

    match kind {
        Kind::Guid => methods!(whole.map(Guid::new);
            as_bytes, data1, data2, data3, data4, to_string,
        ),
        Kind::GuidEntry => methods!(whole.map(GuidEntry::new);
            guid, hreftype, next_hash,
        ),
        Kind::Param => methods!(whole.map(ParameterInfo::new);
            datatype, name_offset, flags, is_in, is_out, is_retval, is_optional,
        ),
        Kind::RefRecord => methods!(whole.map(RefRecord::new);
            reftype, flags, onext, is_default, is_source, is_restricted,
        ),
        Kind::ImpInfo => methods!(whole.map(ImpInfo::new);
            flags, imp_file_offset, guid_offset,
        ),
        Kind::ArrayDesc => methods!(whole.map(ArrayDesc::new);
            element_type, num_dims, flags, bound(index), size,
        ),
        Kind::ImpFile => methods!(whole.map(ImpFile::new);
            guid_offset, lcid, major_version, minor_version, size_field, filename,
            filename_bytes, entry_size,
        ),
        Kind::TypeInfo => methods!(whole.map(TypeInfoEntry::new);
            as_bytes, typekind, typekind_raw, memoffset, res2, celement, func_count, var_count,
            guid_offset, flags, name_offset, version, docstring_offset, cimpltypes, cb_size_vft,
            size, datatype1, datatype2, helpstringcontext, helpcontext, cust_data_offset, res3,
            res18, res19,
        ),
        Kind::Var => {
            let made = inside.and_then(|bytes| VarRecord::from_raw(bytes).ok());
            let mut readings = vec![reading("from_raw", lent, made)];
            readings.extend(methods!(whole.map(VarRecord::new);
                as_bytes, info, record_size, datatype, flags, varkind, vardesc_size, offs_value,
                help_context, help_string_offset, res9, cust_data_offset, helpstringcontext,
            ));
            readings
        }
        Kind::Func => methods!(whole.map(FuncRecord::new);
            as_bytes, info, record_size, datatype, flags, vtable_offset, funcdesc_size, fkccic,
            func_kind, invoke_kind, callconv, nrargs, nroargs, has_default_values,
            default_value_offset(index), has_cust_data, has_arg_cust_data, help_context,
            help_string_offset, oentry, res9, res_a, helpstringcontext, cust_data_offset,
            arg_cust_data_offset(index),
        ),
        Kind::VtName => {
            let code = u16::try_from(arg).expect("a type code has 16 bits");
            vec![reading("vt_name", lent, Some(vt_name(code).to_string()))]
        }
        Kind::TypeKind => {
            let raw = u8::try_from(arg).expect("a raw type kind has 8 bits");
            let typekind = TypeKind::from_raw(raw);
            vec![
                reading("from_raw", lent, Some(typekind)),
                reading("to_string", lent, Some(typekind.to_string())),
            ]
        }
        Kind::Name => name_readings(lent, inside, arg),
        Kind::TextCheck => vec![reading("text_check", lent, inside.map(text_check))],
    }
}

/// A name entry with that text. The reference holds none whose text is not UTF-8 or not inside the
/// lent bytes, and only the name is asked for then: the numbers need no bytes.
fn name_readings(lent: &[u8], text: Option<&[u8]>, arg: u32) -> Vec<Reading> {
    let text = text.and_then(|bytes| std::str::from_utf8(bytes).ok());
    let entry = text.map(|text| {
        let (hreftype, next_hash) = (arg as i32, !arg as i32);
        let (flags, hashcode) = (arg as u8, (arg >> 16) as u16);
        NameEntry::new(arg as usize, text, hreftype, next_hash, flags, hashcode)
    });
    let name = entry.as_ref().map(NameEntry::name);
    let mut readings = vec![reading("name", lent, Some(name))];
    if let Some(entry) = entry {
        readings.push(reading("offset", lent, Some(entry.offset())));
        readings.push(reading("hreftype", lent, Some(entry.hreftype())));
        readings.push(reading("next_hash", lent, Some(entry.next_hash())));
        readings.push(reading("name_flags", lent, Some(entry.name_flags())));
        readings.push(reading("hashcode", lent, Some(entry.hashcode())));
    }
    readings
}

/// The answer of one method; `None` where there is no record to ask.
pub(crate) fn reading<T: Reply>(method: &'static str, lent: &[u8], reply: Option<T>) -> Reading {
    let mut answer = Vec::new();
    reply.write(lent, &mut answer);
    Reading {
        method,
        optional: T::OPTIONAL,
        answer,
    }
}

/// A method's result, written as an answer. The method's own type decides the width.
pub(crate) trait Reply {
    /// Whether this type has a case for "nothing there".
    const OPTIONAL: bool = false;

    fn write(self, lent: &[u8], answer: &mut Vec<u8>);
}

impl<T: Reply> Reply for Option<T> {
    const OPTIONAL: bool = true;

    fn write(self, lent: &[u8], answer: &mut Vec<u8>) {
        match self {
            Some(reply) => reply.write(lent, answer),
            None => answer.push(NOTHING),
        }
    }
}

macro_rules! reply_at_own_width {
    ($($number:ty),*) => {$(
        impl Reply for $number {
            fn write(self, _: &[u8], answer: &mut Vec<u8>) {
                answer.push(VALUE);
                answer.extend(self.to_le_bytes());
            }
        }
    )*};
}

reply_at_own_width!(u8, u16, i16, u32, i32, u64);

impl Reply for bool {
    fn write(self, lent: &[u8], answer: &mut Vec<u8>) {
        u8::from(self).write(lent, answer);
    }
}

impl Reply for usize {
    fn write(self, lent: &[u8], answer: &mut Vec<u8>) {
        (self as u64).write(lent, answer);
    }
}

/// A part of the lent bytes: its place among them and its length.
impl Reply for &[u8] {
    fn write(self, lent: &[u8], answer: &mut Vec<u8>) {
        place_in(lent, self).write(lent, answer);
        answer.extend((self.len() as u64).to_le_bytes());
    }
}

/// A text that is a part of the lent bytes.
impl Reply for &str {
    fn write(self, lent: &[u8], answer: &mut Vec<u8>) {
        self.as_bytes().write(lent, answer);
    }
}

/// A text that the reference makes.
impl Reply for String {
    fn write(self, lent: &[u8], answer: &mut Vec<u8>) {
        let length = u8::try_from(self.len()).expect("the reference makes short texts only");
        length.write(lent, answer);
        answer.extend(self.as_bytes());
    }
}

impl Reply for Guid<'_> {
    fn write(self, lent: &[u8], answer: &mut Vec<u8>) {
        self.as_bytes().write(lent, answer);
    }
}

impl Reply for VarRecord<'_> {
    fn write(self, lent: &[u8], answer: &mut Vec<u8>) {
        self.as_bytes().write(lent, answer);
    }
}

/// The case's number, 8 for `Unknown`, and then the number that `Unknown` holds or 0.
impl Reply for TypeKind {
    fn write(self, lent: &[u8], answer: &mut Vec<u8>) {
        let (case, held): (u8, u8) = match self {
            TypeKind::Enum => (0, 0),
            TypeKind::Record => (1, 0),
            TypeKind::Module => (2, 0),
            TypeKind::Interface => (3, 0),
            TypeKind::Dispatch => (4, 0),
            TypeKind::CoClass => (5, 0),
            TypeKind::Alias => (6, 0),
            TypeKind::Union => (7, 0),
            TypeKind::Unknown(number) => (8, number),
        };
        case.write(lent, answer);
        answer.push(held);
    }
}

impl Reply for SafeArrayBound {
    fn write(self, lent: &[u8], answer: &mut Vec<u8>) {
        self.count().write(lent, answer);
        answer.extend(self.lower_bound().to_le_bytes());
    }
}

impl Reply for TextCheck {
    fn write(self, _: &[u8], answer: &mut Vec<u8>) {
        answer.push(VALUE);
        answer.extend(self.bytes());
    }
}

/// Where a part of the lent bytes begins among them.
pub(crate) fn place_in(lent: &[u8], part: &[u8]) -> usize {
    let place = part.as_ptr().addr() - lent.as_ptr().addr();
    assert!(
        place + part.len() <= lent.len(),
        "the part is none of the lent bytes"
    );
    place
}
