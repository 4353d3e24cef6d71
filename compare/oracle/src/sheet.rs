//! The sheet of a library: its description laid out as document 01 says, with document 02's code 3 for a reference that
//! hits no typeinfo, from the reference's own readings.
//!
//! Nothing here follows the product. The two meet only in their bytes, which `compare_sheets`
//! compares and `bench_sheets` times; so this is also written as one would write it for speed: one
//! pass into a vector, with lengths and counts filled in behind.

pub mod places;

use std::mem;

use crate::misplaced::misplaced_offset;
use crate::{
    ArrayDesc, ConstValue, Error, FuncRecord, Guid, ImpFile, ImpInfo, ParameterInfo,
    ResolvedHreftype, TypeDescription, TypeInfoEntry, TypeKind, TypeLib, VarRecord,
};
use places::{C_ARRAY, Field, POINTER, SAFE_ARRAY};

#[cfg(test)]
mod tests;

/// The numbers of refusal that a sheet call can give.
pub mod refusal {
    pub const OVER_LONG: u8 = 1;
    pub const SHORT_HEADER: u8 = 2;
    pub const WRONG_MAGIC: u8 = 3;
    pub const BAD_COUNT: u8 = 4;
    pub const SHORT_DIRECTORY: u8 = 5;
    pub const NO_SUCH_TYPEINFO: u8 = 6;
    pub const NO_TYPEINFO_TABLE: u8 = 7;
    pub const SHORT_TYPEINFO: u8 = 8;
    pub const CIRCLE: u8 = 10;
    pub const TOO_DEEP: u8 = 11;
    pub const NO_SPACE: u8 = 12;
    pub const TOO_MANY_TYPES: u8 = 13;

    /// All of them.
    pub const ALL: [u8; 12] = [1, 2, 3, 4, 5, 6, 7, 8, 10, 11, 12, 13];
}

/// The longest input and the longest sheet, in bytes.
pub const MOST_BYTES: usize = 16_777_216;

/// The most types of a sheet: a reference holds an index in 16 bits.
pub const MOST_TYPES: usize = 65_535;

/// The most descriptions of a tree, the outermost and the base included.
const MOST_NESTED: usize = 32;

/// The sheet program's longest input and longest sheet, in bytes.
pub const PROGRAM_BYTES: usize = 65_536;

/// `PARAMFLAG_FHASDEFAULT`: the parameter has a default value.
const HAS_DEFAULT: u32 = 0x20;

/// The variable's kind (0x0C) whose 0x10 is a constant.
const CONSTANT_VARIABLE: i16 = 2;

/// The import flag that says that 0x08 is a GUID's offset.
const IMPORT_HAS_GUID: u32 = 0x1_0000;

/// Hears what a sheet is made of, so that a run can tell what its inputs covered. Asking nobody,
/// `()`, costs nothing.
pub trait Watch {
    /// A field that is a reference or a tree begins.
    fn field(&mut self, _field: Field) {}
    /// A description of a tree, by its code.
    fn tree(&mut self, _code: u8) {}
    /// A constant that was read, by its code, and whether it was stored or inline.
    fn constant(&mut self, _code: u16, _stored: bool) {}
    /// A reference, by its code, and its bit 0x01000000.
    fn reference(&mut self, _code: u8, _mark: u8) {}
    /// A type, by the low four bits that decide its base.
    fn base(&mut self, _kind: u8) {}
    /// An opt field or a text, by what it would hold, and whether it holds it.
    fn opt(&mut self, _what: &'static str, _is_there: bool) {}
}

impl Watch for () {}

/// The library's sheet, of at most `room` bytes, or the number of the refusal.
pub fn sheet(bytes: &[u8], room: usize) -> Result<Vec<u8>, u8> {
    watched_sheet(bytes, room, &mut ())
}

/// The sheet as [`sheet`] gives it, with a listener.
pub fn watched_sheet<W: Watch>(bytes: &[u8], room: usize, watch: &mut W) -> Result<Vec<u8>, u8> {
    let mut out = Vec::new();
    lay_out(bytes, room, &mut out, watch).map(|()| out)
}

/// Lays the sheet into a vector that may have been used before, in place of what it held. After a
/// refusal it holds nothing of use.
pub fn sheet_into(bytes: &[u8], room: usize, out: &mut Vec<u8>) -> Result<(), u8> {
    lay_out(bytes, room, out, &mut ())
}

/// What the sheet program prints for this input, without the newline.
pub fn program_line(input: &[u8]) -> String {
    if input.len() > PROGRAM_BYTES {
        return format!("refused {}", refusal::OVER_LONG);
    }
    match sheet(input, PROGRAM_BYTES) {
        Ok(sheet) => sheet.iter().map(|byte| format!("{byte:02x}")).collect(),
        Err(number) => format!("refused {number}"),
    }
}

fn lay_out<W: Watch>(
    bytes: &[u8],
    room: usize,
    out: &mut Vec<u8>,
    watch: &mut W,
) -> Result<(), u8> {
    if bytes.len() > MOST_BYTES {
        return Err(refusal::OVER_LONG);
    }
    let lib = TypeLib::parse(bytes).map_err(|error| parse_refusal(&error))?;
    if lib.typeinfo_count() > MOST_TYPES {
        return Err(refusal::TOO_MANY_TYPES);
    }
    out.clear();
    out.reserve(room.min(bytes.len()));
    let mut writer = Writer {
        lib: &lib,
        bytes: mem::take(out),
        left: room.min(MOST_BYTES),
        is_full: false,
        watch,
    };
    let reply = writer.sheet();
    *out = writer.bytes;
    reply
}

/// The number for a failed `parse`. Every negative count fails it as a count that overflows.
fn parse_refusal(error: &Error) -> u8 {
    match error {
        Error::TooShort { expected, .. } if *expected == TypeLib::HEADER_SIZE => {
            refusal::SHORT_HEADER
        }
        Error::TooShort { .. } => refusal::SHORT_DIRECTORY,
        Error::BadMagic { .. } => refusal::WRONG_MAGIC,
        Error::InvalidData { .. } | Error::TypeInfoOutOfRange { .. } => refusal::BAD_COUNT,
    }
}

/// The number for a failed `typeinfo`. The offset table lies inside the bytes once they are
/// parsed, so the data that can be invalid is the missing segment.
fn typeinfo_refusal(error: &Error) -> u8 {
    match error {
        Error::TypeInfoOutOfRange { .. } | Error::BadMagic { .. } => refusal::NO_SUCH_TYPEINFO,
        Error::InvalidData { .. } => refusal::NO_TYPEINFO_TABLE,
        Error::TooShort { .. } => refusal::SHORT_TYPEINFO,
    }
}

/// Looks at a type for a refusal alone, in the order of its body. A sheet that is too long is
/// refused last, so every type behind the full output is still looked at.
fn look_for_refusals(lib: &TypeLib, typeinfo: &TypeInfoEntry) -> Result<(), u8> {
    match typeinfo.typekind() {
        TypeKind::CoClass => {
            let mut chain = Chain::new(typeinfo.datatype1());
            for record in lib.impl_types(typeinfo) {
                chain.step(record.onext())?;
            }
        }
        TypeKind::Alias => look_at_depth(lib, typeinfo.datatype1())?,
        _ => {}
    }
    for func in lib.funcs(typeinfo) {
        look_at_depth(lib, func.datatype())?;
        for param in lib.params(&func) {
            look_at_depth(lib, param.datatype())?;
        }
    }
    for var in lib.vars(typeinfo) {
        look_at_depth(lib, var.datatype())?;
    }
    Ok(())
}

/// Refuses a tree of more descriptions than a sheet holds.
fn look_at_depth(lib: &TypeLib, mut datatype: i32) -> Result<(), u8> {
    for _ in 0..MOST_NESTED {
        datatype = match lib.type_description(datatype) {
            Some(TypeDescription::Pointer(inner) | TypeDescription::SafeArray(inner)) => inner,
            Some(TypeDescription::CArray(array)) if has_all_bounds(&array) => array.element_type(),
            _ => return Ok(()),
        };
    }
    Err(refusal::TOO_DEEP)
}

/// Whether the reading of each dimension yields one: it does if that of the last does.
fn has_all_bounds(array: &ArrayDesc) -> bool {
    match usize::from(array.num_dims()) {
        0 => true,
        count => array.bound(count - 1).is_some(),
    }
}

/// Tells whether a reference chain comes round, in constant space (Brent's algorithm): an offset
/// is marked, and the mark moves on after twice as many steps as the last time. A chain that
/// returns to an offset goes round for ever, so it meets a mark; one that meets a mark returns.
struct Chain {
    mark: i32,
    steps: u32,
    steps_to_next_mark: u32,
}

impl Chain {
    fn new(first: i32) -> Self {
        Chain {
            mark: first,
            steps: 0,
            steps_to_next_mark: 1,
        }
    }

    #[inline(always)]
    fn step(&mut self, next: i32) -> Result<(), u8> {
        if next == self.mark {
            return Err(refusal::CIRCLE);
        }
        self.steps += 1;
        if self.steps == self.steps_to_next_mark {
            self.mark = next;
            self.steps = 0;
            self.steps_to_next_mark *= 2;
        }
        Ok(())
    }
}

/// Lays the fields of one library behind one another.
struct Writer<'l, 'a, 'w, W> {
    lib: &'l TypeLib<'a>,
    bytes: Vec<u8>,
    /// How many more bytes the sheet may have.
    left: usize,
    /// Whether a field no longer fitted. From then on nothing is stored.
    is_full: bool,
    watch: &'w mut W,
}

impl<'a, W: Watch> Writer<'_, 'a, '_, W> {
    /// Contents, then bodies. The contents are filled in once a body's length is known.
    fn sheet(&mut self) -> Result<(), u8> {
        let count = self.lib.typeinfo_count();
        self.put((count as u32).to_le_bytes());
        let mut length_at = self.bytes.len();
        for _ in 0..=count {
            self.put([0; 4]);
        }
        let mut body_at = self.bytes.len();
        self.library();
        self.fill_in(length_at, self.length_since(body_at));
        for index in 0..count {
            let typeinfo = self.lib.typeinfo(index);
            let typeinfo = typeinfo.map_err(|error| typeinfo_refusal(&error))?;
            if self.is_full {
                look_for_refusals(self.lib, &typeinfo)?;
                continue;
            }
            length_at += 4;
            body_at = self.bytes.len();
            self.typeinfo(&typeinfo)?;
            self.fill_in(length_at, self.length_since(body_at));
        }
        if self.is_full {
            return Err(refusal::NO_SPACE);
        }
        Ok(())
    }

    #[inline(always)]
    fn put_bytes(&mut self, bytes: &[u8]) {
        if bytes.len() <= self.left {
            self.left -= bytes.len();
            self.bytes.extend_from_slice(bytes);
        } else {
            self.left = 0;
            self.is_full = true;
        }
    }

    #[inline(always)]
    fn put<const N: usize>(&mut self, field: [u8; N]) {
        self.put_bytes(&field);
    }

    /// The length of what was put since the sheet ended at `start`.
    fn length_since(&self, start: usize) -> [u8; 4] {
        ((self.bytes.len() - start) as u32).to_le_bytes()
    }

    /// Overwrites a field whose value was not known when it was put.
    fn fill_in<const N: usize>(&mut self, at: usize, field: [u8; N]) {
        if !self.is_full {
            self.bytes[at..at + N].copy_from_slice(&field);
        }
    }

    fn guid(&mut self, guid: Option<Guid>) {
        self.watch.opt("GUID", guid.is_some());
        match guid {
            None => self.put([0]),
            Some(guid) => {
                self.put([1]);
                self.put_bytes(guid.as_bytes());
            }
        }
    }

    /// An opt name: its length is a byte in the library too.
    fn name(&mut self, offset: Option<i32>) {
        let name = offset.and_then(|offset| self.lib.name_bytes(offset));
        self.watch.opt("name", name.is_some());
        match name {
            None => self.put([0]),
            Some(name) => {
                self.put([1, name.len() as u8]);
                self.put_bytes(name);
            }
        }
    }

    fn memid(&mut self, memid: Option<i32>) {
        self.watch.opt("memid", memid.is_some());
        match memid {
            None => self.put([0]),
            Some(memid) => {
                self.put([1]);
                self.put(memid.to_le_bytes());
            }
        }
    }

    fn library(&mut self) {
        let lib = self.lib;
        self.put(lib.lcid().to_le_bytes());
        self.put(lib.version().to_le_bytes());
        self.guid(lib.lib_guid());
        self.name(Some(lib.name_offset()));
    }

    fn typeinfo(&mut self, typeinfo: &TypeInfoEntry) -> Result<(), u8> {
        self.put([typeinfo.typekind_raw() as u8 & 0x0F]);
        self.put(typeinfo.flags().to_le_bytes());
        self.put(typeinfo.version().to_le_bytes());
        self.guid(self.lib.guid(typeinfo.guid_offset()));
        self.name(Some(typeinfo.name_offset()));
        self.put(typeinfo.func_count().to_le_bytes());
        self.put(typeinfo.var_count().to_le_bytes());
        self.base(typeinfo)?;
        self.funcs(typeinfo)?;
        self.vars(typeinfo)
    }

    fn base(&mut self, typeinfo: &TypeInfoEntry) -> Result<(), u8> {
        self.watch.base(typeinfo.typekind_raw() as u8 & 0x0F);
        let base = typeinfo.datatype1();
        match typeinfo.typekind() {
            TypeKind::CoClass => self.implemented(typeinfo)?,
            TypeKind::Interface => self.reference_field(Field::InterfaceBase, base),
            TypeKind::Dispatch => self.reference_field(Field::DispatchBase, base),
            TypeKind::Alias => self.tree(Field::Alias, base)?,
            _ => {}
        }
        Ok(())
    }

    /// The full walk along a coclass's references.
    fn implemented(&mut self, typeinfo: &TypeInfoEntry) -> Result<(), u8> {
        let count_at = self.bytes.len();
        self.put([0; 4]);
        let mut count = 0_u32;
        let mut chain = Chain::new(typeinfo.datatype1());
        for record in self.lib.impl_types(typeinfo) {
            chain.step(record.onext())?;
            count += 1;
            if !self.is_full {
                self.reference_field(Field::ChainRecord, record.reftype());
                self.put(record.flags().to_le_bytes());
            }
        }
        self.fill_in(count_at, count.to_le_bytes());
        Ok(())
    }

    fn funcs(&mut self, typeinfo: &TypeInfoEntry) -> Result<(), u8> {
        let count_at = self.bytes.len();
        self.put([0; 2]);
        let mut count = 0;
        for func in self.lib.funcs(typeinfo) {
            self.memid(self.lib.func_memid(typeinfo, count));
            self.name(self.lib.func_name_offset(typeinfo, count));
            self.func(&func)?;
            count += 1;
        }
        self.fill_in(count_at, (count as u16).to_le_bytes());
        Ok(())
    }

    fn func(&mut self, func: &FuncRecord<'a>) -> Result<(), u8> {
        self.tree(Field::Result, func.datatype())?;
        self.put(func.flags().to_le_bytes());
        self.put(func.vtable_offset().to_le_bytes());
        self.put(func.fkccic().to_le_bytes());
        self.put(func.nrargs().to_le_bytes());
        self.put(func.nroargs().to_le_bytes());
        let count_at = self.bytes.len();
        self.put([0; 2]);
        let mut count = 0;
        for param in self.lib.params(func) {
            self.param(func, count, &param)?;
            count += 1;
        }
        self.fill_in(count_at, (count as u16).to_le_bytes());
        Ok(())
    }

    fn param(&mut self, func: &FuncRecord, index: usize, param: &ParameterInfo) -> Result<(), u8> {
        self.tree(Field::Parameter, param.datatype())?;
        self.name(Some(param.name_offset()));
        self.put(param.flags().to_le_bytes());
        if param.flags() & HAS_DEFAULT == 0 {
            self.put([0]);
        } else {
            self.constant(func.default_value_offset(index));
        }
        Ok(())
    }

    fn vars(&mut self, typeinfo: &TypeInfoEntry) -> Result<(), u8> {
        let count_at = self.bytes.len();
        self.put([0; 2]);
        let mut count = 0;
        for var in self.lib.vars(typeinfo) {
            self.memid(self.lib.var_memid(typeinfo, count));
            self.name(self.lib.var_name_offset(typeinfo, count));
            self.var(&var)?;
            count += 1;
        }
        self.fill_in(count_at, (count as u16).to_le_bytes());
        Ok(())
    }

    fn var(&mut self, var: &VarRecord) -> Result<(), u8> {
        self.tree(Field::Variable, var.datatype())?;
        self.put(var.flags().to_le_bytes());
        self.put(var.varkind().to_le_bytes());
        if var.varkind() == CONSTANT_VARIABLE {
            self.constant(Some(var.offs_value()));
        } else {
            self.put(var.offs_value().to_le_bytes());
        }
        Ok(())
    }

    /// A tree has one branch, so it is a list of descriptions from the outermost inward.
    fn tree(&mut self, field: Field, mut datatype: i32) -> Result<(), u8> {
        self.watch.field(field);
        for _ in 0..MOST_NESTED {
            datatype = match self.lib.type_description(datatype) {
                Some(TypeDescription::Pointer(inner)) => {
                    self.code(POINTER);
                    inner
                }
                Some(TypeDescription::SafeArray(inner)) => {
                    self.code(SAFE_ARRAY);
                    inner
                }
                Some(TypeDescription::CArray(array)) if has_all_bounds(&array) => {
                    self.code(C_ARRAY);
                    self.bounds(&array);
                    array.element_type()
                }
                last => {
                    self.last_description(last);
                    return Ok(());
                }
            };
        }
        Err(refusal::TOO_DEEP)
    }

    /// A description with no other inside it.
    fn last_description(&mut self, description: Option<TypeDescription>) {
        match description {
            Some(TypeDescription::Base(code)) => {
                self.code(1);
                self.put(code.to_le_bytes());
            }
            Some(TypeDescription::UserDefined(reference)) => {
                self.code(5);
                self.reference(reference);
            }
            _ => self.code(0),
        }
    }

    #[inline(always)]
    fn code(&mut self, code: u8) {
        self.watch.tree(code);
        self.put([code]);
    }

    fn bounds(&mut self, array: &ArrayDesc) {
        self.put(array.num_dims().to_le_bytes());
        for bound in (0..usize::from(array.num_dims())).map_while(|index| array.bound(index)) {
            if self.is_full {
                break;
            }
            self.put(bound.count().to_le_bytes());
            self.put(bound.lower_bound().to_le_bytes());
        }
    }

    /// A reference that is a field of its own, and not the end of a tree.
    fn reference_field(&mut self, field: Field, reference: i32) {
        self.watch.field(field);
        self.reference(reference);
    }

    fn reference(&mut self, reference: i32) {
        let mark = u8::from(reference as u32 & TypeLib::DISPATCH_HREF_OFFSET != 0);
        // A reference that hits no typeinfo is told before the range of its index is looked at.
        if let Some(offset) = misplaced_offset(reference) {
            self.watch.reference(3, mark);
            self.put([3, mark]);
            self.put(offset.to_le_bytes());
            return;
        }
        match self.lib.resolve_hreftype_full(reference) {
            None => {
                self.watch.reference(0, mark);
                self.put([0]);
            }
            Some(ResolvedHreftype::Internal(index)) => {
                self.watch.reference(1, mark);
                self.put([1, mark]);
                self.put((index as u16).to_le_bytes());
            }
            Some(ResolvedHreftype::External { imp_info, imp_file }) => {
                self.watch.reference(2, mark);
                self.put([2, mark]);
                self.import(&imp_info, imp_file);
            }
        }
    }

    fn import(&mut self, info: &ImpInfo, file: Option<ImpFile>) {
        self.put(info.flags().to_le_bytes());
        if info.flags() & IMPORT_HAS_GUID != 0 {
            self.guid(self.lib.guid(info.guid_offset()));
        } else {
            self.put(info.guid_offset().to_le_bytes());
        }
        let file = file.and_then(|file| Some((file, file.filename_bytes()?)));
        self.watch.opt("import file", file.is_some());
        match file {
            None => self.put([0]),
            Some((file, name)) => {
                self.put([1]);
                self.guid(self.lib.guid(file.guid_offset()));
                self.put(file.lcid().to_le_bytes());
                self.put(file.major_version().to_le_bytes());
                self.put(file.minor_version().to_le_bytes());
                self.put((name.len() as u16).to_le_bytes());
                self.put_bytes(name);
            }
        }
    }

    /// An opt constant, from the number that names it.
    fn constant(&mut self, number: Option<i32>) {
        let constant = number.and_then(|number| Some((number, self.lib.const_value(number)?)));
        self.watch.opt("constant", constant.is_some());
        let Some((number, value)) = constant else {
            self.put([0]);
            return;
        };
        self.watch.constant(value.vt(), number >= 0);
        self.put([1]);
        self.put(value.vt().to_le_bytes());
        self.value(&value);
    }

    /// A constant's value at its own width.
    fn value(&mut self, value: &ConstValue) {
        use ConstValue::*;
        match *value {
            Empty | Null | Void => {}
            I1(value) => self.put(value.to_le_bytes()),
            UI1(value) => self.put([value]),
            Bool(value) => self.put([u8::from(value)]),
            I2(value) => self.put(value.to_le_bytes()),
            UI2(value) => self.put(value.to_le_bytes()),
            I4(value) | Error(value) | Int(value) | Hresult(value) => self.put(value.to_le_bytes()),
            UI4(value) | UInt(value) => self.put(value.to_le_bytes()),
            Raw { bits, .. } => self.put(bits.to_le_bytes()),
            R4(value) => self.put(value.to_bits().to_le_bytes()),
            R8(value) | Date(value) => self.put(value.to_bits().to_le_bytes()),
            Cy(value) | I8(value) => self.put(value.to_le_bytes()),
            UI8(value) | Filetime(value) => self.put(value.to_le_bytes()),
            Decimal(bytes) => self.put_bytes(bytes),
            NullBstr => {
                self.watch.opt("text", false);
                self.put([0]);
            }
            Bstr(text) => {
                self.watch.opt("text", true);
                self.put([1]);
                self.put((text.len() as u32).to_le_bytes());
                self.put_bytes(text);
            }
        }
    }
}
