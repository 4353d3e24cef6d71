//! The figures of a library's sheet, document 02's §5: its length, and how many functions, parameters, variables and
//! references it reads. They are counted from the reference's own readings, field by field as document 01 lists them.
//!
//! Nothing here makes a sheet, or follows the product or `sheet`: only the limits, the numbers of refusal and what a
//! misplaced reference is are shared. A tree is read by levels that are left, and a chain is walked once to see
//! whether it ends before its references are looked at.

use crate::library::{parse_refusal, typeinfo_refusal};
use crate::misplaced::misplaced_offset;
use crate::sheet::{MOST_BYTES, MOST_TYPES, refusal};
use crate::{
    ArrayDesc, ConstValue, FuncRecord, Guid, ImpFile, ImpInfo, ParameterInfo, RefRecord,
    ResolvedHreftype, TypeDescription, TypeInfoEntry, TypeLib, VarRecord,
};

#[cfg(test)]
mod tests;

/// The highest figure that is told from those above it, and what is given for these.
pub const MOST_TOLD: u64 = 16_777_216;
pub const ABOVE: u32 = 16_777_217;

/// How many figures there are, how many bytes they take, and their names in their order.
pub const COUNT: usize = 5;
pub const BYTES: usize = 4 * COUNT;
pub const NAMES: [&str; COUNT] = [
    "length",
    "functions",
    "parameters",
    "variables",
    "references",
];

/// A tree's levels, the outermost and the base included.
const LEVELS: usize = 32;

/// The flag of a parameter (0x08) that has a default, the kind of a variable (0x0C) that is a constant, and the flag
/// of an import whose 0x08 is a GUID's offset.
const HAS_DEFAULT: u32 = 0x20;
const CONSTANT: i16 = 2;
const HAS_GUID: u32 = 0x1_0000;

/// The figures as they are, however high.
#[derive(Clone, Copy, Debug, Default, PartialEq, Eq)]
pub struct Figures {
    pub length: u64,
    pub functions: u64,
    pub parameters: u64,
    pub variables: u64,
    pub references: u64,
}

impl Figures {
    /// In their order.
    pub fn all(self) -> [u64; COUNT] {
        [
            self.length,
            self.functions,
            self.parameters,
            self.variables,
            self.references,
        ]
    }

    /// As they are given: each stops by itself.
    pub fn given(self) -> [u32; COUNT] {
        self.all().map(|figure| match figure <= MOST_TOLD {
            true => figure as u32,
            false => ABOVE,
        })
    }

    /// As they are written.
    pub fn bytes(self) -> Vec<u8> {
        self.given()
            .into_iter()
            .flat_map(u32::to_le_bytes)
            .collect()
    }
}

/// The figures of the library's sheet, or the number of the sheet's refusal, which is never 12.
pub fn figures(bytes: &[u8]) -> Result<Figures, u8> {
    if bytes.len() > MOST_BYTES {
        return Err(refusal::OVER_LONG);
    }
    let lib = TypeLib::parse(bytes).map_err(parse_refusal)?;
    if lib.typeinfo_count() > MOST_TYPES {
        return Err(refusal::TOO_MANY_TYPES);
    }
    let mut counter = Counter {
        lib: &lib,
        figures: Figures::default(),
    };
    counter.contents();
    counter.library();
    for index in 0..lib.typeinfo_count() {
        let typeinfo = lib.typeinfo(index).map_err(typeinfo_refusal)?;
        counter.typeinfo(&typeinfo)?;
    }
    Ok(counter.figures)
}

/// Adds up the fields of one library.
struct Counter<'l, 'a> {
    lib: &'l TypeLib<'a>,
    figures: Figures,
}

impl<'a> Counter<'_, 'a> {
    fn bytes(&mut self, count: usize) {
        self.figures.length += count as u64;
    }

    /// Byte 0 for nothing, or byte 1 and a value of so many bytes.
    fn opt(&mut self, value: Option<usize>) {
        self.bytes(1 + value.unwrap_or(0));
    }

    fn opt_guid(&mut self, guid: Option<Guid>) {
        self.opt(guid.map(|_| 16));
    }

    fn opt_name(&mut self, offset: Option<i32>) {
        let name = offset.and_then(|offset| self.lib.name_bytes(offset));
        self.opt(name.map(|name| 1 + name.len()));
    }

    fn opt_memid(&mut self, memid: Option<i32>) {
        self.opt(memid.map(|_| 4));
    }

    fn opt_constant(&mut self, word: Option<i32>) {
        let constant = word.and_then(|word| self.lib.const_value(word));
        self.opt(constant.map(|constant| 2 + width(&constant)));
    }

    /// Type count, length of the library's body, length of each type's.
    fn contents(&mut self) {
        self.bytes(4 + 4 + 4 * self.lib.typeinfo_count());
    }

    fn library(&mut self) {
        self.bytes(4 + 4);
        self.opt_guid(self.lib.lib_guid());
        self.opt_name(Some(self.lib.name_offset()));
    }

    fn typeinfo(&mut self, typeinfo: &TypeInfoEntry<'a>) -> Result<(), u8> {
        self.bytes(1 + 4 + 4);
        self.opt_guid(self.lib.guid(typeinfo.guid_offset()));
        self.opt_name(Some(typeinfo.name_offset()));
        // Those declared.
        self.bytes(2 + 2);
        self.base(typeinfo)?;
        self.functions(typeinfo)?;
        self.variables(typeinfo)
    }

    fn base(&mut self, typeinfo: &TypeInfoEntry<'a>) -> Result<(), u8> {
        match typeinfo.typekind_raw() & 0x0F {
            3 | 4 => self.reference(typeinfo.datatype1()),
            5 => self.chain(typeinfo)?,
            6 => self.tree(typeinfo.datatype1(), LEVELS)?,
            _ => {}
        }
        Ok(())
    }

    fn chain(&mut self, typeinfo: &TypeInfoEntry<'a>) -> Result<(), u8> {
        // A chain that passes no offset twice has at most so many records: each has an offset of its own, and
        // all of its bytes are in the file.
        let most = self.lib.data().len().saturating_sub(RefRecord::SIZE - 1);
        if self.lib.impl_types(typeinfo).nth(most).is_some() {
            return Err(refusal::CIRCLE);
        }
        self.bytes(4);
        for record in self.lib.impl_types(typeinfo) {
            self.reference(record.reftype());
            self.bytes(4);
        }
        Ok(())
    }

    fn functions(&mut self, typeinfo: &TypeInfoEntry<'a>) -> Result<(), u8> {
        self.bytes(2);
        for (index, function) in self.lib.funcs(typeinfo).enumerate() {
            self.figures.functions += 1;
            self.opt_memid(self.lib.func_memid(typeinfo, index));
            self.opt_name(self.lib.func_name_offset(typeinfo, index));
            self.function(&function)?;
        }
        Ok(())
    }

    fn function(&mut self, function: &FuncRecord<'a>) -> Result<(), u8> {
        self.tree(function.datatype(), LEVELS)?;
        self.bytes(4 + 2 + 4 + 2 + 2);
        self.bytes(2);
        for (index, parameter) in self.lib.params(function).enumerate() {
            self.figures.parameters += 1;
            self.parameter(&parameter, function.default_value_offset(index))?;
        }
        Ok(())
    }

    fn parameter(&mut self, parameter: &ParameterInfo, default: Option<i32>) -> Result<(), u8> {
        self.tree(parameter.datatype(), LEVELS)?;
        self.opt_name(Some(parameter.name_offset()));
        self.bytes(4);
        let has_default = parameter.flags() & HAS_DEFAULT != 0;
        self.opt_constant(default.filter(|_| has_default));
        Ok(())
    }

    fn variables(&mut self, typeinfo: &TypeInfoEntry<'a>) -> Result<(), u8> {
        self.bytes(2);
        for (index, variable) in self.lib.vars(typeinfo).enumerate() {
            self.figures.variables += 1;
            self.opt_memid(self.lib.var_memid(typeinfo, index));
            self.opt_name(self.lib.var_name_offset(typeinfo, index));
            self.variable(&variable)?;
        }
        Ok(())
    }

    fn variable(&mut self, variable: &VarRecord) -> Result<(), u8> {
        self.tree(variable.datatype(), LEVELS)?;
        self.bytes(4 + 2);
        match variable.varkind() {
            CONSTANT => self.opt_constant(Some(variable.offs_value())),
            _ => self.bytes(4),
        }
        Ok(())
    }

    /// The depth is looked at before the description is.
    fn tree(&mut self, field: i32, levels_left: usize) -> Result<(), u8> {
        if levels_left == 0 {
            return Err(refusal::TOO_DEEP);
        }
        // The code.
        self.bytes(1);
        match self.lib.type_description(field) {
            None => Ok(()),
            Some(TypeDescription::Base(_)) => {
                self.bytes(2);
                Ok(())
            }
            Some(TypeDescription::Pointer(inner) | TypeDescription::SafeArray(inner)) => {
                self.tree(inner, levels_left - 1)
            }
            Some(TypeDescription::CArray(array)) => self.c_array(&array, levels_left - 1),
            Some(TypeDescription::UserDefined(reference)) => {
                self.reference(reference);
                Ok(())
            }
        }
    }

    /// What stands behind a C array's code. Where the reading of a dimension yields nothing the code is 0, and nothing
    /// stands there.
    fn c_array(&mut self, array: &ArrayDesc, levels_left: usize) -> Result<(), u8> {
        let dimensions = usize::from(array.num_dims());
        // They lie one behind another, so all are there if the last is.
        let last = dimensions.checked_sub(1);
        if last.is_some_and(|last| array.bound(last).is_none()) {
            return Ok(());
        }
        self.bytes(2 + 8 * dimensions);
        self.tree(array.element_type(), levels_left)
    }

    /// Every reference field counts, whatever its code.
    fn reference(&mut self, reference: i32) {
        self.figures.references += 1;
        // The code.
        self.bytes(1);
        if misplaced_offset(reference).is_some() {
            self.bytes(1 + 4);
            return;
        }
        match self.lib.resolve_hreftype_full(reference) {
            None => {}
            Some(ResolvedHreftype::Internal(_)) => self.bytes(1 + 2),
            Some(ResolvedHreftype::External { imp_info, imp_file }) => {
                self.bytes(1);
                self.import(&imp_info);
                self.opt_file(imp_file);
            }
        }
    }

    fn import(&mut self, import: &ImpInfo) {
        self.bytes(4);
        match import.flags() & HAS_GUID {
            0 => self.bytes(4),
            _ => self.opt_guid(self.lib.guid(import.guid_offset())),
        }
    }

    fn opt_file(&mut self, file: Option<ImpFile>) {
        // The opt's own byte.
        self.bytes(1);
        let Some(file) = file else { return };
        let Some(name) = file.filename_bytes() else {
            return;
        };
        self.opt_guid(self.lib.guid(file.guid_offset()));
        self.bytes(4 + 4 + 2 + name.len());
    }
}

/// How many bytes a constant's value has behind its code.
fn width(constant: &ConstValue) -> usize {
    use ConstValue::*;
    match constant {
        Empty | Null | Void => 0,
        Bool(_) | I1(_) | UI1(_) | NullBstr => 1,
        I2(_) | UI2(_) => 2,
        I4(_) | UI4(_) | Int(_) | UInt(_) | Error(_) | Hresult(_) | R4(_) | Raw { .. } => 4,
        I8(_) | UI8(_) | R8(_) | Date(_) | Cy(_) | Filetime(_) => 8,
        Decimal(_) => 16,
        Bstr(text) => 1 + 4 + text.len(),
    }
}
