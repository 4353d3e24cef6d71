//! The records that the reference finds in a library, and where each lies.

use std::collections::HashSet;

use crate::library::TYPE_DESCRIPTOR_SEGMENT;
use crate::readings::{Kind, place_in};
use crate::{FuncRecord, TypeDescription, TypeInfoEntry, TypeKind, TypeLib};

/// Size of one entry of the type-descriptor table.
const TYPE_DESCRIPTOR_SIZE: usize = 8;

/// A record's kind and place in the library's bytes.
#[derive(Clone, Copy, Debug, PartialEq, Eq, Hash)]
pub struct Placed {
    pub kind: Kind,
    pub at: usize,
    pub len: usize,
}

/// Every record that the reference's iterators and lookups yield from the library.
pub fn records(lib: &TypeLib) -> Vec<Placed> {
    let mut found = Found {
        data: lib.data(),
        records: Vec::new(),
    };
    found.guid_entries(lib);
    found.imports(lib);
    found.imp_files(lib);
    found.array_descs(lib);
    for typeinfo in (0..lib.typeinfo_count()).filter_map(|index| lib.typeinfo(index).ok()) {
        found.push_bytes(Kind::TypeInfo, typeinfo.as_bytes());
        found.impl_types(lib, &typeinfo);
        for func in lib.funcs(&typeinfo) {
            found.push_bytes(Kind::Func, func.as_bytes());
            found.params(lib, &func);
        }
        for var in lib.vars(&typeinfo) {
            found.push_bytes(Kind::Var, var.as_bytes());
        }
    }
    found.records
}

/// The records found so far.
struct Found<'a> {
    data: &'a [u8],
    records: Vec<Placed>,
}

impl<'a> Found<'a> {
    fn push(&mut self, kind: Kind, at: usize, len: usize) {
        self.records.push(Placed { kind, at, len });
    }

    /// Adds a record by the bytes that it was made from.
    fn push_bytes(&mut self, kind: Kind, bytes: &[u8]) {
        self.push(kind, place_in(self.data, bytes), bytes.len());
    }

    fn guid_entries(&mut self, lib: &TypeLib<'a>) {
        for entry in lib.guids() {
            let guid = entry.guid().as_bytes();
            self.push_bytes(Kind::Guid, guid);
            self.push(
                Kind::GuidEntry,
                place_in(self.data, guid),
                Kind::GuidEntry.fixed_part(),
            );
        }
    }

    fn imports(&mut self, lib: &TypeLib<'a>) {
        for import in lib.imports() {
            self.push_bytes(Kind::ImpInfo, import.held());
        }
    }

    fn imp_files(&mut self, lib: &TypeLib<'a>) {
        for file in lib.imp_files() {
            self.push_bytes(Kind::ImpFile, file.held());
        }
    }

    /// Array descriptors have no iterator: the type descriptors name them.
    fn array_descs(&mut self, lib: &TypeLib<'a>) {
        let (_, length) = lib.segment(TYPE_DESCRIPTOR_SEGMENT).unwrap_or((0, 0));
        // A length that the file does not hold would only be walked for nothing.
        let length = length.min(self.data.len());
        for offset in (0..length as i32).step_by(TYPE_DESCRIPTOR_SIZE) {
            if let Some(TypeDescription::CArray(array)) = lib.type_description(offset) {
                self.push_bytes(Kind::ArrayDesc, array.held());
            }
        }
    }

    /// Only a coclass's first reference is an offset into the reference table. A chain that comes
    /// back to an offset already passed is left there.
    fn impl_types(&mut self, lib: &TypeLib<'a>, typeinfo: &TypeInfoEntry<'a>) {
        if typeinfo.typekind() != TypeKind::CoClass {
            return;
        }
        let mut passed = HashSet::new();
        let mut offset = typeinfo.datatype1();
        for reference in lib.impl_types(typeinfo) {
            if !passed.insert(offset) {
                break;
            }
            self.push_bytes(Kind::RefRecord, reference.held());
            offset = reference.onext();
        }
    }

    fn params(&mut self, lib: &TypeLib<'a>, func: &FuncRecord<'a>) {
        for param in lib.params(func) {
            self.push_bytes(Kind::Param, param.held());
        }
    }
}
