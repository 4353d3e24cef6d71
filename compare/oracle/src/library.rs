//! What the reference answers to every reading of a library, as bytes, and the sheet made from it.

use std::collections::HashSet;

use crate::readings::{NOTHING, Reading, Reply, VALUE, place_in, reading};
use crate::sheet::sheet;
use crate::{
    ConstValue, Error, FuncRecord, GuidEntry, ResolvedHreftype, TypeDescription, TypeInfoEntry,
    TypeLib,
};

/// Numbers of the segments.
pub const TYPEINFO_SEGMENT: usize = 0;
pub const IMPORT_SEGMENT: usize = 1;
pub const IMPORT_FILE_SEGMENT: usize = 2;
pub const REFERENCE_SEGMENT: usize = 3;
pub const GUID_SEGMENT: usize = 5;
pub const NAME_SEGMENT: usize = 7;
pub const STRING_SEGMENT: usize = 8;
pub const TYPE_DESCRIPTOR_SEGMENT: usize = 9;
pub const ARRAY_DESCRIPTOR_SEGMENT: usize = 10;
pub const CONSTANT_SEGMENT: usize = 11;

/// Names the readings in the order of their numbers.
macro_rules! asks {
    ($($ask:ident $name:literal,)*) => {
        /// A reading of a library.
        #[derive(Clone, Copy, Debug, PartialEq, Eq, PartialOrd, Ord, Hash)]
        #[repr(u8)]
        pub enum Ask { $($ask),* }

        impl Ask {
            /// Every reading, by number.
            pub const ALL: &[Ask] = &[$(Ask::$ask),*];

            pub fn name(self) -> &'static str {
                match self { $(Ask::$ask => $name),* }
            }
        }
    };
}

asks! {
    Parse "parse",
    FormatVersion "format_version",
    LibGuidOffset "lib_guid_offset",
    Lcid "lcid",
    Lcid2 "lcid2",
    Varflags "varflags",
    Syskind "syskind",
    HasHelpDll "has_help_dll",
    Version "version",
    VersionMajor "version_major",
    VersionMinor "version_minor",
    Flags "flags",
    TypeinfoCount "typeinfo_count",
    HelpstringOffset "helpstring_offset",
    Helpstringcontext "helpstringcontext",
    Helpcontext "helpcontext",
    Nametablecount "nametablecount",
    Nametablechars "nametablechars",
    NameOffset "name_offset",
    HelpfileOffset "helpfile_offset",
    CustomDataOffset "custom_data_offset",
    Dispatchpos "dispatchpos",
    Nimpinfos "nimpinfos",
    Segment "segment",
    SegmentData "segment_data",
    Table "table",
    GuidHashData "guid_hash_data",
    NameHashData "name_hash_data",
    LibName "lib_name",
    LibGuid "lib_guid",
    LibHelpstring "lib_helpstring",
    NameBytes "name_bytes",
    Name "name",
    String "string",
    Guid "guid",
    TypeDesc "type_desc",
    ArrayDesc "array_desc",
    TypeDescription "type_description",
    ConstValue "const_value",
    ImpFile "imp_file",
    ResolveHreftype "resolve_hreftype",
    ResolveHreftypeFull "resolve_hreftype_full",
    TablePlace "table_place",
    TypeinfoOffset "typeinfo_offset",
    Typeinfo "typeinfo",
    MemberName "member_name",
    DeclaredCounts "declared_counts",
    FuncMemid "func_memid",
    VarMemid "var_memid",
    FuncNameOffset "func_name_offset",
    VarNameOffset "var_name_offset",
    FuncName "func_name",
    VarName "var_name",
    Typeinfos "typeinfos",
    Funcs "funcs",
    Vars "vars",
    Params "params",
    Guids "guids",
    Names "names",
    Imports "imports",
    ImpFiles "imp_files",
    ImplTypes "impl_types",
    Walk "walk",
    Sheet "sheet",
}

/// A question about a library: what is asked, and its numbers.
///
/// A reading at an offset or of a word has that word first, as a 32-bit pattern; one by an index has
/// the index first, and a member's name its own index second. A reading of a record has the record's
/// place and length, and an index third. A cursor has third how far below 0, in 64 bits, its count is set before
/// its first step: 0 leaves it as it was made, 1 sets it to the largest. `TablePlace` has a segment, a size and an
/// offset. `Sheet` has the length of the output.
#[derive(Clone, Copy, Debug, PartialEq, Eq, PartialOrd, Ord, Hash)]
pub struct Question {
    pub ask: Ask,
    pub numbers: [u32; 3],
}

impl Question {
    pub fn new(ask: Ask, numbers: [u32; 3]) -> Self {
        Question { ask, numbers }
    }
}

/// The most records of a chain that are asked for: one that comes round has no end.
const LONGEST_CHAIN: usize = 40;

/// The answer that is the number of a cursor's record.
pub const NUMBER: &str = "number";

/// An answer of one byte: the number of a refusal, or 0 for a value that says no more.
struct Refused(u8);

impl Reply for Refused {
    fn write(self, _: &[u8], answer: &mut Vec<u8>) {
        answer.push(self.0);
    }
}

/// Document 01's number for a refusal of `parse`, by the error's case and what it speaks of.
pub fn parse_refusal(error: Error) -> u8 {
    match error {
        Error::TooShort {
            context: "MSFT header",
            ..
        } => 2,
        Error::BadMagic { .. } => 3,
        // A negative count, made a size, is too large to be multiplied.
        Error::InvalidData {
            context: "typeinfo count overflow",
        } => 4,
        Error::TooShort {
            context: "segment directory",
            ..
        } => 5,
        _ => panic!("no refusal of parse: {error:?}"),
    }
}

/// Document 01's number for a refusal of `typeinfo`.
pub fn typeinfo_refusal(error: Error) -> u8 {
    match error {
        Error::TypeInfoOutOfRange { .. } => 6,
        // Only where a library is beside other bytes than it was parsed from.
        Error::InvalidData {
            context: "cannot read typeinfo offset",
        } => 6,
        Error::InvalidData {
            context: "typeinfo segment missing",
        } => 7,
        Error::TooShort { .. } => 8,
        _ => panic!("no refusal of typeinfo: {error:?}"),
    }
}

/// The answers to a question, in the order in which the replay compares them.
pub fn answers(lent: &[u8], question: Question) -> Vec<Reading> {
    answers_beside(lent, lent, question)
}

/// The answers of the library in its own bytes, when its numbers stand beside the lent bytes.
pub fn answers_beside(own: &[u8], lent: &[u8], question: Question) -> Vec<Reading> {
    let Question { ask, numbers } = question;
    let mut told = Told {
        lent,
        ask,
        count: 0,
        readings: Vec::new(),
    };
    let lib = match (ask, TypeLib::parse(own)) {
        (Ask::Sheet, _) => {
            told.sheet(numbers[0] as usize);
            return told.readings;
        }
        (Ask::Parse, Err(error)) => {
            return vec![reading("parse", lent, Some(Refused(parse_refusal(error))))];
        }
        (Ask::Parse, Ok(_)) => return vec![reading("parse", lent, Some(Refused(0)))],
        (_, parsed) => parsed.expect("a library that is asked for more can be parsed"),
    };
    let lib = lib.over(lent);
    match ask {
        _ if ask < Ask::Segment => told.header(&lib),
        _ if ask < Ask::NameBytes => told.table(&lib, numbers[0] as usize),
        Ask::TablePlace => told.table_place(&lib, numbers),
        _ if ask < Ask::TypeinfoOffset => told.word(&lib, numbers[0] as i32),
        _ if ask < Ask::DeclaredCounts => {
            told.typeinfo(&lib, numbers[0] as usize, numbers[1] as usize)
        }
        _ if ask < Ask::Typeinfos => told.member(&lib, numbers),
        _ => told.cursor(&lib, numbers),
    }
    told.readings
}

/// The answers told so far to what is asked.
struct Told<'a> {
    lent: &'a [u8],
    ask: Ask,
    /// The count that a cursor has at its start.
    count: u64,
    readings: Vec<Reading>,
}

impl<'a> Told<'a> {
    fn tell<T: Reply>(&mut self, method: &'static str, reply: T) {
        self.readings.push(reading(method, self.lent, Some(reply)));
    }

    /// The answer of a reading that has the reading's own name.
    fn own<T: Reply>(&mut self, reply: T) {
        self.tell(self.ask.name(), reply);
    }

    fn header(&mut self, lib: &TypeLib<'a>) {
        match self.ask {
            Ask::FormatVersion => self.own(lib.format_version()),
            Ask::LibGuidOffset => self.own(lib.lib_guid_offset()),
            Ask::Lcid => self.own(lib.lcid()),
            Ask::Lcid2 => self.own(lib.lcid2()),
            Ask::Varflags => self.own(lib.varflags()),
            Ask::Syskind => self.own(lib.syskind()),
            Ask::HasHelpDll => self.own(lib.has_help_dll()),
            Ask::Version => self.own(lib.version()),
            Ask::VersionMajor => self.own(lib.version_major()),
            Ask::VersionMinor => self.own(lib.version_minor()),
            Ask::Flags => self.own(lib.flags()),
            Ask::TypeinfoCount => self.own(lib.typeinfo_count()),
            Ask::HelpstringOffset => self.own(lib.helpstring_offset()),
            Ask::Helpstringcontext => self.own(lib.helpstringcontext()),
            Ask::Helpcontext => self.own(lib.helpcontext()),
            Ask::Nametablecount => self.own(lib.nametablecount()),
            Ask::Nametablechars => self.own(lib.nametablechars()),
            Ask::NameOffset => self.own(lib.name_offset()),
            Ask::HelpfileOffset => self.own(lib.helpfile_offset()),
            Ask::CustomDataOffset => self.own(lib.custom_data_offset()),
            Ask::Dispatchpos => self.own(lib.dispatchpos()),
            Ask::Nimpinfos => self.own(lib.nimpinfos()),
            _ => unreachable!(),
        }
    }

    fn table(&mut self, lib: &TypeLib<'a>, index: usize) {
        match self.ask {
            Ask::Segment => self.own(lib.segment(index).map(Place::from)),
            Ask::SegmentData => self.own(lib.segment_data(index)),
            // What the reference's cursors take for a table.
            Ask::Table => self.own(Place::from(lib.segment(index).unwrap_or((0, 0)))),
            Ask::GuidHashData => self.own(lib.guid_hash_data()),
            Ask::NameHashData => self.own(lib.name_hash_data()),
            Ask::LibName => self.own(lib.lib_name()),
            Ask::LibGuid => self.own(lib.lib_guid()),
            Ask::LibHelpstring => self.own(lib.lib_helpstring()),
            _ => unreachable!(),
        }
    }

    /// A reading of a word. Some are asked a second time, by the word's pattern.
    fn word(&mut self, lib: &TypeLib<'a>, word: i32) {
        match self.ask {
            Ask::NameBytes => {
                self.own(lib.name_bytes(word));
                self.tell("name_at", lib.name_bytes(word));
            }
            Ask::Name => self.own(lib.name(word)),
            Ask::String => self.own(lib.string(word)),
            Ask::Guid => {
                self.own(lib.guid(word));
                self.tell("guid_at", lib.guid(word));
            }
            Ask::TypeDesc => {
                self.own(lib.type_desc(word).map(|(a, b)| Case(a, b)));
                self.tell("type_desc_at", lib.type_desc(word).map(|(a, b)| Case(a, b)));
            }
            Ask::ArrayDesc => {
                let bytes = lib.array_desc(word).map(|array| array.held());
                self.own(bytes);
                self.tell("array_desc_at", bytes);
            }
            Ask::TypeDescription => self.description(lib, word),
            Ask::ConstValue => {
                self.constant("const_value", lib.const_value(word));
                self.constant("const_at", lib.const_value(word));
            }
            Ask::ImpFile => {
                let bytes = lib.imp_file(word).map(|file| file.held());
                self.own(bytes);
                self.tell("imp_file_at", bytes);
            }
            Ask::ResolveHreftype => self.own(lib.resolve_hreftype(word)),
            Ask::ResolveHreftypeFull => self.resolved(lib, word),
            _ => unreachable!(),
        }
    }

    /// The case's code in document 01's sheet, and what the case holds.
    fn description(&mut self, lib: &TypeLib<'a>, word: i32) {
        match lib.type_description(word) {
            None => self.own(Refused(NOTHING)),
            Some(TypeDescription::Base(code)) => self.own(Case(1u8, code)),
            Some(TypeDescription::Pointer(field)) => self.own(Case(2u8, field)),
            Some(TypeDescription::SafeArray(field)) => self.own(Case(3u8, field)),
            Some(TypeDescription::CArray(array)) => {
                self.own(4u8);
                self.tell("C array", array.held());
            }
            Some(TypeDescription::UserDefined(href)) => self.own(Case(5u8, href)),
        }
    }

    /// The code of the constant's type, and the value at its own width; of a text whether it is one
    /// and not null, and then its place.
    fn constant(&mut self, method: &'static str, constant: Option<ConstValue<'a>>) {
        let Some(constant) = constant else {
            return self.tell(method, Refused(NOTHING));
        };
        let vt = constant.vt();
        match constant {
            ConstValue::Empty | ConstValue::Null | ConstValue::Void => self.tell(method, vt),
            ConstValue::NullBstr => self.tell(method, Case(vt, 0u8)),
            ConstValue::Bstr(text) => {
                self.tell(method, Case(vt, 1u8));
                self.tell("text", text);
            }
            ConstValue::Decimal(bytes) => {
                self.tell(method, vt);
                self.tell("decimal", bytes);
            }
            ConstValue::Bool(x) => self.tell(method, Case(vt, u8::from(x))),
            ConstValue::I1(x) => self.tell(method, Case(vt, x as u8)),
            ConstValue::UI1(x) => self.tell(method, Case(vt, x)),
            ConstValue::I2(x) => self.tell(method, Case(vt, x)),
            ConstValue::UI2(x) => self.tell(method, Case(vt, x)),
            ConstValue::I4(x)
            | ConstValue::Error(x)
            | ConstValue::Int(x)
            | ConstValue::Hresult(x) => self.tell(method, Case(vt, x)),
            ConstValue::UI4(x) | ConstValue::UInt(x) => self.tell(method, Case(vt, x)),
            ConstValue::R4(x) => self.tell(method, Case(vt, x.to_bits())),
            ConstValue::R8(x) | ConstValue::Date(x) => self.tell(method, Case(vt, x.to_bits())),
            ConstValue::Cy(x) | ConstValue::I8(x) => self.tell(method, Case(vt, x as u64)),
            ConstValue::UI8(x) | ConstValue::Filetime(x) => self.tell(method, Case(vt, x)),
            ConstValue::Raw { bits, .. } => self.tell(method, Case(vt, bits)),
        }
    }

    /// 1 and the index of a typeinfo; or 2, the import record, and the import file if there is one.
    fn resolved(&mut self, lib: &TypeLib<'a>, word: i32) {
        match lib.resolve_hreftype_full(word) {
            None => self.own(Refused(NOTHING)),
            Some(ResolvedHreftype::Internal(index)) => self.own(Case(1u8, index as u64)),
            Some(ResolvedHreftype::External { imp_info, imp_file }) => {
                self.own(2u8);
                self.tell("import record", imp_info.held());
                self.tell("import file", imp_file.map(|file| file.held()));
            }
        }
    }

    /// The place of some bytes of a table, which the reference has no reading for: of GUIDs and of import
    /// records.
    fn table_place(&mut self, lib: &TypeLib<'a>, [segment, size, offset]: [u32; 3]) {
        let place = match (segment as usize, size) {
            (GUID_SEGMENT, 16) => lib.guid(offset as i32).map(|guid| guid.as_bytes()),
            (IMPORT_SEGMENT, 12) => {
                assert_eq!(offset & 0x0100_0003, 0, "these bits are the reference's");
                match lib.resolve_hreftype_full(offset as i32 | 1) {
                    Some(ResolvedHreftype::External { imp_info, .. }) => Some(imp_info.held()),
                    _ => None,
                }
            }
            _ => panic!("no reading of the reference is for this segment and size"),
        };
        self.own(place);
        self.tell("place_in", place);
    }

    fn typeinfo(&mut self, lib: &TypeLib<'a>, index: usize, member: usize) {
        match self.ask {
            Ask::TypeinfoOffset => {
                self.own(lib.typeinfo_offset(index));
                self.tell(
                    "offset_word",
                    lib.typeinfo_offset(index).map(|word| word as u32),
                );
            }
            Ask::Typeinfo => self.typeinfo_or_refusal("typeinfo", lib.typeinfo(index)),
            Ask::MemberName => self.own(lib.member_names(index).get(member).copied()),
            _ => unreachable!(),
        }
    }

    fn typeinfo_or_refusal(
        &mut self,
        method: &'static str,
        typeinfo: Result<TypeInfoEntry<'_>, Error>,
    ) {
        match typeinfo {
            Ok(typeinfo) => self.tell(method, typeinfo.as_bytes()),
            Err(error) => self.tell(method, Refused(typeinfo_refusal(error))),
        }
    }

    /// A reading of a typeinfo's member. A typeinfo that the reference cannot hold is nothing.
    fn member(&mut self, lib: &TypeLib<'a>, [at, len, index]: [u32; 3]) {
        let Some(bytes) = record(self.lent, at, len, TypeInfoEntry::SIZE) else {
            return self.own(Refused(NOTHING));
        };
        let typeinfo = TypeInfoEntry::new(bytes);
        let index = index as usize;
        match self.ask {
            Ask::DeclaredCounts => self.own(Case(typeinfo.func_count(), typeinfo.var_count())),
            Ask::FuncMemid => self.own(lib.func_memid(&typeinfo, index)),
            Ask::VarMemid => self.own(lib.var_memid(&typeinfo, index)),
            Ask::FuncNameOffset => self.own(lib.func_name_offset(&typeinfo, index)),
            Ask::VarNameOffset => self.own(lib.var_name_offset(&typeinfo, index)),
            Ask::FuncName => self.own(lib.func_name(&typeinfo, index)),
            Ask::VarName => self.own(lib.var_name(&typeinfo, index)),
            _ => unreachable!(),
        }
    }

    /// A cursor from its start to its end, and one step more.
    fn cursor(&mut self, lib: &TypeLib<'a>, [at, len, below]: [u32; 3]) {
        self.count = u64::from(below).wrapping_neg();
        match self.ask {
            Ask::Typeinfos => return self.typeinfos(lib),
            Ask::Guids => return self.guids(lib),
            Ask::Names => return self.names(lib),
            Ask::Imports => return self.imports(lib),
            Ask::ImpFiles => return self.imp_files(lib),
            _ => {}
        }
        let least = match self.ask {
            Ask::Params => FuncRecord::BASE_SIZE,
            _ => TypeInfoEntry::SIZE,
        };
        let Some(bytes) = record(self.lent, at, len, least) else {
            return self.own(Refused(NOTHING));
        };
        match self.ask {
            Ask::Params => self.params(lib, FuncRecord::new(bytes)),
            Ask::Funcs => self.funcs(lib, TypeInfoEntry::new(bytes)),
            Ask::Vars => self.vars(lib, TypeInfoEntry::new(bytes)),
            Ask::ImplTypes => self.impl_types(lib, TypeInfoEntry::new(bytes)),
            Ask::Walk => self.walk(lib, TypeInfoEntry::new(bytes)),
            _ => unreachable!(),
        }
    }

    /// The number of a record, and how many its cursor has yielded then. From a count of 0 the number is that of
    /// `enumerate`; from another one it goes on, and the largest stays, as document 02 says.
    fn number(&mut self, number: usize) {
        let number = self.count.saturating_add(number as u64);
        self.tell(NUMBER, Case(number, number.saturating_add(1)));
    }

    /// The end of a cursor: nothing.
    fn end(&mut self) {
        self.tell("end", Refused(NOTHING));
    }

    /// The items of an iterator that says how many are left at most, each with its number and behind what it says; then
    /// its end, twice.
    fn hinted<I: Iterator>(&mut self, items: I, mut record: impl FnMut(&mut Self, usize, I::Item)) {
        let mut items = items.enumerate();
        let mut ends = 0;
        while ends < 2 {
            let (_, most) = items.size_hint();
            let most = most.expect("these iterators know");
            self.tell("size_hint", most);
            match items.next() {
                Some((number, item)) => record(self, number, item),
                None => {
                    self.end();
                    ends += 1;
                }
            }
        }
    }

    /// The items of any other iterator, each with its number, and its end, twice.
    fn plain<I: Iterator>(&mut self, mut items: I, mut record: impl FnMut(&mut Self, I::Item)) {
        for (number, item) in items.by_ref().enumerate() {
            record(self, item);
            self.number(number);
        }
        self.end();
        assert!(items.next().is_none(), "the end stays the end");
        self.end();
    }

    /// A refused typeinfo is counted, and has no number.
    fn typeinfos(&mut self, lib: &TypeLib<'a>) {
        assert_eq!(self.count, 0, "typeinfos have an index, and no count");
        self.hinted(lib.typeinfos(), |told, number, typeinfo| {
            told.typeinfo_or_refusal("typeinfos", typeinfo);
            if typeinfo.is_ok() {
                told.number(number);
            }
        });
    }

    fn funcs(&mut self, lib: &TypeLib<'a>, typeinfo: TypeInfoEntry<'a>) {
        self.hinted(lib.funcs(&typeinfo), |told, number, func| {
            told.own(func.as_bytes());
            told.number(number);
        });
    }

    fn vars(&mut self, lib: &TypeLib<'a>, typeinfo: TypeInfoEntry<'a>) {
        self.hinted(lib.vars(&typeinfo), |told, number, var| {
            told.own(var.as_bytes());
            told.number(number);
        });
    }

    fn params(&mut self, lib: &TypeLib<'a>, func: FuncRecord<'a>) {
        self.hinted(lib.params(&func), |told, number, param| {
            told.own(param.held());
            told.number(number);
        });
    }

    fn guids(&mut self, lib: &TypeLib<'a>) {
        self.plain(lib.guids(), |told, entry| {
            told.own(Place {
                at: place_in(told.lent, entry.guid().as_bytes()),
                len: GuidEntry::SIZE,
            });
        });
    }

    /// Every value of each entry.
    fn names(&mut self, lib: &TypeLib<'a>) {
        self.plain(lib.names(), |told, entry| {
            told.tell("name", entry.name());
            told.tell("offset", entry.offset());
            told.tell("hreftype", entry.hreftype());
            told.tell("next_hash", entry.next_hash());
            told.tell("name_flags", entry.name_flags());
            told.tell("hashcode", entry.hashcode());
        });
    }

    fn imports(&mut self, lib: &TypeLib<'a>) {
        self.plain(lib.imports(), |told, import| told.own(import.held()));
    }

    fn imp_files(&mut self, lib: &TypeLib<'a>) {
        self.plain(lib.imp_files(), |told, file| told.own(file.held()));
    }

    /// A chain that comes round is followed for some records only, and has no end.
    fn impl_types(&mut self, lib: &TypeLib<'a>, typeinfo: TypeInfoEntry<'a>) {
        let mut references = lib.impl_types(&typeinfo);
        for (number, reference) in references.by_ref().enumerate().take(LONGEST_CHAIN) {
            self.own(reference.held());
            self.number(number);
        }
        if references.next().is_none() {
            self.end();
            assert!(references.next().is_none(), "the end stays the end");
            self.end();
        }
    }

    /// How many records the chain has, or 10 where it returns to an offset already passed: document
    /// 01's definition, for the reference has no such reading.
    fn walk(&mut self, lib: &TypeLib<'a>, typeinfo: TypeInfoEntry<'a>) {
        let mut passed = HashSet::new();
        let mut offset = typeinfo.datatype1();
        for reference in lib.impl_types(&typeinfo) {
            if !passed.insert(offset) {
                return self.own(Refused(10));
            }
            offset = reference.onext();
        }
        self.own(passed.len());
    }

    /// How many bytes the sheet has, and these; or its refusal. The sheet is no reading of the
    /// reference, and is made from its readings.
    fn sheet(&mut self, room: usize) {
        match sheet(self.lent, room) {
            Ok(bytes) => {
                self.own(bytes.len());
                self.tell("bytes", Bytes(bytes));
            }
            Err(number) => self.own(Refused(number)),
        }
    }
}

/// Bytes that are no part of the lent ones: all that follows in the answer.
struct Bytes(Vec<u8>);

impl Reply for Bytes {
    fn write(self, _: &[u8], answer: &mut Vec<u8>) {
        answer.push(VALUE);
        answer.extend(self.0);
    }
}

/// A record's bytes, if the reference can hold it.
fn record(lent: &[u8], at: u32, len: u32, least: usize) -> Option<&[u8]> {
    let (at, len) = (at as usize, len as usize);
    lent.get(at..at + len).filter(|bytes| bytes.len() >= least)
}

/// Two numbers, each at its own width.
struct Case<A, B>(A, B);

impl<A: Reply, B: Reply> Reply for Case<A, B> {
    fn write(self, lent: &[u8], answer: &mut Vec<u8>) {
        self.0.write(lent, answer);
        let mut second = Vec::new();
        self.1.write(lent, &mut second);
        answer.extend(&second[1..]);
    }
}

/// A place in the lent bytes, or of a segment, which need not lie inside them.
#[derive(Clone, Copy)]
pub(crate) struct Place {
    pub at: usize,
    pub len: usize,
}

impl From<(usize, usize)> for Place {
    fn from((at, len): (usize, usize)) -> Self {
        Place { at, len }
    }
}

impl Reply for Place {
    fn write(self, lent: &[u8], answer: &mut Vec<u8>) {
        Case(self.at, self.len).write(lent, answer);
    }
}
