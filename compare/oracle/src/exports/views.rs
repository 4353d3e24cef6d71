//! The readings of records, each given by its place, the check of a text, given so too, and the readings that take no
//! library.

use super::answer::{Answer, Tell};
use super::numbers::{Asks, Numbers};
use super::{Export, Rust, export, linked};
use crate::misplaced::misplaced_offset;
use crate::readings::{Kind, NOTHING};
use crate::text_check::text_check;
use crate::{
    ArrayDesc, FuncRecord, Guid, GuidEntry, ImpFile, ImpInfo, NameEntry, ParameterInfo, RefRecord,
    TypeInfoEntry, TypeKind, TypeLib, VarRecord, vt_name,
};

pub(super) fn exports() -> Vec<Export> {
    let mut exports = small_records();
    exports.extend(counted_records());
    exports.extend(texts());
    exports.extend(typeinfos());
    exports.extend(vars());
    exports.extend(funcs());
    exports.extend(func_attributes());
    exports.extend(alone());
    exports
}

/// The lent bytes at a place, if they lie there.
pub(super) fn lent_at<'a>(lib: &TypeLib<'a>, [at, len, ..]: Numbers) -> Option<&'a [u8]> {
    lib.data().get(at..at.checked_add(len)?)
}

/// The lent bytes of a record that the reference can hold. Document 01 has any other be nothing to
/// every reading: one not wholly inside the lent bytes, or shorter than its fixed part.
pub(super) fn record<'a>(lib: &TypeLib<'a>, kind: Kind, numbers: Numbers) -> Option<&'a [u8]> {
    lent_at(lib, numbers).filter(|bytes| bytes.len() >= kind.fixed_part())
}

/// Exports that ask a record of a kind for a method, with an index where their form has three numbers.
macro_rules! views {
    ($kind:ident $view:ident: $($form:ident $name:ident $method:ident),* $(,)?) => {
        vec![$(export!($form $name, Asks::Record(Kind::$kind), Lent, |lib, numbers| {
            let Some(bytes) = record(lib, Kind::$kind, numbers) else {
                return Answer::Refused(NOTHING);
            };
            ask!($form $view::new(bytes), $method, numbers[2]).tell(lib.data())
        })),*]
    };
}

macro_rules! ask {
    (Two $view:expr, $method:ident, $index:expr) => {
        $view.$method()
    };
    (TwoOut $view:expr, $method:ident, $index:expr) => {
        $view.$method()
    };
    (Three $view:expr, $method:ident, $index:expr) => {
        $view.$method($index)
    };
    (ThreeOut $view:expr, $method:ident, $index:expr) => {
        $view.$method($index)
    };
}

fn small_records() -> Vec<Export> {
    let mut exports = views!(Guid Guid:
        TwoOut msft_guid_as_bytes as_bytes,
        Two msft_guid_data1 data1,
        Two msft_guid_data2 data2,
        Two msft_guid_data3 data3,
        TwoOut msft_guid_data4 data4,
        TwoOut msft_guid_text to_string,
    );
    exports.extend(views!(GuidEntry GuidEntry:
        TwoOut msft_guidentry_guid guid,
        Two msft_guidentry_hreftype hreftype,
        Two msft_guidentry_next_hash next_hash,
    ));
    exports.extend(views!(Param ParameterInfo:
        Two msft_param_datatype datatype,
        Two msft_param_name_offset name_offset,
        Two msft_param_flags flags,
        Two msft_param_is_in is_in,
        Two msft_param_is_out is_out,
        Two msft_param_is_retval is_retval,
        Two msft_param_is_optional is_optional,
    ));
    exports.extend(views!(RefRecord RefRecord:
        Two msft_ref_reftype reftype,
        Two msft_ref_flags flags,
        Two msft_ref_onext onext,
        Two msft_ref_is_default is_default,
        Two msft_ref_is_source is_source,
        Two msft_ref_is_restricted is_restricted,
    ));
    exports
}

fn counted_records() -> Vec<Export> {
    let mut exports = views!(ImpInfo ImpInfo:
        Two msft_impinfo_flags flags,
        Two msft_impinfo_imp_file_offset imp_file_offset,
        Two msft_impinfo_guid_offset guid_offset,
    );
    exports.extend(views!(ArrayDesc ArrayDesc:
        Two msft_arraydesc_element_type element_type,
        Two msft_arraydesc_num_dims num_dims,
        Two msft_arraydesc_flags flags,
        ThreeOut msft_arraydesc_bound bound,
        TwoOut msft_arraydesc_size size,
    ));
    exports.extend(views!(ImpFile ImpFile:
        Two msft_impfile_guid_offset guid_offset,
        Two msft_impfile_lcid lcid,
        Two msft_impfile_major_version major_version,
        Two msft_impfile_minor_version minor_version,
        Two msft_impfile_size_field size_field,
        TwoOut msft_impfile_filename filename,
        TwoOut msft_impfile_filename_bytes filename_bytes,
        TwoOut msft_impfile_entry_size entry_size,
    ));
    // The entry's numbers come with it by value; the export takes the place of its text alone.
    exports.push(
        export!(TwoOut msft_nameentry_name, Asks::Record(Kind::Name), Lent, |lib, numbers| {
            let text = lent_at(lib, numbers).and_then(|bytes| std::str::from_utf8(bytes).ok());
            text.map(|text| NameEntry::new(0, text, 0, 0, 0, 0).name()).tell(lib.data())
        }),
    );
    exports
}

/// The check of a text. The reference has no such reading: it is document 02's.
fn texts() -> Vec<Export> {
    vec![
        export!(TwoOut msft_text_check, Asks::Record(Kind::TextCheck), Lent, |lib, numbers| {
            lent_at(lib, numbers).map(text_check).tell(lib.data())
        }),
    ]
}

fn typeinfos() -> Vec<Export> {
    views!(TypeInfo TypeInfoEntry:
        TwoOut msft_typeinfo_as_bytes as_bytes,
        Two msft_typeinfo_typekind typekind,
        Two msft_typeinfo_typekind_raw typekind_raw,
        Two msft_typeinfo_memoffset memoffset,
        Two msft_typeinfo_res2 res2,
        Two msft_typeinfo_celement celement,
        Two msft_typeinfo_func_count func_count,
        Two msft_typeinfo_var_count var_count,
        Two msft_typeinfo_guid_offset guid_offset,
        Two msft_typeinfo_flags flags,
        Two msft_typeinfo_name_offset name_offset,
        Two msft_typeinfo_version version,
        Two msft_typeinfo_docstring_offset docstring_offset,
        Two msft_typeinfo_cimpltypes cimpltypes,
        Two msft_typeinfo_cb_size_vft cb_size_vft,
        Two msft_typeinfo_size size,
        Two msft_typeinfo_datatype1 datatype1,
        Two msft_typeinfo_datatype2 datatype2,
        Two msft_typeinfo_helpstringcontext helpstringcontext,
        Two msft_typeinfo_helpcontext helpcontext,
        Two msft_typeinfo_cust_data_offset cust_data_offset,
        Two msft_typeinfo_res3 res3,
        Two msft_typeinfo_res18 res18,
        Two msft_typeinfo_res19 res19,
    )
}

fn vars() -> Vec<Export> {
    let mut exports = views!(Var VarRecord:
        TwoOut msft_var_as_bytes as_bytes,
        Two msft_var_info info,
        TwoOut msft_var_record_size record_size,
        Two msft_var_datatype datatype,
        Two msft_var_flags flags,
        Two msft_var_varkind varkind,
        Two msft_var_vardesc_size vardesc_size,
        Two msft_var_offs_value offs_value,
        Two msft_var_help_context help_context,
        Two msft_var_help_string_offset help_string_offset,
        Two msft_var_res9 res9,
        Two msft_var_cust_data_offset cust_data_offset,
        Two msft_var_helpstringcontext helpstringcontext,
    );
    exports.push(
        export!(TwoOut msft_var_from_raw, Asks::Record(Kind::Var), Lent, |lib, numbers| {
            let bytes = lent_at(lib, numbers);
            bytes.and_then(|bytes| VarRecord::from_raw(bytes).ok()).tell(lib.data())
        }),
    );
    exports
}

fn funcs() -> Vec<Export> {
    views!(Func FuncRecord:
        TwoOut msft_func_as_bytes as_bytes,
        Two msft_func_info info,
        TwoOut msft_func_record_size record_size,
        Two msft_func_datatype datatype,
        Two msft_func_flags flags,
        Two msft_func_vtable_offset vtable_offset,
        Two msft_func_funcdesc_size funcdesc_size,
        Two msft_func_fkccic fkccic,
        Two msft_func_func_kind func_kind,
        Two msft_func_invoke_kind invoke_kind,
        Two msft_func_callconv callconv,
        Two msft_func_nrargs nrargs,
        Two msft_func_nroargs nroargs,
        Two msft_func_has_default_values has_default_values,
        Two msft_func_has_cust_data has_cust_data,
    )
}

fn func_attributes() -> Vec<Export> {
    views!(Func FuncRecord:
        Three msft_func_default_value_offset default_value_offset,
        Two msft_func_has_arg_cust_data has_arg_cust_data,
        Two msft_func_help_context help_context,
        Two msft_func_help_string_offset help_string_offset,
        Two msft_func_oentry oentry,
        Two msft_func_res9 res9,
        Two msft_func_res_a res_a,
        Two msft_func_helpstringcontext helpstringcontext,
        Two msft_func_cust_data_offset cust_data_offset,
        Three msft_func_arg_cust_data_offset arg_cust_data_offset,
    )
}

/// The readings of numbers alone. The Rust has none that tells a reference that hits no typeinfo: that one is document 02's.
fn alone() -> Vec<Export> {
    vec![
        export!(Kind msft_kind_from_raw, Asks::RawKind, Alone, |[raw, ..]| {
            TypeKind::from_raw(raw as u8).tell(&[])
        }),
        export!(KindOut msft_kind_word, Asks::RawKind, Alone, |[raw, ..]| {
            TypeKind::from_raw(raw as u8).to_string().tell(&[])
        }),
        export!(CodeOut msft_vt_name, Asks::Code, Alone, |[code, ..]| {
            vt_name(code as u16).to_string().tell(&[])
        }),
        export!(Hreftype msft_misplaced_offset, Asks::Hreftype, Alone, |[hreftype, ..]| {
            misplaced_offset(hreftype as i32).tell(&[])
        }),
    ]
}
