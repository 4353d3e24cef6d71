//! The readings of a library's header, and the sheet and its figures.

use super::answer::{Answer, Tell};
use super::numbers::Asks;
use super::{Export, Rust, export, linked};
use crate::figures::{Figures, figures};
use crate::sheet::{MOST_BYTES, sheet};

/// Exports that ask a library for a method without numbers.
macro_rules! plain {
    ($($form:ident $name:ident $method:ident),* $(,)?) => {
        vec![$(export!($form $name, Asks::Nothing, Library, |lib, _| {
            lib.$method().tell(lib.data())
        })),*]
    };
}

pub(super) fn exports() -> Vec<Export> {
    let mut exports = header();
    exports.extend(plain!(
        LibOut msft_guid_hash_data guid_hash_data,
        LibOut msft_name_hash_data name_hash_data,
        LibOut msft_lib_name lib_name,
        LibOut msft_lib_guid lib_guid,
        LibOut msft_lib_helpstring lib_helpstring,
    ));
    exports.push(export!(Lib msft_parse, Asks::Nothing, Library, |_, _| Answer::Number(0)));
    // A count has at most 32 bits, though the reference keeps it as a size.
    exports.push(
        export!(Lib msft_typeinfo_count, Asks::Nothing, Library, |lib, _| {
            Answer::Number(u32::try_from(lib.typeinfo_count()).expect("it was read from 32 bits"))
        }),
    );
    // The sheet and its figures are no readings of the reference, and are made from its readings.
    exports.push(export!(LibOut msft_sheet, Asks::Nothing, Bytes, |bytes| {
        sheet(bytes, MOST_BYTES).map_or_else(Answer::Refused, Answer::Row)
    }));
    exports.push(
        export!(LibOut msft_sheet_figures, Asks::Nothing, Bytes, |bytes| {
            let figures = figures(bytes).map(Figures::bytes);
            figures.map_or_else(Answer::Refused, Answer::Row)
        }),
    );
    exports
}

fn header() -> Vec<Export> {
    plain!(
        Lib msft_format_version format_version,
        Lib msft_lib_guid_offset lib_guid_offset,
        Lib msft_lcid lcid,
        Lib msft_lcid2 lcid2,
        Lib msft_varflags varflags,
        Lib msft_syskind syskind,
        Lib msft_has_help_dll has_help_dll,
        Lib msft_version version,
        Lib msft_version_major version_major,
        Lib msft_version_minor version_minor,
        Lib msft_flags flags,
        Lib msft_helpstring_offset helpstring_offset,
        Lib msft_helpstringcontext helpstringcontext,
        Lib msft_helpcontext helpcontext,
        Lib msft_nametablecount nametablecount,
        Lib msft_nametablechars nametablechars,
        Lib msft_name_offset name_offset,
        Lib msft_helpfile_offset helpfile_offset,
        Lib msft_custom_data_offset custom_data_offset,
        Lib msft_dispatchpos dispatchpos,
        Lib msft_nimpinfos nimpinfos,
    )
}
