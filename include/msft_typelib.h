/* msft_typelib: readings of COM type libraries (MSFT format) for C and C++.

   Each function below is a proved reading; its contract says what it replies and what it leaves in
   its output, for every input.

   lib, lib_len   the lent bytes: the library's, or those of a record alone (see below).
   at, len        a record or a text, by its place in those bytes, as another call wrote it.
   pos, end, ..   a cursor, by its numbers, as another call wrote it.
   out, out_len   the output. It must not overlap the lent bytes.

   A reading of one number of at most 32 bits replies that number: an i32 and an i16 by their bits
   (msft_i32 and msft_i16 give the signed number), a truth as 0 or 1. Any other writes its values to
   the front of `out`, little-endian, at their own widths, and replies how many bytes it wrote; a
   place, a length, an index and a cursor's numbers have eight bytes each, but for a chain cursor's
   `next` and a sheet's figures, which have four. The functions msft_unpack_.. read them back.

   Calls that need the library's header, its table of offsets or a segment begin with `parse`, and
   reply -1 to -5 where the bytes are no library. The others read only the lent bytes, if they take any;
   these need be no library, and are not parsed: those of a record or a text by its place; msft_funcs,
   msft_vars and msft_params, which are a typeinfo's or a function's own cursors; every step but
   msft_typeinfo_step; msft_walk; and a member's identifier and the offset of its name,
   msft_func_memid, msft_var_memid, msft_func_name_offset and msft_var_name_offset. They reply -1
   where more than 16,777,216 bytes are lent, and -9 for a record that is not wholly inside them or
   shorter than its fixed part.

   A table is a segment, and what is read by an offset into it ends with it: a name (12 bytes and its
   text), a string (2 and its text), a GUID (16), a typeinfo (100), a type descriptor (8), an array
   descriptor (8, and 8 for each dimension), an import record (12), an import file (its entry, filled up
   to a multiple of four), a reference record (16) and a stored constant (2 bytes of code, its stored
   width, a text's bytes) lies wholly inside its segment and inside the lent bytes. Else a typeinfo is
   -8 and any other is -9. These readings do not refuse a segment because it passes the end of the
   bytes. A cursor over a table has the table's end in its own numbers: what it yields ends by that and by
   the end of the bytes. Functions, variables, parameters and the words behind their block lie in no
   segment.

   A refusal replies minus its number and writes nothing. The numbers in a comment are all that the
   call has. An output that is too short is -12, which stands behind every other refusal unless the
   comment says otherwise. A place or a cursor that comes back damaged is refused or read as any
   other number; no call looks outside its bytes. */
#ifndef MSFT_TYPELIB_H
#define MSFT_TYPELIB_H

#include <stddef.h>
#include <stdint.h>
#include <string.h>

#ifdef __cplusplus
extern "C" {
#endif

/* ---- refusals ---- */

enum msft_refusal {
    MSFT_OVER_LONG = 1,
    MSFT_SHORT_HEADER = 2,
    MSFT_WRONG_MAGIC = 3,
    MSFT_BAD_COUNT = 4,
    MSFT_SHORT_DIRECTORY = 5,
    MSFT_NO_SUCH_TYPEINFO = 6,
    MSFT_NO_TYPEINFO_TABLE = 7,
    MSFT_SHORT_TYPEINFO = 8,
    MSFT_NOTHING_THERE = 9,
    MSFT_CIRCLE = 10,
    MSFT_TOO_DEEP = 11,
    MSFT_NO_SPACE = 12,
    MSFT_TOO_MANY_TYPES = 13
};

/* The word for a reply's refusal; "" where the reply is none. */
static inline const char *msft_refusal_word(int64_t reply)
{
    switch (reply) {
    case -MSFT_OVER_LONG: return "over-long";
    case -MSFT_SHORT_HEADER: return "short header";
    case -MSFT_WRONG_MAGIC: return "wrong magic";
    case -MSFT_BAD_COUNT: return "bad count";
    case -MSFT_SHORT_DIRECTORY: return "short directory";
    case -MSFT_NO_SUCH_TYPEINFO: return "no such typeinfo";
    case -MSFT_NO_TYPEINFO_TABLE: return "no typeinfo table";
    case -MSFT_SHORT_TYPEINFO: return "short typeinfo";
    case -MSFT_NOTHING_THERE: return "nothing there";
    case -MSFT_CIRCLE: return "circle";
    case -MSFT_TOO_DEEP: return "too deep";
    case -MSFT_NO_SPACE: return "no space";
    case -MSFT_TOO_MANY_TYPES: return "too many types";
    default: return "";
    }
}

/* ---- the sheet (msft_sheet needs some 150 KB of stack), and its figures ---- */

/* The library's sheet. Writes it whole; -1 to -8, -10 to -13. Two sheets are equal exactly if the two
   libraries have the same description. A sheet that was stored when a reference that hits no typeinfo
   (see msft_misplaced_offset) was still laid out as nothing or as a typeinfo's index has to be made
   again from its library: no call can tell it from another or set it right. */
int64_t msft_sheet(const uint8_t *lib, size_t lib_len, uint8_t *out, size_t out_len);

/* The figures of the library's sheet, before it is made: its length in bytes; how many functions,
   parameters and variables it reads, those that are yielded and not those that are declared; and how many
   references, each field that holds one, also where it leads to nothing: the base of kinds 3 and 4, each
   record of a coclass's chain, and each reference in the type of a result, a parameter, a variable or an
   alias (a type that cannot be read holds none). A figure above 16,777,216 is given as 16,777,217, each by
   itself.

   So an output is reserved: where the length is at most 16,777,216, an output of that length is enough, and
   msft_sheet fills it exactly; whenever msft_sheet writes a sheet, its reply is the length given here. A
   length of 16,777,217 is no refusal here; msft_sheet is then -12 whatever its output. This call is refused
   exactly where msft_sheet is by another number than -12, by that number; its own -12 says only that
   out_len is below 20. Its time goes by the members that are read, and not by lib_len: a hostile library,
   whose types share their records, can take minutes. Writes five u32, the length, functions, parameters,
   variables and references (20 bytes); -1 to -8, -10 to -13. */
int64_t msft_sheet_figures(const uint8_t *lib, size_t lib_len, uint8_t *out, size_t out_len);

/* ---- guid: a GUID, by its place ---- */
/* The place of the 16 bytes. Writes a place (16 bytes); -1, -9, -12. */
int64_t msft_guid_as_bytes(
    const uint8_t *lib, size_t lib_len, size_t at, size_t len, uint8_t *out, size_t out_len);

/* The first four bytes, as a number. Replies a u32; -1, -9. */
int64_t msft_guid_data1(const uint8_t *lib, size_t lib_len, size_t at, size_t len);

/* Bytes 4 and 5, as a number. Replies a u16; -1, -9. */
int64_t msft_guid_data2(const uint8_t *lib, size_t lib_len, size_t at, size_t len);

/* Bytes 6 and 7, as a number. Replies a u16; -1, -9. */
int64_t msft_guid_data3(const uint8_t *lib, size_t lib_len, size_t at, size_t len);

/* The place of the last eight bytes. Writes a place (16 bytes); -1, -9, -12. */
int64_t msft_guid_data4(
    const uint8_t *lib, size_t lib_len, size_t at, size_t len, uint8_t *out, size_t out_len);

/* The text form, `{XXXXXXXX-XXXX-XXXX-XXXX-XXXXXXXXXXXX}`. Writes the text (38 bytes); -1, -9,
   -12. */
int64_t msft_guid_text(
    const uint8_t *lib, size_t lib_len, size_t at, size_t len, uint8_t *out, size_t out_len);

/* ---- guidentry: an entry of the GUID table, by its place ---- */
/* The GUID itself. Writes a place (16 bytes); -1, -9, -12. */
int64_t msft_guidentry_guid(
    const uint8_t *lib, size_t lib_len, size_t at, size_t len, uint8_t *out, size_t out_len);

/* The hreftype of the type it belongs to; -2 for the library's own GUID. Replies the 32 bits of
   an i32; -1, -9. */
int64_t msft_guidentry_hreftype(const uint8_t *lib, size_t lib_len, size_t at, size_t len);

/* The offset of the next entry of the hash chain; -1 at its end. Replies the 32 bits of an i32;
   -1, -9. */
int64_t msft_guidentry_next_hash(const uint8_t *lib, size_t lib_len, size_t at, size_t len);

/* ---- param: a function's parameter, by its place ---- */
/* The parameter's type field: negative for a base type, else an offset into the type-descriptor
   table. Replies the 32 bits of an i32; -1, -9. */
int64_t msft_param_datatype(const uint8_t *lib, size_t lib_len, size_t at, size_t len);

/* The offset of its name in the name table. Replies the 32 bits of an i32; -1, -9. */
int64_t msft_param_name_offset(const uint8_t *lib, size_t lib_len, size_t at, size_t len);

/* PARAMFLAG bits. Replies a u32; -1, -9. */
int64_t msft_param_flags(const uint8_t *lib, size_t lib_len, size_t at, size_t len);

/* Whether the parameter goes in. Replies 0 or 1; -1, -9. */
int64_t msft_param_is_in(const uint8_t *lib, size_t lib_len, size_t at, size_t len);

/* Whether the parameter comes out. Replies 0 or 1; -1, -9. */
int64_t msft_param_is_out(const uint8_t *lib, size_t lib_len, size_t at, size_t len);

/* Whether the parameter is the result. Replies 0 or 1; -1, -9. */
int64_t msft_param_is_retval(const uint8_t *lib, size_t lib_len, size_t at, size_t len);

/* Whether the parameter may be left out. Replies 0 or 1; -1, -9. */
int64_t msft_param_is_optional(const uint8_t *lib, size_t lib_len, size_t at, size_t len);

/* ---- refrecord: a record of a chain of implemented types, by its place ---- */
/* The hreftype of the interface. Replies the 32 bits of an i32; -1, -9. */
int64_t msft_ref_reftype(const uint8_t *lib, size_t lib_len, size_t at, size_t len);

/* IMPLTYPEFLAG bits. Replies a u32; -1, -9. */
int64_t msft_ref_flags(const uint8_t *lib, size_t lib_len, size_t at, size_t len);

/* The offset of the next record of the chain; -1 at its end. Replies the 32 bits of an i32; -1,
   -9. */
int64_t msft_ref_onext(const uint8_t *lib, size_t lib_len, size_t at, size_t len);

/* Whether the interface is the default one. Replies 0 or 1; -1, -9. */
int64_t msft_ref_is_default(const uint8_t *lib, size_t lib_len, size_t at, size_t len);

/* Whether the interface is a source of events. Replies 0 or 1; -1, -9. */
int64_t msft_ref_is_source(const uint8_t *lib, size_t lib_len, size_t at, size_t len);

/* Whether the interface is restricted. Replies 0 or 1; -1, -9. */
int64_t msft_ref_is_restricted(const uint8_t *lib, size_t lib_len, size_t at, size_t len);

/* ---- impinfo: an import record, by its place ---- */
/* Bit 16: the last field is an offset into the GUID table. Bits 24 to 31: the TYPEKIND. Replies
   a u32; -1, -9. */
int64_t msft_impinfo_flags(const uint8_t *lib, size_t lib_len, size_t at, size_t len);

/* The offset of the import file in its table. Replies the 32 bits of an i32; -1, -9. */
int64_t msft_impinfo_imp_file_offset(const uint8_t *lib, size_t lib_len, size_t at, size_t len);

/* The offset of the GUID in its table, or the index of the type in the imported library. Replies
   the 32 bits of an i32; -1, -9. */
int64_t msft_impinfo_guid_offset(const uint8_t *lib, size_t lib_len, size_t at, size_t len);

/* ---- arraydesc: a C array's descriptor, by its place ---- */
/* The type field of the elements. Replies the 32 bits of an i32; -1, -9. */
int64_t msft_arraydesc_element_type(const uint8_t *lib, size_t lib_len, size_t at, size_t len);

/* The number of dimensions. Replies a u16; -1, -9. */
int64_t msft_arraydesc_num_dims(const uint8_t *lib, size_t lib_len, size_t at, size_t len);

/* Its flags. Replies a u16; -1, -9. */
int64_t msft_arraydesc_flags(const uint8_t *lib, size_t lib_len, size_t at, size_t len);

/* The bounds of dimension `index`, counted from 0. Writes u32 elements, i32 lower bound (8
   bytes); -1, -9, -12. */
int64_t msft_arraydesc_bound(
    const uint8_t *lib, size_t lib_len, size_t at, size_t len, size_t index, uint8_t *out,
    size_t out_len);

/* The descriptor's length with its bounds, by its count of dimensions. Writes a u64 (8 bytes);
   -1, -9, -12. */
int64_t msft_arraydesc_size(
    const uint8_t *lib, size_t lib_len, size_t at, size_t len, uint8_t *out, size_t out_len);

/* ---- impfile: an import file, by its place ---- */
/* The offset of the library's GUID in the GUID table. Replies the 32 bits of an i32; -1, -9. */
int64_t msft_impfile_guid_offset(const uint8_t *lib, size_t lib_len, size_t at, size_t len);

/* Its locale. Replies the 32 bits of an i32; -1, -9. */
int64_t msft_impfile_lcid(const uint8_t *lib, size_t lib_len, size_t at, size_t len);

/* The major version of the library it names. Replies a u16; -1, -9. */
int64_t msft_impfile_major_version(const uint8_t *lib, size_t lib_len, size_t at, size_t len);

/* The minor version of the library it names. Replies a u16; -1, -9. */
int64_t msft_impfile_minor_version(const uint8_t *lib, size_t lib_len, size_t at, size_t len);

/* The length of the file name in bits 2 to 15; bits 0 and 1 are flags. Replies a u16; -1, -9. */
int64_t msft_impfile_size_field(const uint8_t *lib, size_t lib_len, size_t at, size_t len);

/* The file name, where it is UTF-8. Writes a place (16 bytes); -1, -9, -12. */
int64_t msft_impfile_filename(
    const uint8_t *lib, size_t lib_len, size_t at, size_t len, uint8_t *out, size_t out_len);

/* The file name, in the code page the library was built in. Writes a place (16 bytes); -1, -9,
   -12. */
int64_t msft_impfile_filename_bytes(
    const uint8_t *lib, size_t lib_len, size_t at, size_t len, uint8_t *out, size_t out_len);

/* The entry's length with its name, filled up to a multiple of four. Writes a u64 (8 bytes); -1,
   -9, -12. */
int64_t msft_impfile_entry_size(
    const uint8_t *lib, size_t lib_len, size_t at, size_t len, uint8_t *out, size_t out_len);

/* ---- name: an entry of the name table, by the place of its text ---- */
/* The entry's name, where it is UTF-8. Writes a place (16 bytes); -1, -9, -12. */
int64_t msft_nameentry_name(
    const uint8_t *lib, size_t lib_len, size_t at, size_t len, uint8_t *out, size_t out_len);

/* ---- textcheck: a text, by its place ---- */
/* Whether the bytes are UTF-8 (RFC 3629), and how many of them were looked at, each once: all of a valid
   text and of one that only breaks off, else up to and with the first byte that no valid text has there
   after the bytes before it. A text that is not valid and was looked at whole breaks off, or has that
   byte as its last: checked with a byte more behind it, any byte that is lent with it, only one that
   breaks off is looked at whole again. Writes a u8, 1 where they are UTF-8 and 0 where not, and a u64
   (9 bytes); -1, -9 for a place that is not inside the lent bytes, -12. */
int64_t msft_text_check(
    const uint8_t *lib, size_t lib_len, size_t at, size_t len, uint8_t *out, size_t out_len);

/* ---- typeinfo: a typeinfo, by its place ---- */
/* The record's bytes. Writes a place (16 bytes); -1, -9, -12. */
int64_t msft_typeinfo_as_bytes(
    const uint8_t *lib, size_t lib_len, size_t at, size_t len, uint8_t *out, size_t out_len);

/* The kind, in the low four bits of its field. Replies 0 to 15; -1, -9. */
int64_t msft_typeinfo_typekind(const uint8_t *lib, size_t lib_len, size_t at, size_t len);

/* The whole field: the kind in its low four bits, the alignment in bits 11 to 15. Replies a u32;
   -1, -9. */
int64_t msft_typeinfo_typekind_raw(const uint8_t *lib, size_t lib_len, size_t at, size_t len);

/* The file offset of the block of function and variable records; negative where there is none.
   Replies the 32 bits of an i32; -1, -9. */
int64_t msft_typeinfo_memoffset(const uint8_t *lib, size_t lib_len, size_t at, size_t len);

/* The word at 0x08. Replies the 32 bits of an i32; -1, -9. */
int64_t msft_typeinfo_res2(const uint8_t *lib, size_t lib_len, size_t at, size_t len);

/* The declared counts: functions in the low half, variables in the high half. Replies a u32; -1,
   -9. */
int64_t msft_typeinfo_celement(const uint8_t *lib, size_t lib_len, size_t at, size_t len);

/* How many functions it declares. Replies a u16; -1, -9. */
int64_t msft_typeinfo_func_count(const uint8_t *lib, size_t lib_len, size_t at, size_t len);

/* How many variables it declares. Replies a u16; -1, -9. */
int64_t msft_typeinfo_var_count(const uint8_t *lib, size_t lib_len, size_t at, size_t len);

/* The offset of the type's GUID in its table; -1 where it has none. Replies the 32 bits of an
   i32; -1, -9. */
int64_t msft_typeinfo_guid_offset(const uint8_t *lib, size_t lib_len, size_t at, size_t len);

/* TYPEFLAG bits. Replies a u32; -1, -9. */
int64_t msft_typeinfo_flags(const uint8_t *lib, size_t lib_len, size_t at, size_t len);

/* The offset of its name in the name table. Replies the 32 bits of an i32; -1, -9. */
int64_t msft_typeinfo_name_offset(const uint8_t *lib, size_t lib_len, size_t at, size_t len);

/* Its version, the major one in the low 16 bits. Replies a u32; -1, -9. */
int64_t msft_typeinfo_version(const uint8_t *lib, size_t lib_len, size_t at, size_t len);

/* The offset of its doc string in the string table; -1 where it has none. Replies the 32 bits of
   an i32; -1, -9. */
int64_t msft_typeinfo_docstring_offset(const uint8_t *lib, size_t lib_len, size_t at, size_t len);

/* How many interfaces it implements. Replies the 16 bits of an i16; -1, -9. */
int64_t msft_typeinfo_cimpltypes(const uint8_t *lib, size_t lib_len, size_t at, size_t len);

/* The size of its virtual table in bytes. Replies the 16 bits of an i16; -1, -9. */
int64_t msft_typeinfo_cb_size_vft(const uint8_t *lib, size_t lib_len, size_t at, size_t len);

/* The size of an instance in bytes. Replies the 32 bits of an i32; -1, -9. */
int64_t msft_typeinfo_size(const uint8_t *lib, size_t lib_len, size_t at, size_t len);

/* Of a coclass the offset of its first reference, of an alias the type field it stands for, of
   an interface the hreftype of its base. Replies the 32 bits of an i32; -1, -9. */
int64_t msft_typeinfo_datatype1(const uint8_t *lib, size_t lib_len, size_t at, size_t len);

/* The word at 0x58. Replies the 32 bits of an i32; -1, -9. */
int64_t msft_typeinfo_datatype2(const uint8_t *lib, size_t lib_len, size_t at, size_t len);

/* The context of its help string. Replies the 32 bits of an i32; -1, -9. */
int64_t msft_typeinfo_helpstringcontext(const uint8_t *lib, size_t lib_len, size_t at, size_t len);

/* Its help context. Replies the 32 bits of an i32; -1, -9. */
int64_t msft_typeinfo_helpcontext(const uint8_t *lib, size_t lib_len, size_t at, size_t len);

/* The offset of its custom data in their directory; -1 where it has none. Replies the 32 bits of
   an i32; -1, -9. */
int64_t msft_typeinfo_cust_data_offset(const uint8_t *lib, size_t lib_len, size_t at, size_t len);

/* The word at 0x0C. Replies the 32 bits of an i32; -1, -9. */
int64_t msft_typeinfo_res3(const uint8_t *lib, size_t lib_len, size_t at, size_t len);

/* The word at 0x5C. Replies the 32 bits of an i32; -1, -9. */
int64_t msft_typeinfo_res18(const uint8_t *lib, size_t lib_len, size_t at, size_t len);

/* The word at 0x60. Replies the 32 bits of an i32; -1, -9. */
int64_t msft_typeinfo_res19(const uint8_t *lib, size_t lib_len, size_t at, size_t len);

/* ---- var: the record of a variable, by its place ---- */
/* The record at that place; 9 where it is shorter than its fixed part or not inside the bytes.
   Writes a place (16 bytes); -1, -9, -12. */
int64_t msft_var_from_raw(
    const uint8_t *lib, size_t lib_len, size_t at, size_t len, uint8_t *out, size_t out_len);

/* The record's bytes. Writes a place (16 bytes); -1, -9, -12. */
int64_t msft_var_as_bytes(
    const uint8_t *lib, size_t lib_len, size_t at, size_t len, uint8_t *out, size_t out_len);

/* The record's size in its low 16 bits, and the member's index. Replies a u32; -1, -9. */
int64_t msft_var_info(const uint8_t *lib, size_t lib_len, size_t at, size_t len);

/* The record's own size. Writes a u64 (8 bytes); -1, -9, -12. */
int64_t msft_var_record_size(
    const uint8_t *lib, size_t lib_len, size_t at, size_t len, uint8_t *out, size_t out_len);

/* The variable's type field. Replies the 32 bits of an i32; -1, -9. */
int64_t msft_var_datatype(const uint8_t *lib, size_t lib_len, size_t at, size_t len);

/* VARFLAG bits. Replies a u32; -1, -9. */
int64_t msft_var_flags(const uint8_t *lib, size_t lib_len, size_t at, size_t len);

/* VARKIND: 0 per instance, 1 static, 2 constant, 3 dispatch. Replies the 16 bits of an i16; -1,
   -9. */
int64_t msft_var_varkind(const uint8_t *lib, size_t lib_len, size_t at, size_t len);

/* The size of its VARDESC. Replies the 16 bits of an i16; -1, -9. */
int64_t msft_var_vardesc_size(const uint8_t *lib, size_t lib_len, size_t at, size_t len);

/* Of a constant its value or the value's place, of any other variable its offset in the
   instance. Replies the 32 bits of an i32; -1, -9. */
int64_t msft_var_offs_value(const uint8_t *lib, size_t lib_len, size_t at, size_t len);

/* Its help context, an attribute. Replies the 32 bits of an i32; -1, -9. */
int64_t msft_var_help_context(const uint8_t *lib, size_t lib_len, size_t at, size_t len);

/* The offset of its help string in the string table. Replies the 32 bits of an i32; -1, -9. */
int64_t msft_var_help_string_offset(const uint8_t *lib, size_t lib_len, size_t at, size_t len);

/* An attribute without a name. Replies the 32 bits of an i32; -1, -9. */
int64_t msft_var_res9(const uint8_t *lib, size_t lib_len, size_t at, size_t len);

/* The offset of its custom data in their directory. Replies the 32 bits of an i32; -1, -9. */
int64_t msft_var_cust_data_offset(const uint8_t *lib, size_t lib_len, size_t at, size_t len);

/* The context of its help string, an attribute. Replies the 32 bits of an i32; -1, -9. */
int64_t msft_var_helpstringcontext(const uint8_t *lib, size_t lib_len, size_t at, size_t len);

/* ---- func: the record of a function, by its place ---- */
/* The record's bytes. Writes a place (16 bytes); -1, -9, -12. */
int64_t msft_func_as_bytes(
    const uint8_t *lib, size_t lib_len, size_t at, size_t len, uint8_t *out, size_t out_len);

/* The record's size in its low 16 bits, and the member's index. Replies a u32; -1, -9. */
int64_t msft_func_info(const uint8_t *lib, size_t lib_len, size_t at, size_t len);

/* The record's own size. Writes a u64 (8 bytes); -1, -9, -12. */
int64_t msft_func_record_size(
    const uint8_t *lib, size_t lib_len, size_t at, size_t len, uint8_t *out, size_t out_len);

/* The type field of the result. Replies the 32 bits of an i32; -1, -9. */
int64_t msft_func_datatype(const uint8_t *lib, size_t lib_len, size_t at, size_t len);

/* FUNCFLAG bits. Replies a u32; -1, -9. */
int64_t msft_func_flags(const uint8_t *lib, size_t lib_len, size_t at, size_t len);

/* Its offset in the vtable. Replies the 16 bits of an i16; -1, -9. */
int64_t msft_func_vtable_offset(const uint8_t *lib, size_t lib_len, size_t at, size_t len);

/* The size of its FUNCDESC. Replies the 16 bits of an i16; -1, -9. */
int64_t msft_func_funcdesc_size(const uint8_t *lib, size_t lib_len, size_t at, size_t len);

/* Function kind (bits 0 to 2), invoke kind (3 to 6), custom data (7), calling convention (8 to
   11), default values (12). Replies a u32; -1, -9. */
int64_t msft_func_fkccic(const uint8_t *lib, size_t lib_len, size_t at, size_t len);

/* FUNCKIND: 0 virtual, 1 pure virtual, 2 non-virtual, 3 static, 4 dispatch. Replies a u8; -1,
   -9. */
int64_t msft_func_func_kind(const uint8_t *lib, size_t lib_len, size_t at, size_t len);

/* INVOKEKIND: 1 function, 2 property get, 4 property put, 8 property put by reference. Replies a
   u8; -1, -9. */
int64_t msft_func_invoke_kind(const uint8_t *lib, size_t lib_len, size_t at, size_t len);

/* CALLCONV: 0 fastcall, 1 cdecl, 2 pascal, 4 stdcall. Replies a u8; -1, -9. */
int64_t msft_func_callconv(const uint8_t *lib, size_t lib_len, size_t at, size_t len);

/* The number of parameters. Replies the 16 bits of an i16; -1, -9. */
int64_t msft_func_nrargs(const uint8_t *lib, size_t lib_len, size_t at, size_t len);

/* The number of optional parameters. Replies the 16 bits of an i16; -1, -9. */
int64_t msft_func_nroargs(const uint8_t *lib, size_t lib_len, size_t at, size_t len);

/* Whether an array of default values stands before the parameters. Replies 0 or 1; -1, -9. */
int64_t msft_func_has_default_values(const uint8_t *lib, size_t lib_len, size_t at, size_t len);

/* Whether the function or its parameters have custom data. Replies 0 or 1; -1, -9. */
int64_t msft_func_has_cust_data(const uint8_t *lib, size_t lib_len, size_t at, size_t len);

/* The OffsValue of parameter `index`'s default. The array of one word a parameter lies right
   before the parameters, at the record's end, even over its fixed part. Replies the 32 bits of
   an i32; -1, -9. */
int64_t msft_func_default_value_offset(
    const uint8_t *lib, size_t lib_len, size_t at, size_t len, size_t index);

/* Whether the record holds custom data offsets of its parameters. Replies 0 or 1; -1, -9. */
int64_t msft_func_has_arg_cust_data(const uint8_t *lib, size_t lib_len, size_t at, size_t len);

/* Its help context, an attribute. Replies the 32 bits of an i32; -1, -9. */
int64_t msft_func_help_context(const uint8_t *lib, size_t lib_len, size_t at, size_t len);

/* The offset of its help string in the string table. Replies the 32 bits of an i32; -1, -9. */
int64_t msft_func_help_string_offset(const uint8_t *lib, size_t lib_len, size_t at, size_t len);

/* Of a module's function the entry point in its DLL: an offset in the string table, or an
   ordinal. Replies the 32 bits of an i32; -1, -9. */
int64_t msft_func_oentry(const uint8_t *lib, size_t lib_len, size_t at, size_t len);

/* An attribute without a name. Replies the 32 bits of an i32; -1, -9. */
int64_t msft_func_res9(const uint8_t *lib, size_t lib_len, size_t at, size_t len);

/* An attribute without a name. Replies the 32 bits of an i32; -1, -9. */
int64_t msft_func_res_a(const uint8_t *lib, size_t lib_len, size_t at, size_t len);

/* The context of its help string, an attribute. Replies the 32 bits of an i32; -1, -9. */
int64_t msft_func_helpstringcontext(const uint8_t *lib, size_t lib_len, size_t at, size_t len);

/* The offset of the function's custom data in their directory. Replies the 32 bits of an i32;
   -1, -9. */
int64_t msft_func_cust_data_offset(const uint8_t *lib, size_t lib_len, size_t at, size_t len);

/* The offset of the custom data of parameter `arg_index`. Replies the 32 bits of an i32; -1, -9. */
int64_t msft_func_arg_cust_data_offset(
    const uint8_t *lib, size_t lib_len, size_t at, size_t len, size_t arg_index);

/* ---- types: kinds and codes; these take no library ---- */
/* The kind that a number stands for, by its number: 0 to 7, or one that TYPEKIND has not.
   Replies the number. */
int64_t msft_kind_from_raw(uint8_t raw);

/* The word for a kind, as the Rust displays it. Writes the text (at most 12 bytes); -12. */
int64_t msft_kind_word(uint8_t raw, uint8_t *out, size_t out_len);

/* The name of a VARTYPE code. Writes the text (at most 12 bytes); -12. */
int64_t msft_vt_name(uint16_t vt, uint8_t *out, size_t out_len);

/* ---- typelib: the library's header ---- */
/* The word behind the magic. Replies a u32; -1 to -5. */
int64_t msft_format_version(const uint8_t *lib, size_t lib_len);

/* The offset of the library's GUID in the GUID table. Replies the 32 bits of an i32; -1 to -5. */
int64_t msft_lib_guid_offset(const uint8_t *lib, size_t lib_len);

/* The library's locale. Replies a u32; -1 to -5. */
int64_t msft_lcid(const uint8_t *lib, size_t lib_len);

/* The second locale. Replies a u32; -1 to -5. */
int64_t msft_lcid2(const uint8_t *lib, size_t lib_len);

/* SYSKIND in bits 0 to 3; bit 8 where a help DLL is named. Replies a u32; -1 to -5. */
int64_t msft_varflags(const uint8_t *lib, size_t lib_len);

/* SYSKIND: 0 Win16, 1 Win32, 2 Mac, 3 Win64. Replies a u8; -1 to -5. */
int64_t msft_syskind(const uint8_t *lib, size_t lib_len);

/* Whether a help DLL is named. Replies 0 or 1; -1 to -5. */
int64_t msft_has_help_dll(const uint8_t *lib, size_t lib_len);

/* Major in the low half, minor in the high half. Replies a u32; -1 to -5. */
int64_t msft_version(const uint8_t *lib, size_t lib_len);

/* The major version. Replies a u16; -1 to -5. */
int64_t msft_version_major(const uint8_t *lib, size_t lib_len);

/* The minor version. Replies a u16; -1 to -5. */
int64_t msft_version_minor(const uint8_t *lib, size_t lib_len);

/* LIBFLAG bits. Replies a u32; -1 to -5. */
int64_t msft_flags(const uint8_t *lib, size_t lib_len);

/* The offset of its help string in the string table; -1 where it has none. Replies the 32 bits
   of an i32; -1 to -5. */
int64_t msft_helpstring_offset(const uint8_t *lib, size_t lib_len);

/* The context of the library's help string. Replies the 32 bits of an i32; -1 to -5. */
int64_t msft_helpstringcontext(const uint8_t *lib, size_t lib_len);

/* The library's help context. Replies the 32 bits of an i32; -1 to -5. */
int64_t msft_helpcontext(const uint8_t *lib, size_t lib_len);

/* How many names the table holds. Replies the 32 bits of an i32; -1 to -5. */
int64_t msft_nametablecount(const uint8_t *lib, size_t lib_len);

/* How many characters the names have. Replies the 32 bits of an i32; -1 to -5. */
int64_t msft_nametablechars(const uint8_t *lib, size_t lib_len);

/* The offset of its name in the name table. Replies the 32 bits of an i32; -1 to -5. */
int64_t msft_name_offset(const uint8_t *lib, size_t lib_len);

/* The offset of its help file's name in the string table; -1 where it has none. Replies the 32
   bits of an i32; -1 to -5. */
int64_t msft_helpfile_offset(const uint8_t *lib, size_t lib_len);

/* The offset of its custom data in their directory; -1 where it has none. Replies the 32 bits of
   an i32; -1 to -5. */
int64_t msft_custom_data_offset(const uint8_t *lib, size_t lib_len);

/* The hreftype of IDispatch; -1 where there is none. Replies the 32 bits of an i32; -1 to -5. */
int64_t msft_dispatchpos(const uint8_t *lib, size_t lib_len);

/* How many imports it has. Replies the 32 bits of an i32; -1 to -5. */
int64_t msft_nimpinfos(const uint8_t *lib, size_t lib_len);

/* 0 where the bytes are a library, else refusal 1 to 5. Replies 0; -1 to -5. */
int64_t msft_parse(const uint8_t *lib, size_t lib_len);

/* How many typeinfos the library has. Replies a u32; -1 to -5. */
int64_t msft_typeinfo_count(const uint8_t *lib, size_t lib_len);

/* ---- typelib: segments, names, strings and GUIDs ---- */
/* Where segment `index` lies; 9 where it is missing. Writes a place (16 bytes); -1 to -5, -9,
   -12. */
int64_t msft_segment(
    const uint8_t *lib, size_t lib_len, size_t index, uint8_t *out, size_t out_len);

/* A name's bytes, in the code page the library was built in; its entry ends inside segment 7.
   Writes a place (16 bytes); -1 to -5, -9, -12. */
int64_t msft_name_bytes(
    const uint8_t *lib, size_t lib_len, int32_t offset, uint8_t *out, size_t out_len);

/* A name, where it is UTF-8; its entry ends inside segment 7. Writes a place (16 bytes); -1 to
   -5, -9, -12. */
int64_t msft_name(const uint8_t *lib, size_t lib_len, int32_t offset, uint8_t *out, size_t out_len);

/* A string of the string table, where it is UTF-8; it ends inside segment 8. Writes a place (16
   bytes); -1 to -5, -9, -12. */
int64_t msft_string(
    const uint8_t *lib, size_t lib_len, int32_t offset, uint8_t *out, size_t out_len);

/* The GUID at an offset of its table; its 16 bytes end inside segment 5. Writes a place (16
   bytes); -1 to -5, -9, -12. */
int64_t msft_guid(const uint8_t *lib, size_t lib_len, int32_t offset, uint8_t *out, size_t out_len);

/* The bytes of a segment; 9 where it is missing or passes the file's end. Writes a place (16
   bytes); -1 to -5, -9, -12. */
int64_t msft_segment_data(
    const uint8_t *lib, size_t lib_len, size_t index, uint8_t *out, size_t out_len);

/* The hash table of the GUIDs. Writes a place (16 bytes); -1 to -5, -9, -12. */
int64_t msft_guid_hash_data(const uint8_t *lib, size_t lib_len, uint8_t *out, size_t out_len);

/* The hash table of the names. Writes a place (16 bytes); -1 to -5, -9, -12. */
int64_t msft_name_hash_data(const uint8_t *lib, size_t lib_len, uint8_t *out, size_t out_len);

/* The library's own name, where it is UTF-8, as msft_name reads it. Writes a place (16 bytes);
   -1 to -5, -9, -12. */
int64_t msft_lib_name(const uint8_t *lib, size_t lib_len, uint8_t *out, size_t out_len);

/* The library's own GUID, as msft_guid reads it. Writes a place (16 bytes); -1 to -5, -9, -12. */
int64_t msft_lib_guid(const uint8_t *lib, size_t lib_len, uint8_t *out, size_t out_len);

/* The library's help string, where it is UTF-8, as msft_string reads it. Writes a place (16
   bytes); -1 to -5, -9, -12. */
int64_t msft_lib_helpstring(const uint8_t *lib, size_t lib_len, uint8_t *out, size_t out_len);

/* ---- typelib: typeinfos, and the identifiers and names of their members ---- */
/* A typeinfo's byte offset in segment 0. Replies the 32 bits of an i32; -1 to -5, -9. */
int64_t msft_typeinfo_offset(const uint8_t *lib, size_t lib_len, size_t index);

/* The typeinfo of that index; 8 where its 100 bytes do not end inside segment 0 and inside the
   lent bytes. Writes a place (16 bytes); -1 to -8, -12. */
int64_t msft_typeinfo(
    const uint8_t *lib, size_t lib_len, size_t index, uint8_t *out, size_t out_len);

/* The member identifier of function `index`. Replies the 32 bits of an i32; -1, -9. */
int64_t msft_func_memid(const uint8_t *lib, size_t lib_len, size_t at, size_t len, size_t index);

/* The member identifier of variable `index`. Replies the 32 bits of an i32; -1, -9. */
int64_t msft_var_memid(const uint8_t *lib, size_t lib_len, size_t at, size_t len, size_t index);

/* The name offset of function `index`; -1 where it has no name of its own. Replies the 32 bits
   of an i32; -1, -9. */
int64_t msft_func_name_offset(
    const uint8_t *lib, size_t lib_len, size_t at, size_t len, size_t index);

/* The name offset of variable `index`. Replies the 32 bits of an i32; -1, -9. */
int64_t msft_var_name_offset(
    const uint8_t *lib, size_t lib_len, size_t at, size_t len, size_t index);

/* The name of function `index`, where it is UTF-8, as msft_name reads it. Writes a place (16
   bytes); -1 to -5, -9, -12. */
int64_t msft_func_name(
    const uint8_t *lib, size_t lib_len, size_t at, size_t len, size_t index, uint8_t *out,
    size_t out_len);

/* The name of variable `index`, where it is UTF-8, as msft_name reads it. Writes a place (16
   bytes); -1 to -5, -9, -12. */
int64_t msft_var_name(
    const uint8_t *lib, size_t lib_len, size_t at, size_t len, size_t index, uint8_t *out,
    size_t out_len);

/* Name `k`, from 0, of the entries of a typeinfo, its own name left out, as msft_name_step
   yields them from the start of segment 7. Writes a place (16 bytes); -1 to -5, -9, -12. */
int64_t msft_member_name(
    const uint8_t *lib, size_t lib_len, size_t index, size_t k, uint8_t *out, size_t out_len);

/* ---- typelib: descriptions of types, references and constants ---- */
/* The type descriptor at an offset: its code, and what the code asks for; its 8 bytes end inside
   segment 9. Writes two u32 (8 bytes); -1 to -5, -9, -12. */
int64_t msft_type_desc(
    const uint8_t *lib, size_t lib_len, int32_t offset, uint8_t *out, size_t out_len);

/* The array descriptor at an offset, with its bounds, which end inside segment 10. Writes a
   place (16 bytes); -1 to -5, -9, -12. */
int64_t msft_array_desc(
    const uint8_t *lib, size_t lib_len, int32_t offset, uint8_t *out, size_t out_len);

/* What a type field names, one level of it: a base type, or what a type descriptor names, and of
   a C array its array descriptor. Writes a description (3, 5 or 17 bytes); -1 to -5, -9, -12. */
int64_t msft_type_description(
    const uint8_t *lib, size_t lib_len, int32_t datatype, uint8_t *out, size_t out_len);

/* The import file at an offset of its table; its entry, filled up, ends inside segment 2. Writes
   a place (16 bytes); -1 to -5, -9, -12. */
int64_t msft_imp_file(
    const uint8_t *lib, size_t lib_len, int32_t offset, uint8_t *out, size_t out_len);

/* The index of the typeinfo that an internal hreftype refers to: the number divided by 100, whatever
   is left over (see msft_misplaced_offset). Writes a u64 (8 bytes); -1 to -5, -9, -12. */
int64_t msft_resolve_hreftype(
    const uint8_t *lib, size_t lib_len, int32_t hreftype, uint8_t *out, size_t out_len);

/* What an hreftype refers to, in this library or another; an import record ends inside segment
   1, and its import file is as msft_imp_file has it. Writes a reference (9, 18 or 34 bytes); -1
   to -5, -9, -12. */
int64_t msft_resolve_hreftype_full(
    const uint8_t *lib, size_t lib_len, int32_t hreftype, uint8_t *out, size_t out_len);

/* The offset of a reference that hits no typeinfo. Compilers place typeinfos every 100 bytes: such an
   hreftype is not negative, has its low two bits clear and is, with the bit 0x01000000 cleared, no
   multiple of 100. The sheet has code 3 for it; to the two calls above, which divide by 100 as the
   Rust does, 4 is typeinfo 0. Takes no library. Replies a u32, the hreftype with that bit cleared; -9
   for every other hreftype. */
int64_t msft_misplaced_offset(int32_t hreftype);

/* The constant that a record's word gives: inline where the word is negative, else at that
   offset of the table, where it ends inside segment 11. Writes a constant (2 to 19 bytes); -1 to
   -5, -9, -12. */
int64_t msft_const_value(
    const uint8_t *lib, size_t lib_len, int32_t word, uint8_t *out, size_t out_len);

/* ---- iterators: cursors, and the walk along a chain ---- */

/* A cursor goes over records in their order. One call sets it up, at the first record; a step takes it
   and writes the record that it stands at, the record's number and the next cursor, all three or none.

   The number of a record is the count of records before it, so that the first has 0. A cursor carries
   that count, `yielded`, as its last number; nothing else that a step writes depends on it. It stops at
   2^64 - 1: every record from there on has that number, as on a reference chain that comes round.

   The cursor of typeinfos is an index alone, which is the number: entries that are refused are counted.
   The number of a function, a variable, a parameter or a typeinfo is the `index` (or `arg_index`) by
   which the other calls know it, as msft_func_memid, msft_var_name, msft_func_default_value_offset and
   msft_typeinfo do.

   Of functions, variables and parameters, `yielded` and `remaining` together are the `remaining` that
   the cursor began with, where it came from msft_funcs, msft_vars or msft_params and was only stepped.

   At its end a step replies -9. The cursor stays as it is, its count too: like every call that refuses,
   the step writes nothing. */

/* The function records of a typeinfo. Writes a cursor (32 bytes); -1, -9, -12. */
int64_t msft_funcs(
    const uint8_t *lib, size_t lib_len, size_t at, size_t len, uint8_t *out, size_t out_len);

/* The variable records of a typeinfo, behind its function records. Writes a cursor (32 bytes);
   -1, -9, -12. */
int64_t msft_vars(
    const uint8_t *lib, size_t lib_len, size_t at, size_t len, uint8_t *out, size_t out_len);

/* The parameters of a function, at the end of its record. Writes a cursor (32 bytes); -1, -9,
   -12. */
int64_t msft_params(
    const uint8_t *lib, size_t lib_len, size_t at, size_t len, uint8_t *out, size_t out_len);

/* The entries of the GUID table, to the end of segment 5. Writes a table cursor (24 bytes); -1
   to -5, -12. */
int64_t msft_guids(const uint8_t *lib, size_t lib_len, uint8_t *out, size_t out_len);

/* The import records, to the end of segment 1. Writes a table cursor (24 bytes); -1 to -5, -12. */
int64_t msft_imports(const uint8_t *lib, size_t lib_len, uint8_t *out, size_t out_len);

/* The import files, to the end of segment 2. Writes a table cursor (24 bytes); -1 to -5, -12. */
int64_t msft_imp_files(const uint8_t *lib, size_t lib_len, uint8_t *out, size_t out_len);

/* The entries of the name table, to the end of segment 7. Writes a name cursor (32 bytes); -1 to
   -5, -12. */
int64_t msft_names(const uint8_t *lib, size_t lib_len, uint8_t *out, size_t out_len);

/* The cursor over the types that a typeinfo implements, at the first. Its table is segment 3, or
   has no bytes where that is missing. Writes a chain cursor (28 bytes); -1 to -5, -9, -12. */
int64_t msft_impl_types(
    const uint8_t *lib, size_t lib_len, size_t at, size_t len, uint8_t *out, size_t out_len);

/* The function record at the cursor, its number, and the next cursor. Writes a place, a u64 and
   a cursor (56 bytes); -1, -9, -12. */
int64_t msft_func_step(
    const uint8_t *lib, size_t lib_len, size_t pos, size_t end, size_t remaining, uint64_t yielded,
    uint8_t *out, size_t out_len);

/* The variable record at the cursor, its number, and the next cursor. Writes a place, a u64 and
   a cursor (56 bytes); -1, -9, -12. */
int64_t msft_var_step(
    const uint8_t *lib, size_t lib_len, size_t pos, size_t end, size_t remaining, uint64_t yielded,
    uint8_t *out, size_t out_len);

/* The parameter at the cursor, its number, and the next cursor. Writes a place, a u64 and a
   cursor (56 bytes); -1, -9, -12. */
int64_t msft_param_step(
    const uint8_t *lib, size_t lib_len, size_t pos, size_t end, size_t remaining, uint64_t yielded,
    uint8_t *out, size_t out_len);

/* The GUID entry at the cursor, whose 24 bytes end by `end`, its number, and the next cursor.
   Writes a place, a u64 and a table cursor (48 bytes); -1, -9, -12. */
int64_t msft_guid_step(
    const uint8_t *lib, size_t lib_len, size_t pos, size_t end, uint64_t yielded, uint8_t *out,
    size_t out_len);

/* The import record at the cursor, whose 12 bytes end by `end`, its number, and the next cursor.
   Writes a place, a u64 and a table cursor (48 bytes); -1, -9, -12. */
int64_t msft_import_step(
    const uint8_t *lib, size_t lib_len, size_t pos, size_t end, uint64_t yielded, uint8_t *out,
    size_t out_len);

/* The import file at the cursor, whose entry, filled up, ends by `end`, its number, and the next
   cursor. Writes a place, a u64 and a table cursor (48 bytes); -1, -9, -12. */
int64_t msft_imp_file_step(
    const uint8_t *lib, size_t lib_len, size_t pos, size_t end, uint64_t yielded, uint8_t *out,
    size_t out_len);

/* The name's entry at the cursor, which ends by `end`, its text included, its number, and the
   next cursor. Writes a name's entry, a u64 and a name cursor (75 bytes); -1, -9, -12. */
int64_t msft_name_step(
    const uint8_t *lib, size_t lib_len, size_t pos, size_t end, size_t start, uint64_t yielded,
    uint8_t *out, size_t out_len);

/* The typeinfo at the cursor, as msft_typeinfo has it, its number, which is `index`, and the next
   index. After -6, -7 or -8, which are one entry's, go on with index + 1. Writes a place, a u64
   and an index (32 bytes); -1 to -9, -12. */
int64_t msft_typeinfo_step(
    const uint8_t *lib, size_t lib_len, size_t index, uint8_t *out, size_t out_len);

/* The reference record at the cursor, whose 16 bytes end inside the table at `at` of `len`
   bytes, its number, and the next cursor. Writes a place, a u64 and a chain cursor (52 bytes);
   -1, -9, -12. */
int64_t msft_impl_type_step(
    const uint8_t *lib, size_t lib_len, size_t at, size_t len, uint32_t next, uint64_t yielded,
    uint8_t *out, size_t out_len);

/* How many records the chain has from the cursor on, each inside the table at `at` of `len`
   bytes: none where this has no bytes. `yielded` is not looked at. Writes a u64 (8 bytes); -1,
   -10, -12. */
int64_t msft_walk(
    const uint8_t *lib, size_t lib_len, size_t at, size_t len, uint32_t next, uint64_t yielded,
    uint8_t *out, size_t out_len);

/* The typeinfos of the library, from the first. Writes an index (8 bytes); -1 to -5, -12. */
int64_t msft_typeinfos(const uint8_t *lib, size_t lib_len, uint8_t *out, size_t out_len);

/* How many typeinfos are left. Writes a u64 (8 bytes); -1 to -5, -12. */
int64_t msft_typeinfo_size_hint(
    const uint8_t *lib, size_t lib_len, size_t index, uint8_t *out, size_t out_len);

/* ---- replies and outputs, unpacked ---- */

/* The signed number of a reply that is the bits of an i32, or of an i16. */
static inline int32_t msft_i32(int64_t reply)
{
    return (int32_t)(reply < INT64_C(0x80000000) ? reply : reply - INT64_C(0x100000000));
}

static inline int16_t msft_i16(int64_t reply)
{
    return (int16_t)(reply < INT64_C(0x8000) ? reply : reply - INT64_C(0x10000));
}

/* The number of `width` bytes, the lowest first. */
static inline uint64_t msft_le(const uint8_t *p, size_t width)
{
    uint64_t n = 0;
    while (0 < width) {
        width -= 1;
        n = n << 8 | p[width];
    }
    return n;
}

static inline size_t msft_unpack_size(const uint8_t *out)
{
    return (size_t)msft_le(out, 8);
}

typedef struct msft_place {
    size_t at;
    size_t len;
} msft_place;

/* A place's numbers, and those of the cursors below, as arguments of a call. */
#define MSFT_PLACE(p) (p).at, (p).len

static inline msft_place msft_unpack_place(const uint8_t *out)
{
    msft_place p;
    p.at = msft_unpack_size(out);
    p.len = msft_unpack_size(out + 8);
    return p;
}

/* The cursors, and of each its yield: what a step from it wrote, the record, its number and the next
   cursor in one piece. */

/* How many bytes a call writes for each; MSFT_SIZE_BYTES, for an index or the count of a walk;
   MSFT_TEXT_CHECK_BYTES, for the check of a text; MSFT_FIGURES_BYTES, for the figures of a sheet. */
enum msft_bytes {
    MSFT_SIZE_BYTES = 8,
    MSFT_CURSOR_BYTES = 32,
    MSFT_YIELD_BYTES = 56,
    MSFT_TABLE_CURSOR_BYTES = 24,
    MSFT_TABLE_YIELD_BYTES = 48,
    MSFT_NAME_CURSOR_BYTES = 32,
    MSFT_NAME_YIELD_BYTES = 75,
    MSFT_TYPEINFO_YIELD_BYTES = 32,
    MSFT_CHAIN_CURSOR_BYTES = 28,
    MSFT_CHAIN_YIELD_BYTES = 52,
    MSFT_TEXT_CHECK_BYTES = 9,
    MSFT_FIGURES_BYTES = 20
};

/* Functions, variables and parameters. */
typedef struct msft_cursor {
    size_t pos;
    size_t end;
    size_t remaining;
    uint64_t yielded;
} msft_cursor;

typedef struct msft_yield {
    msft_place record;
    uint64_t number;
    msft_cursor next;
} msft_yield;

#define MSFT_CURSOR(c) (c).pos, (c).end, (c).remaining, (c).yielded

static inline msft_cursor msft_unpack_cursor(const uint8_t *out)
{
    msft_cursor c;
    c.pos = msft_unpack_size(out);
    c.end = msft_unpack_size(out + 8);
    c.remaining = msft_unpack_size(out + 16);
    c.yielded = msft_le(out + 24, 8);
    return c;
}

static inline msft_yield msft_unpack_yield(const uint8_t *out)
{
    msft_yield y;
    y.record = msft_unpack_place(out);
    y.number = msft_le(out + 16, 8);
    y.next = msft_unpack_cursor(out + 24);
    return y;
}

/* GUIDs, imports and import files. */
typedef struct msft_table_cursor {
    size_t pos;
    size_t end;
    uint64_t yielded;
} msft_table_cursor;

typedef struct msft_table_yield {
    msft_place record;
    uint64_t number;
    msft_table_cursor next;
} msft_table_yield;

#define MSFT_TABLE_CURSOR(c) (c).pos, (c).end, (c).yielded

static inline msft_table_cursor msft_unpack_table_cursor(const uint8_t *out)
{
    msft_table_cursor c;
    c.pos = msft_unpack_size(out);
    c.end = msft_unpack_size(out + 8);
    c.yielded = msft_le(out + 16, 8);
    return c;
}

static inline msft_table_yield msft_unpack_table_yield(const uint8_t *out)
{
    msft_table_yield y;
    y.record = msft_unpack_place(out);
    y.number = msft_le(out + 16, 8);
    y.next = msft_unpack_table_cursor(out + 24);
    return y;
}

/* Names. An entry has its offset in the name table, the place of its text, and the numbers before
   the text. */
typedef struct msft_name_entry {
    size_t offset;
    msft_place text;
    int32_t hreftype;
    int32_t next_hash;
    uint8_t flags;
    uint16_t hashcode;
} msft_name_entry;

typedef struct msft_name_cursor {
    size_t pos;
    size_t end;
    size_t start;
    uint64_t yielded;
} msft_name_cursor;

typedef struct msft_name_yield {
    msft_name_entry record;
    uint64_t number;
    msft_name_cursor next;
} msft_name_yield;

#define MSFT_NAME_CURSOR(c) (c).pos, (c).end, (c).start, (c).yielded

static inline msft_name_entry msft_unpack_name_entry(const uint8_t *out)
{
    msft_name_entry e;
    e.offset = msft_unpack_size(out);
    e.text = msft_unpack_place(out + 8);
    e.hreftype = msft_i32((int64_t)msft_le(out + 24, 4));
    e.next_hash = msft_i32((int64_t)msft_le(out + 28, 4));
    e.flags = out[32];
    e.hashcode = (uint16_t)msft_le(out + 33, 2);
    return e;
}

static inline msft_name_cursor msft_unpack_name_cursor(const uint8_t *out)
{
    msft_name_cursor c;
    c.pos = msft_unpack_size(out);
    c.end = msft_unpack_size(out + 8);
    c.start = msft_unpack_size(out + 16);
    c.yielded = msft_le(out + 24, 8);
    return c;
}

static inline msft_name_yield msft_unpack_name_yield(const uint8_t *out)
{
    msft_name_yield y;
    y.record = msft_unpack_name_entry(out);
    y.number = msft_le(out + 35, 8);
    y.next = msft_unpack_name_cursor(out + 43);
    return y;
}

/* Typeinfos. Their cursor is an index, which msft_unpack_size reads. */
typedef struct msft_typeinfo_yield {
    msft_place record;
    uint64_t number;
    size_t next;
} msft_typeinfo_yield;

static inline msft_typeinfo_yield msft_unpack_typeinfo_yield(const uint8_t *out)
{
    msft_typeinfo_yield y;
    y.record = msft_unpack_place(out);
    y.number = msft_le(out + 16, 8);
    y.next = msft_unpack_size(out + 24);
    return y;
}

/* Implemented types: the reference table, and the next offset in it. */
typedef struct msft_chain_cursor {
    size_t at;
    size_t len;
    uint32_t next;
    uint64_t yielded;
} msft_chain_cursor;

typedef struct msft_chain_yield {
    msft_place record;
    uint64_t number;
    msft_chain_cursor next;
} msft_chain_yield;

#define MSFT_CHAIN_CURSOR(c) (c).at, (c).len, (c).next, (c).yielded

static inline msft_chain_cursor msft_unpack_chain_cursor(const uint8_t *out)
{
    msft_chain_cursor c;
    c.at = msft_unpack_size(out);
    c.len = msft_unpack_size(out + 8);
    c.next = (uint32_t)msft_le(out + 16, 4);
    c.yielded = msft_le(out + 20, 8);
    return c;
}

static inline msft_chain_yield msft_unpack_chain_yield(const uint8_t *out)
{
    msft_chain_yield y;
    y.record = msft_unpack_place(out);
    y.number = msft_le(out + 16, 8);
    y.next = msft_unpack_chain_cursor(out + 24);
    return y;
}

/* The check of a text: is_valid is 1 where it is UTF-8; how many of its bytes were looked at. */
typedef struct msft_text_checked {
    uint8_t is_valid;
    size_t looked_at;
} msft_text_checked;

static inline msft_text_checked msft_unpack_text_checked(const uint8_t *out)
{
    msft_text_checked c;
    c.is_valid = out[0];
    c.looked_at = msft_unpack_size(out + 1);
    return c;
}

/* The figures of a sheet. One above MSFT_MOST_FIGURE means only "more than that". Where it is the length,
   msft_sheet replies -12; otherwise the sheet has exactly `length` bytes. */
enum msft_limit { MSFT_MOST_FIGURE = 16777216 };

typedef struct msft_figures {
    uint32_t length;
    uint32_t functions;
    uint32_t parameters;
    uint32_t variables;
    uint32_t references;
} msft_figures;

static inline msft_figures msft_unpack_figures(const uint8_t *out)
{
    msft_figures f;
    f.length = (uint32_t)msft_le(out, 4);
    f.functions = (uint32_t)msft_le(out + 4, 4);
    f.parameters = (uint32_t)msft_le(out + 8, 4);
    f.variables = (uint32_t)msft_le(out + 12, 4);
    f.references = (uint32_t)msft_le(out + 16, 4);
    return f;
}

/* The bounds of one dimension of an array. */
typedef struct msft_bound {
    uint32_t elements;
    int32_t lower;
} msft_bound;

static inline msft_bound msft_unpack_bound(const uint8_t *out)
{
    msft_bound b;
    b.elements = (uint32_t)msft_le(out, 4);
    b.lower = msft_i32((int64_t)msft_le(out + 4, 4));
    return b;
}

/* What a type field names: MSFT_BASE with the VARTYPE code in `number`, MSFT_POINTER and
   MSFT_SAFE_ARRAY with a type field, MSFT_C_ARRAY with its descriptor in `array`, MSFT_REFERENCE with
   an hreftype. */
enum msft_description_code {
    MSFT_BASE = 1,
    MSFT_POINTER = 2,
    MSFT_SAFE_ARRAY = 3,
    MSFT_C_ARRAY = 4,
    MSFT_REFERENCE = 5
};

typedef struct msft_description {
    uint8_t code;
    int32_t number;
    msft_place array;
} msft_description;

static inline msft_description msft_unpack_description(const uint8_t *out)
{
    msft_description d;
    d.code = out[0];
    d.number = 0;
    d.array.at = 0;
    d.array.len = 0;
    if (d.code == MSFT_BASE)
        d.number = (int32_t)msft_le(out + 1, 2);
    else if (d.code == MSFT_C_ARRAY)
        d.array = msft_unpack_place(out + 1);
    else
        d.number = msft_i32((int64_t)msft_le(out + 1, 4));
    return d;
}

/* What a reference comes to: a typeinfo of this library, or an import record and, where has_file is
   1, the import file that it names. */
enum msft_reference_code { MSFT_INTERNAL = 1, MSFT_EXTERNAL = 2 };

typedef struct msft_reference {
    uint8_t code;
    uint8_t has_file;
    size_t index;
    msft_place info;
    msft_place file;
} msft_reference;

static inline msft_reference msft_unpack_reference(const uint8_t *out)
{
    msft_reference r;
    memset(&r, 0, sizeof r);
    r.code = out[0];
    if (r.code == MSFT_INTERNAL) {
        r.index = msft_unpack_size(out + 1);
        return r;
    }
    r.info = msft_unpack_place(out + 1);
    r.has_file = out[17];
    if (r.has_file)
        r.file = msft_unpack_place(out + 18);
    return r;
}

/* A constant: its VARTYPE code; the bits of a number or a float, a truth as 0 or 1; the place of a
   text (code 8, is_null where it is the null text) or of a decimal's sixteen bytes (code 14). */
typedef struct msft_constant {
    uint16_t vt;
    uint8_t width;
    uint8_t is_null;
    uint64_t bits;
    msft_place place;
} msft_constant;

/* `reply` is what msft_const_value replied. */
static inline msft_constant msft_unpack_constant(const uint8_t *out, int64_t reply)
{
    msft_constant c;
    memset(&c, 0, sizeof c);
    c.vt = (uint16_t)msft_le(out, 2);
    if (c.vt == 8) {
        c.is_null = out[2] == 0;
        if (!c.is_null)
            c.place = msft_unpack_place(out + 3);
    } else if (c.vt == 14) {
        c.place = msft_unpack_place(out + 2);
    } else {
        c.width = (uint8_t)(reply - 2);
        c.bits = msft_le(out + 2, c.width);
    }
    return c;
}

/* The float of a constant's bits: code 4, and codes 5 and 7. */
static inline float msft_f32(uint64_t bits)
{
    uint32_t b = (uint32_t)bits;
    float x;
    memcpy(&x, &b, sizeof x);
    return x;
}

static inline double msft_f64(uint64_t bits)
{
    double x;
    memcpy(&x, &bits, sizeof x);
    return x;
}

#ifdef __cplusplus
}
#endif

#endif
