impl<'a> TypeLib<'a> {
    /// A library without types and segments beside these bytes. What is asked of a typeinfo's or a
    /// function's record alone looks at the bytes and at nothing else of the library.
    pub fn beside(data: &'a [u8]) -> Self {
        TypeLib {
            data,
            nrtypeinfos: 0,
            offset_table_start: 0,
            seg_offsets: [(0, 0); NUM_SEGMENTS],
        }
    }

    /// This library's own numbers beside other bytes. The reference itself never holds such a one.
    pub fn over<'b>(&self, data: &'b [u8]) -> TypeLib<'b> {
        TypeLib {
            data,
            nrtypeinfos: self.nrtypeinfos,
            offset_table_start: self.offset_table_start,
            seg_offsets: self.seg_offsets,
        }
    }
}
