impl<'a> RefRecord<'a> {
    /// The bytes that the record was made from.
    pub fn held(&self) -> &'a [u8] {
        self.bytes
    }
}
