impl FuncIter<'_> {
    pub fn numbers(&self) -> [usize; 3] {
        [self.pos, self.end, self.remaining]
    }
}

impl VarIter<'_> {
    pub fn numbers(&self) -> [usize; 3] {
        [self.pos, self.end, self.remaining]
    }
}

impl<'a> ParamIter<'a> {
    /// The record that it reads, and its place and count in it.
    pub fn held(&self) -> (&'a [u8], usize, usize) {
        (self.data, self.pos, self.remaining)
    }
}

impl GuidEntryIter<'_> {
    pub fn numbers(&self) -> [usize; 2] {
        [self.pos, self.end]
    }
}

impl ImpInfoIter<'_> {
    pub fn numbers(&self) -> [usize; 2] {
        [self.pos, self.end]
    }
}

impl ImpFileIter<'_> {
    pub fn numbers(&self) -> [usize; 2] {
        [self.pos, self.end]
    }
}

impl NameIter<'_> {
    pub fn numbers(&self) -> [usize; 3] {
        [self.pos, self.end, self.seg_start]
    }
}

impl ImplTypeIter<'_> {
    /// Where the table begins, and the next offset in it.
    pub fn numbers(&self) -> (usize, i32) {
        (self.seg_offset, self.next_offset)
    }
}

impl TypeInfoIter<'_> {
    pub fn number(&self) -> usize {
        self.index
    }
}
