//! A library's parts put behind one another: header, offset table, directory, then tables and
//! blocks of functions and variables, in the order in which they are given.

/// Sizes of the fixed parts of a library.
pub const HEADER_SIZE: usize = 0x54;
const SEGMENTS: usize = 15;
const DIRECTORY_ENTRY_SIZE: usize = 16;
pub const TYPEINFO_SIZE: usize = 100;

/// Places of header fields.
pub const GUID_OFFSET: usize = 0x08;
pub const VARFLAGS: usize = 0x14;
pub const COUNT: usize = 0x20;
pub const NAME_OFFSET: usize = 0x38;

/// The flag at 0x14 that puts four bytes behind the header.
pub const HELP_DLL: u32 = 0x100;

const MAGIC: u32 = 0x5446_534D;

/// Numbers of the segments that a sheet reads.
pub const TYPEINFOS: usize = 0;
pub const IMPORTS: usize = 1;
pub const IMPORT_FILES: usize = 2;
pub const REFERENCES: usize = 3;
pub const GUIDS: usize = 5;
pub const NAMES: usize = 7;
pub const DESCRIPTORS: usize = 9;
pub const ARRAYS: usize = 10;
pub const CONSTANTS: usize = 11;

/// A part of the file behind the directory.
struct Part {
    segment: Option<usize>,
    bytes: Vec<u8>,
}

/// A library's parts, and the words of typeinfos that name a block's place.
pub struct Layout {
    header: Vec<u8>,
    offsets: Vec<i32>,
    parts: Vec<Part>,
    memoffsets: Vec<(usize, usize)>,
    lengths: Vec<(usize, i32)>,
    over: Vec<(usize, usize)>,
}

/// A part's number, by which its place is asked for.
#[derive(Clone, Copy)]
pub struct PartNumber(usize);

impl Layout {
    /// A library without tables; the offsets of its typeinfos are given.
    pub fn new(offsets: Vec<i32>) -> Self {
        let mut layout = Layout {
            header: vec![0; HEADER_SIZE],
            parts: Vec::new(),
            memoffsets: Vec::new(),
            lengths: Vec::new(),
            over: Vec::new(),
            offsets,
        };
        layout.header_word(0, MAGIC);
        layout.header_word(COUNT, layout.offsets.len() as u32);
        layout
    }

    pub fn header_word(&mut self, at: usize, value: u32) {
        set_word(&mut self.header, at, value);
    }

    /// Puts a table behind the parts so far.
    pub fn table(&mut self, segment: usize, bytes: Vec<u8>) -> PartNumber {
        self.parts.push(Part {
            segment: Some(segment),
            bytes,
        });
        PartNumber(self.parts.len() - 1)
    }

    /// Puts a block that no directory entry names behind the parts so far.
    pub fn block(&mut self, bytes: Vec<u8>) -> PartNumber {
        self.parts.push(Part {
            segment: None,
            bytes,
        });
        PartNumber(self.parts.len() - 1)
    }

    /// Has the typeinfo at this byte of table 0 name the block's place.
    pub fn memoffset(&mut self, typeinfo_at: usize, block: PartNumber) {
        self.memoffsets.push((typeinfo_at, block.0));
    }

    /// Has the directory give another length than the table's own.
    pub fn length(&mut self, segment: usize, length: i32) {
        self.lengths.push((segment, length));
    }

    /// Has the directory name a table that begins at this byte of the file, whatever lies there, and ends with the file.
    pub fn over(&mut self, segment: usize, place: usize) {
        self.over.push((segment, place));
    }

    /// The place of the first part, if there are no bytes behind the header.
    pub fn first_place(&self) -> usize {
        HEADER_SIZE + 4 * self.offsets.len() + SEGMENTS * DIRECTORY_ENTRY_SIZE
    }

    /// The library's bytes.
    pub fn bytes(self) -> Vec<u8> {
        let mut file = self.header.clone();
        if word(&file, VARFLAGS) & HELP_DLL != 0 {
            file.extend([0xFF; 4]);
        }
        for offset in &self.offsets {
            file.extend(offset.to_le_bytes());
        }
        let directory = file.len();
        for _ in 0..SEGMENTS {
            file.extend(directory_entry(-1, 0));
        }
        let mut places = Vec::new();
        for part in &self.parts {
            let place = file.len();
            places.push(place);
            if let Some(segment) = part.segment {
                let entry = directory_entry(place as i32, part.bytes.len() as i32);
                let at = directory + segment * DIRECTORY_ENTRY_SIZE;
                file[at..at + DIRECTORY_ENTRY_SIZE].copy_from_slice(&entry);
            }
            file.extend(&part.bytes);
        }
        for (segment, place) in self.over {
            let entry = directory_entry(place as i32, (file.len() - place) as i32);
            let at = directory + segment * DIRECTORY_ENTRY_SIZE;
            file[at..at + DIRECTORY_ENTRY_SIZE].copy_from_slice(&entry);
        }
        for (segment, length) in self.lengths {
            let at = directory + segment * DIRECTORY_ENTRY_SIZE + 4;
            set_word(&mut file, at, length as u32);
        }
        for (typeinfo_at, block) in self.memoffsets {
            let table = word(&file, directory + TYPEINFOS * DIRECTORY_ENTRY_SIZE) as usize;
            set_word(&mut file, table + typeinfo_at + 4, places[block] as u32);
        }
        file
    }
}

fn directory_entry(offset: i32, length: i32) -> [u8; DIRECTORY_ENTRY_SIZE] {
    let mut entry = [0xFF; DIRECTORY_ENTRY_SIZE];
    entry[..4].copy_from_slice(&offset.to_le_bytes());
    entry[4..8].copy_from_slice(&length.to_le_bytes());
    entry
}

/// The word at a place that is inside the bytes.
pub fn word(bytes: &[u8], at: usize) -> u32 {
    u32::from_le_bytes(bytes[at..at + 4].try_into().expect("four bytes"))
}

pub fn set_word(bytes: &mut [u8], at: usize, value: u32) {
    bytes[at..at + 4].copy_from_slice(&value.to_le_bytes());
}

/// Words one behind another.
pub fn words<const N: usize>(words: [u32; N]) -> Vec<u8> {
    words.into_iter().flat_map(u32::to_le_bytes).collect()
}
