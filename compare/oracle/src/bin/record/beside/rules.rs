//! Document 01's rules for a library beside other bytes than it was parsed from: it is read by its own
//! numbers, with the same checks; and document 02's, that what is read of a table ends with it. This follows no
//! code of the product, and asks the reference nothing.

use bounded::library::{Ask, Question};

/// An answer as a file has it: 0 and the value, or the number of the refusal alone.
pub type Answer = Vec<u8>;

/// Where some bytes start among the lent ones, and how many there are.
type Place = (usize, usize);

const NOTHING: u8 = 9;
const CIRCLE: u8 = 10;

const HEADER_SIZE: usize = 84;
const TYPEINFO_SIZE: usize = 100;

/// The most records of a chain that are recorded.
const LONGEST_CHAIN: usize = 40;

/// The thirty-two numbers of a library: the offset and the length of each segment, the count of its
/// typeinfos, and where their offsets start.
pub struct Numbers {
    segments: [(i32, i32); 15],
    count: usize,
    table: usize,
}

impl Numbers {
    /// Those of the library in its own bytes, which can be parsed.
    pub fn of(own: &[u8]) -> Self {
        let number = |at: usize| word(&own[at..at + 4]);
        let table = if own[0x15] & 1 == 1 { 88 } else { 84 };
        let count = number(0x20) as usize;
        let entry = |segment: usize| table + 4 * count + 16 * segment;
        Numbers {
            segments: std::array::from_fn(|k| (number(entry(k)), number(entry(k) + 4))),
            count,
            table,
        }
    }

    /// A segment with a negative offset or a length below 1 is missing.
    pub fn segment(&self, index: usize) -> Option<Place> {
        let &(offset, length) = self.segments.get(index)?;
        (offset >= 0 && length >= 1).then_some((offset as usize, length as usize))
    }

    /// A cursor takes a missing segment for an empty one at the start of the file.
    fn table(&self, index: usize) -> Place {
        self.segment(index).unwrap_or((0, 0))
    }
}

/// A library's numbers, and the bytes that they stand beside.
pub struct Beside<'a> {
    pub own: Numbers,
    pub lent: &'a [u8],
}

impl Beside<'_> {
    /// The answers to a question, in the order in which the replay compares them. Readings that the
    /// product has a second time, by the word's pattern, are asked twice.
    pub fn answers(&self, question: Question) -> Vec<Answer> {
        let [first, second, third] = question.numbers;
        match question.ask {
            Ask::TypeinfoCount => vec![number(self.own.count)],
            ask if ask < Ask::Segment => vec![self.header(ask)],
            ask if ask < Ask::NameBytes => vec![place(self.of_table(ask, first as usize))],
            Ask::TablePlace => {
                let at = self.at(first as usize, third as i32, second as usize);
                twice(place(at.map(|at| (at, second as usize))))
            }
            ask if ask < Ask::TypeinfoOffset => self.of_word(ask, first as i32),
            Ask::TypeinfoOffset => {
                let offset = self.typeinfo_offset(first as usize);
                twice(bytes(offset.map(i32::to_le_bytes).as_ref()))
            }
            Ask::Typeinfo => vec![self.typeinfo(first as usize)],
            Ask::MemberName => vec![place(self.member_name(first as usize, second as usize))],
            Ask::FuncName => {
                let record = (first as usize, second as usize);
                vec![place(self.func_name(record, third as usize))]
            }
            ask => {
                assert_eq!(third, 0, "no count is set");
                self.cursor(ask, (first as usize, second as usize))
            }
        }
    }

    /// Some of the lent bytes, if they are there.
    fn run(&self, at: usize, size: usize) -> Option<&[u8]> {
        self.lent.get(at..at + size)
    }

    fn half(&self, at: usize) -> Option<usize> {
        let bytes = self.run(at, 2)?;
        Some(usize::from(bytes[0]) + 256 * usize::from(bytes[1]))
    }

    fn word(&self, at: usize) -> Option<i32> {
        self.run(at, 4).map(word)
    }

    /// Some bytes of the header, which is nothing unless it is wholly there.
    fn header_run(&self, at: usize, size: usize) -> Option<&[u8]> {
        self.run(0, HEADER_SIZE)?.get(at..at + size)
    }

    /// The fields of Wine's header, each at its own width.
    fn header(&self, ask: Ask) -> Answer {
        let word_at = match ask {
            Ask::Syskind => {
                let low = self.header_run(0x14, 1).map(|flags| [flags[0] & 0x0F]);
                return bytes(low.as_ref());
            }
            Ask::HasHelpDll => {
                let bit = self.header_run(0x15, 1).map(|flags| [flags[0] & 1]);
                return bytes(bit.as_ref());
            }
            Ask::VersionMajor => return bytes(self.header_run(0x18, 2)),
            Ask::VersionMinor => return bytes(self.header_run(0x1A, 2)),
            Ask::FormatVersion => 0x04,
            Ask::LibGuidOffset => 0x08,
            Ask::Lcid => 0x0C,
            Ask::Lcid2 => 0x10,
            Ask::Varflags => 0x14,
            Ask::Version => 0x18,
            Ask::Flags => 0x1C,
            Ask::HelpstringOffset => 0x24,
            Ask::Helpstringcontext => 0x28,
            Ask::Helpcontext => 0x2C,
            Ask::Nametablecount => 0x30,
            Ask::Nametablechars => 0x34,
            Ask::NameOffset => 0x38,
            Ask::HelpfileOffset => 0x3C,
            Ask::CustomDataOffset => 0x40,
            Ask::Dispatchpos => 0x4C,
            Ask::Nimpinfos => 0x50,
            _ => unreachable!(),
        };
        bytes(self.header_run(word_at, 4))
    }

    /// The segments, and what the header's words name in them.
    fn of_table(&self, ask: Ask, index: usize) -> Option<Place> {
        let header_word = |at| self.header_run(at, 4).map(word);
        match ask {
            Ask::Segment => self.own.segment(index),
            Ask::Table => Some(self.own.table(index)),
            Ask::SegmentData => self.segment_data(index),
            Ask::GuidHashData => self.segment_data(4),
            Ask::NameHashData => self.segment_data(6),
            Ask::LibName => self.utf8(self.name(header_word(0x38)?)?),
            Ask::LibGuid => self.guid(header_word(0x08)?),
            Ask::LibHelpstring => self.string(header_word(0x24)?),
            _ => unreachable!(),
        }
    }

    fn segment_data(&self, index: usize) -> Option<Place> {
        let (at, len) = self.own.segment(index)?;
        self.run(at, len)?;
        Some((at, len))
    }

    /// Where the bytes at an offset of a segment start. They end with the segment and with the file.
    fn at(&self, segment: usize, offset: i32, size: usize) -> Option<usize> {
        let (start, len) = self.own.segment(segment)?;
        let offset = usize::try_from(offset).ok()?;
        if offset + size > len {
            return None;
        }
        self.run(start + offset, size)?;
        Some(start + offset)
    }

    fn of_word(&self, ask: Ask, word: i32) -> Vec<Answer> {
        match ask {
            Ask::NameBytes => twice(place(self.name(word))),
            Ask::Name => vec![place(self.name(word).and_then(|text| self.utf8(text)))],
            Ask::String => vec![place(self.string(word))],
            Ask::Guid => twice(place(self.guid(word))),
            Ask::TypeDesc => {
                let at = self.at(9, word, 8);
                twice(bytes(at.and_then(|at| self.run(at, 8))))
            }
            Ask::ArrayDesc => twice(place(self.array_desc(word))),
            Ask::TypeDescription => self.description(word).unwrap_or(vec![vec![NOTHING]]),
            Ask::ConstValue => {
                let once = self.constant(word).unwrap_or(vec![vec![NOTHING]]);
                [once.clone(), once].concat()
            }
            Ask::ImpFile => twice(place(self.imp_file(word))),
            Ask::ResolveHreftype if word >= 0 && word % 4 == 0 => vec![self.index(word)],
            Ask::ResolveHreftype => vec![vec![NOTHING]],
            Ask::ResolveHreftypeFull => self.resolved(word).unwrap_or(vec![vec![NOTHING]]),
            _ => unreachable!(),
        }
    }

    /// A name's length is the ninth byte of its entry, and the name follows twelve.
    fn name(&self, offset: i32) -> Option<Place> {
        let at = self.at(7, offset, 9)?;
        let text = (at + 12, usize::from(self.lent[at + 8]));
        self.at(7, offset, 12 + text.1)?;
        Some(text)
    }

    fn utf8(&self, text: Place) -> Option<Place> {
        let bytes = self.run(text.0, text.1)?;
        std::str::from_utf8(bytes).ok()?;
        Some(text)
    }

    /// A string has its length in two bytes before it.
    fn string(&self, offset: i32) -> Option<Place> {
        let at = self.at(8, offset, 2)?;
        let text = (at + 2, self.half(at)?);
        self.at(8, offset, 2 + text.1)?;
        self.utf8(text)
    }

    fn guid(&self, offset: i32) -> Option<Place> {
        let at = self.at(5, offset, 16)?;
        Some((at, 16))
    }

    /// Eight bytes, and eight for each dimension; their count is at 0x04.
    fn array_desc(&self, offset: i32) -> Option<Place> {
        let at = self.at(10, offset, 8)?;
        let size = 8 + 8 * self.half(at + 4)?;
        self.at(10, offset, size)?;
        Some((at, size))
    }

    /// The description's code in the sheet, and what it holds.
    fn description(&self, word: i32) -> Option<Vec<Answer>> {
        let base = |bits: i32| vec![vec![0, 1, bits as u8, (bits >> 8) as u8 & 0x0F]];
        if word < 0 {
            return Some(base(word));
        }
        let at = self.at(9, word, 8)?;
        let (first, second) = (self.word(at)?, self.word(at + 4)?);
        let holds = |code| vec![[vec![0, code], second.to_le_bytes().to_vec()].concat()];
        Some(match first & 0x0FFF {
            26 => holds(2),
            27 => holds(3),
            28 => vec![vec![0, 4], place(Some(self.array_desc(second & 0xFFFF)?))],
            29 => holds(5),
            _ => base(first),
        })
    }

    /// The code and the value of a constant; of a text and a decimal the place behind them.
    fn constant(&self, word: i32) -> Option<Vec<Answer>> {
        if word < 0 {
            let code = match word as u32 >> 26 & 0x1F {
                code @ (0..=3 | 10 | 11 | 16..=19 | 22..=25) => code as usize,
                _ => 3,
            };
            let value = word & 0x03FF_FFFF;
            return Some(vec![coded(code, &value.to_le_bytes())]);
        }
        let at = self.at(11, word, 2)?;
        let code = self.half(at)?;
        self.at(11, word, 2 + stored_width(code))?;
        let value = self.run(at + 2, stored_width(code))?;
        Some(match code {
            8 => match self.word(at + 2)? {
                -1 => vec![vec![0, 8, 0, 0]],
                length => {
                    let length = usize::try_from(length).ok()?;
                    self.at(11, word, 6 + length)?;
                    vec![vec![0, 8, 0, 1], place(Some((at + 6, length)))]
                }
            },
            14 => vec![vec![0, 14, 0], place(Some((at + 2, 16)))],
            _ => vec![coded(code, value)],
        })
    }

    /// Fourteen bytes, the last two of them four times the length of the name that follows, and padding to a
    /// multiple of four.
    fn imp_file(&self, offset: i32) -> Option<Place> {
        let at = self.at(2, offset, 14)?;
        let size = (14 + self.half(at + 12)? / 4).next_multiple_of(4);
        self.at(2, offset, size)?;
        Some((at, size))
    }

    /// The index of a typeinfo that a number names, if there are so many.
    fn index(&self, word: i32) -> Answer {
        let index = word as usize / TYPEINFO_SIZE;
        match index < self.own.count {
            true => number(index),
            false => vec![NOTHING],
        }
    }

    /// 1 and an index; or 2, the import record, and the import file that it names.
    fn resolved(&self, word: i32) -> Option<Vec<Answer>> {
        let word = (word >= 0).then_some(word & !0x0100_0000)?;
        if word % 4 == 0 {
            let index = self.index(word);
            let known = index[0] == 0;
            return known.then(|| vec![[vec![0, 1], index[1..].to_vec()].concat()]);
        }
        let at = self.at(1, word & !3, 12)?;
        let file = self.imp_file(self.word(at + 4)?);
        Some(vec![vec![0, 2], place(Some((at, 12))), place(file)])
    }

    /// The word of the offset table, which is the library's, in the lent bytes.
    fn typeinfo_offset(&self, index: usize) -> Option<i32> {
        match index < self.own.count {
            true => self.word(self.own.table + 4 * index),
            false => None,
        }
    }

    fn typeinfo(&self, index: usize) -> Answer {
        let offset = self.typeinfo_offset(index);
        let Some(offset) = offset.filter(|&offset| offset >= 0) else {
            return vec![6];
        };
        if self.own.segment(0).is_none() {
            return vec![7];
        }
        match self.at(0, offset, TYPEINFO_SIZE) {
            Some(at) => place(Some((at, TYPEINFO_SIZE))),
            None => vec![8],
        }
    }

    /// The bytes of a typeinfo at a place.
    fn record(&self, (at, len): Place) -> Option<&[u8]> {
        self.run(at, len)
            .filter(|bytes| bytes.len() >= TYPEINFO_SIZE)
    }

    /// The names' offsets stand behind the block, after an identifier for each function and variable.
    fn func_name(&self, record: Place, index: usize) -> Option<Place> {
        let record = self.record(record)?;
        let block = usize::try_from(word(&record[0x04..0x08])).ok()?;
        let size = self.word(block)? as u32 as usize;
        let functions = usize::from(record[0x18]) + 256 * usize::from(record[0x19]);
        let variables = usize::from(record[0x1A]) + 256 * usize::from(record[0x1B]);
        let behind = block + 4 + size;
        let name = self.word(behind + 4 * (functions + variables + index))?;
        self.utf8(self.name(name)?)
    }

    /// The entries of the name table: where each starts, and its text. The first that is not wholly
    /// there, or no UTF-8, ends them.
    fn names(&self) -> Vec<(usize, Place)> {
        let (start, len) = self.own.table(7);
        let mut entries = Vec::new();
        let mut at = start;
        while at + 12 <= start + len
            && let Some(entry) = self.run(at, 12)
            && let text = (at + 12, usize::from(entry[8]))
            && text.0 + text.1 <= start + len
            && let Some(text) = self.utf8(text)
        {
            entries.push((at, text));
            at = text.0 + text.1.next_multiple_of(4);
        }
        entries
    }

    /// The k-th name of a typeinfo's entries, the first left out.
    fn member_name(&self, index: usize, k: usize) -> Option<Place> {
        let own = self.typeinfo_offset(index)?;
        let of_typeinfo = |entry: &(usize, Place)| self.word(entry.0) == Some(own);
        let mut matches = self.names().into_iter().filter(of_typeinfo);
        matches.nth(k + 1).map(|(_, text)| text)
    }

    /// What a cursor yields, each record with its number, and its end twice.
    fn cursor(&self, ask: Ask, record: Place) -> Vec<Answer> {
        let yielded = match ask {
            Ask::Typeinfos => return self.typeinfos(),
            Ask::Names => self.name_entries(),
            Ask::Guids => self.records(5, 24),
            Ask::Imports => self.records(1, 12),
            Ask::ImpFiles => self.imp_files(),
            Ask::ImplTypes => return self.impl_types(record),
            Ask::Walk => return vec![self.walk(record)],
            _ => unreachable!(),
        };
        [numbered(yielded), end()].concat()
    }

    /// Each typeinfo and its index, or its refusal, behind how many are left; and the end twice.
    fn typeinfos(&self) -> Vec<Answer> {
        let count = self.own.count;
        let each = (0..count).flat_map(|index| {
            let typeinfo = self.typeinfo(index);
            let yields = typeinfo[0] == 0;
            let told = [number(count - index), typeinfo];
            told.into_iter().chain(yields.then(|| of_record(index)))
        });
        let end = [number(0), vec![NOTHING]];
        each.chain(end.clone()).chain(end).collect()
    }

    /// Of each name entry the text's place, its offset in the table, and the fields of its first bytes.
    fn name_entries(&self) -> Vec<Vec<Answer>> {
        let (start, _) = self.own.table(7);
        let entries = self.names().into_iter();
        entries
            .map(|(at, text)| {
                vec![
                    place(Some(text)),
                    number(at - start),
                    bytes(self.run(at, 4)),
                    bytes(self.run(at + 4, 4)),
                    bytes(self.run(at + 9, 1)),
                    bytes(self.run(at + 10, 2)),
                ]
            })
            .collect()
    }

    /// Records of one size, which end inside the segment and the file.
    fn records(&self, segment: usize, size: usize) -> Vec<Vec<Answer>> {
        let (start, len) = self.own.table(segment);
        let whole = (0..len / size).map(|k| start + k * size);
        whole
            .take_while(|&at| self.run(at, size).is_some())
            .map(|at| vec![place(Some((at, size)))])
            .collect()
    }

    /// Import files one behind another, each inside the segment and the file.
    fn imp_files(&self) -> Vec<Vec<Answer>> {
        let mut found = Vec::new();
        let mut offset = 0;
        while let Some((at, size)) = self.imp_file(offset as i32) {
            found.push(vec![place(Some((at, size)))]);
            offset += size;
        }
        found
    }

    /// How many records the chain has, or that it comes round.
    fn walk(&self, record: Place) -> Answer {
        match self.chain(record) {
            None => vec![NOTHING],
            Some((_, Some(_))) => vec![CIRCLE],
            Some((offsets, None)) => number(offsets.len()),
        }
    }

    /// The records of the chain and its end twice; of one that comes round the first forty records.
    fn impl_types(&self, record: Place) -> Vec<Answer> {
        let Some((offsets, returned)) = self.chain(record) else {
            return vec![vec![NOTHING]];
        };
        let (start, _) = self.own.table(3);
        let place_of = |&offset: &usize| vec![place(Some((start + offset, 16)))];
        match returned {
            None => [numbered(offsets.iter().map(place_of).collect()), end()].concat(),
            Some(k) => {
                let round = offsets[k..].iter().cycle();
                let all = offsets[..k].iter().chain(round);
                numbered(all.take(LONGEST_CHAIN).map(place_of).collect())
            }
        }
    }

    /// The offsets of the chain that starts at a typeinfo's `datatype1`, and which of them it returns to.
    /// There are none if segment 3 is missing.
    fn chain(&self, record: Place) -> Option<(Vec<usize>, Option<usize>)> {
        let record = self.record(record)?;
        let mut next = word(&record[0x54..0x58]);
        let mut passed = Vec::new();
        while let Some(at) = self.at(3, next, 16)
            && let Some(reference) = self.run(at, 16)
        {
            let offset = next as usize;
            let returned = passed.iter().position(|&one| one == offset);
            if returned.is_some() {
                return Some((passed, returned));
            }
            passed.push(offset);
            next = word(&reference[12..16]);
        }
        Some((passed, None))
    }
}

/// How many bytes are stored for a code; of a text those of its length.
fn stored_width(code: usize) -> usize {
    match code {
        0 | 1 | 24 => 0,
        11 => 2,
        5 | 6 | 7 | 20 | 21 | 64 => 8,
        14 => 16,
        _ => 4,
    }
}

/// A constant's code, and its value at its own width.
fn coded(code: usize, stored: &[u8]) -> Answer {
    let value = match code {
        0 | 1 | 24 => Vec::new(),
        11 => vec![u8::from(stored.iter().any(|&byte| byte != 0))],
        16 | 17 => stored[..1].to_vec(),
        2 | 18 => stored[..2].to_vec(),
        _ => stored.to_vec(),
    };
    [vec![0, code as u8, (code >> 8) as u8], value].concat()
}

/// A signed number of four bytes.
fn word(bytes: &[u8]) -> i32 {
    i32::from_le_bytes(bytes.try_into().expect("four bytes"))
}

fn twice(answer: Answer) -> Vec<Answer> {
    vec![answer.clone(), answer]
}

/// What is told of each record, and its number.
fn numbered(records: Vec<Vec<Answer>>) -> Vec<Answer> {
    let numbered = |(before, mut told): (usize, Vec<Answer>)| {
        told.push(of_record(before));
        told
    };
    records.into_iter().enumerate().flat_map(numbered).collect()
}

/// The number of the record that so many come before, and how many are yielded with it.
fn of_record(before: usize) -> Answer {
    [number(before), number(before + 1)[1..].to_vec()].concat()
}

/// The end of a cursor, twice.
fn end() -> Vec<Answer> {
    twice(vec![NOTHING])
}

fn number(number: usize) -> Answer {
    [vec![0], (number as u64).to_le_bytes().to_vec()].concat()
}

fn place(place: Option<Place>) -> Answer {
    match place {
        Some((at, len)) => [number(at), (len as u64).to_le_bytes().to_vec()].concat(),
        None => vec![NOTHING],
    }
}

fn bytes(bytes: Option<impl AsRef<[u8]>>) -> Answer {
    match bytes {
        Some(bytes) => [&[0], bytes.as_ref()].concat(),
        None => vec![NOTHING],
    }
}
