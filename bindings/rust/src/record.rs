use crate::Malformed;

/// Depth 15 passes, 16 is malformed. Every recursion that reads, writes or judges a record falls from here.
pub(crate) const DEPTH: u8 = 15;

/// The longest type record.
pub(crate) const TYPE_LENGTH: usize = 4096;

/// What types and values have in common.
pub(crate) trait Record: Sized {
    /// Appends the record. `levels` is the depth still allowed.
    fn write(&self, out: &mut Vec<u8>, levels: u8) -> Result<(), Malformed>;

    /// Reads the tree of one record; only marks, kinds, depth and the end of the bytes are looked at.
    fn read(reader: &mut Reader<'_>, levels: u8) -> Result<Self, Malformed>;

    /// Whether the tree keeps the other rules of the records too, with the rule if not.
    fn check(&self) -> Result<(), &'static str>;
}

pub(crate) fn encode<R: Record>(record: &R) -> Result<Vec<u8>, Malformed> {
    let mut out = Vec::new();
    record.write(&mut out, DEPTH)?;
    Ok(out)
}

pub(crate) fn decode<R: Record>(bytes: &[u8]) -> Result<R, Malformed> {
    let mut reader = Reader::new(bytes);
    let record = next(&mut reader)?;
    reader.end()?;
    Ok(record)
}

pub(crate) fn decode_list<R: Record>(bytes: &[u8]) -> Result<Vec<R>, Malformed> {
    let mut reader = Reader::new(bytes);
    let mut records = Vec::new();
    while reader.end().is_err() {
        records.push(next(&mut reader)?);
    }
    Ok(records)
}

fn next<R: Record>(reader: &mut Reader<'_>) -> Result<R, Malformed> {
    let start = reader.at();
    let record = R::read(reader, DEPTH)?;
    record.check().map_err(|why| Malformed::new(start, why))?;
    Ok(record)
}

/// The depth left for the parts of something `by` levels deeper than they are.
pub(crate) fn below(levels: u8, by: u8, at: usize) -> Result<u8, Malformed> {
    levels.checked_sub(by).ok_or(Malformed::new(at, "deeper than 15"))
}

pub(crate) fn write_u8(out: &mut Vec<u8>, number: usize) -> Result<(), Malformed> {
    out.push(u8::try_from(number).map_err(|_| Malformed::new(out.len(), "a number over one byte"))?);
    Ok(())
}

pub(crate) fn write_u16(out: &mut Vec<u8>, number: usize) -> Result<(), Malformed> {
    let number = u16::try_from(number).map_err(|_| Malformed::new(out.len(), "a number over two bytes"))?;
    out.extend(number.to_le_bytes());
    Ok(())
}

/// A place in bytes; every read stops at their end.
pub(crate) struct Reader<'a> {
    bytes: &'a [u8],
    left: &'a [u8],
}

impl<'a> Reader<'a> {
    pub(crate) fn new(bytes: &'a [u8]) -> Reader<'a> {
        Reader { bytes, left: bytes }
    }

    pub(crate) fn at(&self) -> usize {
        self.bytes.len() - self.left.len()
    }

    pub(crate) fn end(&self) -> Result<(), Malformed> {
        if self.left.is_empty() {
            Ok(())
        } else {
            Err(Malformed::new(self.at(), "bytes past the record"))
        }
    }

    pub(crate) fn take<const N: usize>(&mut self) -> Result<[u8; N], Malformed> {
        let (front, left) =
            self.left.split_first_chunk().ok_or(Malformed::new(self.at(), "the record is cut short"))?;
        self.left = left;
        Ok(*front)
    }

    pub(crate) fn u8(&mut self) -> Result<u8, Malformed> {
        self.take().map(|[byte]| byte)
    }

    pub(crate) fn u16(&mut self) -> Result<u16, Malformed> {
        self.take().map(u16::from_le_bytes)
    }

    pub(crate) fn u64(&mut self) -> Result<u64, Malformed> {
        self.take().map(u64::from_le_bytes)
    }

    /// A mark that has to be this one.
    pub(crate) fn mark(&mut self, mark: &[u8; 2]) -> Result<(), Malformed> {
        let at = self.at();
        if self.take()? == *mark {
            Ok(())
        } else {
            Err(Malformed::new(at, "another mark than the one due here"))
        }
    }
}
