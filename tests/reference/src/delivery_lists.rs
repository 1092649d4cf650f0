//! 02, N5, "Delivery lists as CSV": records of RFC 4180 turned into drill lines, field by field, and back.

use std::iter::from_fn;

pub const MOST_FIELDS: usize = 16;
/// In bytes, the quotes undone.
pub const LONGEST_FIELD: usize = 64;

/// The fields of a record or line, the quotes undone.
type Fields = Vec<Vec<u8>>;

/// Why a text is not converted.
#[derive(Clone, Copy, Debug, PartialEq, Eq)]
pub enum NotConverted {
    /// The first record or line, from 1, that is not taken.
    Record { number: u64 },
    /// The output has more bytes than are lent.
    Short,
}

/// Which of the two the text is turned into.
#[derive(Clone, Copy, Debug, PartialEq, Eq)]
pub enum Direction {
    ToDrill,
    ToCsv,
}

impl Direction {
    pub const BOTH: [Direction; 2] = [Direction::ToDrill, Direction::ToCsv];

    /// Writes to the front of the lent bytes, and answers how many it wrote.
    pub fn convert(self, text: &[u8], lent: &mut [u8]) -> Result<usize, NotConverted> {
        let output = match self {
            Direction::ToDrill => csv_to_drill(text)?,
            Direction::ToCsv => drill_to_csv(text)?,
        };
        let front = lent.get_mut(..output.len()).ok_or(NotConverted::Short)?;
        front.copy_from_slice(&output);
        Ok(output.len())
    }
}

/// The lines of these records.
pub fn csv_to_drill(text: &[u8]) -> Result<Vec<u8>, NotConverted> {
    convert(records(text), line)
}

/// The records of these lines.
pub fn drill_to_csv(text: &[u8]) -> Result<Vec<u8>, NotConverted> {
    convert(lines(text).map(Some), record)
}

/// `None` stands for a record with a broken quote; nothing behind it is read.
fn convert(
    read: impl Iterator<Item = Option<Fields>>,
    write: impl Fn(&Fields) -> Vec<u8>,
) -> Result<Vec<u8>, NotConverted> {
    let mut output = Vec::new();
    for (number, fields) in (1..).zip(read) {
        let fields = fields.filter(is_taken).ok_or(NotConverted::Record { number })?;
        output.extend(write(&fields));
    }
    Ok(output)
}

fn is_taken(fields: &Fields) -> bool {
    let has_line = |field: &Vec<u8>| !field.iter().any(|byte| b"\t\r\n".contains(byte));
    fields.len() <= MOST_FIELDS
        && fields.iter().all(|field| field.len() <= LONGEST_FIELD && has_line(field))
}

/// file = *record
fn records(text: &[u8]) -> impl Iterator<Item = Option<Fields>> + '_ {
    let mut cursor = Cursor { rest: text };
    from_fn(move || (!cursor.rest.is_empty()).then(|| cursor.record()))
}

/// What is not read yet. The rules of the RFC's grammar are its methods; `None` says that a quote is broken.
struct Cursor<'a> {
    rest: &'a [u8],
}

impl<'a> Cursor<'a> {
    /// record = field *(COMMA field) end
    fn record(&mut self) -> Option<Fields> {
        let mut fields = vec![self.field()?];
        while self.skip(b",") {
            fields.push(self.field()?);
        }
        self.end().then_some(fields)
    }

    /// end = CRLF / LF / the end of the text
    fn end(&mut self) -> bool {
        self.skip(b"\r\n") || self.skip(b"\n") || self.rest.is_empty()
    }

    /// field = (escaped / non-escaped)
    fn field(&mut self) -> Option<Vec<u8>> {
        if self.skip(b"\"") {
            self.escaped()
        } else {
            Some(self.non_escaped())
        }
    }

    /// escaped = DQUOTE *(TEXTDATA / COMMA / CR / LF / 2DQUOTE) DQUOTE, from behind the first DQUOTE on
    fn escaped(&mut self) -> Option<Vec<u8>> {
        let mut field = Vec::new();
        loop {
            field.extend(self.read_until(|rest| rest.starts_with(b"\"")));
            if self.skip(b"\"\"") {
                field.push(b'"');
            } else {
                return self.skip(b"\"").then_some(field);
            }
        }
    }

    /// non-escaped = *TEXTDATA, where a CR without an LF is TEXTDATA too
    fn non_escaped(&mut self) -> Vec<u8> {
        let stops: [&[u8]; 4] = [b",", b"\"", b"\r\n", b"\n"];
        self.read_until(|rest| stops.iter().any(|stop| rest.starts_with(stop))).to_vec()
    }

    /// Whether these bytes come next; if so, they are read.
    fn skip(&mut self, bytes: &[u8]) -> bool {
        let behind = self.rest.strip_prefix(bytes);
        self.rest = behind.unwrap_or(self.rest);
        behind.is_some()
    }

    /// Reads up to the first place where `stops` holds of what follows, or to the end of the text.
    fn read_until(&mut self, stops: impl Fn(&[u8]) -> bool) -> &'a [u8] {
        let length = (0..self.rest.len()).find(|&place| stops(&self.rest[place..]));
        let (front, rest) = self.rest.split_at(length.unwrap_or(self.rest.len()));
        self.rest = rest;
        front
    }
}

fn lines(text: &[u8]) -> impl Iterator<Item = Fields> + '_ {
    text.split_inclusive(|&byte| byte == b'\n').map(|line| {
        let line = line.strip_suffix(b"\n").unwrap_or(line);
        line.split(|&byte| byte == b'\t').map(<[u8]>::to_vec).collect()
    })
}

fn line(fields: &Fields) -> Vec<u8> {
    [&fields.join(&b'\t')[..], b"\n"].concat()
}

fn record(fields: &Fields) -> Vec<u8> {
    let written: Fields = fields.iter().map(|field| written_field(field)).collect();
    [&written.join(&b',')[..], b"\r\n"].concat()
}

/// In quotes only where the RFC needs them; a field that is taken has no CR or LF.
fn written_field(field: &[u8]) -> Vec<u8> {
    if field.iter().any(|byte| b",\"".contains(byte)) {
        in_quotes(field)
    } else {
        field.to_vec()
    }
}

/// The field in quotes, its own doubled.
pub fn in_quotes(field: &[u8]) -> Vec<u8> {
    let parts: Vec<&[u8]> = field.split(|&byte| byte == b'"').collect();
    [b"\"", &parts.join(&b"\"\""[..])[..], b"\""].concat()
}
