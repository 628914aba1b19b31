//! The message form: requests read, answers written.

/// The longest request, the longest answer, and the smallest answer room.
pub const LONGEST: usize = 1472;
/// Bindings that a message can have.
pub const MOST_BINDINGS: usize = 16;

/// A numbered return, 1 to 10, and where the request broke: an offset for 4 to 8, and 0 for the others.
#[derive(Clone, Copy, PartialEq, Eq, Debug)]
pub struct Refusal {
    pub number: u32,
    pub offset: u32,
}

impl Refusal {
    /// One that tells no place in the request.
    pub const fn of(number: u32) -> Refusal {
        Refusal { number, offset: 0 }
    }

    /// One that tells where a field's tag is or would be, or where the first octet that is left over is.
    fn at(number: u32, place: usize) -> Refusal {
        Refusal { number, offset: place as u32 }
    }
}

pub const FIELD_CUT: u32 = 4;
pub const TAG_NOT_ALLOWED: u32 = 5;
pub const LENGTH_WRONG: u32 = 6;
pub const HEAD_WRONG: u32 = 7;
pub const TOO_MANY_BINDINGS: u32 = 8;

#[derive(Clone, Copy, PartialEq, Eq, Debug)]
pub enum Kind {
    Get,
    GetNext,
    Set,
}

#[derive(Clone, PartialEq, Eq, Debug)]
pub enum Content {
    Null,
    Integer(i32),
    String(Vec<u8>),
    Unsigned(u32),
    Counter(u32),
    NoSuchObject,
    NoSuchInstance,
    EndOfMibView,
}

#[derive(Clone, PartialEq, Eq, Debug)]
pub struct Binding {
    pub name: Vec<u32>,
    pub content: Content,
}

#[derive(Clone, PartialEq, Eq, Debug)]
pub struct Request {
    pub kind: Kind,
    pub id: u32,
    pub bindings: Vec<Binding>,
}

/// Octets of a tag and a length.
const HEADER: usize = 3;

/// Octets that are still to be read, up to the end of what encloses them, and the place in the message of the first one.
struct Reader<'a> {
    rest: &'a [u8],
    place: usize,
}

/// A field that its enclosure does not cut, and the place in the message of its tag.
struct Field<'a> {
    place: usize,
    tag: u8,
    contents: &'a [u8],
}

impl<'a> Reader<'a> {
    /// What is wrong with the field, or with the octets, that come next.
    fn refuse(&self, number: u32) -> Refusal {
        Refusal::at(number, self.place)
    }

    /// The next field's tag and length; it stays unread.
    fn header(&self) -> Result<(u8, usize), Refusal> {
        match self.rest {
            [tag, high, low, ..] => Ok((*tag, usize::from(*high) * 256 + usize::from(*low))),
            _ => Err(self.refuse(FIELD_CUT)),
        }
    }

    /// The next field: cut comes before everything else about it.
    fn field(&mut self) -> Result<Field<'a>, Refusal> {
        let (tag, length) = self.header()?;
        let contents = self.rest.get(HEADER..HEADER + length).ok_or(self.refuse(FIELD_CUT))?;
        let field = Field { place: self.place, tag, contents };
        self.rest = &self.rest[HEADER + length..];
        self.place += HEADER + length;
        Ok(field)
    }

    /// A field that must have this tag.
    fn tagged(&mut self, expected: u8) -> Result<Field<'a>, Refusal> {
        let field = self.field()?;
        if field.tag == expected {
            Ok(field)
        } else {
            Err(field.refuse(TAG_NOT_ALLOWED))
        }
    }
}

impl<'a> Field<'a> {
    fn refuse(&self, number: u32) -> Refusal {
        Refusal::at(number, self.place)
    }

    /// The contents of a field that must have this length.
    fn fixed<const LENGTH: usize>(&self) -> Result<[u8; LENGTH], Refusal> {
        self.contents.try_into().map_err(|_| self.refuse(LENGTH_WRONG))
    }

    /// Reads the fields inside; their places still count from the message's first octet.
    fn inside(&self) -> Reader<'a> {
        Reader { rest: self.contents, place: self.place + HEADER }
    }
}

pub fn read(octets: &[u8]) -> Result<Request, Refusal> {
    let mut reader = Reader { rest: octets, place: 0 };
    let first = reader.tagged(0x01)?;
    let kind = match first.fixed()? {
        [0] => Kind::Get,
        [1] => Kind::GetNext,
        [3] => Kind::Set,
        [_] => return Err(first.refuse(HEAD_WRONG)),
    };
    let id = u32::from_be_bytes(reader.tagged(0x02)?.fixed()?);
    let third = reader.tagged(0x03)?;
    if third.fixed()? != [0, 0] {
        return Err(third.refuse(HEAD_WRONG));
    }
    let mut bindings = Vec::new();
    while !reader.rest.is_empty() {
        let (tag, _) = reader.header()?;
        if bindings.len() == MOST_BINDINGS && tag == 0x10 {
            return Err(reader.refuse(TOO_MANY_BINDINGS));
        }
        bindings.push(read_binding(reader.tagged(0x10)?.inside(), kind)?);
    }
    Ok(Request { kind, id, bindings })
}

fn read_binding(mut reader: Reader, kind: Kind) -> Result<Binding, Refusal> {
    let name = read_name(&reader.tagged(0x11)?)?;
    let content = read_content(&reader.field()?, kind)?;
    if !reader.rest.is_empty() {
        return Err(reader.refuse(LENGTH_WRONG));
    }
    Ok(Binding { name, content })
}

fn read_name(field: &Field) -> Result<Vec<u32>, Refusal> {
    let octets = field.contents;
    if !octets.len().is_multiple_of(4) || !(2..=128).contains(&(octets.len() / 4)) {
        return Err(field.refuse(LENGTH_WRONG));
    }
    Ok(octets.chunks_exact(4).map(|sub_id| u32::from_be_bytes(sub_id.try_into().unwrap())).collect())
}

fn read_content(field: &Field, kind: Kind) -> Result<Content, Refusal> {
    let octets = field.contents;
    match (field.tag, kind) {
        (0x20, Kind::Get | Kind::GetNext) if octets.is_empty() => Ok(Content::Null),
        (0x20, Kind::Get | Kind::GetNext) => Err(field.refuse(LENGTH_WRONG)),
        (0x21, Kind::Set) => Ok(Content::Integer(i32::from_be_bytes(field.fixed()?))),
        (0x22, Kind::Set) if octets.len() <= 255 => Ok(Content::String(octets.to_vec())),
        (0x22, Kind::Set) => Err(field.refuse(LENGTH_WRONG)),
        (0x23, Kind::Set) => Ok(Content::Unsigned(u32::from_be_bytes(field.fixed()?))),
        (0x24, Kind::Set) => Ok(Content::Counter(u32::from_be_bytes(field.fixed()?))),
        _ => Err(field.refuse(TAG_NOT_ALLOWED)),
    }
}

/// An answer with its bindings, or tooBig.
pub fn write_answer(id: u32, status: u8, index: u8, bindings: &[Binding]) -> Vec<u8> {
    let answer = write(2, id, status, index, bindings);
    if answer.len() <= LONGEST {
        answer
    } else {
        write(2, id, 1, 0, &[])
    }
}

pub fn write_request(request: &Request) -> Vec<u8> {
    let kind = match request.kind {
        Kind::Get => 0,
        Kind::GetNext => 1,
        Kind::Set => 3,
    };
    write(kind, request.id, 0, 0, &request.bindings)
}

fn write(kind: u8, id: u32, status: u8, index: u8, bindings: &[Binding]) -> Vec<u8> {
    let mut octets = Vec::with_capacity(LONGEST);
    write_field(&mut octets, 0x01, &[kind]);
    write_field(&mut octets, 0x02, &id.to_be_bytes());
    write_field(&mut octets, 0x03, &[status, index]);
    for binding in bindings {
        write_binding(&mut octets, binding);
    }
    octets
}

fn write_binding(octets: &mut Vec<u8>, binding: &Binding) {
    let start = octets.len();
    write_field(octets, 0x10, &[]);
    let name: Vec<u8> = binding.name.iter().flat_map(|sub_id| sub_id.to_be_bytes()).collect();
    write_field(octets, 0x11, &name);
    match &binding.content {
        Content::Null => write_field(octets, 0x20, &[]),
        Content::Integer(number) => write_field(octets, 0x21, &number.to_be_bytes()),
        Content::String(contents) => write_field(octets, 0x22, contents),
        Content::Unsigned(number) => write_field(octets, 0x23, &number.to_be_bytes()),
        Content::Counter(number) => write_field(octets, 0x24, &number.to_be_bytes()),
        Content::NoSuchObject => write_field(octets, 0x30, &[]),
        Content::NoSuchInstance => write_field(octets, 0x31, &[]),
        Content::EndOfMibView => write_field(octets, 0x32, &[]),
    }
    // The length is known once both inner fields are written.
    let length = (octets.len() - start - 3) as u16;
    octets[start + 1..start + 3].copy_from_slice(&length.to_be_bytes());
}

fn write_field(octets: &mut Vec<u8>, tag: u8, contents: &[u8]) {
    octets.push(tag);
    octets.extend((contents.len() as u16).to_be_bytes());
    octets.extend(contents);
}
