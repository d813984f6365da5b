//! The seven messages in bytes, read and written field by field: a mark, a length, the contents.

use crate::message::{Message, NodeId, Tag, Value, View, LIMIT};

/// The marks of document 01's table.
const KIND: u8 = 1;
const REQUEST: u8 = 2;
const TAG: u8 = 3;
const WRITER: u8 = 4;
const REPORT: u8 = 5;
const VIEW: u8 = 6;

/// The bytes of one node in a view: a tag and a report.
pub const ENTRY: usize = 16;

/// The one message that all the bytes are, among n nodes.
pub fn read(n: usize, bytes: &[u8]) -> Option<Message> {
    let (message, length) = front(n, bytes)?;
    (length == bytes.len()).then_some(message)
}

/// The message at the front of the bytes, among n nodes, and its length.
pub fn front(n: usize, bytes: &[u8]) -> Option<(Message, usize)> {
    let mut fields = Fields(bytes);
    let message = match fields.take(KIND)? {
        [1] => Message::Read { request: fields.request()? },
        [2] => Message::ReadAnswer { request: fields.request()?, tag: fields.tag()? },
        [3] => Message::Write { request: fields.request()?, tag: fields.tag()? },
        [4] => Message::WriteAnswer { request: fields.request()?, tag: fields.tag()? },
        [5] => Message::Echo { tag: fields.tag().filter(|&tag| tag >= 1)? },
        [6] => {
            let tag = fields.tag().filter(|&tag| tag >= 1)?;
            let writer = fields.writer().filter(|writer| (1..=n).contains(writer))?;
            Message::Value(Value { tag, writer, report: number(fields.take(REPORT)?)? })
        }
        [7] => {
            let tag = fields.tag()?;
            Message::Good { tag, view: view(n, tag, fields.take(VIEW)?)? }
        }
        _ => return None,
    };
    Some((message, bytes.len() - fields.0.len()))
}

/// The bytes of each of the messages that a frame is, among n nodes, one after the other.
pub fn split(n: usize, frame: &[u8]) -> Option<Vec<&[u8]>> {
    let (mut messages, mut rest) = (vec![], frame);
    while !rest.is_empty() {
        let (message, more) = rest.split_at(front(n, rest)?.1);
        messages.push(message);
        rest = more;
    }
    Some(messages)
}

/// The fields that are still to be read.
struct Fields<'a>(&'a [u8]);

impl<'a> Fields<'a> {
    /// The contents of the next field, if it has this mark.
    fn take(&mut self, mark: u8) -> Option<&'a [u8]> {
        let (&[found, high, low], rest) = self.0.split_first_chunk()?;
        let (contents, rest) = rest.split_at_checked(u16::from_be_bytes([high, low]).into())?;
        self.0 = rest;
        (found == mark).then_some(contents)
    }

    fn request(&mut self) -> Option<u64> {
        number(self.take(REQUEST)?).filter(|request| (1..=LIMIT).contains(request))
    }

    fn tag(&mut self) -> Option<Tag> {
        number(self.take(TAG)?).filter(|&tag| tag <= LIMIT)
    }

    fn writer(&mut self) -> Option<NodeId> {
        match *self.take(WRITER)? {
            [writer] => Some(writer.into()),
            _ => None,
        }
    }
}

fn number(contents: &[u8]) -> Option<u64> {
    contents.try_into().ok().map(u64::from_be_bytes)
}

/// A view of n entries without a tag above the given one, and without report bytes beside tag 0.
pub fn view(n: usize, tag: Tag, contents: &[u8]) -> Option<View> {
    let entry = |bytes: &[u8]| {
        let (shown, report) = (number(&bytes[..ENTRY / 2])?, number(&bytes[ENTRY / 2..])?);
        match shown {
            0 => (report == 0).then_some(None),
            _ => (shown <= tag).then_some(Some((shown, report))),
        }
    };
    (contents.len() == ENTRY * n).then(|| contents.chunks(ENTRY).map(entry).collect())?
}

/// The bytes of a message. Its numbers are taken as they are.
pub fn write(message: &Message) -> Vec<u8> {
    let mut bytes = vec![];
    let mut put = |mark: u8, contents: &[u8]| {
        bytes.push(mark);
        bytes.extend((contents.len() as u16).to_be_bytes());
        bytes.extend(contents);
    };
    let mut put_numbers = |kind: u8, fields: &[(u8, u64)]| {
        put(KIND, &[kind]);
        fields.iter().for_each(|(mark, number)| put(*mark, &number.to_be_bytes()));
    };
    match message {
        Message::Read { request } => put_numbers(1, &[(REQUEST, *request)]),
        Message::ReadAnswer { request, tag } => put_numbers(2, &[(REQUEST, *request), (TAG, *tag)]),
        Message::Write { request, tag } => put_numbers(3, &[(REQUEST, *request), (TAG, *tag)]),
        Message::WriteAnswer { request, tag } => put_numbers(4, &[(REQUEST, *request), (TAG, *tag)]),
        Message::Echo { tag } => put_numbers(5, &[(TAG, *tag)]),
        Message::Value(Value { tag, writer, report }) => {
            put_numbers(6, &[(TAG, *tag)]);
            put(WRITER, &[*writer as u8]);
            put(REPORT, &report.to_be_bytes());
        }
        Message::Good { tag, view } => {
            put_numbers(7, &[(TAG, *tag)]);
            put(VIEW, &view_bytes(view));
        }
    }
    bytes
}

/// The bytes of a view: a tag and a report for each node, zeros where there is none.
pub fn view_bytes(view: &View) -> Vec<u8> {
    let entry = |shown: &Option<(Tag, u64)>| shown.map_or([0; 2], |(tag, report)| [tag, report]);
    view.iter().flat_map(entry).flat_map(u64::to_be_bytes).collect()
}
