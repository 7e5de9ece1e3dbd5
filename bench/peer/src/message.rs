//! The messages of a session.
use crate::cursor::Cursor;
use crate::format::Format;
use crate::refusal::Refusal;
use crate::tree::{Digest, NodeAt};

const OFFER: u8 = 1;
const ASK: u8 = 2;
const ANSWER: u8 = 3;

/// The number of bytes of an answer before its text.
const ANSWER_HEAD: usize = 16;

/// An offer of a snapshot.
#[derive(Clone, Copy)]
pub struct Offer {
    /// The number of the offer, chosen by the sender.
    pub number: u32,
    /// The number of the sender's format.
    pub format: u8,
    /// The sender's range.
    pub range: u8,
    /// The digest of the root.
    pub root: Digest,
}

/// An ask for the text of a node.
#[derive(Clone, Copy)]
pub struct Ask {
    /// The number of the offer.
    pub offer: u32,
    /// The node.
    pub at: NodeAt,
}

/// The answer to an ask.
pub struct Answer<'a> {
    /// The number of the offer.
    pub offer: u32,
    /// The node.
    pub at: NodeAt,
    /// The text of the node.
    pub text: &'a [u8],
}

fn read_at(cursor: &mut Cursor) -> Option<NodeAt> {
    let (depth, index) = (cursor.u8()?, cursor.u16()?);
    NodeAt::new(Format::Two, u64::from(depth), u64::from(index))
}

fn write_head(kind: u8, offer: u32, at: NodeAt, out: &mut Vec<u8>) {
    out.push(kind);
    out.extend_from_slice(&offer.to_be_bytes());
    out.push(at.depth);
    out.extend_from_slice(&at.index.to_be_bytes());
}

/// Returns the message that a function reads from these bytes. Refused: BadMessage, if they are of another kind, or are
/// more or fewer than the message's.
fn read<'a, T>(bytes: &'a [u8], kind: u8, body: impl FnOnce(&mut Cursor<'a>) -> Option<T>) -> Result<T, Refusal> {
    let mut cursor = Cursor::new(bytes);
    let is_kind = cursor.u8() == Some(kind);
    match body(&mut cursor) {
        Some(message) if is_kind && cursor.rest().is_empty() => Ok(message),
        _ => Err(Refusal::BadMessage),
    }
}

impl Offer {
    /// Returns the bytes of the offer.
    pub fn encode(&self) -> Vec<u8> {
        let mut out = vec![OFFER];
        out.extend_from_slice(&self.number.to_be_bytes());
        out.extend_from_slice(&[self.format, self.range]);
        out.extend_from_slice(&self.root);
        out
    }

    /// Reads an offer. Refused: BadMessage.
    pub fn decode(bytes: &[u8]) -> Result<Offer, Refusal> {
        read(bytes, OFFER, |cursor| {
            let (number, format, range) = (cursor.u32()?, cursor.u8()?, cursor.u8()?);
            Some(Offer { number, format, range, root: cursor.digest()? })
        })
    }
}

impl Ask {
    /// Returns the bytes of the ask.
    pub fn encode(&self) -> Vec<u8> {
        let mut out = Vec::with_capacity(8);
        write_head(ASK, self.offer, self.at, &mut out);
        out
    }

    /// Reads an ask. Refused: BadMessage.
    pub fn decode(bytes: &[u8]) -> Result<Ask, Refusal> {
        read(bytes, ASK, |cursor| Some(Ask { offer: cursor.u32()?, at: read_at(cursor)? }))
    }

    /// Returns the bytes of the answer whose text a function appends, or `None` if the function doesn't.
    pub fn answer(&self, write_text: impl FnOnce(&mut Vec<u8>) -> Option<()>) -> Option<Vec<u8>> {
        let mut out = Vec::with_capacity(ANSWER_HEAD + 513);
        write_head(ANSWER, self.offer, self.at, &mut out);
        out.extend_from_slice(&[0; 8]);
        write_text(&mut out)?;
        let len = (out.len() - ANSWER_HEAD) as u64;
        out[ANSWER_HEAD - 8..ANSWER_HEAD].copy_from_slice(&len.to_be_bytes());
        Some(out)
    }
}

impl Answer<'_> {
    /// Reads an answer. Refused: BadMessage.
    pub fn decode(bytes: &[u8]) -> Result<Answer<'_>, Refusal> {
        read(bytes, ANSWER, |cursor| {
            let (offer, at, len) = (cursor.u32()?, read_at(cursor)?, cursor.u64()?);
            Some(Answer { offer, at, text: cursor.take(usize::try_from(len).ok()?)? })
        })
    }
}
