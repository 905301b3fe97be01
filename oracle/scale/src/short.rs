//! `shorten` and `expand` against their model: answer, length, every byte of the output, every word of the memory, and the cells beside both.

pub mod damage;
pub mod walk;

use crate::guarded::Guarded;
use crate::lent::Lent;
use crate::library::{self, Said, Shorting};
use crate::tally::{hex, Difference};
use oracle::answer::{MAX_BODY, TOO_LONG};
use oracle::cursor::Read;
use oracle::model::Memory;

/// Room for any message.
pub const AMPLE: usize = MAX_BODY + 3;
const WRONG_MEMORY: u8 = 12;
const FILL: u8 = 0xA5;
const GUARD: u8 = 0x5A;

/// A question with a tree of it, and the short form of that.
#[derive(Clone)]
pub struct Shortened {
    pub question: Vec<u8>,
    pub tree: Vec<u8>,
    pub short: Vec<u8>,
}

/// One call: a tree to be shortened or a short tree to be expanded, against a question.
#[derive(Clone, Copy)]
pub struct Asked<'a> {
    pub shorting: Shorting,
    pub question: &'a [u8],
    pub message: &'a [u8],
}

/// What library and model agree on.
pub struct Agreed {
    /// The number, 10 where the output is short.
    pub answer: u8,
    /// The message, or the refusal where the output has room for anything.
    pub wanted: Read<Vec<u8>>,
}

impl Asked<'_> {
    /// What the model says, where the output has room for anything.
    pub fn of_model(self, memory: &mut Memory) -> Read<Vec<u8>> {
        match self.shorting {
            Shorting::Shorten => memory.shorten(self.question, self.message, AMPLE),
            Shorting::Expand => memory.expand(self.question, self.message, AMPLE),
        }
    }

    /// Asks both in a memory: the number that both say, and what the model would write. The room says how long the output is, of the length that is written.
    pub fn of_both(self, lent: &mut Lent, room: impl FnOnce(usize) -> usize) -> Result<Agreed, Difference> {
        let wanted = self.of_model(&mut lent.model);
        lent.follow();
        // Where nothing is to be written there is room for a tree that was let through.
        let room = room(wanted.as_ref().map_or(AMPLE.min(16 * self.message.len()), Vec::len));
        let (said, out) = self.of_library(&mut lent.words, room);
        let (want, front) = match &wanted {
            Err(refusal) => (Said::refused(*refusal), &[][..]),
            Ok(bytes) if bytes.len() > room => (Said::refused(TOO_LONG), &[][..]),
            Ok(bytes) => (Said { answer: 0, value: bytes.len() }, &bytes[..]),
        };
        if said != want {
            return Err(self.differing(&format!("{said:?}, by the model {want:?}, room {room}"), lent));
        }
        match fault(&out, front).or(lent.fault()) {
            Some(fault) => Err(self.differing(&format!("{said:?}: {fault}"), lent)),
            None => Ok(Agreed { answer: said.answer, wanted }),
        }
    }

    /// Asks the library in a memory that is not well-formed: 12, and nothing changes.
    pub fn in_wrong_memory(self, words: &[u16], room: usize) -> Option<Difference> {
        let mut lent = Guarded::of(words, u16::from(GUARD));
        let (said, out) = self.of_library(&mut lent, room);
        let is_kept = lent.seen() == words && lent.is_intact();
        let fault = fault(&out, &[]).or((!is_kept).then_some("the memory has changed"));
        if said == Said::refused(WRONG_MEMORY) && fault.is_none() {
            return None;
        }
        let around = format!("question {}\n{} words that are not well-formed\n", hex(self.question), words.len());
        let what = format!("{:?}: {said:?}, wanted 12; {}", self.shorting, fault.unwrap_or_default());
        Some(Difference { what, input: self.message.to_vec(), around })
    }

    fn of_library(self, words: &mut Guarded<u16>, room: usize) -> (Said, Guarded<u8>) {
        let mut out = Guarded::filled(FILL, room, GUARD);
        (library::short(self.shorting, self.question, self.message, words.lent(), out.lent()), out)
    }

    pub fn differing(self, what: &str, lent: &Lent) -> Difference {
        let around = format!("question {}\n{} formulas held\n", hex(self.question), lent.model.formulas().len());
        Difference { what: format!("{:?}: {what}", self.shorting), input: self.message.to_vec(), around }
    }
}

/// The front part is as said, and nothing stands behind it or beside the output.
fn fault(out: &Guarded<u8>, front: &[u8]) -> Option<&'static str> {
    let (written, rest) = out.seen().split_at(front.len());
    if written != front || rest.iter().any(|&byte| byte != FILL) {
        return Some("the output's bytes");
    }
    (!out.is_intact()).then_some("something was written beside the output")
}

/// A tree that the search's rules build, shortened and expanded again in one memory, each output as long as it has to be. Gives the short message.
pub fn there_and_back(lent: &mut Lent, question: &[u8], tree: &[u8]) -> Result<Vec<u8>, Difference> {
    let to = Asked { shorting: Shorting::Shorten, question, message: tree };
    let short = match to.of_both(lent, |length| length)?.wanted {
        Ok(short) => short,
        Err(refusal) => return Err(to.differing(&format!("{refusal}, of a tree that the rules build"), lent)),
    };
    let back = Asked { shorting: Shorting::Expand, question, message: &short };
    if back.of_both(lent, |length| length)?.wanted.as_deref() != Ok(tree) {
        return Err(back.differing("other bytes than those that were shortened", lent));
    }
    Ok(short)
}

/// What was expanded passes strict mode, and goes there and back; what was shortened comes back.
pub fn stands(lent: &mut Lent, asked: Asked, written: &[u8]) -> Option<Difference> {
    let tree = match asked.shorting {
        Shorting::Shorten => asked.message,
        Shorting::Expand => written,
    };
    if library::verify(tree, true).answer != 0 {
        return Some(asked.differing("strict mode refuses the tree", lent));
    }
    there_and_back(lent, asked.question, tree).err()
}
