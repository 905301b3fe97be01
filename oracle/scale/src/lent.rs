//! One memory three times: the words lent to the library, the model's memory, and the words that this one has to be.

use crate::guarded::Guarded;
use crate::image::{memory_of, Image, WORDS};
use crate::library;
use oracle::model::Memory;

const GUARD: u16 = 0x5A5A;

pub struct Lent {
    pub words: Guarded<u16>,
    pub model: Memory,
    image: Image,
}

impl Lent {
    pub fn fresh() -> Self {
        Lent { words: Guarded::filled(0, WORDS, GUARD), model: Memory::fresh(), image: Image::default() }
    }

    /// Of words that are well-formed.
    pub fn of(words: &[u16]) -> Self {
        Lent { words: Guarded::of(words, GUARD), model: memory_of(words), image: Image::of(words) }
    }

    /// As the model's memory is.
    pub fn holding(model: Memory) -> Self {
        let mut image = Image::default();
        image.follow(&model);
        Lent { words: Guarded::of(image.words(), GUARD), model, image }
    }

    /// Empty, by the library's `reset`. Says whether its words are those of an empty memory.
    pub fn reset(&mut self) -> bool {
        self.image.clear();
        self.model = Memory::fresh();
        library::reset(self.words.lent()) == 0 && self.words.seen() == self.image.words()
    }

    /// The words that the model's memory was when it was last followed.
    pub fn image(&self) -> &[u16] {
        self.image.words()
    }

    /// After a call of the model.
    pub fn follow(&mut self) {
        self.image.follow(&self.model);
    }

    /// What the library left that it should not have.
    pub fn fault(&self) -> Option<&'static str> {
        if self.words.seen() != self.image.words() {
            return Some("the memory's words are not those of the model's memory");
        }
        (!self.words.is_intact()).then_some("something was written beside the memory")
    }
}
