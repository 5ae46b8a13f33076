//! A place in a text, what is read there, and what stops the reading. Written from docs/SCOPE.md, "Reading" and "A whole document".
use crate::editions::Names;

/// Why a reading stops.
#[derive(Clone, Copy, PartialEq, Eq, Debug)]
pub enum Stop {
    /// it is refused with a number at a place
    At(u8, usize),
    /// the text ends; where the sign begins that opened what does not end
    Ends(usize),
}

pub type Read<T = ()> = Result<T, Stop>;

/// Where the reader is, for what does not end.
#[derive(Clone, Copy)]
pub enum Within {
    /// in a part that is at hand as a whole
    Part,
    /// in the prolog of a document
    Prolog,
    /// in its DOCTYPE, whose `<` stands at a place
    Doctype(usize),
}

/// A part of the text and where it begins.
#[derive(Clone, Copy)]
pub struct Piece<'a> {
    pub start: usize,
    pub text: &'a str,
}

impl<'a> Piece<'a> {
    pub fn end(&self) -> usize {
        self.start + self.text.len()
    }
}

pub struct Reader<'a> {
    pub text: &'a str,
    pub at: usize,
    pub within: Within,
    pub names: Names,
}

impl<'a> Reader<'a> {
    /// A reader of what stands in `piece`, which is at hand as a whole. Places stay those of the whole text.
    pub fn part(&self, piece: Piece<'a>) -> Reader<'a> {
        Reader {
            text: &self.text[..piece.end()],
            at: piece.start,
            within: Within::Part,
            names: self.names,
        }
    }

    pub fn rest(&self) -> &'a str {
        &self.text[self.at..]
    }

    pub fn at_end(&self) -> bool {
        self.rest().is_empty()
    }

    pub fn next(&self) -> Option<char> {
        self.rest().chars().next()
    }

    pub fn sees(&self, word: &str) -> bool {
        self.rest().starts_with(word)
    }

    pub fn eat(&mut self, word: &str) -> bool {
        let there = self.sees(word);
        if there {
            self.at += word.len();
        }
        there
    }

    /// The refusal here, where something is missing or wrong.
    pub fn refuse(&self, number: u8) -> Stop {
        Stop::At(number, self.at)
    }

    /// What the sign opened that begins at `sign`, and behind which the reader stands, does not end.
    pub fn unended(&self, sign: usize) -> Stop {
        match self.within {
            // a literal of an XML declaration that its `?>` ends, and the checks that tell a place
            Within::Part => Stop::At(7, self.at),
            // directly behind an inner sign only the DOCTYPE counts as open
            Within::Doctype(start) if self.at_end() => Stop::Ends(start),
            Within::Doctype(_) | Within::Prolog => Stop::Ends(sign),
        }
    }

    /// Production 3, if it is there.
    pub fn spaces(&mut self) -> bool {
        let start = self.at;
        self.at = self.text.len() - self.rest().trim_start_matches(is_space).len();
        self.at > start
    }

    pub fn need_space(&mut self) -> Read {
        if self.spaces() {
            return Ok(());
        }
        Err(self.refuse(3))
    }

    /// Production 5, with the characters of Appendix B or of the fifth edition.
    pub fn name(&mut self) -> Read<Piece<'a>> {
        if !self.next().is_some_and(|c| self.names.begin_with(c)) {
            return Err(self.refuse(4));
        }
        self.token()
    }

    /// Production 7.
    pub fn token(&mut self) -> Read<Piece<'a>> {
        let start = self.at;
        let rest = self.rest().trim_start_matches(|c| self.names.go_on_with(c));
        self.at = self.text.len() - rest.len();
        if self.at == start {
            return Err(self.refuse(4));
        }
        Ok(Piece {
            start,
            text: &self.text[start..self.at],
        })
    }

    /// What stands between two quote marks of one kind.
    pub fn literal(&mut self) -> Read<Piece<'a>> {
        match self.next() {
            Some('"') => self.enclosed("\"", "\""),
            Some('\'') => self.enclosed("'", "'"),
            _ => Err(self.refuse(6)),
        }
    }

    /// What stands between the sign `opening`, which is here, and the first `closing` behind it.
    pub fn enclosed(&mut self, opening: &str, closing: &str) -> Read<Piece<'a>> {
        let sign = self.at;
        self.at += opening.len();
        let start = self.at;
        let Some(length) = self.rest().find(closing) else {
            return Err(self.unended(sign));
        };
        self.at += length + closing.len();
        Ok(Piece {
            start,
            text: &self.text[start..start + length],
        })
    }

    /// A comment: "text in which no two hyphens follow each other", "the first `-->` ends it".
    pub fn comment(&mut self) -> Read {
        let inner = self.enclosed("<!--", "-->")?;
        match inner.text.find("--") {
            Some(k) => Err(Stop::At(12, inner.start + k)),
            None => Ok(()),
        }
    }

    /// Production 16. The target is what stands before white space; a colon and `xml` are refused in it.
    pub fn instruction(&mut self) -> Read {
        let inner = self.enclosed("<?", "?>")?;
        let length = inner.text.find(is_space).unwrap_or(inner.text.len());
        let mut target = self.part(Piece {
            start: inner.start,
            text: &inner.text[..length],
        });
        let name = target.name()?;
        if !target.at_end() {
            return Err(target.refuse(4));
        }
        no_colon(name)?;
        if name.text.eq_ignore_ascii_case("xml") {
            return Err(Stop::At(11, name.start));
        }
        Ok(())
    }
}

pub fn is_space(c: char) -> bool {
    matches!(c, ' ' | '\t' | '\r' | '\n')
}

/// "A colon is refused in the names of entities and notations that are declared and in targets of instructions."
pub fn no_colon(name: Piece<'_>) -> Read {
    match name.text.find(':') {
        Some(k) => Err(Stop::At(5, name.start + k)),
        None => Ok(()),
    }
}

/// What `check_name_at` has to answer: the number and the place. A name goes up to the text's end.
pub fn name_stop(text: &str, names: Names) -> (u8, usize) {
    let mut r = Reader {
        text,
        at: 0,
        within: Within::Part,
        names,
    };
    match r.name() {
        Ok(_) if r.at_end() => (0, r.at),
        _ => (4, r.at),
    }
}
