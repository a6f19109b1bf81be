//! The tokens of a source, as docs/SYNTAX.md has them.

/// A name as it is kept: its own bytes, and 0 after its end.
pub type Name = [u8; 14];

/// How many comments may be open at once.
pub const MAX_OPEN: usize = 128;

/// Where and why reading stops.
#[derive(Clone, Copy, PartialEq, Eq, Debug)]
pub struct Stop {
    pub number: u8,
    pub place: u32,
}

impl Stop {
    pub fn new(number: u8, place: usize) -> Stop {
        Stop { number, place: place as u32 }
    }
}

#[derive(Clone, Copy, PartialEq, Eq, Debug)]
pub enum Class {
    Blank,
    Letter,
    Digit,
    Special,
    Delimiter,
    Reserved,
    Illegal,
}

pub fn class(byte: u8) -> Class {
    match byte {
        9 | 10 | 12 | 13 | 32 => Class::Blank,
        b'A'..=b'Z' | b'`' | b'a'..=b'z' => Class::Letter,
        b'0'..=b'9' => Class::Digit,
        b'#' | b'$' | b'%' | b'&' | b'*' | b'+' | b'-' | b'/' | b':' => Class::Special,
        b'<' | b'=' | b'>' | b'@' | b'\\' | b'^' | b'|' => Class::Special,
        b'!' | b'(' | b')' | b',' | b'.' | b';' => Class::Delimiter,
        b'?' | b'[' | b']' | b'_' | b'{' | b'}' => Class::Delimiter,
        b'"' | b'\'' | b'~' => Class::Reserved,
        _ => Class::Illegal,
    }
}

#[derive(Clone, Copy, PartialEq, Eq, Debug)]
pub enum Kind {
    End,
    Name(Name),
    All,
    LetType,
    Rec,
    Top,
    Fold,
    Fun,
    Judge,
    LetTerm,
    RecTerm,
    TopTerm,
    Unfold,
    Colon,
    Below,
    Arrow,
    Equal,
    Turnstile,
    Delimiter(u8),
}

#[derive(Clone, Copy, PartialEq, Eq, Debug)]
pub struct Token {
    pub kind: Kind,
    /// Its first byte.
    pub byte: u32,
}

pub struct Lexer<'a> {
    source: &'a [u8],
    at: usize,
}

impl<'a> Lexer<'a> {
    pub fn new(source: &'a [u8]) -> Lexer<'a> {
        Lexer { source, at: 0 }
    }

    /// The next token, with the space in front of it.
    pub fn token(&mut self) -> Result<Token, Stop> {
        self.skip_space()?;
        let byte = self.at;
        let kind = match self.source.get(byte) {
            None => Kind::End,
            Some(&first) => match class(first) {
                Class::Letter => {
                    let run = self.run(|class| matches!(class, Class::Letter | Class::Digit));
                    word(run).ok_or(Stop::new(5, byte))?
                }
                Class::Special => {
                    symbol(self.run(|class| class == Class::Special)).ok_or(Stop::new(3, byte))?
                }
                Class::Delimiter => {
                    self.at += 1;
                    Kind::Delimiter(first)
                }
                Class::Digit | Class::Reserved | Class::Illegal => return Err(Stop::new(3, byte)),
                Class::Blank => unreachable!("a Blank is space"),
            },
        };
        Ok(Token { kind, byte: byte as u32 })
    }

    fn skip_space(&mut self) -> Result<(), Stop> {
        // Where the open comments open, the innermost last.
        let mut open = Vec::new();
        loop {
            let rest = &self.source[self.at..];
            if rest.starts_with(b"(*") {
                if open.len() == MAX_OPEN {
                    return Err(Stop::new(7, self.at));
                }
                open.push(self.at);
                self.at += 2;
            } else if let Some(&innermost) = open.last() {
                match rest.first() {
                    None => return Err(Stop::new(4, innermost)),
                    Some(_) if rest.starts_with(b"*)") => {
                        open.pop();
                        self.at += 2;
                    }
                    Some(&byte) if class(byte) == Class::Illegal => return Err(Stop::new(3, self.at)),
                    Some(_) => self.at += 1,
                }
            } else if rest.first().is_some_and(|&byte| class(byte) == Class::Blank) {
                self.at += 1;
            } else {
                return Ok(());
            }
        }
    }

    /// The longest run of these classes from here.
    fn run(&mut self, of: fn(Class) -> bool) -> &'a [u8] {
        let rest = &self.source[self.at..];
        let length = rest.iter().position(|&byte| !of(class(byte))).unwrap_or(rest.len());
        self.at += length;
        &rest[..length]
    }
}

/// The keyword or name that the run is, if it is not too long.
fn word(run: &[u8]) -> Option<Kind> {
    Some(match run {
        b"All" => Kind::All,
        b"Let" => Kind::LetType,
        b"Rec" => Kind::Rec,
        b"Top" => Kind::Top,
        b"fold" => Kind::Fold,
        b"fun" => Kind::Fun,
        b"judge" => Kind::Judge,
        b"let" => Kind::LetTerm,
        b"rec" => Kind::RecTerm,
        b"top" => Kind::TopTerm,
        b"unfold" => Kind::Unfold,
        _ => Kind::Name(kept(run)?),
    })
}

/// The name as it is kept.
pub fn kept(name: &[u8]) -> Option<Name> {
    let mut bytes = [0; 14];
    bytes.get_mut(..name.len())?.copy_from_slice(name);
    Some(bytes)
}

fn symbol(run: &[u8]) -> Option<Kind> {
    Some(match run {
        b":" => Kind::Colon,
        b"<:" => Kind::Below,
        b"->" => Kind::Arrow,
        b"=" => Kind::Equal,
        b"|-" => Kind::Turnstile,
        _ => return None,
    })
}
