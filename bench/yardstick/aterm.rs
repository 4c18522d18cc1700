//! A hand-written reader of the ATerm profile, as a yardstick for the proved one: recursive descent over bytes.
//!
//! rustc -O aterm.rs && ./aterm FILE
use std::time::Instant;

#[allow(dead_code)]
enum Kind {
    Apply(String, Vec<Term>),
    Tuple(Vec<Term>),
    Items(Vec<Term>),
    Int(i64),
    Str(String),
}

#[allow(dead_code)]
struct Term {
    kind: Kind,
    annos: Vec<Term>,
}

struct Reader<'a> {
    bytes: &'a [u8],
    at: usize,
    depth: usize,
    terms: usize,
}

type Read<T> = Result<T, usize>;

impl Reader<'_> {
    fn blanks(&mut self) {
        while matches!(self.bytes.get(self.at), Some(b' ' | b'\t' | b'\n' | b'\r')) {
            self.at += 1;
        }
    }

    fn term(&mut self) -> Read<Term> {
        self.depth += 1;
        self.terms += 1;
        if self.depth > 512 || self.terms > 1 << 20 {
            return Err(self.at);
        }
        let kind = self.body()?;
        self.blanks();
        let annos = match self.bytes.get(self.at) {
            Some(b'{') => self.list(b'}')?,
            _ => Vec::new(),
        };
        self.depth -= 1;
        Ok(Term { kind, annos })
    }

    fn body(&mut self) -> Read<Kind> {
        match self.bytes.get(self.at) {
            Some(b'(') => Ok(Kind::Tuple(self.list(b')')?)),
            Some(b'[') => Ok(Kind::Items(self.list(b']')?)),
            Some(b'"') => {
                let text = self.quoted()?;
                let end = self.at;
                self.blanks();
                if self.bytes.get(self.at) == Some(&b'(') {
                    return Ok(Kind::Apply(text, self.list(b')')?));
                }
                self.at = end;
                Ok(Kind::Str(text))
            }
            Some(b'-' | b'0'..=b'9') => self.number(),
            Some(c) if c.is_ascii_alphabetic() || *c == b'_' => {
                let start = self.at;
                while matches!(self.bytes.get(self.at), Some(c) if c.is_ascii_alphanumeric() || b"_-+*$".contains(c)) {
                    self.at += 1;
                }
                let name = String::from_utf8_lossy(&self.bytes[start..self.at]).into_owned();
                let end = self.at;
                self.blanks();
                if self.bytes.get(self.at) == Some(&b'(') {
                    return Ok(Kind::Apply(name, self.list(b')')?));
                }
                self.at = end;
                Ok(Kind::Apply(name, Vec::new()))
            }
            _ => Err(self.at),
        }
    }

    fn list(&mut self, close: u8) -> Read<Vec<Term>> {
        self.at += 1;
        let mut terms = Vec::new();
        self.blanks();
        if self.bytes.get(self.at) == Some(&close) {
            self.at += 1;
            return Ok(terms);
        }
        loop {
            self.blanks();
            terms.push(self.term()?);
            self.blanks();
            match self.bytes.get(self.at) {
                Some(b',') => self.at += 1,
                Some(c) if *c == close => {
                    self.at += 1;
                    return Ok(terms);
                }
                _ => return Err(self.at),
            }
        }
    }

    fn number(&mut self) -> Read<Kind> {
        let start = self.at;
        self.at += 1;
        while matches!(self.bytes.get(self.at), Some(b'0'..=b'9')) {
            self.at += 1;
        }
        let text = std::str::from_utf8(&self.bytes[start..self.at]).map_err(|_| start)?;
        text.parse().map(Kind::Int).map_err(|_| start)
    }

    fn quoted(&mut self) -> Read<String> {
        self.at += 1;
        let mut text = Vec::new();
        loop {
            match self.bytes.get(self.at) {
                Some(b'"') => {
                    self.at += 1;
                    return String::from_utf8(text).map_err(|_| self.at);
                }
                Some(b'\\') => {
                    let escape = match self.bytes.get(self.at + 1) {
                        Some(b'n') => b'\n',
                        Some(b't') => b'\t',
                        Some(b'r') => b'\r',
                        Some(c @ (b'"' | b'\\')) => *c,
                        _ => return Err(self.at),
                    };
                    text.push(escape);
                    self.at += 2;
                }
                Some(c) => {
                    text.push(*c);
                    self.at += 1;
                }
                None => return Err(self.at),
            }
        }
    }
}

fn main() {
    let name = std::env::args().nth(1).expect("a file");
    let bytes = std::fs::read(name).expect("a readable file");
    let start = Instant::now();
    std::str::from_utf8(&bytes).expect("UTF-8");
    let mut reader = Reader { bytes: &bytes, at: 0, depth: 0, terms: 0 };
    reader.blanks();
    let term = reader.term();
    let seconds = start.elapsed().as_secs_f64();
    match term {
        Ok(_) => println!("{} terms, {} bytes, {seconds:.3} s", reader.terms, bytes.len()),
        Err(at) => println!("refused at {at}"),
    }
}
