//! Text to items: words, quoted texts, and bracketed lists of items.
use super::{mistake, At, Mistake};

/// Deeper lists are refused. An expression of depth 256, the greatest, needs about 256.
pub const MOST_NESTED: usize = 4096;

#[derive(Clone, Copy, Debug, PartialEq, Eq)]
pub enum Bracket {
    Round,
    Curly,
    Square,
}

impl Bracket {
    fn opened_by(c: char) -> Option<Bracket> {
        Some(match c {
            '(' => Bracket::Round,
            '{' => Bracket::Curly,
            '[' => Bracket::Square,
            _ => return None,
        })
    }

    fn close(self) -> char {
        [')', '}', ']'][self as usize]
    }
}

#[derive(Debug)]
pub struct Item {
    pub at: At,
    pub kind: Kind,
}

#[derive(Debug)]
pub enum Kind {
    /// A word; `levels` are the items of `.{ }` right behind it, if it has them.
    Word {
        text: String,
        levels: Option<Vec<Item>>,
    },
    Quoted(Vec<u8>),
    List(Bracket, Vec<Item>),
}

impl Item {
    /// The text of a word without levels.
    pub fn word(&self) -> Option<&str> {
        match &self.kind {
            Kind::Word { text, levels: None } => Some(text),
            _ => None,
        }
    }

    pub fn list(&self, bracket: Bracket) -> Option<&[Item]> {
        match &self.kind {
            Kind::List(b, items) if *b == bracket => Some(items),
            _ => None,
        }
    }
}

/// Does this character, outside « », end a word?
pub fn ends_word(c: char) -> bool {
    c.is_whitespace() || ",(){}[]\"".contains(c)
}

/// All items of a text.
pub fn items(text: &str) -> Result<Vec<Item>, Mistake> {
    let mut reader = Reader { rest: text, at: At { line: 1, column: 1 }, nested: 0 };
    reader.until(None, Commas::Refused)
}

/// May commas stand between the items of a list? Between levels they may, as in `k.{u, v}`.
#[derive(Clone, Copy, PartialEq, Eq)]
enum Commas {
    Refused,
    Between,
}

fn no_comma(commas: Commas) -> &'static str {
    match commas {
        Commas::Refused => "no comma is expected here: commas stand between levels only, as in k.{u, v}; one in a name is typed in « »",
        Commas::Between => "a comma stands between two levels: one is missing beside this one",
    }
}

struct Reader<'a> {
    rest: &'a str,
    at: At,
    nested: usize,
}

impl Reader<'_> {
    fn peek(&self) -> Option<char> {
        self.rest.chars().next()
    }

    fn take(&mut self) -> Option<char> {
        let c = self.peek()?;
        self.rest = &self.rest[c.len_utf8()..];
        self.at = if c == '\n' { At { line: self.at.line + 1, column: 1 } } else { At { line: self.at.line, column: self.at.column + 1 } };
        Some(c)
    }

    /// Blanks and comments, which run from -- to the end of the line.
    fn skip(&mut self) {
        while let Some(c) = self.peek() {
            if self.rest.starts_with("--") {
                while self.peek().is_some_and(|c| c != '\n') {
                    self.take();
                }
            } else if c.is_whitespace() {
                self.take();
            } else {
                return;
            }
        }
    }

    /// Items up to the closing bracket, which is taken, or to the end of the text.
    fn until(&mut self, open: Option<(Bracket, At)>, commas: Commas) -> Result<Vec<Item>, Mistake> {
        let (mut items, mut comma) = (Vec::new(), None);
        loop {
            self.skip();
            let at = self.at;
            match (self.peek(), open) {
                (None, None) => return Ok(items),
                (None, Some((bracket, start))) => return mistake(start, format!("this bracket is not closed by {}", bracket.close())),
                (Some(','), _) if commas == Commas::Between && comma.is_none() && !items.is_empty() => {
                    self.take();
                    comma = Some(at);
                }
                (Some(','), _) => return mistake(at, no_comma(commas)),
                (Some(c), Some((bracket, _))) if c == bracket.close() => {
                    self.take();
                    return comma.map_or(Ok(items), |at| mistake(at, no_comma(commas)));
                }
                (Some(c @ (')' | '}' | ']')), _) => return mistake(at, format!("{c} closes nothing here")),
                (Some(c), _) => {
                    items.push(Item { at, kind: self.item(c, at)? });
                    comma = None;
                }
            }
        }
    }

    fn item(&mut self, first: char, at: At) -> Result<Kind, Mistake> {
        if first == '"' {
            self.take();
            return self.quoted(at);
        }
        match Bracket::opened_by(first) {
            Some(bracket) => Ok(Kind::List(bracket, self.nested(bracket, at, Commas::Refused)?)),
            None => self.word(at),
        }
    }

    fn nested(&mut self, bracket: Bracket, at: At, commas: Commas) -> Result<Vec<Item>, Mistake> {
        if self.nested == MOST_NESTED {
            return mistake(at, format!("brackets are nested more than {MOST_NESTED} deep"));
        }
        self.take();
        self.nested += 1;
        let items = self.until(Some((bracket, at)), commas)?;
        self.nested -= 1;
        Ok(items)
    }

    /// A word ends at a blank, a comma, a bracket or a quote; what stands in « » belongs to it whatever it is.
    fn word(&mut self, at: At) -> Result<Kind, Mistake> {
        let mut text = String::new();
        while let Some(c) = self.peek() {
            if c == '{' && text.ends_with('.') {
                text.pop();
                let levels = Some(self.nested(Bracket::Curly, self.at, Commas::Between)?);
                return Ok(Kind::Word { text, levels });
            }
            if ends_word(c) {
                break;
            }
            text.push(c);
            self.take();
            if c == '«' {
                self.marked(&mut text, at)?;
            }
        }
        Ok(Kind::Word { text, levels: None })
    }

    fn marked(&mut self, text: &mut String, at: At) -> Result<(), Mistake> {
        loop {
            match self.take() {
                None => return mistake(at, "« without »"),
                Some(c) => text.push(c),
            }
            if text.ends_with('»') {
                return Ok(());
            }
        }
    }

    /// The bytes of a quoted text, its opening quote taken.
    fn quoted(&mut self, at: At) -> Result<Kind, Mistake> {
        let mut bytes = Vec::new();
        loop {
            let here = self.at;
            match self.take() {
                None => return mistake(at, "this quote is not closed"),
                Some('"') => return Ok(Kind::Quoted(bytes)),
                Some('\\') => self.escape(here, &mut bytes)?,
                Some(c) => bytes.extend(c.to_string().bytes()),
            }
        }
    }

    fn escape(&mut self, at: At, bytes: &mut Vec<u8>) -> Result<(), Mistake> {
        match self.take() {
            Some(c @ ('"' | '\\')) => bytes.push(c as u8),
            Some('n') => bytes.push(b'\n'),
            Some('t') => bytes.push(b'\t'),
            Some('r') => bytes.push(b'\r'),
            // a byte as it is, so that a string that is not UTF-8 can be typed
            Some('x') => match self.rest.get(..2).and_then(|digits| u8::from_str_radix(digits, 16).ok()) {
                Some(byte) => {
                    bytes.push(byte);
                    self.take();
                    self.take();
                }
                None => return mistake(at, "\\x needs two hexadecimal digits"),
            },
            _ => return mistake(at, "after \\ comes one of \" \\ n t r, or x and two hexadecimal digits"),
        }
        Ok(())
    }
}

#[cfg(test)]
mod tests {
    use super::*;

    #[test]
    fn words_lists_and_quotes() {
        let all = items("(a.«b )» {c} [\"q\\\"\\x41\"]) -- (\nk.{u v}").unwrap();
        let list = all[0].list(Bracket::Round).unwrap();
        assert_eq!(list[0].word(), Some("a.«b )»"));
        assert_eq!(list[1].list(Bracket::Curly).unwrap()[0].word(), Some("c"));
        assert!(matches!(&list[2].list(Bracket::Square).unwrap()[0].kind, Kind::Quoted(b) if b == b"q\"A"));
        assert!(matches!(&all[1].kind, Kind::Word { text, levels: Some(l) } if text == "k" && l.len() == 2));
        assert_eq!(all[1].at, At { line: 2, column: 1 });
    }

    #[test]
    fn commas_between_levels() {
        for text in ["k.{u v}", "k.{u, v}", "k.{u,v}", "k.{ u ,v }", "k.{u, -- and\nv}"] {
            let all = items(text).unwrap();
            let Kind::Word { text: word, levels: Some(levels) } = &all[0].kind else { panic!("{text}") };
            assert_eq!((word.as_str(), levels.iter().map(Item::word).collect::<Vec<_>>()), ("k", vec![Some("u"), Some("v")]), "{text}");
        }
        let said = |text: &str| items(text).unwrap_err().to_string();
        for (text, place) in [("k.{,u}", "1:4"), ("k.{u,}", "1:5"), ("k.{u,, v}", "1:6"), ("k.{,}", "1:4")] {
            assert!(said(text).starts_with(&format!("{place}: a comma stands between two levels")), "{}", said(text));
        }
        for (text, place) in
            [("a,b", "1:2"), ("(a, b)", "1:3"), ("(f (x : A), b)", "1:11"), (",", "1:1"), ("k.{(max u, v)}", "1:10"), ("{a,}", "1:3")]
        {
            assert!(said(text).starts_with(&format!("{place}: no comma is expected here")), "{}", said(text));
        }
        assert_eq!(items("«a,b» \"c,d\"").unwrap()[0].word(), Some("«a,b»"));
    }

    #[test]
    fn mistakes_have_places() {
        for (text, place) in [
            ("(a", "1:1"),
            ("a\n )", "2:2"),
            ("(a]", "1:3"),
            ("\"a", "1:1"),
            ("«a", "1:1"),
            ("\"\\q\"", "1:2"),
            ("\"\\x4\"", "1:2"),
            ("\"\\x", "1:2"),
        ] {
            let said = items(text).unwrap_err().to_string();
            assert!(said.starts_with(place), "{text}: {said}");
        }
        let deep = |n: usize| crate::with_stack(|| items(&("(".repeat(n) + &")".repeat(n))).map(|_| ()));
        assert!(deep(MOST_NESTED).is_ok());
        assert!(deep(MOST_NESTED + 1).unwrap_err().what.contains("nested"));
    }
}
