//! Items to level and expression rows.
use super::builder::{Builder, Expr};
use super::names::{self, Name};
use super::reader::{Bracket, Item, Kind};
use super::{mistake, Mistake};
use std::collections::HashMap;

const PI: u32 = 4;
const LAMBDA: u32 = 5;
/// More successors than any level may have; a number past it is a slip.
const MOST_SUCCESSORS: u32 = 1000;

pub struct Terms {
    pub builder: Builder,
    pub defined: HashMap<String, u32>,
    /// The binders round a term, the innermost last. A hidden one (None) stands for an earlier name of the same group of binders: the
    /// group's type was typed before it, so neither a name nor a #k can mean it.
    scope: Vec<Option<Name>>,
}

/// One name of a group of binders, and the row of its type.
struct Binder {
    name: u32,
    style: u32,
    type_: u32,
}

pub fn name(item: &Item) -> Result<Name, Mistake> {
    match item.word() {
        Some(word) => names::parse(word).or_else(|what| mistake(item.at, what)),
        None => mistake(item.at, "a name is expected here"),
    }
}

pub fn number(item: &Item) -> Result<u32, Mistake> {
    match item.word().map(str::parse) {
        Some(Ok(n)) => Ok(n),
        _ => mistake(item.at, "a number below 4,294,967,296 is expected here"),
    }
}

fn digits(word: &str) -> bool {
    !word.is_empty() && word.bytes().all(|b| b.is_ascii_digit())
}

/// Does this look like a group of binders? No term does.
fn is_group(item: &Item) -> bool {
    match &item.kind {
        Kind::List(Bracket::Round, parts) => parts.iter().any(|part| part.word() == Some(":")),
        Kind::List(..) => true,
        _ => false,
    }
}

impl Terms {
    pub fn new(builder: Builder) -> Terms {
        Terms { builder, defined: HashMap::new(), scope: Vec::new() }
    }

    // ---- levels

    pub fn level(&mut self, item: &Item) -> Result<u32, Mistake> {
        if let Some(word) = item.word() {
            return self.level_word(item, word);
        }
        let Some([head, operands @ ..]) = item.list(Bracket::Round) else {
            return mistake(item.at, "a level is expected here: digits, a parameter, (succ l), (max a b), (imax a b) or (+ l n)");
        };
        match (head.word(), operands) {
            (Some("succ"), [a]) => {
                let a = self.level(a)?;
                Ok(self.builder.level(1, a, 0))
            }
            (Some(word @ ("max" | "imax")), [a, b]) => {
                let (a, b) = (self.level(a)?, self.level(b)?);
                Ok(self.builder.level(if word == "max" { 2 } else { 3 }, a, b))
            }
            (Some("+"), [a, n]) => {
                let base = self.level(a)?;
                self.successors(base, n, number(n)?)
            }
            _ => mistake(item.at, "a level is (succ l), (max a b), (imax a b) or (+ l n)"),
        }
    }

    /// Digits, a parameter, or a parameter plus digits, as listings have them.
    fn level_word(&mut self, item: &Item, word: &str) -> Result<u32, Mistake> {
        let (base, more) = match word.rsplit_once('+') {
            Some((base, n)) if digits(n) && !base.is_empty() => (base, n),
            _ if digits(word) => ("0", word),
            _ => (word, "0"),
        };
        let Ok(times) = more.parse() else {
            return mistake(item.at, format!("{more} successors are more than can be typed ({MOST_SUCCESSORS})"));
        };
        let row = if base == "0" {
            self.builder.level(0, 0, 0)
        } else {
            let parameter = names::parse(base).or_else(|what| mistake(item.at, what))?;
            let name = self.builder.name(&parameter);
            self.builder.level(4, name, 0)
        };
        self.successors(row, item, times)
    }

    fn successors(&mut self, mut row: u32, item: &Item, times: u32) -> Result<u32, Mistake> {
        if times > MOST_SUCCESSORS {
            return mistake(item.at, format!("{times} successors are more than can be typed ({MOST_SUCCESSORS})"));
        }
        for _ in 0..times {
            row = self.builder.level(1, row, 0);
        }
        Ok(row)
    }

    pub fn levels(&mut self, items: &[Item]) -> Result<u32, Mistake> {
        let rows = items.iter().map(|item| self.level(item)).collect::<Result<Vec<_>, _>>()?;
        Ok(self.builder.list(&rows))
    }

    // ---- expressions

    pub fn term(&mut self, item: &Item) -> Result<u32, Mistake> {
        match &item.kind {
            Kind::Quoted(text) => {
                let string = self.builder.string(text);
                Ok(self.leaf(9, &[string]))
            }
            Kind::Word { text, levels } => self.word(item, text, levels.as_deref()),
            Kind::List(Bracket::Round, items) => self.list(item, items),
            Kind::List(..) => mistake(item.at, "a term is expected here, and { } and [ ] are for binders"),
        }
    }

    fn leaf(&mut self, kind: u32, fields: &[u32]) -> u32 {
        self.builder.expr(Expr { kind, fields, children: &[], bound: None })
    }

    fn word(&mut self, item: &Item, word: &str, levels: Option<&[Item]>) -> Result<u32, Mistake> {
        if let Some(constant) = word.strip_prefix('@') {
            let parsed = names::parse(constant).or_else(|what| mistake(item.at, what))?;
            let name = self.builder.name(&parsed);
            let list = self.levels(levels.unwrap_or(&[]))?;
            return Ok(self.leaf(2, &[name, list]));
        }
        if levels.is_some() {
            return mistake(item.at, "only a constant has levels: put @ before it");
        }
        if let Some(index) = word.strip_prefix('#') {
            return match index.parse() {
                Ok(k) => Ok(self.indexed(k)),
                Err(_) => mistake(item.at, "after # comes the number of binders between"),
            };
        }
        if let Some(known) = word.strip_prefix('$') {
            return self.known(item, known);
        }
        if digits(word) {
            let string = self.builder.string(word.as_bytes());
            return Ok(self.leaf(8, &[string]));
        }
        self.bound(item, word)
    }

    /// Variable k, hidden binders passed over.
    fn indexed(&mut self, k: u32) -> u32 {
        let visible: Vec<usize> = (0..self.scope.len()).filter(|&i| self.scope[self.scope.len() - 1 - i].is_some()).collect();
        let index = match visible.get(k as usize) {
            Some(&i) => i as u32,
            None => k.saturating_add((self.scope.len() - visible.len()) as u32),
        };
        self.builder.variable(index)
    }

    /// What `define` named: that very row.
    fn known(&mut self, item: &Item, known: &str) -> Result<u32, Mistake> {
        let Some(&row) = self.defined.get(known) else {
            return mistake(item.at, format!("${known} is not defined above"));
        };
        if self.builder.loose(row) > 0 && self.scope.contains(&None) {
            return mistake(item.at, format!("${known} has loose variables: write these binders apart, each with its own type"));
        }
        Ok(row)
    }

    /// The innermost binder of this name.
    fn bound(&mut self, item: &Item, word: &str) -> Result<u32, Mistake> {
        let name = names::parse(word).or_else(|what| mistake(item.at, what))?;
        match self.scope.iter().rev().position(|binder| binder.as_ref() == Some(&name)) {
            Some(index) => Ok(self.builder.variable(index as u32)),
            None => mistake(item.at, format!("no binder round this is named {word} (a constant is @{word})")),
        }
    }

    fn list(&mut self, item: &Item, items: &[Item]) -> Result<u32, Mistake> {
        let [head, rest @ ..] = items else {
            return mistake(item.at, "a term is expected in these brackets");
        };
        match (head.word(), rest) {
            (Some("Sort"), [level]) => {
                let level = self.level(level)?;
                Ok(self.leaf(1, &[level]))
            }
            (Some("Type"), [level]) => {
                let predecessor = self.level(level)?;
                let level = self.builder.level(1, predecessor, 0);
                Ok(self.leaf(1, &[level]))
            }
            (Some("Sort" | "Type"), _) => mistake(item.at, "one level is expected: (Sort l) or (Type l)"),
            (Some("forall"), _) => self.chain(item, PI, rest),
            (Some("fun"), _) => self.chain(item, LAMBDA, rest),
            (Some("->" | "→"), _) => self.arrows(item, rest),
            (Some("let"), _) => self.let_in(item, rest, 0),
            (Some("have"), _) => self.let_in(item, rest, 1),
            (Some("proj"), _) => self.projection(item, rest),
            _ => self.application(head, rest),
        }
    }

    fn application(&mut self, head: &Item, arguments: &[Item]) -> Result<u32, Mistake> {
        let mut row = self.term(head)?;
        for argument in arguments {
            let both = [row, self.term(argument)?];
            row = self.builder.expr(Expr { kind: 3, fields: &both, children: &both, bound: None });
        }
        Ok(row)
    }

    fn projection(&mut self, item: &Item, parts: &[Item]) -> Result<u32, Mistake> {
        let [type_name, index, structure] = parts else {
            return mistake(item.at, "a projection is (proj TYPE-NAME INDEX TERM), the index from 0");
        };
        let (type_name, index) = (name(type_name)?, number(index)?);
        let structure = self.term(structure)?;
        let name = self.builder.name(&type_name);
        Ok(self.builder.expr(Expr { kind: 7, fields: &[name, index, structure], children: &[structure], bound: None }))
    }

    // ---- binders

    fn binder(&mut self, kind: u32, b: &Binder, body: u32) -> u32 {
        self.builder.expr(Expr { kind, fields: &[b.name, b.style, b.type_, body], children: &[b.type_], bound: Some(body) })
    }

    /// Binders, then the body.
    fn chain(&mut self, item: &Item, kind: u32, parts: &[Item]) -> Result<u32, Mistake> {
        let [groups @ .., body] = parts else {
            return mistake(item.at, "binders and a body are expected: (forall (x : TYPE) BODY), and the same with fun");
        };
        if is_group(body) {
            let what = "a body is missing here: what a forall or a fun ends with is not one more binder, as in (forall (x : TYPE) BODY)";
            return mistake(body.at, what);
        }
        let outside = self.scope.len();
        let mut binders = Vec::new();
        for group in groups {
            self.group(group, &mut binders)?;
        }
        let mut row = self.term(body)?;
        self.scope.truncate(outside);
        for b in binders.iter().rev() {
            row = self.binder(kind, b, row);
        }
        Ok(row)
    }

    /// (x y : T), {x : T}, {{x : T}} or [x : T]: the names come into scope. T is typed once and means the same for each of them.
    fn group(&mut self, item: &Item, binders: &mut Vec<Binder>) -> Result<(), Mistake> {
        let (style, parts) = match &item.kind {
            Kind::List(Bracket::Round, parts) => (0, parts.as_slice()),
            Kind::List(Bracket::Square, parts) => (3, parts.as_slice()),
            Kind::List(Bracket::Curly, parts) => match parts.as_slice() {
                [only] if only.list(Bracket::Curly).is_some() => (2, only.list(Bracket::Curly).unwrap_or(&[])),
                parts => (1, parts),
            },
            _ => return mistake(item.at, "a binder is expected here: (x : T), {x : T}, {{x : T}} or [x : T]"),
        };
        let [names @ .., colon, type_] = parts else {
            return mistake(item.at, "a binder has names, : and a type");
        };
        if colon.word() != Some(":") || names.is_empty() {
            return mistake(item.at, "a binder has names, : and one type");
        }
        let (names, outside) = (names.iter().map(name).collect::<Result<Vec<_>, _>>()?, self.scope.len());
        for one in &names {
            let type_ = self.term(type_)?;
            binders.push(Binder { name: self.builder.name(one), style, type_ });
            self.scope.push(None);
        }
        self.scope.truncate(outside);
        self.scope.extend(names.into_iter().map(Some));
        Ok(())
    }

    /// Anonymous pis of default style.
    fn arrows(&mut self, item: &Item, parts: &[Item]) -> Result<u32, Mistake> {
        let [types @ .., body] = parts else {
            return mistake(item.at, "types are expected: (-> A B)");
        };
        let outside = self.scope.len();
        let mut binders = Vec::new();
        for type_ in types {
            let type_ = self.term(type_)?;
            binders.push(Binder { name: self.builder.name(&Vec::new()), style: 0, type_ });
            self.scope.push(Some(Vec::new()));
        }
        let mut row = self.term(body)?;
        self.scope.truncate(outside);
        for b in binders.iter().rev() {
            row = self.binder(PI, b, row);
        }
        Ok(row)
    }

    /// (x : T := V) and a body.
    fn let_in(&mut self, item: &Item, parts: &[Item], nondep: u32) -> Result<u32, Mistake> {
        let what = "a let is (let (x : TYPE := VALUE) BODY), and the same with have";
        let [head, body] = parts else {
            return mistake(item.at, if parts.len() == 1 { format!("a body is missing here: {what}") } else { what.to_string() });
        };
        let Some([bound, colon, type_, becomes, value]) = head.list(Bracket::Round) else {
            return mistake(head.at, what);
        };
        if colon.word() != Some(":") || becomes.word() != Some(":=") {
            return mistake(head.at, what);
        }
        let bound = name(bound)?;
        let (row, type_, value) = (self.builder.name(&bound), self.term(type_)?, self.term(value)?);
        self.scope.push(Some(bound));
        let body = self.term(body)?;
        self.scope.pop();
        Ok(self.builder.expr(Expr { kind: 6, fields: &[row, type_, value, body, nondep], children: &[type_, value], bound: Some(body) }))
    }
}
