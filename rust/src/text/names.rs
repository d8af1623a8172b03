//! Names as they are typed: components joined by ".", odd ones in « », numbers as digits, `_` for the anonymous one.
use super::reader::ends_word;

#[derive(Clone, Debug, PartialEq, Eq)]
pub enum Component {
    Text(String),
    Number(u64),
}

/// No component: the anonymous name.
pub type Name = Vec<Component>;

/// The name of a word, or what is wrong with it.
pub fn parse(word: &str) -> Result<Name, String> {
    if word == "_" {
        return Ok(Vec::new());
    }
    let (mut name, mut rest) = (Vec::new(), word);
    loop {
        let (component, after) = first(rest, word)?;
        name.push(component);
        if after.is_empty() {
            return Ok(name);
        }
        rest = after.strip_prefix('.').ok_or_else(|| format!("in the name {word} a « » is not a whole component"))?;
    }
}

/// The first component, and what comes after it.
fn first<'a>(rest: &'a str, word: &str) -> Result<(Component, &'a str), String> {
    if let Some(inside) = rest.strip_prefix('«') {
        let (text, after) = inside.split_once('»').ok_or_else(|| format!("« without » in {word}"))?;
        return Ok((Component::Text(text.to_string()), after));
    }
    let (text, after) = rest.split_at(rest.find(['.', '«']).unwrap_or(rest.len()));
    if text.is_empty() {
        return Err(format!("the name {word:?} has an empty component (write « » without the blank for one, and _ for the anonymous name)"));
    }
    if text.bytes().all(|b| b.is_ascii_digit()) {
        let number = text.parse().map_err(|_| format!("{text} is past 64 bits"))?;
        return Ok((Component::Number(number), after));
    }
    Ok((Component::Text(text.to_string()), after))
}

/// The word whose name this is, marks only where they are needed. (No word has a component with both » and something that needs marks.)
pub fn typed(name: &Name) -> String {
    match name.as_slice() {
        [] => "_".to_string(),
        [Component::Text(text)] if text == "_" => "«_»".to_string(),
        _ => name.iter().map(component).collect::<Vec<_>>().join("."),
    }
}

fn component(one: &Component) -> String {
    match one {
        Component::Number(n) => n.to_string(),
        // -- would start a comment
        Component::Text(text) if text.starts_with("--") || text.contains(ends_word) || first(text, text) != Ok((one.clone(), "")) => {
            format!("«{text}»")
        }
        Component::Text(text) => text.clone(),
    }
}

#[cfg(test)]
mod tests {
    use super::*;

    #[test]
    fn typed_names_come_back() {
        let of = |word: &str| typed(&parse(word).unwrap());
        for word in ["_", "«_»", "a.b", "a.«b. c».5.«5».«»", "«»", "7", "«a,b»", "«(».x", "a._", "x._@.M.1._hyg.2", "α.x₈", "«--a»", "a»b", "#x"]
        {
            assert_eq!(of(word), word);
        }
        assert_eq!((of("«a».«b»"), of("007.«x y»")), ("a.b".to_string(), "7.«x y»".to_string()));
    }

    #[test]
    fn forms() {
        let text = |s: &str| Component::Text(s.to_string());
        assert_eq!(parse("_"), Ok(vec![]));
        assert_eq!(parse("«_»"), Ok(vec![text("_")]));
        assert_eq!(parse("a.«b. c».5.«5».«»"), Ok(vec![text("a"), text("b. c"), Component::Number(5), text("5"), text("")]));
        assert_eq!(parse("x._@.M.1._hyg.2").unwrap().len(), 6);
        for bad in ["", "a.", ".a", "a..b", "a«b»", "«a»b", "18446744073709551616"] {
            assert!(parse(bad).is_err(), "{bad}");
        }
    }
}
