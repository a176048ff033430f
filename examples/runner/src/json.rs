//! JSON, as Cargo prints it: values that are read whole.

use std::collections::BTreeMap;

/// A value; of a number it is known only that it is one.
#[derive(Debug)]
pub enum Json {
    Null,
    Flag(bool),
    Number,
    Text(String),
    List(Vec<Json>),
    Object(BTreeMap<String, Json>),
}

impl Json {
    /// The value that the whole text writes.
    pub fn read(text: &str) -> Option<Json> {
        let mut rest = text.trim();
        let value = value(&mut rest)?;
        rest.trim().is_empty().then_some(value)
    }

    /// What stands under the key of an object; null elsewhere.
    pub fn at(&self, key: &str) -> &Json {
        match self {
            Json::Object(members) => members.get(key).unwrap_or(&Json::Null),
            _ => &Json::Null,
        }
    }

    pub fn text(&self) -> &str {
        match self {
            Json::Text(text) => text,
            _ => "",
        }
    }

    pub fn list(&self) -> &[Json] {
        match self {
            Json::List(values) => values,
            _ => &[],
        }
    }

    pub fn is_true(&self) -> bool {
        matches!(self, Json::Flag(true))
    }
}

fn value(rest: &mut &str) -> Option<Json> {
    *rest = rest.trim_start();
    match rest.chars().next()? {
        '{' => object(rest),
        '[' => list(rest),
        '"' => string(rest).map(Json::Text),
        _ => word(rest),
    }
}

fn taken(rest: &mut &str, sign: char) -> bool {
    let behind = rest.trim_start().strip_prefix(sign);
    *rest = behind.unwrap_or(rest);
    behind.is_some()
}

fn object(rest: &mut &str) -> Option<Json> {
    let mut members = BTreeMap::new();
    taken(rest, '{');
    while !taken(rest, '}') {
        *rest = rest.trim_start();
        let key = string(rest)?;
        taken(rest, ':').then_some(())?;
        members.insert(key, value(rest)?);
        if !taken(rest, ',') && !rest.trim_start().starts_with('}') {
            return None;
        }
    }
    Some(Json::Object(members))
}

fn list(rest: &mut &str) -> Option<Json> {
    let mut values = Vec::new();
    taken(rest, '[');
    while !taken(rest, ']') {
        values.push(value(rest)?);
        if !taken(rest, ',') && !rest.trim_start().starts_with(']') {
            return None;
        }
    }
    Some(Json::List(values))
}

fn string(rest: &mut &str) -> Option<String> {
    let mut found = String::new();
    let mut chars = rest.strip_prefix('"')?.chars();
    loop {
        match chars.next()? {
            '"' => break,
            '\\' => found.push(escape(&mut chars)?),
            c => found.push(c),
        }
    }
    *rest = chars.as_str();
    Some(found)
}

fn escape(chars: &mut std::str::Chars<'_>) -> Option<char> {
    Some(match chars.next()? {
        'n' => '\n',
        't' => '\t',
        'r' => '\r',
        'b' => '\u{8}',
        'f' => '\u{c}',
        'u' => {
            let high = unit(chars)?;
            if !(0xd800..0xdc00).contains(&high) {
                return char::from_u32(high);
            }
            (chars.next()? == '\\' && chars.next()? == 'u').then_some(())?;
            let low = unit(chars)?.checked_sub(0xdc00)?;
            return char::from_u32(0x10000 + ((high - 0xd800) << 10) + low);
        }
        c => c,
    })
}

fn unit(chars: &mut std::str::Chars<'_>) -> Option<u32> {
    (0..4).try_fold(0, |number, _| Some(number * 16 + chars.next()?.to_digit(16)?))
}

fn word(rest: &mut &str) -> Option<Json> {
    let end = rest.find(|c: char| ",]}".contains(c) || c.is_whitespace()).unwrap_or(rest.len());
    let (word, behind) = rest.split_at(end);
    *rest = behind;
    match word {
        "null" => Some(Json::Null),
        "true" => Some(Json::Flag(true)),
        "false" => Some(Json::Flag(false)),
        _ => word.parse::<f64>().ok().map(|_| Json::Number),
    }
}
