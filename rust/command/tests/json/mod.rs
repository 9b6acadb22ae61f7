//! JSON, read.

/// A value.
#[derive(Debug, Clone, PartialEq, Eq)]
pub enum Json {
    Object(Vec<(String, Json)>),
    List(Vec<Json>),
    Text(String),
    Number(i64),
    True,
    False,
    Null,
}

#[allow(dead_code)]
impl Json {
    /// The member of an object.
    pub fn at(&self, name: &str) -> &Json {
        let Json::Object(members) = self else { panic!("{self:?} is no object") };
        let found = members.iter().find(|member| member.0 == name);
        &found.unwrap_or_else(|| panic!("no {name} in {self:?}")).1
    }

    pub fn list(&self) -> &[Json] {
        let Json::List(list) = self else { panic!("{self:?} is no list") };
        list
    }

    pub fn text(&self) -> &str {
        let Json::Text(text) = self else { panic!("{self:?} is no text") };
        text
    }

    pub fn number(&self) -> i64 {
        let Json::Number(number) = self else { panic!("{self:?} is no number") };
        *number
    }
}

/// The one object of one line.
pub fn read(text: &str) -> Option<Json> {
    let line = text.strip_suffix('\n').filter(|line| line.starts_with('{'))?;
    let (read, rest) = value(line)?;
    (rest.is_empty() && !line.contains('\n')).then_some(read)
}

/// Whether it is one JSON object on one line.
#[allow(dead_code)]
pub fn is_one_line(text: &str) -> bool {
    read(text).is_some()
}

/// A value, and what is left behind it.
fn value(text: &str) -> Option<(Json, &str)> {
    match text.chars().next()? {
        '{' => {
            let (members, rest) = members(&text[1..], '}', |text| {
                let (name, rest) = quoted(text)?;
                let (value, rest) = value(rest.strip_prefix(':')?)?;
                Some(((name, value), rest))
            })?;
            Some((Json::Object(members), rest))
        }
        '[' => members(&text[1..], ']', value).map(|(list, rest)| (Json::List(list), rest)),
        '"' => quoted(text).map(|(text, rest)| (Json::Text(text), rest)),
        _ => {
            let end = text.find([',', '}', ']']).unwrap_or(text.len());
            let (word, rest) = text.split_at(end);
            let value = match word {
                "true" => Json::True,
                "false" => Json::False,
                "null" => Json::Null,
                word if word.starts_with('+') => return None,
                word => Json::Number(word.parse().ok()?),
            };
            Some((value, rest))
        }
    }
}

fn members<'a, T>(
    text: &'a str,
    end: char,
    member: impl Fn(&'a str) -> Option<(T, &'a str)>,
) -> Option<(Vec<T>, &'a str)> {
    let mut found = Vec::new();
    if let Some(rest) = text.strip_prefix(end) {
        return Some((found, rest));
    }
    let mut rest = text;
    loop {
        let (one, behind) = member(rest)?;
        found.push(one);
        match behind.strip_prefix(',') {
            Some(next) => rest = next,
            None => return Some((found, behind.strip_prefix(end)?)),
        }
    }
}

fn quoted(text: &str) -> Option<(String, &str)> {
    let mut rest = text.strip_prefix('"')?;
    let mut read = String::new();
    loop {
        let c = rest.chars().next()?;
        rest = &rest[c.len_utf8()..];
        match c {
            '"' => return Some((read, rest)),
            '\\' if rest.starts_with('u') => {
                let unit = u32::from_str_radix(rest.get(1..5)?, 16).ok()?;
                read.push(char::from_u32(unit).unwrap_or('?'));
                rest = &rest[5..];
            }
            '\\' => {
                read.push(rest.chars().next()?);
                rest = rest.strip_prefix(['"', '\\'])?;
            }
            c if c.is_control() => return None,
            c => read.push(c),
        }
    }
}
