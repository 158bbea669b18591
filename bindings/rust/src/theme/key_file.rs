//! Groups of keys and values. What is given twice is taken as GLib takes it.

use super::{ThemeError, ThemeFault};
use std::collections::HashMap;

pub struct KeyFile<'a> {
    groups: HashMap<&'a str, Group<'a>>,
}

pub struct Group<'a> {
    /// The line of its name, the first if it is given twice.
    pub line: usize,
    values: HashMap<&'a str, Value<'a>>,
}

#[derive(Clone, Copy)]
pub struct Value<'a> {
    pub line: usize,
    pub text: &'a str,
}

impl<'a> KeyFile<'a> {
    /// Reads all lines. The first group must be the one of this name.
    pub fn parse(text: &'a str, first: &str) -> Result<Self, ThemeError> {
        let mut groups = HashMap::new();
        let mut current: Option<&mut Group> = None;
        for (before, line) in text.lines().enumerate() {
            let number = before + 1;
            let line = Line::of(line).map_err(|fault| fault.at(number))?;
            match (line, &mut current) {
                (Line::Ignored, _) => {}
                (Line::Group(name), None) if name != first => {
                    return Err(ThemeFault::OtherFirstGroup.at(number));
                }
                (Line::Group(name), _) => {
                    let group = groups.entry(name);
                    current = Some(group.or_insert_with(|| Group::at(number)));
                }
                (Line::Pair { .. }, None) => {
                    return Err(ThemeFault::KeyBeforeGroup.at(number));
                }
                (Line::Pair { key, text }, Some(group)) => {
                    let value = Value { line: number, text };
                    group.values.insert(key, value);
                }
            }
        }
        Ok(KeyFile { groups })
    }

    pub fn group(&self, name: &str) -> Option<&Group<'a>> {
        self.groups.get(name)
    }
}

impl<'a> Group<'a> {
    fn at(line: usize) -> Self {
        Group {
            line,
            values: HashMap::new(),
        }
    }

    pub fn value(&self, key: &str) -> Option<Value<'a>> {
        self.values.get(key).copied()
    }
}

enum Line<'a> {
    /// Blank, or a comment.
    Ignored,
    Group(&'a str),
    Pair {
        key: &'a str,
        text: &'a str,
    },
}

impl<'a> Line<'a> {
    fn of(line: &'a str) -> Result<Self, ThemeFault> {
        let line = line.trim_ascii();
        if line.is_empty() || line.starts_with('#') {
            return Ok(Line::Ignored);
        }
        if let Some(name) = line.strip_prefix('[') {
            return Line::group(name);
        }
        match line.split_once('=') {
            Some((key, text)) if !key.is_empty() => Ok(Line::Pair {
                key: key.trim_ascii_end(),
                text: text.trim_ascii_start(),
            }),
            _ => Err(ThemeFault::UnknownLine),
        }
    }

    /// What follows on the bracket. A slash at the end of the name doesn't count.
    fn group(rest: &'a str) -> Result<Self, ThemeFault> {
        let (name, after) = rest.split_once(']').ok_or(ThemeFault::UnclosedGroup)?;
        let name = name.trim_end_matches('/');
        if name.is_empty() || !after.is_empty() {
            return Err(ThemeFault::UnknownLine);
        }
        Ok(Line::Group(name))
    }
}
