use std::error::Error;
use std::fmt;

/// Why an `index.theme` was refused. It is displayed as one sentence with the line.
///
/// ```
/// use icon_cache::Theme;
///
/// let error = Theme::parse(b"[Icon Theme]\nDirectories").unwrap_err();
/// let sentence = "line 2: this line is no group, no comment and no key with a value";
/// assert_eq!(error.to_string(), sentence);
/// ```
#[derive(Clone, Copy, Debug, PartialEq, Eq)]
pub struct ThemeError {
    /// The number of the line, from 1 on.
    pub line: usize,
    /// What is wrong there.
    pub fault: ThemeFault,
}

/// What can be wrong with an `index.theme`.
#[derive(Clone, Copy, Debug, PartialEq, Eq, Hash)]
#[non_exhaustive]
pub enum ThemeFault {
    /// The line is not UTF-8.
    NotUtf8,
    /// The line is not blank, and no group, no comment and no key with a value.
    UnknownLine,
    /// The name of a group has no closing bracket.
    UnclosedGroup,
    /// A key stands before the first group.
    KeyBeforeGroup,
    /// The first group is not `[Icon Theme]`, or there is none.
    OtherFirstGroup,
    /// The group `[Icon Theme]`, which begins on this line, has no `Directories`.
    NoDirectories,
    /// The group of a listed directory, which begins on this line, has no `Size`.
    NoSize,
    /// A value is not a decimal number from 0 to 4294967295.
    BadNumber,
}

impl ThemeFault {
    pub(crate) fn at(self, line: usize) -> ThemeError {
        ThemeError { line, fault: self }
    }
}

impl fmt::Display for ThemeFault {
    fn fmt(&self, f: &mut fmt::Formatter<'_>) -> fmt::Result {
        f.write_str(match self {
            ThemeFault::NotUtf8 => "this line is not UTF-8",
            ThemeFault::UnknownLine => "this line is no group, no comment and no key with a value",
            ThemeFault::UnclosedGroup => "the name of this group has no closing bracket",
            ThemeFault::KeyBeforeGroup => "this key stands before the first group",
            ThemeFault::OtherFirstGroup => "there is no group [Icon Theme] at the front",
            ThemeFault::NoDirectories => "this group has no Directories",
            ThemeFault::NoSize => "the group of this directory has no Size",
            ThemeFault::BadNumber => "this value is not a number from 0 to 4294967295",
        })
    }
}

impl fmt::Display for ThemeError {
    fn fmt(&self, f: &mut fmt::Formatter<'_>) -> fmt::Result {
        write!(f, "line {}: {}", self.line, self.fault)
    }
}

impl Error for ThemeError {}
