//! How bytes, numbers and refusals are shown.

use icon_cache::{Flags, Numbering, Position, Refusal};
use std::fmt::Write;

/// Bytes of a path or a name. Bytes that are not UTF-8 are escaped, and so are
/// the characters that `escape_debug` escapes, all controls among them; quotes
/// are not. No bytes at all are shown as two quotes.
pub fn bytes(bytes: &[u8]) -> String {
    if bytes.is_empty() {
        return "\"\"".to_owned();
    }
    let mut shown = String::new();
    for chunk in bytes.utf8_chunks() {
        shown.push_str(&text(chunk.valid()));
        for byte in chunk.invalid() {
            write!(shown, "\\x{byte:02X}").expect("a string takes all");
        }
    }
    shown
}

/// The quotes are taken back: none stand around the text.
fn text(text: &str) -> String {
    let escaped = text.escape_debug().to_string();
    escaped.replace("\\'", "'").replace("\\\"", "\"")
}

/// An offset in decimal and in hex.
pub fn offset(offset: usize) -> String {
    format!("{offset} (0x{offset:X})")
}

/// A refusal where names are read.
pub fn refusal(refusal: &Refusal) -> String {
    refusal_of("name", refusal)
}

/// A refusal where paths are read.
pub fn path_refusal(refusal: &Refusal) -> String {
    refusal_of("directory path", refusal)
}

/// Rule 17 itself doesn't tell names from paths.
fn refusal_of(string: &str, refusal: &Refusal) -> String {
    let why = match refusal.number {
        Refusal::CUT_OFF => {
            format!("this {string} runs off the end of the file: the file may be cut short")
        }
        _ => refusal.to_string(),
    };
    let place = offset(refusal.place);
    format!("rule {} at {place}: {why}", refusal.number)
}

/// A position as the option that begins there.
pub fn from(Position { bucket, count }: Position) -> String {
    format!("--from {bucket}:{count}")
}

/// A number of things: "1 icon", "3 icons".
pub fn count(number: usize, one: &str, more: &str) -> String {
    let things = if number == 1 { one } else { more };
    format!("{number} {things}")
}

const FLAGS: [(Flags, &str); 4] = [
    (Flags::BITMAP_SUFFIX, "bitmap suffix"),
    (Flags::XPM_SUFFIX, "XPM suffix"),
    (Flags::SVG_SUFFIX, "SVG suffix"),
    (Flags::ICON_FILE, "icon file"),
];

/// The flags of an image found: their sum as it stands in the cache, and their
/// names in a numbering.
pub fn flags(raw: u16, numbering: Numbering) -> String {
    let flags = Flags::from_raw(raw, numbering).expect("rule 11 has been judged");
    let set = FLAGS.iter().filter(|(flag, _)| flags.contains(*flag));
    let names: Vec<&str> = set.map(|(_, name)| *name).collect();
    match names.as_slice() {
        [] => format!("flags {raw} (none)"),
        names => format!("flags {raw} ({})", names.join(", ")),
    }
}

#[cfg(test)]
mod tests {
    use super::{bytes, flags};
    use icon_cache::Numbering::{Freedesktop, Gtk};

    #[test]
    fn plain_text_stays() {
        let text = "scalable/Größe 'x' \"y\" 牛";
        assert_eq!(bytes(text.as_bytes()), text);
    }

    #[test]
    fn nothing_is_shown_too() {
        assert_eq!(bytes(b""), "\"\"");
    }

    #[test]
    fn what_a_terminal_obeys_is_escaped() {
        assert_eq!(bytes(b"\x1b[2J\x07\n\t"), "\\u{1b}[2J\\u{7}\\n\\t");
        // C1 controls, and a mark that turns the direction of writing.
        assert_eq!(bytes("\u{9b}2J".as_bytes()), "\\u{9b}2J");
        assert_eq!(bytes("\u{202e}".as_bytes()), "\\u{202e}");
    }

    #[test]
    fn what_is_not_utf_8_is_escaped() {
        assert_eq!(bytes(b"a\x9b\xffb"), "a\\x9B\\xFFb");
        // So no two texts are shown alike.
        assert_eq!(bytes(b"\\xFF"), "\\\\xFF");
        assert_eq!(bytes(b"\\'"), "\\\\'");
    }

    #[test]
    fn flags_have_names() {
        assert_eq!(flags(5, Freedesktop), "flags 5 (bitmap suffix, SVG suffix)");
        assert_eq!(flags(5, Gtk), "flags 5 (bitmap suffix, XPM suffix)");
        assert_eq!(flags(10, Freedesktop), "flags 10 (XPM suffix, icon file)");
        assert_eq!(flags(10, Gtk), "flags 10 (SVG suffix, icon file)");
        for numbering in [Freedesktop, Gtk] {
            assert_eq!(flags(0, numbering), "flags 0 (none)");
        }
    }
}
