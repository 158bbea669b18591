//! The flags of an image in two numberings: all flags there are, compared with
//! the names that the papers give them, and real caches by GTK's numbering.

use icon_cache::raw::{flags_in, flags_out, Renumbered};
use icon_cache::{directory, lookup, records, Flags, Image, Numbering, Refusal};

/// The flags from the lowest bit up, as document 01 and request 5 name them.
const DOCUMENT_01: [&str; 4] = ["bitmap", "XPM", "SVG", "icon file"];
const REQUEST_5: [&str; 4] = ["XPM", "SVG", "bitmap", "icon file"];

/// Known numberings and others, some equal to a known one in their low bits.
const NUMBERINGS: [u32; 9] = [0, 1, 2, 3, 255, 256, 65_537, 0x8000_0001, 0xFFFF_FFFF];

fn names_of(numbering: u32) -> Option<[&'static str; 4]> {
    match numbering {
        0 => Some(DOCUMENT_01),
        1 => Some(REQUEST_5),
        _ => None,
    }
}

/// The flags with the same names, or the refusal.
fn renumbered(
    flags: u16,
    from: Option<[&'static str; 4]>,
    to: Option<[&'static str; 4]>,
) -> Renumbered {
    let (Some(from), Some(to), 0..=15) = (from, to, flags) else {
        return Renumbered {
            number: 27,
            flags: 0,
        };
    };
    let set = (0..4).filter(|bit| flags >> bit & 1 == 1);
    let names: Vec<&str> = set.map(|bit| from[bit]).collect();
    let value = |bit: usize| {
        if names.contains(&to[bit]) {
            1 << bit
        } else {
            0
        }
    };
    Renumbered {
        number: 0,
        flags: (0..4).map(value).sum(),
    }
}

#[test]
fn all_flags_in_some_numberings() {
    for numbering in NUMBERINGS {
        let (ours, theirs) = (names_of(0), names_of(numbering));
        for flags in 0..=u16::MAX {
            let answers = (flags_in(flags, numbering), flags_out(flags, numbering));
            let expected = (
                renumbered(flags, theirs, ours),
                renumbered(flags, ours, theirs),
            );
            assert_eq!(answers, expected, "flags {flags}, numbering {numbering}");
        }
    }
}

#[test]
fn each_flag_of_request_5() {
    for (raw, flags) in [(1, 2), (2, 4), (4, 1), (8, 8), (3, 6), (15, 15), (0, 0)] {
        assert_eq!(flags_in(raw, 1), Renumbered { number: 0, flags });
        let raw = Renumbered {
            number: 0,
            flags: raw,
        };
        assert_eq!(flags_out(flags, 1), raw);
    }
}

#[test]
fn flags_as_values() {
    for numbering in [Numbering::Freedesktop, Numbering::Gtk] {
        for raw in 0..=15 {
            let flags = Flags::from_raw(raw, numbering).unwrap();
            assert_eq!(flags.to_raw(numbering), raw);
        }
        for raw in [16, 17, 255, 65_535] {
            let refusal = Refusal {
                number: Refusal::BAD_FLAGS,
                place: 0,
                opened: 0,
            };
            assert_eq!(Flags::from_raw(raw, numbering), Err(refusal));
        }
        assert_eq!(Flags::default().to_raw(numbering), 0);
    }
    assert_eq!(Numbering::default(), Numbering::Freedesktop);
}

/// Each flag by its value in each numbering.
#[test]
fn names_of_the_flags() {
    for (flag, freedesktop, gtk) in [
        (Flags::BITMAP_SUFFIX, 1, 4),
        (Flags::XPM_SUFFIX, 2, 1),
        (Flags::SVG_SUFFIX, 4, 2),
        (Flags::ICON_FILE, 8, 8),
    ] {
        assert_eq!(flag.to_raw(Numbering::Freedesktop), freedesktop);
        assert_eq!(flag.to_raw(Numbering::Gtk), gtk);
        assert!((flag | Flags::SVG_SUFFIX).contains(flag));
        assert_eq!(Flags::SVG_SUFFIX.contains(flag), flag == Flags::SVG_SUFFIX);
        assert!(flag.contains(Flags::default()));
    }
}

fn by_gtk(image: &Image) -> Flags {
    Flags::from_raw(image.flags, Numbering::Gtk).unwrap()
}

/// A cache that gtk-update-icon-cache 3.24.38 made of bitmap.png, drawn.xpm,
/// vector.svg, described.png with described.icon, and twice.png with twice.xpm.
#[test]
fn suffixes_of_known_files() {
    let cache = include_bytes!("data/suffixes.cache");
    for (name, flags) in [
        ("bitmap", Flags::BITMAP_SUFFIX),
        ("drawn", Flags::XPM_SUFFIX),
        ("vector", Flags::SVG_SUFFIX),
        ("described", Flags::BITMAP_SUFFIX | Flags::ICON_FILE),
        ("twice", Flags::BITMAP_SUFFIX | Flags::XPM_SUFFIX),
    ] {
        let images = lookup(cache, name.as_bytes()).unwrap().images;
        let found: Vec<Flags> = images.iter().map(by_gtk).collect();
        assert_eq!(found, [flags], "{name}");
    }
}

/// In the caches of real themes the images of scalable directories are SVG files,
/// and all others are bitmaps.
#[test]
fn suffixes_by_directory() {
    let hicolor = svg_files_and_bitmaps(include_bytes!("data/hicolor.cache"));
    assert_eq!(hicolor, (1, 5));
    let tango = svg_files_and_bitmaps(include_bytes!("data/Tango.cache"));
    assert_eq!(tango, (846, 3_398));
}

/// How many images of scalable directories there are, all of them SVG files, and
/// how many others, all of them bitmaps alone.
fn svg_files_and_bitmaps(cache: &[u8]) -> (usize, usize) {
    let (mut svg_files, mut bitmaps) = (0, 0);
    for record in records(cache) {
        let images = lookup(cache, record.unwrap().name).unwrap().images;
        for image in &images {
            let path = directory(cache, image.directory.into()).unwrap();
            if path.starts_with(b"scalable/") {
                assert!(by_gtk(image).contains(Flags::SVG_SUFFIX));
                svg_files += 1;
            } else {
                assert_eq!(by_gtk(image), Flags::BITMAP_SUFFIX);
                bitmaps += 1;
            }
        }
    }
    (svg_files, bitmaps)
}
