//! Files `index.theme`: well-formed ones with their words, and each way in which one
//! is malformed with its line.

use icon_cache::{pick, Refusal, Theme, ThemeFault, FARM_CACHE};

/// A cache with these directories and no icons.
fn with_directories(paths: &[&[u8]]) -> Vec<u8> {
    let count = paths.len() as u32;
    let mut fields = vec![0x0001_0000, 12, 20, 1, 0xFFFF_FFFF, count];
    let mut strings = Vec::new();
    for path in paths {
        fields.push(24 + 4 * count + strings.len() as u32);
        strings.extend_from_slice(path);
        strings.push(0);
    }
    let bytes = fields.iter().flat_map(|field| field.to_be_bytes());
    bytes.chain(strings).collect()
}

/// The words that the text gives one directory.
fn words_of(text: &str, path: &str) -> [u32; 6] {
    let theme = Theme::parse(text.as_bytes()).unwrap_or_else(|error| panic!("{error}: {text}"));
    let words = theme.words(&with_directories(&[path.as_bytes()])).unwrap();
    words.try_into().expect("six words for one directory")
}

/// The words of directory 16, whose group has these lines.
fn words_with(lines: &str) -> [u32; 6] {
    words_of(&theme_with(lines), "16")
}

/// A theme of directory 16; its group begins on line 3, and these lines on line 4.
fn theme_with(lines: &str) -> String {
    format!("[Icon Theme]\nDirectories=16\n[16]\n{lines}")
}

fn demand_refused(bytes: &[u8], line: usize, fault: ThemeFault) {
    let shown = String::from_utf8_lossy(bytes);
    let error = Theme::parse(bytes).expect_err(&shown);
    assert_eq!((error.line, error.fault), (line, fault), "{shown}");
}

const FITS_NOTHING: [u32; 6] = [1, 0, 0, 1, 0, 0];

// Well-formed files.

#[test]
fn all_keys() {
    let text = "\
# A theme.
[Icon Theme]
Name=Farm
Name[de]=Hof
Directories=16,64
ScaledDirectories=16@2
Example=cow

[16]
Size=16
Context=Animals
Type=Fixed

[64]
Size=64
Scale=1
MinSize=32
MaxSize=256
Type=Scalable

[16@2]
Size=16
Scale=2
Type=Threshold
Threshold=3
";
    let theme = Theme::parse(text.as_bytes()).unwrap();
    let cache = with_directories(&[b"16@2", b"64", b"16"]);
    let words = theme.words(&cache).unwrap();
    let expected = [
        [2, 16, 2, 16, 16, 3],
        [1, 64, 1, 32, 256, 2],
        [0, 16, 1, 16, 16, 2],
    ];
    assert_eq!(words, expected.as_flattened());
}

#[test]
fn defaults() {
    assert_eq!(words_with("Size=48"), [2, 48, 1, 48, 48, 2]);
    for (lines, words) in [
        ("Type=Fixed", [0, 48, 1, 48, 48, 2]),
        ("Type=Scalable", [1, 48, 1, 48, 48, 2]),
        ("Type=Threshold", [2, 48, 1, 48, 48, 2]),
        ("Scale=3", [2, 48, 3, 48, 48, 2]),
        ("MinSize=1", [2, 48, 1, 1, 48, 2]),
        ("MaxSize=99", [2, 48, 1, 48, 99, 2]),
        ("Threshold=0", [2, 48, 1, 48, 48, 0]),
    ] {
        assert_eq!(words_with(&format!("{lines}\nSize=48\n")), words);
        assert_eq!(words_with(&format!("Size=48\n{lines}\n")), words);
    }
}

#[test]
fn numbers() {
    for (value, number) in [
        ("0", 0),
        ("007", 7),
        ("4294967295", u32::MAX),
        ("00000000004294967295", u32::MAX),
    ] {
        let lines = format!("Size={value}\nScale={value}\nThreshold={value}");
        let words = [2, number, number, number, number, number];
        assert_eq!(words_with(&lines), words);
    }
}

/// As in GTK. Themes write fixed and scalable in small letters.
#[test]
fn any_other_type_is_threshold() {
    for value in ["fixed", "scalable", "Fixe", "", "Fixed,Scalable"] {
        let words = words_with(&format!("Size=48\nType={value}"));
        assert_eq!(words, [2, 48, 1, 48, 48, 2], "{value}");
    }
}

#[test]
fn white_space_does_not_count() {
    let lines = [
        " \t[Icon Theme] ",
        "",
        " \t# x",
        "Directories \t= 8 ,\t16 , ",
        "[16]\t",
        "  Size =\t48 ",
    ];
    for end in ["\n", "\r\n"] {
        let text = lines.map(|line| format!("{line}{end}")).concat();
        assert_eq!(words_of(&text, "16"), [2, 48, 1, 48, 48, 2]);
    }
}

#[test]
fn other_keys_may_have_any_value() {
    let lines =
        "Size=48\nSize[de]=viel\nMinSize [de]=1\nsize=9\nContext=\nX-Y==1=2\n[X-16]\nSize=x";
    assert_eq!(words_with(lines), [2, 48, 1, 48, 48, 2]);
}

/// Only listed directories are judged, and a listed one needs no group.
#[test]
fn directories_that_are_not_described() {
    let text = "[Icon Theme]\nDirectories=16,32\n[16]\nSize=16\n[64]\nSize=x\nType=?\n[X-a]\n";
    assert_eq!(words_of(text, "16"), [2, 16, 1, 16, 16, 2]);
    for path in ["32", "64", "X-a", "Icon Theme", "16/apps", "1", "apps"] {
        assert_eq!(words_of(text, path), FITS_NOTHING, "{path}");
    }
    assert_eq!(Theme::FITS_NOTHING, FITS_NOTHING);
}

#[test]
fn what_is_not_described_fits_nothing() {
    let theme = Theme::parse(b"[Icon Theme]\nDirectories=\n").unwrap();
    let words = theme.words(FARM_CACHE).unwrap();
    assert_eq!(words, [FITS_NOTHING; 2].as_flattened());
    for size in [0, 1, 2, 48, u32::MAX] {
        for scale in [0, 1, 2, u32::MAX] {
            let picked = pick(FARM_CACHE, b"cow", size, scale, &words);
            assert_eq!(picked, Ok(None), "{size} at {scale}");
        }
    }
}

#[test]
fn empty_entries_are_skipped() {
    for list in ["16,", ",16", ",,16,,", " , 16", "8,,16", "16,16"] {
        let text = format!("[Icon Theme]\nDirectories={list}\n[16]\nSize=48\n");
        assert_eq!(words_of(&text, "16"), [2, 48, 1, 48, 48, 2], "{list}");
    }
}

#[test]
fn a_slash_at_the_end_does_not_count() {
    for (entry, group) in [("a/16/", "a/16"), ("a/16", "a/16/"), ("a/16/", "a/16/")] {
        let text = format!("[Icon Theme]\nDirectories={entry}\n[{group}]\nSize=48\n");
        assert_eq!(words_of(&text, "a/16"), [2, 48, 1, 48, 48, 2]);
    }
}

#[test]
fn scaled_directories_alone() {
    let text = "[Icon Theme]\nScaledDirectories=16\nDirectories=\n[16]\nSize=8\nScale=2\n";
    assert_eq!(words_of(text, "16"), [2, 8, 2, 8, 8, 2]);
}

/// As GLib's reader has it: the groups are one, and the last value counts. Of the
/// values before it none is judged.
#[test]
fn what_is_given_twice() {
    assert_eq!(words_with("Size=x\nSize=48"), [2, 48, 1, 48, 48, 2]);
    let lines = "Size=16\nScale=3\n[64]\nSize=64\n[16]\nSize=48\nType=Fixed";
    assert_eq!(words_with(lines), [0, 48, 3, 48, 48, 2]);
    let text = "[Icon Theme]\nDirectories=8\n[16]\nSize=16\n[Icon Theme]\nDirectories=16\n";
    assert_eq!(words_of(text, "16"), [2, 16, 1, 16, 16, 2]);
}

#[test]
fn a_name_beyond_ascii() {
    let text = "[Icon Theme]\nDirectories=Größe/牛\n[Größe/牛]\nSize=48\n";
    assert_eq!(words_of(text, "Größe/牛"), [2, 48, 1, 48, 48, 2]);
}

#[test]
fn a_backslash_stands_for_itself() {
    let text = "[Icon Theme]\nDirectories=a\\sb\n[a\\sb]\nSize=48\n";
    assert_eq!(words_of(text, "a\\sb"), [2, 48, 1, 48, 48, 2]);
    assert_eq!(words_of(text, "a b"), FITS_NOTHING);
}

// The words for a cache.

/// Of the farm cache with another number of four bytes at an offset.
fn words_for_farm(offset: usize, value: u32) -> Result<Vec<u32>, Refusal> {
    let mut cache = FARM_CACHE.to_vec();
    cache[offset..][..4].copy_from_slice(&value.to_be_bytes());
    let text = "[Icon Theme]\nDirectories=16,64\n[16]\nSize=16\n[64]\nSize=64\n";
    Theme::parse(text.as_bytes()).unwrap().words(&cache)
}

#[test]
fn a_refused_header() {
    for (offset, value, number, place) in [(0, 0x0001_0001, 3, 0), (8, 126, 4, 8), (12, 0, 5, 4)] {
        let refusal = words_for_farm(offset, value).unwrap_err();
        assert_eq!((refusal.number, refusal.place), (number, place));
    }
}

/// The other directory keeps its words. The path is empty, or it runs off the end.
#[test]
fn a_refused_path() {
    let described = [2, 64, 1, 64, 64, 2];
    for path in [125, 126] {
        let words = words_for_farm(100, path).unwrap();
        assert_eq!(words, [FITS_NOTHING, described].as_flattened());
    }

    let theme = Theme::parse(b"[Icon Theme]\nDirectories=..,64\n[..]\nSize=1\n[64]\nSize=64\n");
    let cache = with_directories(&[b"..", b"64", b"64/", b"\xff", b"64"]);
    let words = theme.unwrap().words(&cache).unwrap();
    let expected = [
        FITS_NOTHING,
        described,
        FITS_NOTHING,
        FITS_NOTHING,
        described,
    ];
    assert_eq!(words, expected.as_flattened());
}

#[test]
fn no_directories_in_the_cache() {
    let theme = Theme::parse(b"[Icon Theme]\nDirectories=16\n[16]\nSize=16\n").unwrap();
    assert_eq!(theme.words(&with_directories(&[])), Ok(vec![]));
}

// Malformed files.

#[test]
fn not_utf_8() {
    demand_refused(b"\xff", 1, ThemeFault::NotUtf8);
    demand_refused(b"[Icon Theme]\n\n# \xc3(\n", 3, ThemeFault::NotUtf8);
    demand_refused(b"[Icon Theme]\r\nName=\xe9\r\n", 2, ThemeFault::NotUtf8);
}

#[test]
fn lines_of_no_kind() {
    for line in [
        "Size", "=48", " = 48", "; 48", "[]", "[/]", "[//]", "[16]x", "[16] # x", "[16]]",
    ] {
        let text = theme_with(&format!("Size=48\n{line}\n"));
        demand_refused(text.as_bytes(), 5, ThemeFault::UnknownLine);
    }
    // Of groups that are not listed, too, and with a mark of the byte order.
    demand_refused(b"[Icon Theme]\n[X-a]\nb\n", 3, ThemeFault::UnknownLine);
    demand_refused(
        "\u{feff}[Icon Theme]\n".as_bytes(),
        1,
        ThemeFault::UnknownLine,
    );
}

#[test]
fn a_group_without_its_bracket() {
    for line in ["[", "[16", "[16=48", "[16 # x"] {
        let text = theme_with(&format!("Size=48\n\n{line}\nSize=48\n"));
        demand_refused(text.as_bytes(), 6, ThemeFault::UnclosedGroup);
    }
}

#[test]
fn a_key_before_the_first_group() {
    demand_refused(
        b"# x\nName=x\n[Icon Theme]\n",
        2,
        ThemeFault::KeyBeforeGroup,
    );
}

#[test]
fn another_first_group() {
    for line in [
        "[16]",
        "[icon theme]",
        "[Icon Theme ]",
        "[Desktop Entry]",
        "[X-a]",
    ] {
        let text = format!("\n{line}\n[Icon Theme]\nDirectories=\n");
        demand_refused(text.as_bytes(), 2, ThemeFault::OtherFirstGroup);
    }
    // There is none.
    for text in ["", "\n\n", "# x"] {
        demand_refused(text.as_bytes(), 1, ThemeFault::OtherFirstGroup);
    }
}

/// A theme of nothing but cursors is such a file.
#[test]
fn no_list_of_directories() {
    let text = "# x\n[Icon Theme]\nInherits=hicolor\nDirectories[de]=16\n[16]\nDirectories=16\n";
    demand_refused(text.as_bytes(), 2, ThemeFault::NoDirectories);
    demand_refused(
        b"[Icon Theme]\nScaledDirectories=16",
        1,
        ThemeFault::NoDirectories,
    );
}

#[test]
fn a_directory_without_a_size() {
    let text = theme_with("MinSize=16\nMaxSize=16\nSize[de]=16\n[16]\nScale=1\n");
    demand_refused(text.as_bytes(), 3, ThemeFault::NoSize);
    let text = "[Icon Theme]\nDirectories=\nScaledDirectories=a\n\n[a/]\n";
    demand_refused(text.as_bytes(), 5, ThemeFault::NoSize);
}

#[test]
fn values_that_are_no_numbers() {
    let values = [
        "",
        "x",
        "12px",
        "+48",
        "-1",
        "4.8",
        "0x30",
        "4 8",
        "48;",
        "٤٨",
        "4294967296",
    ];
    for key in ["Size", "Scale", "MinSize", "MaxSize", "Threshold"] {
        for value in values {
            let text = theme_with(&format!("Size=48\nType=Fixed\n{key}={value}\n"));
            demand_refused(text.as_bytes(), 6, ThemeFault::BadNumber);
        }
    }
}

/// A fault of a line comes before what is missing, and each has its sentence.
#[test]
fn sentences() {
    for (text, sentence) in [
        (
            "[Icon Theme]\nDirectories=16\n[16]\nSize=x\n?",
            "line 5: this line is no group, no comment and no key with a value",
        ),
        (
            "[Icon Theme]\nDirectories=16\n[16]\nSize=x\n[",
            "line 5: the name of this group has no closing bracket",
        ),
        ("a=b", "line 1: this key stands before the first group"),
        ("", "line 1: there is no group [Icon Theme] at the front"),
        (
            "\n[a]",
            "line 2: there is no group [Icon Theme] at the front",
        ),
        ("\n[Icon Theme]\n", "line 2: this group has no Directories"),
        (
            "[Icon Theme]\nDirectories=16\n[16]\n",
            "line 3: the group of this directory has no Size",
        ),
        (
            "[Icon Theme]\nDirectories=16\n[16]\nSize=x\n",
            "line 4: this value is not a number from 0 to 4294967295",
        ),
    ] {
        let error = Theme::parse(text.as_bytes()).unwrap_err();
        assert_eq!(error.to_string(), sentence);
    }
    let error = Theme::parse(b"\n\xff").unwrap_err();
    assert_eq!(error.to_string(), "line 2: this line is not UTF-8");
}
