//! Runs the tool's command `pick` on folders of themes.

// It is written for all commands.
#[allow(dead_code)]
mod running;
mod terminal;

use icon_cache::FARM_CACHE;
use running::{run, tool, Folder, Ran};
use std::ffi::OsStr;
use std::fs::{self, File};
use std::io::Read;
use std::os::unix::ffi::OsStrExt;

const INDEX: &str = "\
[Icon Theme]
Name=Farm
Directories=16,64
ScaledDirectories=64@2

[16]
Size=16
Type=Fixed

[64]
Size=64
MinSize=32
MaxSize=256
Type=Scalable

[64@2]
Size=64
Scale=2
";

/// A theme of these files.
fn theme(test: &str, cache: &[u8], index: &[u8]) -> Folder {
    let folder = Folder::new(test);
    folder.file("icon-theme.cache", cache);
    folder.file("index.theme", index);
    folder
}

fn farm(test: &str) -> Folder {
    theme(test, FARM_CACHE, INDEX.as_bytes())
}

fn pick(theme: &Folder, arguments: &[&str]) -> Ran {
    let command = [OsStr::new("pick"), theme.0.as_os_str()];
    let arguments = arguments.iter().map(OsStr::new);
    run(&command.into_iter().chain(arguments).collect::<Vec<_>>())
}

/// The farm cache with another number of four bytes at an offset.
fn farm_with(offset: usize, value: u32) -> Vec<u8> {
    let mut cache = FARM_CACHE.to_vec();
    cache[offset..][..4].copy_from_slice(&value.to_be_bytes());
    cache
}

const COW_16: &str = "cow: picked: 16, flags 1 (bitmap suffix), image at 80 (0x50)\n";
const COW_64: &str = "cow: picked: 64, flags 4 (SVG suffix), image at 88 (0x58)\n";

fn none_fits(name: &str, size: u32, scale: u32) -> String {
    format!("{name}: none fits: no image for size {size} at scale {scale}\n")
}

#[test]
fn pick_by_size() {
    let farm = farm("pick_by_size");
    pick(&farm, &["cow", "--size", "16"]).expect(0, COW_16);
    for size in ["32", "48", "256"] {
        pick(&farm, &["cow", "--size", size]).expect(0, COW_64);
        pick(&farm, &["--size", size, "--scale", "1", "cow"]).expect(0, COW_64);
    }
    for size in [0, 15, 17, 31, 257, u32::MAX] {
        let expected = none_fits("cow", size, 1);
        pick(&farm, &["cow", &format!("--size={size}")]).expect(1, &expected);
    }
}

/// No directory of the farm cache has another scale.
#[test]
fn pick_by_scale() {
    let farm = farm("pick_by_scale");
    for scale in [0, 2, u32::MAX] {
        let expected = none_fits("cow", 48, scale);
        pick(&farm, &["cow", "--size=48", &format!("--scale={scale}")]).expect(1, &expected);
    }
    let index = INDEX.replace("[64]\n", "[64]\nScale=2\n");
    let scaled = theme("pick_by_scale_2", FARM_CACHE, index.as_bytes());
    pick(&scaled, &["cow", "--size=48", "--scale=2"]).expect(0, COW_64);
    pick(&scaled, &["cow", "--size=48"]).expect(1, &none_fits("cow", 48, 1));
}

/// The sum stays as it stands in the cache.
#[test]
fn pick_with_a_numbering() {
    let farm = farm("pick_with_a_numbering");
    let by_gtk = "cow: picked: 64, flags 4 (bitmap suffix), image at 88 (0x58)\n";
    pick(&farm, &["cow", "--size=48", "--numbering", "gtk"]).expect(0, by_gtk);
    pick(&farm, &["cow", "--size=48", "--numbering=freedesktop"]).expect(0, COW_64);
    let error = "--numbering takes freedesktop or gtk";
    pick(&farm, &["cow", "--size=48", "--numbering=GTK"]).expect_error(error);
}

#[test]
fn the_last_of_an_option_counts() {
    let farm = farm("the_last_of_a_size_counts");
    let arguments = ["--size=16", "--scale=2", "cow", "--size=48", "--scale=1"];
    pick(&farm, &arguments).expect(0, COW_64);
}

#[test]
fn pick_several_names() {
    let farm = farm("pick_several_names");
    let expected = "\
cow: picked: 64, flags 4 (SVG suffix), image at 88 (0x58)
oat: none fits: no image for size 48 at scale 1
pig: absent: there is no icon of this name
\"\": refused: rule 13 at 0 (0x0): the name asked for is empty, too long or holds a zero byte
";
    pick(&farm, &["cow", "oat", "pig", "", "--size", "48"]).expect(1, expected);
    pick(&farm, &["cow", "cow", "--size=16"]).expect(0, &COW_16.repeat(2));
}

#[test]
fn names_that_begin_with_a_dash() {
    let farm = farm("picked_names_that_begin_with_a_dash");
    pick(&farm, &["--size=48", "-cow"]).expect_error("there is no option -cow");
    let expected = "-cow: absent: there is no icon of this name\n";
    pick(&farm, &["--size=48", "--", "-cow"]).expect(1, expected);
}

#[test]
fn pick_from_a_damaged_cache() {
    let endless = theme(
        "pick_from_an_endless_chain",
        &farm_with(40, 28),
        INDEX.as_bytes(),
    );
    let expected = "\
oat: picked: 16, flags 1 (bitmap suffix), image at 68 (0x44)
ewe: refused: rule 12 at 16 (0x10): the chain of this bucket never ends
";
    pick(&endless, &["oat", "ewe", "--size=16"]).expect(1, expected);

    let empty = theme("pick_from_an_empty_cache", b"", INDEX.as_bytes());
    let expected = "cow: refused: rule 1 at 0 (0x0): the cache is shorter than its header\n";
    pick(&empty, &["cow", "--size=16"]).expect(1, expected);
}

/// The name of cow runs off the end.
#[test]
fn pick_from_a_cache_that_was_cut_short() {
    let test = "pick_from_a_cache_that_was_cut_short";
    let theme = theme(test, &FARM_CACHE[..125], INDEX.as_bytes());
    let expected = "\
oat: picked: 16, flags 1 (bitmap suffix), image at 68 (0x44)
cow: refused: rule 17 at 56 (0x38): this name runs off the end of the file: the file may be cut short
";
    pick(&theme, &["oat", "cow", "--size=16"]).expect(1, expected);
}

/// It is not described, so its image is not picked. The path is empty, or it runs off
/// the end.
#[test]
fn a_directory_with_a_refused_path() {
    for path in [0x71, 126] {
        let cache = farm_with(104, path);
        let theme = theme("a_directory_with_a_refused_path", &cache, INDEX.as_bytes());
        pick(&theme, &["cow", "--size=48"]).expect(1, &none_fits("cow", 48, 1));
        pick(&theme, &["cow", "--size=16"]).expect(0, COW_16);
    }
}

#[test]
fn directories_that_are_not_described() {
    let index = b"[Icon Theme]\nDirectories=16,64\n[16]\nSize=16\n";
    let theme = theme("directories_that_are_not_described", FARM_CACHE, index);
    pick(&theme, &["cow", "--size=64"]).expect(1, &none_fits("cow", 64, 1));
    pick(&theme, &["cow", "--size=18"]).expect(0, COW_16);
}

#[test]
fn a_malformed_index() {
    for (index, error) in [
        (
            INDEX.replace("Size=16", "Size=16px"),
            "line 7: this value is not a number from 0 to 4294967295",
        ),
        (
            INDEX.replace("Directories=16,64\nScaledDirectories=64@2\n", ""),
            "line 1: this group has no Directories",
        ),
        (
            INDEX.replace("[64]", "[64"),
            "line 10: the name of this group has no closing bracket",
        ),
    ] {
        let theme = theme("a_malformed_index", FARM_CACHE, index.as_bytes());
        let path = theme.path("index.theme");
        let expected = format!("{}: refused: {error}\n", path.display());
        pick(&theme, &["cow", "oat", "--size=16"]).expect(1, &expected);
    }
}

#[test]
fn an_index_at_the_limit_and_above() {
    let theme = farm("an_index_at_the_limit_and_above");
    let largest = 1_048_576;
    let mut index = INDEX.as_bytes().to_vec();
    index.resize(largest, b'\n');
    theme.file("index.theme", &index);
    pick(&theme, &["cow", "--size=16"]).expect(0, COW_16);

    let path = theme.path("index.theme");
    let refused = "refused: the file is longer than 1,048,576 bytes";
    let expected = format!("{}: {refused}\n", path.display());
    index.push(b'\n');
    theme.file("index.theme", &index);
    pick(&theme, &["cow", "--size=16"]).expect(1, &expected);
    // A terabyte, most of it a hole. Not every file system takes it.
    let file = File::options().write(true).open(&path).unwrap();
    if file.set_len(1 << 40).is_ok() {
        pick(&theme, &["cow", "--size=16"]).expect(1, &expected);
    }
}

#[test]
fn files_that_are_missing() {
    let theme = Folder::new("files_that_are_missing");
    let missing = "icon-theme.cache: No such file or directory";
    pick(&theme, &["cow", "--size=16"]).expect_error(missing);
    theme.file("icon-theme.cache", FARM_CACHE);
    let missing = "index.theme: No such file or directory";
    pick(&theme, &["cow", "--size=16"]).expect_error(missing);

    // A file is no theme, and a dash is no standard input.
    let file = theme.path("icon-theme.cache");
    let arguments = ["pick", file.to_str().unwrap(), "cow", "--size=16"];
    run(&arguments).expect_error("Not a directory");
    let missing = "-/icon-theme.cache: No such file or directory";
    run(&["pick", "-", "cow", "--size=16"]).expect_error(missing);
}

/// Nothing that a terminal obeys is printed, of a name, a path or the theme.
#[test]
fn hostile_bytes() {
    let mut cache = farm_with(104, 126);
    cache.extend(b"\x1b[2J\0");
    let index = INDEX
        .replace("64", "\x1b[2J")
        .replace("Size=\x1b[2J", "Size=64");
    let folder = Folder::new("hostile_theme");
    let theme = folder.path(OsStr::from_bytes(b"\x1b[31m\xff"));
    fs::create_dir(&theme).unwrap();
    let arguments = [
        OsStr::new("pick"),
        theme.as_os_str(),
        OsStr::new("cow"),
        OsStr::from_bytes(b"\x1b\xfd"),
        OsStr::new("--size=48"),
    ];
    run(&arguments).expect_error("\\u{1b}[31m\\xFF/icon-theme.cache: No such file");

    fs::write(theme.join("icon-theme.cache"), &cache).unwrap();
    fs::write(theme.join("index.theme"), index).unwrap();
    let expected = "\
cow: picked: \\u{1b}[2J, flags 4 (SVG suffix), image at 88 (0x58)
\\u{1b}\\xFD: absent: there is no icon of this name
";
    run(&arguments).expect(1, expected);
}

#[test]
#[cfg(target_os = "linux")]
fn colours_on_a_terminal() {
    let farm = farm("colours_of_pick");
    let (mut screen, line) = terminal::open();
    let mut tool = tool();
    tool.env("TERM", "xterm").arg("pick").arg(&farm.0);
    tool.args(["--size=48", "cow", "oat", "pig"]).stdout(line);
    assert_eq!(tool.status().unwrap().code(), Some(1));
    // The command holds the last open end of the line.
    drop(tool);
    let mut shown = Vec::new();
    // The end of a terminal is an error, after all that was written.
    let _ = screen.read_to_end(&mut shown);
    let shown = String::from_utf8(shown).unwrap().replace("\r\n", "\n");
    let expected = "\
cow: \x1b[32mpicked\x1b[0m: 64, flags 4 (SVG suffix), image at 88 (0x58)
oat: \x1b[33mnone fits\x1b[0m: no image for size 48 at scale 1
pig: \x1b[33mabsent\x1b[0m: there is no icon of this name
";
    assert_eq!(shown, expected);
}
