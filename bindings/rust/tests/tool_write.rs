//! Runs the tool's commands `write` and `catalogue`.

// It is written for all commands.
#[allow(dead_code)]
mod running;
mod terminal;

use icon_cache::{check, lookup, FARM_CACHE};
use running::{run, run_with_input, tool, Folder, Ran};
use std::ffi::OsStr;
use std::fs::{self, File};
use std::io::Read;
use std::os::unix::ffi::OsStrExt;
use std::path::Path;

/// The farm's catalogue. Its fields begin at 0, 2, 4, 6, 8, 10 (the count of icons), 12,
/// 13, 16, 18 (the image of hen), 26 and so on.
const FARM: &[u8; 62] = b"\
    \0\x02\0\x0216\0\x0264\0\x03\
    \x03hen\0\x01\0\0\0\x01\0\0\0\0\
    \x03oat\0\x01\0\0\0\x01\0\0\0\0\
    \x03cow\0\x02\0\0\0\x01\0\0\0\0\0\x01\0\x04\0\0\0\0";

const SHOWN: &str = "\
3 icons, 2 directories
directory 0: 16
directory 1: 64
hen: 1 image
  16: flags 1 (bitmap suffix), data offset 0 (0x0)
oat: 1 image
  16: flags 1 (bitmap suffix), data offset 0 (0x0)
cow: 2 images
  16: flags 1 (bitmap suffix), data offset 0 (0x0)
  64: flags 4 (SVG suffix), data offset 0 (0x0)
";

/// Writes to the file of this path.
fn write(catalogue: &Path, file: &Path, options: &[&str]) -> Ran {
    let arguments = [OsStr::new("write"), catalogue.as_os_str(), OsStr::new("-o")];
    let options = options.iter().map(OsStr::new);
    let arguments = arguments.into_iter().chain([file.as_os_str()]);
    run(&arguments.chain(options).collect::<Vec<_>>())
}

fn names(folder: &Folder) -> Vec<String> {
    let entries = fs::read_dir(&folder.0).unwrap();
    let names = entries.map(|entry| entry.unwrap().file_name().into_string().unwrap());
    let mut names: Vec<String> = names.collect();
    names.sort();
    names
}

#[test]
fn write_the_farm() {
    let folder = Folder::new("write_the_farm");
    let catalogue = folder.file("farm", FARM);
    let file = folder.path("icon-theme.cache");
    let shown = file.display();
    for (options, chains, length) in [
        (vec![], "3 buckets, longest chain 2", 138),
        (vec!["--buckets", "3"], "3 buckets, longest chain 2", 138),
        (vec!["--buckets=1"], "1 bucket, longest chain 3", 130),
        (
            vec!["--buckets=9", "--buckets=4096"],
            "4096 buckets, longest chain 1",
            16_510,
        ),
    ] {
        let expected =
            format!("{shown}: written: 3 icons, 2 directories, {chains}, {length} bytes\n");
        write(&catalogue, &file, &options).expect(0, &expected);
        let cache = fs::read(&file).unwrap();
        assert_eq!(cache.len(), length);
        assert_eq!(check(&cache).unwrap().icons, 3);
        assert_eq!(lookup(&cache, b"cow").unwrap().images.len(), 2);
    }
    // Nothing else is left in the folder.
    assert_eq!(names(&folder), ["farm", "icon-theme.cache"]);
}

#[test]
fn write_from_standard_input() {
    let folder = Folder::new("write_from_standard_input");
    let file = folder.path("cache");
    let arguments = ["write", "-", "-o", file.to_str().unwrap()];
    let expected = format!(
        "{}: written: 3 icons, 2 directories, 3 buckets, longest chain 2, 138 bytes\n",
        file.display()
    );
    run_with_input(&arguments, FARM).expect(0, &expected);
    assert_eq!(fs::read(&file).unwrap().len(), 138);
}

/// A catalogue without directories of so many icons, without images.
fn with_icons(count: u16) -> Vec<u8> {
    let mut catalogue = vec![0, 0];
    catalogue.extend(count.to_be_bytes());
    for icon in 0..count {
        catalogue.push(5);
        catalogue.extend(format!("{icon:05}").as_bytes());
        catalogue.extend([0, 0]);
    }
    catalogue
}

/// The smallest prime that is not below the number of icons, at most 4,093.
#[test]
fn the_usual_number_of_buckets() {
    let folder = Folder::new("the_usual_number_of_buckets");
    let file = folder.path("cache");
    for (icons, buckets) in [
        (0, 2),
        (1, 2),
        (2, 2),
        (3, 3),
        (4, 5),
        (24, 29),
        (25, 29),
        (121, 127),
        (4_091, 4_091),
        (4_092, 4_093),
        (4_094, 4_093),
        (65_535, 4_093),
    ] {
        let catalogue = folder.file("catalogue", &with_icons(icons));
        let ran = write(&catalogue, &file, &[]);
        assert_eq!(ran.status, 0, "{}", ran.errors);
        assert!(
            ran.output.contains(&format!(", {buckets} buckets, ")),
            "{}",
            ran.output
        );
        let length = 20 + 4 * buckets + 22 * usize::from(icons);
        assert_eq!(fs::metadata(&file).unwrap().len(), length as u64);
    }
}

#[test]
fn show_a_catalogue() {
    let folder = Folder::new("show_a_catalogue");
    let catalogue = folder.file("farm", FARM);
    let farm = catalogue.to_str().unwrap();
    run(&["write", farm, "--text"]).expect(0, SHOWN);
    run(&["write", "--text", "--text", farm]).expect(0, SHOWN);
    run_with_input(&["write", "-", "--text"], FARM).expect(0, SHOWN);
    let by_gtk = SHOWN.replace("flags 1 (bitmap", "flags 1 (XPM");
    let by_gtk = by_gtk.replace("flags 4 (SVG", "flags 4 (bitmap");
    run(&["write", farm, "--text", "--numbering=gtk"]).expect(0, &by_gtk);
    run_with_input(&["write", "-", "--text"], &[0; 4]).expect(0, "0 icons, 0 directories\n");
    assert_eq!(names(&folder), ["farm"]);

    // An image in no directory, whose data offset has no meaning here.
    let catalogue = b"\0\0\0\x01\x01n\0\x01\xFF\xFF\0\0\xFF\xFF\xFF\xFF";
    let expected = "\
1 icon, 0 directories
n: 1 image
  no directory: flags 0 (none), data offset 4294967295 (0xFFFFFFFF)
";
    run_with_input(&["write", "-", "--text"], catalogue).expect(0, expected);
}

/// The farm's catalogue with another byte at a place.
fn farm_with(place: usize, byte: u8) -> Vec<u8> {
    let mut catalogue = FARM.to_vec();
    catalogue[place] = byte;
    catalogue
}

const BAD_PATH: &str =
    "holds a zero byte, or a piece of it, cut at its slashes, is empty, \".\" or \"..\"";

/// The file stays as it was, and nothing is left beside it.
#[test]
fn refused_catalogues() {
    let folder = Folder::new("refused_catalogues");
    let file = folder.file("cache", b"old");
    let bad_path = format!("rule 18 at 4 (0x4): the path of directory 0 {BAD_PATH}");
    for (bytes, why) in [
        (
            FARM[..1].to_vec(),
            "rule 18 at 0 (0x0): the count of directories is cut off",
        ),
        (
            FARM[..3].to_vec(),
            "rule 18 at 2 (0x2): the length of the path of directory 0 is cut off",
        ),
        (
            FARM[..5].to_vec(),
            "rule 18 at 4 (0x4): the path of directory 0 is cut off",
        ),
        (
            FARM[..10].to_vec(),
            "rule 18 at 10 (0xA): the count of icons is cut off",
        ),
        (
            FARM[..26].to_vec(),
            "rule 18 at 26 (0x1A): the length of the name of icon 1 is cut off",
        ),
        (
            FARM[..28].to_vec(),
            "rule 18 at 27 (0x1B): the name of icon 1 is cut off",
        ),
        (
            FARM[..31].to_vec(),
            "rule 18 at 30 (0x1E): the image count of icon 1 is cut off",
        ),
        (
            FARM[..61].to_vec(),
            "rule 18 at 54 (0x36): image 1 of icon 2 is cut off",
        ),
        (
            farm_with(3, 0),
            "rule 18 at 2 (0x2): the length of the path of directory 0 is not 1 to 1,023",
        ),
        (farm_with(4, b'/'), &bad_path),
        (
            farm_with(12, 0),
            "rule 18 at 12 (0xC): the length of the name of icon 0 is 0",
        ),
        (
            farm_with(13, 0),
            "rule 18 at 13 (0xD): the name of icon 0 holds a zero byte",
        ),
        (
            farm_with(44, 9),
            "rule 18 at 44 (0x2C): the image count of icon 2 is above 1,024",
        ),
        (
            farm_with(57, 16),
            "rule 18 at 54 (0x36): image 1 of icon 2 names no directory, or its flags are above 15",
        ),
        (
            [FARM.as_slice(), b"x"].concat(),
            "rule 18 at 62 (0x3E): what follows the last icon belongs to nothing",
        ),
    ] {
        demand_refused(&folder, &file, &bytes, why);
    }
    let mut twice = FARM.to_vec();
    twice[41..44].copy_from_slice(b"hen");
    let why = "rule 20 at 41 (0x29): the name of icon 2 was used before";
    demand_refused(&folder, &file, &twice, why);
    assert_eq!(names(&folder), ["cache", "catalogue"]);
}

fn demand_refused(folder: &Folder, file: &Path, bytes: &[u8], why: &str) {
    let catalogue = folder.file("catalogue", bytes);
    let expected = format!("{}: refused: {why}\n", catalogue.display());
    write(&catalogue, file, &[]).expect(1, &expected);
    run(&["write", catalogue.to_str().unwrap(), "--text"]).expect(1, &expected);
    assert_eq!(fs::read(file).unwrap(), b"old");
}

/// The buckets make the cache too large; a file above the limit is not read further.
#[test]
fn catalogues_that_are_too_large() {
    let folder = Folder::new("catalogues_that_are_too_large");
    let mut bytes = vec![0, 0, 0x08, 0x34];
    for icon in 0..2_041 {
        bytes.extend(format!("\x05{icon:05}\x04\0").as_bytes());
        bytes.extend([0xFF, 0xFF, 0, 0, 0, 0, 0, 0].repeat(1_024));
    }
    for icon in 2_041..2_100 {
        bytes.extend(format!("\x05{icon:05}\0\0").as_bytes());
    }
    let file = folder.path("cache");
    let catalogue = folder.file("catalogue", &bytes);
    let ran = write(&catalogue, &file, &["--buckets=1"]);
    assert_eq!(ran.status, 0, "{}", ran.output);
    let refused = format!(
        "{}: refused: rule 19 at 0 (0x0): there is too little room, or the cache would be longer than 16,777,216 bytes\n",
        catalogue.display()
    );
    write(&catalogue, &file, &["--buckets=4096"]).expect(1, &refused);

    let larger = File::options().write(true).open(&catalogue).unwrap();
    let refused = format!(
        "{}: refused: the file is longer than 16,777,216 bytes, and so would the cache be\n",
        catalogue.display()
    );
    larger.set_len(16_777_217).unwrap();
    write(&catalogue, &file, &[]).expect(1, &refused);
}

#[test]
fn misuse() {
    for (arguments, error) in [
        (vec!["write"], "-o FILE or --text is missing"),
        (vec!["write", "-o", "x"], "a file is missing"),
        (
            vec!["write", "a", "b", "-o", "x"],
            "there is more than one file",
        ),
        (vec!["write", "a"], "-o FILE or --text is missing"),
        (vec!["write", "a", "-o"], "-o takes a value"),
        (vec!["write", "a", "-o", ""], "-o takes the name of a file"),
        (vec!["write", "a", "-o", "-"], "-o takes the name of a file"),
        (
            vec!["write", "a", "-o", "x", "--text"],
            "-o and --text exclude one another",
        ),
        (
            vec!["write", "a", "--text=1"],
            "there is no option --text=1",
        ),
        (
            vec!["write", "a", "-o", "x", "--buckets", "0"],
            "--buckets takes a number from 1 to 4096",
        ),
        (
            vec!["write", "a", "-o", "x", "--buckets=4097"],
            "--buckets takes a number from 1 to 4096",
        ),
        (
            vec!["write", "a", "-o", "x", "--buckets=+3"],
            "--buckets takes a number from 1 to 4096",
        ),
        (vec!["check", "--text", "a"], "there is no option --text"),
    ] {
        run(&arguments).expect_error(error);
    }
    run(&["write", "a"]).expect_error("see `icon-cache write --help`");
}

#[test]
fn help() {
    let ran = run(&["write", "--help"]);
    assert!(ran
        .output
        .contains("Usage: icon-cache write CATALOGUE -o FILE"));
    assert!(ran.output.lines().all(|line| line.chars().count() <= 80));
    assert_eq!(ran.status, 0);
    let ran = run(&["--help"]);
    assert!(ran.output.contains("icon-cache write CATALOGUE -o FILE"));
}

#[test]
fn files_that_cant_be_read_or_written() {
    let folder = Folder::new("files_that_cant_be_read_or_written");
    let catalogue = folder.file("farm", FARM);
    let missing = folder.path("missing");
    write(&missing, &folder.path("cache"), &[]).expect_error("missing: No such file or directory");
    write(&folder.0, &folder.path("cache"), &[]).expect_error("Is a directory");
    write(&catalogue, &missing.join("cache"), &[]).expect_error("can't be written: No such file");
    write(&catalogue, &folder.0, &[]).expect_error("can't be written: Is a directory");
    write(&catalogue, Path::new("/"), &[])
        .expect_error("can't be written: it is no name of a file");
    assert_eq!(names(&folder), ["farm"]);
}

/// Whoever has the old file open still reads the old bytes.
#[test]
fn a_file_is_replaced_as_a_whole() {
    let folder = Folder::new("a_file_is_replaced_as_a_whole");
    let catalogue = folder.file("farm", FARM);
    let file = folder.file("cache", b"old");
    let mut old = File::open(&file).unwrap();
    assert_eq!(write(&catalogue, &file, &[]).status, 0);
    let mut bytes = Vec::new();
    old.read_to_end(&mut bytes).unwrap();
    assert_eq!(bytes, b"old");
    assert_eq!(fs::read(&file).unwrap().len(), 138);
    assert_eq!(names(&folder), ["cache", "farm"]);
}

/// The name of a file may have any bytes; what a terminal obeys is not printed.
#[test]
fn hostile_bytes() {
    let folder = Folder::new("written_hostile_bytes");
    let catalogue = folder.file(OsStr::from_bytes(b"\x1b[2J"), b"\0\0\0\x01\x03a\x1bb\0\0");
    let file = folder.path(OsStr::from_bytes(b"\x1b\xff=x"));
    let ran = write(&catalogue, &file, &["--buckets=2"]);
    let what = "1 icon, 0 directories, 2 buckets, longest chain 1, 48 bytes";
    assert!(
        ran.output
            .ends_with(&format!("/\\u{{1b}}\\xFF=x: written: {what}\n")),
        "{}",
        ran.output
    );
    assert_eq!(fs::read(&file).unwrap().len(), 48);
    let mut option = OsStr::new("-o=").to_owned();
    option.push(&file);
    fs::remove_file(&file).unwrap();
    run(&[OsStr::new("write"), catalogue.as_os_str(), &option]);
    assert_eq!(fs::read(&file).unwrap().len(), 48);
    let arguments = [
        OsStr::new("write"),
        catalogue.as_os_str(),
        OsStr::new("--text"),
    ];
    run(&arguments).expect(0, "1 icon, 0 directories\na\\u{1b}b: 0 images\n");
}

// The way back.

/// Lists to the file of this path.
fn catalogue(cache: &Path, out: &Path) -> Ran {
    let arguments = [OsStr::new("catalogue"), cache.as_os_str(), OsStr::new("-o")];
    let arguments = arguments.into_iter().chain([out.as_os_str()]);
    run(&arguments.collect::<Vec<_>>())
}

#[test]
fn list_the_farm() {
    let folder = Folder::new("list_the_farm");
    let cache = folder.file("icon-theme.cache", FARM_CACHE);
    let out = folder.file("out", b"old");
    let expected = format!(
        "{}: written: 3 icons, 2 directories, 62 bytes\n",
        out.display()
    );
    for file in [&cache, &folder.0] {
        catalogue(file, &out).expect(0, &expected);
        assert_eq!(fs::read(&out).unwrap(), FARM);
    }
    let arguments = ["catalogue", "-", "-o", out.to_str().unwrap()];
    run_with_input(&arguments, FARM_CACHE).expect(0, &expected);
    assert_eq!(names(&folder), ["icon-theme.cache", "out"]);

    run(&["catalogue", cache.to_str().unwrap(), "--text"]).expect(0, SHOWN);
    run_with_input(&["catalogue", "--text", "-"], FARM_CACHE).expect(0, SHOWN);
}

/// Written with another number of buckets, it is listed as before.
#[test]
fn there_and_back() {
    let folder = Folder::new("there_and_back");
    let tango = Path::new(env!("CARGO_MANIFEST_DIR")).join("tests/data/Tango.cache");
    let [first, second, cache] = ["first", "second", "cache"].map(|name| folder.path(name));
    assert_eq!(catalogue(&tango, &first).status, 0);
    let ran = write(&first, &cache, &[]);
    assert!(
        ran.output
            .contains("849 icons, 48 directories, 853 buckets, "),
        "{}",
        ran.output
    );
    assert_eq!(catalogue(&cache, &second).status, 0);
    assert!(fs::read(first).unwrap() == fs::read(second).unwrap());
}

/// The farm cache with another number of four bytes at an offset.
fn cache_with(offset: usize, value: u32) -> Vec<u8> {
    let mut cache = FARM_CACHE.to_vec();
    cache[offset..][..4].copy_from_slice(&value.to_be_bytes());
    cache
}

/// The file stays as it was, and nothing is left beside it.
#[test]
fn refused_caches() {
    let folder = Folder::new("refused_caches");
    let out = folder.file("out", b"old");
    for (bytes, why) in [
        (vec![], "rule 1 at 0 (0x0): the cache is shorter than its header"),
        (cache_with(40, 28), "rule 12 at 16 (0x10): the chain of this bucket never ends"),
        (
            FARM_CACHE[..125].to_vec(),
            "rule 17 at 56 (0x38): this name runs off the end of the file: the file may be cut short",
        ),
        (
            FARM_CACHE[..109].to_vec(),
            "rule 17 at 100 (0x64): this directory path runs off the end of the file: the file may be cut short",
        ),
        (cache_with(44, 0x72), "rule 20 at 44 (0x2C): this name was used before"),
    ] {
        let cache = folder.file("cache", &bytes);
        let expected = format!("{}: refused: {why}\n", cache.display());
        catalogue(&cache, &out).expect(1, &expected);
        run(&["catalogue", cache.to_str().unwrap(), "--text"]).expect(1, &expected);
        assert_eq!(fs::read(&out).unwrap(), b"old");
    }
    assert_eq!(names(&folder), ["cache", "out"]);
}

#[test]
fn misuse_of_catalogue() {
    for (arguments, error) in [
        (vec!["catalogue"], "-o FILE or --text is missing"),
        (vec!["catalogue", "--text"], "a file is missing"),
        (
            vec!["catalogue", "a", "b", "--text"],
            "there is more than one file",
        ),
        (
            vec!["catalogue", "a", "-o", "-"],
            "-o takes the name of a file",
        ),
        (
            vec!["catalogue", "a", "--text", "-o=x"],
            "-o and --text exclude one another",
        ),
        (
            vec!["catalogue", "a", "-o=x", "--buckets=3"],
            "there is no option --buckets=3",
        ),
    ] {
        run(&arguments).expect_error(error);
    }
    let ran = run(&["catalogue", "--help"]);
    assert!(ran
        .output
        .contains("Usage: icon-cache catalogue FILE -o OUT"));
    assert!(ran.output.lines().all(|line| line.chars().count() <= 80));
    assert_eq!(ran.status, 0);
    let missing = "missing: No such file or directory";
    catalogue(Path::new("missing"), Path::new("out")).expect_error(missing);
}

#[test]
#[cfg(target_os = "linux")]
fn colours_on_a_terminal() {
    let folder = Folder::new("colours_of_write");
    let catalogue = folder.file("farm", FARM);
    let (mut screen, line) = terminal::open();
    let mut tool = tool();
    tool.env("TERM", "xterm").arg("write").arg(catalogue);
    tool.arg("-o").arg(folder.path("cache")).stdout(line);
    assert_eq!(tool.status().unwrap().code(), Some(0));
    // The command holds the last open end of the line.
    drop(tool);
    let mut shown = Vec::new();
    // The end of a terminal is an error, after all that was written.
    let _ = screen.read_to_end(&mut shown);
    let shown = String::from_utf8(shown).unwrap();
    assert!(
        shown.contains("cache: \x1b[32mwritten\x1b[0m: 3 icons, "),
        "{shown}"
    );
}
