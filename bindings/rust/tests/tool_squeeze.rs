//! Runs the tool's command `squeeze`.

// It is written for all commands.
#[allow(dead_code)]
mod running;

use icon_cache::FARM_CACHE;
use running::{run, run_with_input, Folder, Ran};
use std::ffi::OsStr;
use std::fs::{self, File};
use std::io::Read;
use std::path::Path;

/// Squeezes into the file of this path.
fn squeeze(cache: &Path, out: &Path) -> Ran {
    let arguments = [OsStr::new("squeeze"), cache.as_os_str(), OsStr::new("-o")];
    run(&arguments
        .into_iter()
        .chain([out.as_os_str()])
        .collect::<Vec<_>>())
}

/// Both lines: what was written, and what went.
fn lines(out: &Path, written: &str, cache: &str, what: &str) -> String {
    let out = out.display();
    format!(
        "{out}: written: {written}\n\
         {cache}: squeezed: {what} dropped whose name was used before\n"
    )
}

/// The farm cache, squeezed.
const FARM: &str = "3 icons, 2 directories, 3 buckets, longest chain 2, 126 bytes";

fn names(folder: &Folder) -> Vec<String> {
    let entries = fs::read_dir(&folder.0).unwrap();
    let names = entries.map(|entry| entry.unwrap().file_name().into_string().unwrap());
    let mut names: Vec<String> = names.collect();
    names.sort();
    names
}

#[test]
fn says_what_went() {
    let folder = Folder::new("squeeze");
    let out = folder.path("out.cache");
    // oat has the name of hen, which stands before it.
    let mut repeated = FARM_CACHE.to_vec();
    repeated[118..121].copy_from_slice(b"hen");
    // The paths "en" and "at" are ends of names.
    let mut overlapping = [&FARM_CACHE[..108], b"hen\0oat\0cow\0"].concat();
    for (field, place) in [(103, 109), (107, 113), (35, 108), (47, 112), (59, 116)] {
        overlapping[field] = place;
    }
    for (bytes, written, what) in [
        (
            [&FARM_CACHE[..], &[7; 1_000]].concat(),
            FARM,
            "1126 bytes before, 126 after, 1000 bytes dropped, 0 icons",
        ),
        (
            repeated,
            "2 icons, 2 directories, 3 buckets, longest chain 1, 110 bytes",
            "126 bytes before, 110 after, 16 bytes dropped, 1 icon",
        ),
        (
            overlapping,
            FARM,
            "120 bytes before, 126 after, 6 bytes more, 0 icons",
        ),
    ] {
        let cache = folder.file("long.cache", &bytes);
        let shown = cache.display().to_string();
        squeeze(&cache, &out).expect(0, &lines(&out, written, &shown, what));
        let squeezed = icon_cache::squeeze(&bytes).unwrap();
        assert_eq!(fs::read(&out).unwrap(), squeezed);
    }
    assert_eq!(names(&folder), ["long.cache", "out.cache"]);
}

/// The file that is read may be written, and a second time nothing goes.
#[test]
fn in_its_own_place() {
    let folder = Folder::new("squeeze_in_place");
    let long = [&FARM_CACHE[..], b"x"].concat();
    let cache = folder.file("icon-theme.cache", &long);
    let shown = cache.display().to_string();
    let mut old = File::open(&cache).unwrap();
    let what = "127 bytes before, 126 after, 1 byte dropped, 0 icons";
    squeeze(&folder.0, &cache).expect(0, &lines(&cache, FARM, &shown, what));
    assert_eq!(fs::read(&cache).unwrap(), FARM_CACHE);
    // Whoever has the old file open still reads the old bytes.
    let mut bytes = Vec::new();
    old.read_to_end(&mut bytes).unwrap();
    assert_eq!(bytes, long);

    let what = "126 bytes before, 126 after, 0 bytes dropped, 0 icons";
    squeeze(&cache, &cache).expect(0, &lines(&cache, FARM, &shown, what));
    assert_eq!(fs::read(&cache).unwrap(), FARM_CACHE);
    assert_eq!(names(&folder), ["icon-theme.cache"]);
}

/// Nothing is written with a refusal, and nothing is left beside the file.
#[test]
fn refused_caches() {
    let folder = Folder::new("squeeze_refused");
    let out = folder.file("out.cache", b"as it was");
    let mut data = FARM_CACHE.to_vec();
    data[75] = 1;
    let mut buckets: Vec<u8> = [0x0001_0000, 16, 12, 0, 4_097u32]
        .into_iter()
        .flat_map(u32::to_be_bytes)
        .collect();
    buckets.extend([0xFF; 4 * 4_097]);
    let why = "the cache has more than 4,096 buckets, or an image with data, which is not written";
    for (bytes, place, why) in [
        (data, "rule 25 at 68 (0x44)", why),
        (buckets, "rule 25 at 4 (0x4)", why),
        (
            FARM_CACHE[..11].to_vec(),
            "rule 1 at 0 (0x0)",
            "the cache is shorter than its header",
        ),
    ] {
        let cache = folder.file("cache", &bytes);
        let refused = format!("{}: refused: {place}: {why}\n", cache.display());
        squeeze(&cache, &out).expect(1, &refused);
        assert_eq!(fs::read(&out).unwrap(), b"as it was");
    }
    assert_eq!(names(&folder), ["cache", "out.cache"]);
}

#[test]
fn refuses_a_cut_path_as_the_check_does() {
    let folder = Folder::new("squeeze_cut");
    let out = folder.path("out.cache");
    let out = out.to_str().unwrap();
    let squeezed = run_with_input(&["squeeze", "-", "-o", out], &FARM_CACHE[..109]);
    let checked = run_with_input(&["check", "-"], &FARM_CACHE[..109]);
    squeezed.expect(1, &checked.output);
    assert!(!Path::new(out).exists());
}

/// Then nothing is said of what went.
#[test]
fn files_that_cant_be_read_or_written() {
    let folder = Folder::new("squeeze_unwritable");
    let cache = folder.file("cache", FARM_CACHE);
    let missing = folder.path("missing");
    squeeze(&missing, &folder.path("out")).expect_error("missing: No such file or directory");
    squeeze(&cache, &missing.join("out")).expect_error("can't be written: No such file");
    squeeze(&cache, &folder.0).expect_error("can't be written: Is a directory");
    assert_eq!(names(&folder), ["cache"]);
}

#[test]
fn misuse() {
    for (arguments, error) in [
        (vec!["squeeze", "a"], "-o OUT is missing"),
        (vec!["squeeze", "-o", "x"], "a file is missing"),
        (
            vec!["squeeze", "a", "b", "-o=x"],
            "there is more than one file",
        ),
        (
            vec!["squeeze", "a", "-o", "-"],
            "-o takes the name of a file",
        ),
        (
            vec!["squeeze", "a", "-o=x", "--buckets=3"],
            "there is no option --buckets=3",
        ),
        (vec!["squeeze", "a"], "see `icon-cache squeeze --help`"),
    ] {
        run(&arguments).expect_error(error);
    }
}

#[test]
fn help() {
    for (arguments, words) in [
        (
            vec!["squeeze", "--help"],
            "Usage: icon-cache squeeze FILE -o OUT",
        ),
        (vec!["--help"], "icon-cache squeeze FILE -o OUT"),
    ] {
        let ran = run(&arguments);
        assert!(ran.output.contains(words), "{}", ran.output);
        assert!(ran.output.lines().all(|line| line.chars().count() <= 80));
        assert_eq!(ran.status, 0);
    }
}
