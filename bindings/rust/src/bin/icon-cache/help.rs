//! What `--help` and `--version` print.

pub const VERSION: &str = concat!("icon-cache ", env!("CARGO_PKG_VERSION"));

pub const TOOL: &str = "\
Checks icon theme caches (icon-theme.cache), looks up icons in them, lists what
they have, picks images for a size, writes caches from catalogues, lists caches
as such, repairs damaged caches and squeezes sound ones.

Usage:
  icon-cache check FILE...                 say whether each cache is sound
  icon-cache lookup FILE NAME...           show the images of each icon
  icon-cache dirs FILE                     list the directories of a cache
  icon-cache list FILE                     list the icons of a cache, or a page
  icon-cache pick THEME NAME... --size N   pick each icon's image for a size
  icon-cache write CATALOGUE -o FILE       write a cache from a catalogue
  icon-cache catalogue FILE -o OUT         list a cache as a catalogue
  icon-cache salvage FILE -o OUT           write what is sound of a cache
  icon-cache squeeze FILE -o OUT           write a cache without dead bytes

A directory as FILE stands for the icon-theme.cache in it, and - for standard
input. THEME is the folder of a theme. After -- no argument is taken for an
option.

Options:
  -h, --help      show this help, or that of a command after its name
  -V, --version   show the version

Exit status:
  0  accepted, found, listed, picked or written
  1  refused or absent, or no image fits
  2  a wrong command line, or a file that can't be read or written

On a terminal the output has colours, unless NO_COLOR is set and not empty, or
TERM is dumb.";

pub const CHECK: &str = "\
Says whether each cache is sound, in one line for each file.

Usage: icon-cache check FILE... [--all | --long] [--verbose] [--max-size N]

An accepted cache is shown with the number of its icons and directories, and
with how many records the longest of its buckets' chains has: no lookup by the
hash opens more. For a refused one the line says which rule it breaks first, at
which offset (decimal and hex), and what that means.

Options:
  --all          below the line of a refused cache, show every fault that
                 `icon-cache salvage` meets, each with the directory, the icon,
                 the image or the bucket that it is on. Of an accepted cache the
                 names that were used before are shown. Of more than 65,535
                 icons neither can be shown, and a line says so
  --long         check the image data of each image too: that its parts lie in
                 the file, that the type of its pixel data is known, and that
                 its display names are neither empty nor too long
  --verbose      below the line of an accepted cache, show how many chains have
                 each length, as bars, and how many icons are found with one
                 record opened. A length that no chain has is left out; where
                 there are more than 12, those from 4 on are put together as
                 4-7, 8-15 and so on
  --max-size N   don't check a file of more than N bytes, and complain of it as
                 of one that can't be read. 64K stands for 65536 and 1M for
                 1048576

A directory as FILE stands for the icon-theme.cache in it, and - for standard
input. A file above 16,777,216 bytes is refused by rule 2 and not read further.
A smaller one that was made to cost time can take some seconds. With --long it
can take a second at 4 KiB, half an hour at 64 KiB and days at 16 MiB: give the
files of strangers a limit of time.

Examples:
  icon-cache check /usr/share/icons/*/icon-theme.cache
  icon-cache check --all pack/icon-theme.cache
  timeout 10 icon-cache check --long --max-size 256K pack/icon-theme.cache

Exit status: 0 all accepted, 1 one refused, 2 one that can't be read.";

pub const LOOKUP: &str = "\
Shows the images of each icon: directory, flags and the offset of image data.

Usage: icon-cache lookup FILE NAME... [--notes] [--plain]
       [--numbering freedesktop|gtk]

A NAME is that of the icon, without directory and suffix: folder-open. Names
that begin with - are given after --. Names are compared byte for byte: two ways
to write an accented letter in Unicode are two names.

Flags are shown as their sum, as it stands in the file, and by name. Generators
number them in two ways, and a cache doesn't say in which.

Options:
  --notes                   below each image show what is noted on it: the
                            rectangle for text, the points to attach emblems to,
                            and the names to display, each with its language
  --plain                   below each icon show how many records were opened
                            by the hash of its name, and how many are opened
                            without it, by trying those of all buckets one by
                            one. For that the whole cache is checked each time;
                            in a refused one no record is tried, and the exit
                            status is 1
  --numbering freedesktop   bitmap suffix 1, XPM suffix 2, SVG suffix 4, icon
                            file 8, as the freedesktop note on the format and
                            generators that follow it do (the default)
  --numbering gtk           XPM suffix 1, SVG suffix 2, bitmap suffix 4, icon
                            file 8, as GTK's gtk-update-icon-cache does

A directory as FILE stands for the icon-theme.cache in it, and - for standard
input. Only the records on the way to the icon are judged, and the notes that
are shown; `icon-cache check --long` judges the whole cache.

Examples:
  icon-cache lookup /usr/share/icons/hicolor folder --numbering gtk
  icon-cache lookup pack/icon-theme.cache cow hen --notes
  icon-cache lookup --plain pack/icon-theme.cache cow

Exit status: 0 all found, 1 one absent or refused, 2 a file that can't be read.";

pub const DIRS: &str = "\
Lists the directories of a cache, each with its index.

Usage: icon-cache dirs FILE

A directory as FILE stands for the icon-theme.cache in it, and - for standard
input.

Exit status: 0 listed, 1 refused, 2 a file that can't be read.";

pub const LIST: &str = "\
Lists the icons of a cache, or a page of them, in one line for each.

Usage: icon-cache list FILE [--from BUCKET:COUNT] [--limit N]

A line has the name of the icon and the offset of its record (decimal and hex).
The order is that of the buckets in the cache, and of the chain in each.

Options:
  --from BUCKET:COUNT   begin at this bucket, after COUNT records of its chain
  --limit N             list N icons at most

If N icons are listed and another follows, a last line tells how to go on, such
as `next page: --from 12:1`. The last of an option given twice counts, so this
one can be added to the same command.

A directory as FILE stands for the icon-theme.cache in it, and - for standard
input. Only the records on the way are judged, and the list ends at the first
that is refused. On a chain that never ends icons would come round and round, so
none of it is listed. To go on behind either, begin at the next bucket. A long
chain costs the square of its length. `icon-cache check` judges the whole cache.

Exit status: 0 listed, 1 refused, 2 a file that can't be read.";

pub const PICK: &str = "\
Picks the image of each icon for a size: directory, flags and the offset of the
image in the cache, in one line for each name.

Usage: icon-cache pick THEME NAME... --size N [--scale N]
       [--numbering freedesktop|gtk]

THEME is the folder of a theme. Its icon-theme.cache says which images an icon
has, and its index.theme for which sizes and which scale each directory is made.
The first image, in the order of the cache, whose directory fits is picked. It
fits if its scale is the one asked for and, by its type,

  Fixed       its size is the one asked for
  Scalable    the size asked for is MinSize at least and MaxSize at most
  Threshold   the size asked for and its size are at most Threshold apart

A directory that the index.theme doesn't list and describe never fits. Nothing
is picked from the themes that Inherits names, and where no directory fits, the
nearest size is not taken.

A NAME is that of the icon, without directory and suffix: folder-open. Names
that begin with - are given after --.

Options:
  --size N       the size asked for; it must be given
  --scale N      the scale asked for, 1 if none is given
  --numbering freedesktop|gtk
                 how the flags are numbered, as in `icon-cache lookup --help`

An index.theme that is malformed or above 1,048,576 bytes is refused. Only the
records on the way to an icon are judged; `icon-cache check` judges the whole
cache.

Exit status: 0 all picked, 1 one absent or refused or without an image that
fits, 2 a file that can't be read.";

pub const WRITE: &str = "\
Writes a cache from a catalogue.

Usage: icon-cache write CATALOGUE -o FILE [--buckets N]
       icon-cache write CATALOGUE --text [--numbering freedesktop|gtk]

A CATALOGUE is a file, or - for standard input. It has, one behind the other and
with all numbers big-endian:

  a count of directories, 2 bytes, and for each the length of its path, 2 bytes,
  and the path, 1 to 1,023 bytes;
  a count of icons, 2 bytes, and for each the length of its name, 1 byte, the
  name, a count of images, 2 bytes, and for each image 8 bytes: the index of its
  directory, its flags and the offset of its data, as in a cache. The data is
  not written: `icon-cache check --long` and gtk-update-icon-cache --validate
  may refuse an offset but 0.

A catalogue that breaks a rule is refused, and so is one that has a name twice:
the line says which field is wrong, at which offset (decimal and hex), and why.
Directories, icons and images are counted from 0 on. One whose cache would be
longer than 16,777,216 bytes is refused too.

Options:
  -o FILE       the cache to write. It takes the place of FILE only when it is
                stored as a whole; with a refusal FILE stays as it was
  --buckets N   how many buckets the cache has, 1 to 4096; if none is given, the
                smallest prime not below the number of icons, at most 4093. The
                line says how long the longest chain has become
  --text        show the catalogue and write nothing
  --numbering freedesktop|gtk
                how flags are shown, as in `icon-cache lookup --help`

Exit status: 0 written or shown, 1 refused, 2 a file that can't be read or
written.";

pub const CATALOGUE: &str = "\
Lists a cache as a catalogue, from which `icon-cache write` makes a cache again
if that is not longer than 16,777,216 bytes.

Usage: icon-cache catalogue FILE -o OUT
       icon-cache catalogue FILE --text [--numbering freedesktop|gtk]

The icons stand in the order of their records in the cache. How a catalogue is
built is told by `icon-cache write --help`.

A directory as FILE stands for the icon-theme.cache in it, and - for standard
input. A cache that `icon-cache check` refuses is refused alike, and so is one
that has a name twice, or more than 65,535 icons. One that was made to cost time
can take some seconds, and its catalogue may be much longer than the cache, up
to 621 MB.

Options:
  -o OUT    the catalogue to write. It takes the place of OUT only when it is
            stored as a whole; with a refusal OUT stays as it was
  --text    show the catalogue and write nothing
  --numbering freedesktop|gtk
            how flags are shown, as in `icon-cache lookup --help`

Exit status: 0 written or shown, 1 refused, 2 a file that can't be read or
written.";

pub const SALVAGE: &str = "\
Writes what is sound of a damaged cache as a new one, and says what went.

Usage: icon-cache salvage FILE -o OUT [--catalogue]

What breaks a rule goes, and a line is shown for it: the directory, the icon or
the image, the rule, the offset (decimal and hex), and what that means. With a
directory go the images in it. A bucket's chain is followed as far as it leads:
where it comes round it is cut, and behind a record with a bad name, or one that
is not in the file, the rest of it is lost. Of icons with one name the first
stays. An icon stays though no image of it is left.

OUT is accepted by `icon-cache check`, and `icon-cache lookup` finds each icon
that stayed. It has as many buckets as FILE, or 4096 if those are more. Image
data is not written, as with `icon-cache write`.

A directory as FILE stands for the icon-theme.cache in it, and - for standard
input. A file whose header or tables are no cache's is refused, by rule 1 to 5,
and so is one of which more than 65,535 icons, or a cache of more than
16,777,216 bytes, would be left. FILE and OUT may be the same.

Options:
  -o OUT        the cache to write. It takes the place of OUT only when it is
                stored as a whole; with a refusal OUT stays as it was
  --catalogue   write the catalogue of what is sound instead, which
                `icon-cache write --text` shows

Examples:
  icon-cache salvage pack/icon-theme.cache -o repaired.cache
  icon-cache salvage --catalogue broken.cache -o saved.catalogue

Exit status: 0 written, whatever went; 1 refused; 2 a file that can't be read or
written.";

pub const SQUEEZE: &str = "\
Writes a sound cache anew without dead bytes, and says what went.

Usage: icon-cache squeeze FILE -o OUT

Gaps go, and so do icons whose name an icon before them has. Equal names, paths
and image lists are written once. OUT has as many buckets as FILE, is accepted
by `icon-cache check`, and `icon-cache lookup` shows the same images of each
icon. A cache that was squeezed stays as it is.

A directory as FILE stands for the icon-theme.cache in it, and - for standard
input. A cache that `icon-cache check` refuses is refused alike, and so is one
that has more than 4096 buckets or an image with data, which is not written, and
one whose parts overlap so that OUT would be longer than 16,777,216 bytes. One
with a million records on one chain can be made to take days. FILE and OUT may
be the same.

Options:
  -o OUT   the cache to write. It takes the place of OUT only when it is stored
           as a whole; with a refusal OUT stays as it was

Example:
  icon-cache squeeze pack/icon-theme.cache -o small.cache

Exit status: 0 written, 1 refused, 2 a file that can't be read or written.";
