/*
 * Reading, writing and repairing an icon theme cache (icon-theme.cache): C99,
 * usable from C++.
 *
 * Every function takes any bytes in the cache or the catalogue, any name, any
 * words and any number, and returns an answer number:
 *
 *    0  accepted, found, handed back, picked,    place: 0, the record found, or
 *       written, salvaged or squeezed                   the image picked
 *    1  fewer than 12 bytes                      place: 0
 *    2  more than 16,777,216 bytes               place: 0
 *    3  the version is not 1.0                   place: 0
 *    4  the directory list is not wholly         place: 8
 *       inside, or too long
 *    5  the hash is not wholly inside, or has    place: 4
 *       no bucket
 *    6  a path is empty, too long or begins      place: its field in the
 *       with "/"                                        directory list
 *    7  a record is not wholly inside            place: the field that names it
 *    8  a name is empty or too long              place: record + 4
 *    9  a name stands in another bucket than     place: record + 4
 *       its hash gives
 *   10  an image list is not wholly inside, or   place: record + 8
 *       too long
 *   11  an image's directory index or flags are  place: the image
 *       not allowed
 *   12  the chain never ends                     place: its bucket field
 *   13  the name asked for is empty, over 255    place: 0
 *       bytes or holds a zero byte
 *   14  too little room for the images           place: the image list
 *   15  no directory has that index              place: 0
 *   16  a piece of a path, cut at each "/", is   place: the path's field in the
 *       empty, "." or ".."                              directory list
 *   17  a name or a path runs off the end        place: as with 8 or 6
 *   18  a field of a catalogue is cut off,       place: the field's first byte
 *       breaks a rule or follows the end;
 *       or the bucket count is not 1 to 4,096    place: 0
 *   19  too little room, or a cache would be     place: 0
 *       longer than 16,777,216 bytes
 *   20  a name was used before                   place: its first byte in a
 *                                                       catalogue; record + 4
 *                                                       in a cache
 *   21  more than 65,535 icons                   place: 0
 *   22  a part of an image's data is not wholly  place: the field that names
 *       inside, or is a list of more than               it, or 0 for `data`
 *       1,024 entries
 *   23  the type of pixel data is not 0          place: the field that names
 *                                                       the pixel data
 *   24  a language or a display name is empty,   place: the field that names
 *       too long or runs off the end                    it
 *   25  a cache to be squeezed has more than     place: 4
 *       4,096 buckets, or an image with data     place: the image
 *   26  the position names no bucket, or its     place: 0
 *       count is more than the length less 11
 *   27  the flags are above 15, or the           place: 0
 *       numbering is unknown
 *   28  no further record                        place: 0
 *   30  no record bears the name                 place: 0
 *   31  not six words for each directory         place: 0
 *   32  a type above 2                           place: the word's index in
 *                                                       `directories`
 *   33  the image's data has no such part or     place: 0
 *       entry
 *
 * A name, a language or a display name is too long from 256 bytes on, a path
 * from 1,024 on. Each runs off the end, as in a cache that was cut short, if the
 * cache ends before the string's zero byte and before the string is too long; so
 * does one that begins at the end or beyond. On a path 17 is judged before the
 * "/" of 6.
 *
 * What the caller owes:
 *  - a pointer that comes with a length points to that many bytes or words, and
 *    is not NULL even where the length is 0;
 *  - what is lent as const is not written to while a call runs, by any thread,
 *    and what is written to, as `words`, overlaps neither that nor another part
 *    that is written to;
 *  - each output pointer points to one object of its own; bucket and count are
 *    read too, so a number stands in both.
 * Nothing is kept after a call returns, and nothing is allocated.
 * icon_cache_write and icon_cache_catalogue take up to 300 KiB of stack, for an
 * index of names or records, icon_cache_salvage up to 400 KiB, and
 * icon_cache_squeeze up to 640 KiB; no other call takes more than 700 bytes.
 * Calls on different outputs may run at the same time.
 */
#ifndef ICON_CACHE_H
#define ICON_CACHE_H

#include <stddef.h>
#include <stdint.h>

#ifdef __cplusplus
extern "C" {
#endif

/*
 * Checks the whole cache. With any number but 0, *directories, *icons and
 * *longest are 0. *longest is how many records the longest of the buckets'
 * chains has: no icon_cache_lookup in this cache opens more, whatever the name
 * and the room. It is 0 where there are no icons.
 *
 * *opened is the number of icon records that were looked at: with 17 it is 0 if
 * a path runs off the end, and more if a name does. A cache of 16 MiB that was
 * made to cost time can take some seconds, one of 256 KiB some hundredths of a
 * second: do it in a thread of its own, or set a smaller limit of length. A
 * chain that never ends costs about as much as a long one that does, or twice
 * that: each of its records is judged once.
 */
uint32_t icon_cache_check(const uint8_t *cache, size_t cache_len,
                          size_t *place, size_t *directories, size_t *icons,
                          size_t *opened, size_t *longest);

/*
 * The same check, and behind each image's data offset too. In the order of the
 * check, on each record that keeps 7 to 11 and 17, each image in turn is judged
 * part by part. A part is not there if its offset is 0; a string always is.
 *
 *    22  image data is not wholly inside, at the image + 4
 *    22  pixel data is not wholly inside, at the field that names it
 *    23  the type of pixel data is not 0, at the same field
 *    22  meta data, the rectangle, the list of attach points or that of display
 *        names is not wholly inside, or a list has more than 1,024 entries, at
 *        the field that names it
 *    24  the language or the text of a display name is empty, longer than 255
 *        bytes or without a zero byte, at the field that names it
 *
 * *opened counts the record. 12 is said only of a chain whose records keep
 * these rules too. What this check accepts, icon_cache_check accepts with the
 * same numbers.
 *
 * Records may share a list, images their data and entries their strings, and
 * each is judged as often as it is named. So a cache that was made to cost time
 * costs far more than in icon_cache_check: 4 KiB can take a second, 8 KiB ten,
 * 64 KiB half an hour and 16 MiB some days. No limit of length is of much use:
 * judge what strangers made in a process that can be stopped after some time. Of
 * real caches, Tango's takes 1.27 times the instructions of the other check.
 */
uint32_t icon_cache_check_long(const uint8_t *cache, size_t cache_len,
                               size_t *place, size_t *directories,
                               size_t *icons, size_t *opened, size_t *longest);

/*
 * The notes on an image: a rectangle for text, points to attach emblems to, and
 * names to display, each with its language. `data` is the offset of the image's
 * data, as a lookup gives it, and `entry` counts from 0 on. Both may be any
 * numbers. 33 says that there is no such entry and no further one; 24 is of one
 * string, and the next entry may be asked for; after any other number but 0
 * there is none to be had.
 *
 * icon_cache_rectangle and icon_cache_attach_point give numbers as they stand
 * in the cache. icon_cache_display_language and icon_cache_display_name give
 * the *length bytes of the cache from *start on, 1 to 255 of them, without the
 * zero byte after them. With any number but 0 all that is given is 0.
 *
 * In this order they refuse
 *
 *     1  and 2, as the check does; the version and the tables are not judged
 *    33  `data` is 0: the image has no data
 *    22  the image data is not wholly inside, at 0
 *    33  there is no meta data
 *    22  the meta data is not wholly inside, at `data` + 4
 *    33  there is no rectangle, or no such list
 *    22  the rectangle or the list is not wholly inside, or the list has more
 *        than 1,024 entries, at the field that names it
 *    33  the list has no entry `entry`
 *    24  the string asked for is empty, longer than 255 bytes or without a zero
 *        byte, at the field of the entry that names it
 *
 * Pixel data is not judged, nor is any other string. No call takes longer than
 * to read its 256 bytes.
 */
uint32_t icon_cache_rectangle(const uint8_t *cache, size_t cache_len,
                              size_t data, size_t *place,
                              uint16_t *x0, uint16_t *y0,
                              uint16_t *x1, uint16_t *y1);
uint32_t icon_cache_attach_point(const uint8_t *cache, size_t cache_len,
                                 size_t data, size_t entry,
                                 size_t *place, uint16_t *x, uint16_t *y);
uint32_t icon_cache_display_language(const uint8_t *cache, size_t cache_len,
                                     size_t data, size_t entry, size_t *place,
                                     size_t *start, size_t *length);
uint32_t icon_cache_display_name(const uint8_t *cache, size_t cache_len,
                                 size_t data, size_t entry, size_t *place,
                                 size_t *start, size_t *length);

/*
 * Looks for the icon `name`. With 0, two words for each of the *images images
 * stand at the front of `words`: the directory index times 65,536 plus the
 * flags as they stand in the cache (icon_cache_flags_in tells which they are),
 * then the offset of the image data, and the words beyond are as they were.
 * With any other number all words are as they were. With 14, *images says how
 * many images there are: lend 2 * *images words. With any number but 0 and 14,
 * *images is 0.
 *
 * Names are compared byte for byte: two ways to write an accented letter in
 * Unicode are two names.
 *
 * A cache that was made to cost time costs about as much as in the check, some
 * seconds at 16 MiB.
 */
uint32_t icon_cache_lookup(const uint8_t *cache, size_t cache_len,
                           const uint8_t *name, size_t name_len,
                           uint32_t *words, size_t words_len,
                           size_t *place, size_t *images, size_t *opened);

/*
 * A lookup for the classroom. It ignores the hash: it tries the records of all
 * buckets, in the order in which the check meets them, until one bears `name`.
 *
 * In this order it refuses
 *
 *    13  the name asked for, at 0
 *        what icon_cache_check refuses, at the same places and with *opened 0:
 *        also where icon_cache_lookup would find the name
 *    14  too little room for the images, at the image list
 *
 * If the check accepts the cache, the number, *place, *images and the words are
 * those of icon_cache_lookup, whatever the name and the room; only *opened may
 * be another. With 0 and 14 *opened is how many records were tried, the one found
 * among them, with 30 how many icons there are, and with any other number 0.
 * With any number but 0 all words are as they were, and with any but 0 and 14
 * *images is 0.
 *
 * Each call costs the whole check, and then the records up to the one found, or
 * all of them where none bears the name. Screens ask icon_cache_lookup.
 */
uint32_t icon_cache_plain_lookup(const uint8_t *cache, size_t cache_len,
                                 const uint8_t *name, size_t name_len,
                                 uint32_t *words, size_t words_len,
                                 size_t *place, size_t *images, size_t *opened);

/* Whether there is a directory `index` with a good path. */
uint32_t icon_cache_directory(const uint8_t *cache, size_t cache_len, size_t index, size_t *place);

/*
 * The path of directory `index`: the *length bytes of the cache from *start on,
 * without the zero byte after them. With any number but 0 both are 0. A path
 * that is given does not begin with "/", and none of its pieces is empty, "."
 * or "..": so, as its text goes, it leads nowhere but below the folder that it
 * is taken from. Only "/" counts as a separator: where "\" is one too, it is
 * the caller's to judge, and so are symbolic links.
 */
uint32_t icon_cache_directory_path(const uint8_t *cache, size_t cache_len, size_t index,
                                   size_t *start, size_t *length);

/*
 * Hands back the icon records one by one, in the order in which the check meets
 * them. *bucket and *count are the position, read and written: a bucket, and
 * how many records of its chain are passed. Begin with 0 and 0, keep the
 * position between the calls for as long as you like, and stop at any number
 * but 0. With 0, *record is the offset of the next record and the position is
 * the one after it. With any other number *record is 0 and the position is as
 * it came; 28 says that there are no further records. If the check accepts the
 * cache, a walk from 0 and 0 hands back each record once.
 *
 * The record and those passed on its chain have been judged by 7 to 11 and 17,
 * so its name lies inside: 1 to 255 bytes, which begin at the big-endian number
 * of four bytes at *record + 4, and a zero byte after them. Other records and
 * the paths are not judged: in a cache that the check refuses a walk may still
 * hand back records. No step answers 12. On a chain that never ends the records
 * come round and round, until the count is the cache's length less 10, and then
 * the answer is 26. On any cache a walk hands back at most twice as many
 * records as there are bytes.
 *
 * A step passes its chain anew: it opens at most *count + 1 records, those of a
 * later chain counted in. So to list a chain costs the square of its length,
 * and one step on a long chain can take some seconds at 16 MiB. Where nothing
 * has checked the cache, take a page at a time. A chain never ends, and all its
 * records keep the rules, exactly if the step from its bucket and cache_len - 11
 * answers 0 and leaves *bucket as it was.
 */
uint32_t icon_cache_list(const uint8_t *cache, size_t cache_len,
                         size_t *bucket, size_t *count, size_t *place, size_t *record);

/*
 * The flags of an image are a sum that says which files it has. Two numberings
 * are written under the same version, and a cache doesn't say which:
 *
 *    0  bitmap suffix 1, XPM suffix 2, SVG suffix 4, icon file 8: the layout's
 *       document, and generators that follow it
 *    1  XPM suffix 1, SVG suffix 2, bitmap suffix 4, icon file 8: GTK's
 *       gtk-update-icon-cache
 *
 * icon_cache_flags_in turns raw flags of `numbering`, as a lookup gives them,
 * into those of numbering 0, and icon_cache_flags_out turns them back: one
 * after the other with the same numbering, in either order, they give back any
 * flags from 0 to 15. With 27, for flags above 15 or another numbering, the
 * result is 0. No lookup gives flags above 15. There is no pointer for the
 * place, since it would always be 0.
 */
uint32_t icon_cache_flags_in(uint16_t raw, uint32_t numbering, uint16_t *flags);
uint32_t icon_cache_flags_out(uint16_t flags, uint32_t numbering, uint16_t *raw);

/*
 * Picks the first image of the icon `name`, in the order of its list, that is
 * made for `size` at `scale`. A cache doesn't say what its directories are made
 * for, so the caller does, mostly as the theme's index.theme has it. In
 * `directories` stand six words for each directory of the cache, in the cache's
 * order: its type, Size, Scale, MinSize, MaxSize and Threshold. A directory
 * fits if its Scale is `scale` and, by its type,
 *
 *    0  Fixed      Size is `size`;
 *    1  Scalable   MinSize <= `size` <= MaxSize;
 *    2  Threshold  `size` and Size are at most Threshold apart. Nothing wraps:
 *                  with 0xFFFFFFFF every size fits.
 *
 * With 0, *place is the offset of the image, or 0 if none fits. The eight bytes
 * of the image lie inside the cache: two big-endian numbers of two bytes, the
 * index of its directory, which there is, and its flags, and one of four, the
 * offset of its data. An image without a directory never fits; only a cache
 * that has no directories has such, and `directories_len` has to be 0 then.
 *
 * The lookup's refusals come first, with 30 among them and at the same places,
 * but never 14. Then comes 31, unless `directories_len` is six times the number
 * of directories, and then 32: the type of every directory is judged, of those
 * too that no image names. The other words may be any numbers: with a MinSize
 * above its MaxSize a Scalable directory fits nothing. Nothing is written but
 * *place.
 *
 * Paths are not judged: icon_cache_directory_path judges that of the image. A
 * pick costs little more time than the lookup.
 */
uint32_t icon_cache_pick(const uint8_t *cache, size_t cache_len,
                         const uint8_t *name, size_t name_len,
                         uint32_t size, uint32_t scale,
                         const uint32_t *directories, size_t directories_len,
                         size_t *place);

/*
 * A catalogue says what a cache is to hold. With all numbers big-endian, it is
 *
 *    a count of directories, 2 bytes, and for each of them
 *        the length of its path, 2 bytes, 1 to 1,023, and the path;
 *    a count of icons, 2 bytes, and for each of them
 *        the length of its name, 1 byte, not 0, and the name,
 *        a count of images, 2 bytes, at most 1,024,
 *        and for each image 8 bytes, as in a cache: the index of its directory
 *        and its flags, 2 bytes each, and the offset of its data, 4 bytes.
 *
 * Each of these is a field. No text holds a zero byte, and no piece of a path,
 * cut at each "/", is empty, "." or "..". An index is that of one of the
 * directories, or 0xFFFF if there are none, and flags are at most 15. Nothing
 * follows the last icon. No two icons have one name; paths may be equal.
 *
 * The offset of an image's data is handed on as it is, from a cache and into
 * one, but the data is not: icon_cache_check_long refuses a written Tango for
 * its offsets, as gtk-update-icon-cache --validate does, and both accept it with
 * 0 in their place.
 *
 * icon_cache_write writes the cache of a catalogue with so many buckets:
 * header, hash, records, image lists, directory list and strings, in the
 * catalogue's order without gaps. The check accepts it, a lookup gives each
 * name its images, and icon_cache_catalogue gives the catalogue's bytes back.
 * With 0, *length is how many bytes were written at the front of `cache`, and
 * the bytes beyond are as they were. With any other number *length is 0 and all
 * are as they were.
 *
 * In this order it refuses
 *
 *    18  the first field that is cut off, breaks a rule or follows the end, at
 *        its first byte. A length is judged before its text: one that reaches
 *        past the end is good, and the text is cut off
 *    20  the first name that was used before, at its text's first byte
 *    18  a bucket count other than 1 to 4,096, at 0
 *    19  too little room, or a cache above 16,777,216 bytes, at 0. A cache has
 *        20 bytes, 4 for each bucket, for each directory 5 more than its path,
 *        and for each icon 17 more than its name and its images
 *
 * It takes up to 300 KiB of stack. 65,535 icons take some tenths of a second.
 */
uint32_t icon_cache_write(const uint8_t *catalogue, size_t catalogue_len, size_t buckets,
                          uint8_t *cache, size_t cache_len, size_t *place, size_t *length);

/*
 * Lists a cache as a catalogue: its directories, and its icons by rising offset
 * of their records. With 0, *length is how many bytes were written at the front
 * of `catalogue`, and the bytes beyond are as they were. With any other number
 * *length is 0 and all are as they were. What is listed is a good catalogue:
 * for 1 to 4,096 buckets the writer answers 0 to it, or 19.
 *
 * In this order it refuses
 *
 *        what icon_cache_check refuses, at the same places
 *    20  the first name that was used before, in the order in which the check
 *        meets the records, at record + 4 of the later one
 *    21  more than 65,535 icons, at 0
 *    19  too little room, at 0. Where no parts of the cache overlap, a catalogue
 *        is shorter than its cache; else it may be much longer, up to 621 MB
 *
 * It takes up to 300 KiB of stack. 65,535 icons take some tenths of a second; a
 * cache of 16 MiB that was made to cost time can take some seconds.
 */
uint32_t icon_cache_catalogue(const uint8_t *cache, size_t cache_len,
                              uint8_t *catalogue, size_t catalogue_len,
                              size_t *place, size_t *length);

/*
 * Saves what is sound of a cache that may be damaged: a catalogue of it, with
 * the icons in the order in which the check meets them, and a report of what
 * went, in the order met. The report has rows of two words, number and place.
 *
 * First the paths, by index. A directory whose path breaks 6, 16 or 17 goes; its
 * row is the number and the place that icon_cache_directory answers. Its images
 * go without rows, but for those that break 11. The indexes of the other
 * directories close up.
 *
 * Then each bucket's chain, record by record. On the way to a record
 *
 *    12  cuts the chain before one that this chain has met, whatever became of
 *        it: the row stands at the bucket field, after the chain's other rows
 *     7  ends the chain: the record is not wholly inside
 *
 * and on each record that is met, asked in this order
 *
 *     8, 9 or 17, of its name: it goes, and the chain ends there
 *    10  it goes, and the walk goes on
 *    20  its name equals that of an icon kept before, at record + 4: it goes,
 *        and the walk goes on
 *    11  each image that breaks 11 goes, with a row for each, be its directory
 *        kept or not. An index is judged by the count of directories in the
 *        cache, and 0xFFFF is good only where that is 0
 *
 * An icon whose images all went stays. So each time a record is met, it is kept
 * or has one row of 8, 9, 10, 17 or 20. Of a cache that the check accepts all is
 * kept, but for icons whose name an icon before them has.
 *
 * With 0, *length is how many bytes were written at the front of `catalogue`,
 * and *rows how many rows at the front of `report`, two words each; the bytes
 * and words beyond are as they were. With any other number both are 0 and all
 * bytes and words are as they were. What is saved is a good catalogue: for 1 to
 * 4,096 buckets the writer answers 0 to it, or 19.
 *
 * In this order it refuses
 *
 *     1  to 5, as the check does
 *    21  more than 65,535 icons kept, at 0
 *    19  too little room for the catalogue or for the report, at 0. Where
 *        records share lists and strings, both may be much longer than the cache
 *
 * 65,535 icons take some tenths of a second; a cache of 16 MiB that was made to
 * cost time can take some twenty seconds.
 */
uint32_t icon_cache_salvage(const uint8_t *cache, size_t cache_len,
                            uint8_t *catalogue, size_t catalogue_len,
                            uint32_t *report, size_t report_len,
                            size_t *place, size_t *length, size_t *rows);

/*
 * Squeezes the dead bytes out of a cache: writes it anew with as many buckets,
 * in the layout of icon_cache_write, without gaps, without the records whose
 * name an icon before them has, and with equal strings and equal image lists
 * once. The icons stand in the order in which the check meets them. Each list
 * stands where it is first used, and so does each string, paths before names; a
 * name equal to a path is that path's string.
 *
 * The check accepts the result, and a lookup of any name gives the same number
 * and the same images as before. Squeezed again, the result gives its own
 * bytes.
 *
 * With 0, *length is how many bytes were written at the front of `squeezed`,
 * and the bytes beyond are as they were. With any other number *length is 0 and
 * all are as they were.
 *
 * In this order it refuses
 *
 *        what icon_cache_check refuses, at the same places
 *    25  more than 4,096 buckets, at 4
 *    25  the first image with data, in the order of the check, at the image,
 *        even of a record that goes: data is not written
 *    19  too little room, or more than 16,777,216 bytes, at 0. Where no parts
 *        of the cache overlap, the result is not longer than the cache; else
 *        it may be
 *
 * It takes up to 640 KiB of stack. 455,000 icons that share 600 lists take less
 * than a second, as many with different lists some four seconds, and 800,000
 * names on one chain about one. Long lists that begin alike can take a minute.
 * Each record beyond 983,040 is compared with all before it on its chain: a
 * cache of 16 MiB that was made for it, nearly all of it records, can take days,
 * so a limit of time is advised.
 */
uint32_t icon_cache_squeeze(const uint8_t *cache, size_t cache_len,
                            uint8_t *squeezed, size_t squeezed_len,
                            size_t *place, size_t *length);

#ifdef __cplusplus
}
#endif

#endif
