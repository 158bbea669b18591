/*
 * Checks a cache in both ways, prints the images of one icon, each with its directory, flags and
 * notes, how many records a plain lookup of it tries, two short pages of the icons, and which image
 * of the icon is picked for some sizes, lists the cache as a catalogue and writes it again, and saves
 * what is sound of it: example CACHE NAME
 */
#include "icon_cache.h"

#include <errno.h>
#include <stdio.h>
#include <string.h>

#define LARGEST 16777216

/* With one byte too many the library sees that a file is too large. */
static uint8_t cache[LARGEST + 1];
static size_t cache_len;
static uint32_t words[2 * 1024]; /* a list has at most 1,024 images */

static void say_unreadable(const char *path)
{
    fprintf(stderr, "%s can't be read: %s\n", path, strerror(errno));
}

/*
 * Reads the file, or its first bytes where it is too large. A directory can be opened, but not
 * read.
 */
static int read_cache(const char *path)
{
    FILE *file = fopen(path, "rb");
    if (file == NULL) {
        say_unreadable(path);
        return 0;
    }
    cache_len = fread(cache, 1, sizeof cache, file);
    int failed = ferror(file);
    if (failed) {
        say_unreadable(path);
    }
    fclose(file);
    return !failed;
}

static int check(void)
{
    size_t place, directories, icons, opened, longest;
    uint32_t number = icon_cache_check(cache, cache_len, &place, &directories, &icons,
                                       &opened, &longest);
    if (number != 0) {
        printf("check: refused, %u at %zu, %zu opened\n", (unsigned)number, place, opened);
        return 1;
    }
    printf("check: accepted, %zu icons, %zu directories, longest chain %zu, %zu opened\n",
           icons, directories, longest, opened);
    return 0;
}

/* The image data of all images is judged too. On a stranger's cache this may take days. */
static void check_long(void)
{
    size_t place, directories, icons, opened, longest;
    uint32_t number = icon_cache_check_long(cache, cache_len, &place, &directories, &icons,
                                            &opened, &longest);
    printf("long check: answer %u at %zu, %zu opened\n", (unsigned)number, place, opened);
}

/* The call for the path doesn't say where a bad one stands; the other call does. */
static void print_directory(size_t index)
{
    size_t start, length, place;
    if (icon_cache_directory_path(cache, cache_len, index, &start, &length) == 0) {
        printf("  directory %.*s", (int)length, (const char *)cache + start);
        return;
    }
    uint32_t number = icon_cache_directory(cache, cache_len, index, &place);
    printf("  directory %zu (%u at %zu)", index, (unsigned)number, place);
}

/* Prints the names of flags of numbering 0. */
static void print_names(uint16_t flags)
{
    static const char *const names[] = {"bitmap", "XPM", "SVG", "icon file"};
    if (flags == 0) {
        printf(" none");
    }
    for (int bit = 0; bit < 4; bit++) {
        if (flags >> bit & 1) {
            printf(" %s", names[bit]);
        }
    }
}

/*
 * A cache doesn't say how its generator numbers flags, so both readings are printed, and how GTK
 * would write the first. A lookup gives no flags above 15 and the numberings are known, so the
 * calls don't refuse.
 */
static void print_flags(uint16_t raw)
{
    uint16_t from_gtk, for_gtk;
    icon_cache_flags_in(raw, 1, &from_gtk);
    icon_cache_flags_out(raw, 1, &for_gtk);
    printf(", flags %u:", (unsigned)raw);
    print_names(raw);
    printf(" (for GTK %u), or from GTK", (unsigned)for_gtk);
    print_names(from_gtk);
}

/* After the last note comes 33: there is no such note, or no further one. */
static void say_end(uint32_t number, size_t place)
{
    if (number != 0 && number != 33) {
        printf("    answer %u at %zu\n", (unsigned)number, place);
    }
}

static void print_rectangle(size_t data)
{
    size_t place;
    uint16_t x0, y0, x1, y1;
    uint32_t number = icon_cache_rectangle(cache, cache_len, data, &place, &x0, &y0, &x1, &y1);
    if (number == 0) {
        printf("    rectangle %u,%u to %u,%u\n",
               (unsigned)x0, (unsigned)y0, (unsigned)x1, (unsigned)y1);
    }
    say_end(number, place);
}

static void print_attach_points(size_t data)
{
    size_t place, entry = 0;
    uint16_t x, y;
    uint32_t number;
    while ((number = icon_cache_attach_point(cache, cache_len, data, entry, &place, &x, &y)) == 0) {
        printf("    attach point %u,%u\n", (unsigned)x, (unsigned)y);
        entry++;
    }
    say_end(number, place);
}

/* The language is judged by one call and the name by the other. */
static void print_display_names(size_t data)
{
    size_t place, start, length;
    uint32_t number;
    for (size_t entry = 0;; entry++) {
        number = icon_cache_display_language(cache, cache_len, data, entry, &place, &start,
                                             &length);
        if (number != 0) {
            break;
        }
        printf("    display name in %.*s: ", (int)length, (const char *)cache + start);
        number = icon_cache_display_name(cache, cache_len, data, entry, &place, &start, &length);
        if (number == 0) {
            printf("%.*s\n", (int)length, (const char *)cache + start);
        } else {
            printf("answer %u at %zu\n", (unsigned)number, place);
        }
    }
    say_end(number, place);
}

/*
 * Only the records that the lookup meets are judged, so it may find a name in a cache that the
 * check refuses.
 */
static int lookup(const char *name)
{
    size_t place, images, opened;
    uint32_t number = icon_cache_lookup(cache, cache_len, (const uint8_t *)name, strlen(name),
                                        words, sizeof words / sizeof words[0], &place, &images, &opened);
    if (number != 0) {
        printf("%s: answer %u at %zu, %zu opened\n", name, (unsigned)number, place, opened);
        return 1;
    }
    printf("%s: record at %zu, %zu opened\n", name, place, opened);
    for (size_t i = 0; i < images; i++) {
        uint32_t first = words[2 * i];
        print_directory(first / 65536);
        print_flags((uint16_t)(first % 65536));
        size_t data = words[2 * i + 1];
        printf(", data at %zu\n", data);
        print_rectangle(data);
        print_attach_points(data);
        print_display_names(data);
    }
    return 0;
}

/*
 * The same without the hash: the whole cache is checked, then its records are tried one by one. If it
 * finds the name, the words hold the same images.
 */
static void plain_lookup(const char *name)
{
    size_t place, images, opened;
    uint32_t number = icon_cache_plain_lookup(cache, cache_len, (const uint8_t *)name, strlen(name),
                                              words, sizeof words / sizeof words[0], &place,
                                              &images, &opened);
    if (number != 0) {
        printf("plain lookup: answer %u at %zu, %zu tried\n", (unsigned)number, place, opened);
    } else {
        printf("plain lookup: record at %zu, %zu tried\n", place, opened);
    }
}

/*
 * Whatever the cache, the name of a record that was handed back lies inside, and a zero byte ends
 * it.
 */
static const char *name_of(size_t record)
{
    const uint8_t *field = cache + record + 4;
    size_t name = (size_t)field[0] << 24 | (size_t)field[1] << 16 | (size_t)field[2] << 8 | field[3];
    return (const char *)cache + name;
}

/*
 * Prints the next two icons and moves the position behind them. Returns whether there may be
 * more.
 */
static int print_page(size_t *bucket, size_t *count)
{
    printf("page from bucket %zu, count %zu\n", *bucket, *count);
    for (int i = 0; i < 2; i++) {
        size_t place, record;
        uint32_t number = icon_cache_list(cache, cache_len, bucket, count, &place, &record);
        if (number != 0) {
            printf("  answer %u at %zu\n", (unsigned)number, place);
            return 0;
        }
        printf("  %s: record at %zu\n", name_of(record), record);
    }
    return 1;
}

/*
 * The position is all that is kept between the pages. On a chain that never ends the same icons
 * come again.
 */
static void list(void)
{
    size_t bucket = 0, count = 0;
    if (print_page(&bucket, &count)) {
        print_page(&bucket, &count);
    }
}

static unsigned u16_at(size_t offset)
{
    return (unsigned)cache[offset] << 8 | cache[offset + 1];
}

/*
 * Whatever the cache, an image that was picked lies inside, and begins with the index of its
 * directory and its flags.
 */
static void pick(const char *name, uint32_t size, const uint32_t *directories, size_t directories_len)
{
    size_t place;
    uint32_t number = icon_cache_pick(cache, cache_len, (const uint8_t *)name, strlen(name),
                                      size, 1, directories, directories_len, &place);
    printf("pick for size %u: ", (unsigned)size);
    if (number != 0) {
        printf("answer %u at %zu\n", (unsigned)number, place);
    } else if (place == 0) {
        printf("none fits\n");
    } else {
        printf("image at %zu, directory %u, flags %u\n", place, u16_at(place), u16_at(place + 2));
    }
}

/*
 * The words of two directories: type, Size, Scale, MinSize, MaxSize, Threshold. In a real program
 * they come from the theme's index.theme.
 */
static void pick_some(const char *name)
{
    static const uint32_t directories[] = {
        0, 16, 1, 16, 16, 2,  /* Fixed */
        1, 64, 1, 32, 256, 2, /* Scalable */
    };
    static const uint32_t unknown_type[] = {0, 16, 1, 16, 16, 2, 3, 64, 1, 32, 256, 2};
    pick(name, 16, directories, 12);
    pick(name, 48, directories, 12);
    pick(name, 512, directories, 12);
    pick(name, 16, directories, 6); /* too few words */
    pick(name, 16, unknown_type, 12);
}

static uint8_t catalogue[LARGEST];
static uint8_t written[LARGEST];

/* Prints what a call that writes has answered. Returns whether it has written. */
static int say_written(const char *call, uint32_t number, size_t place, size_t length)
{
    if (number != 0) {
        printf("%s: answer %u at %zu\n", call, (unsigned)number, place);
        return 0;
    }
    printf("%s: %zu bytes\n", call, length);
    return 1;
}

/*
 * Lists the cache as a catalogue, and writes a cache from that with seven buckets, which is listed
 * alike. A bucket count of 0 and a catalogue without its last byte are refused.
 */
static void write_again(void)
{
    size_t place, listed, length;
    uint32_t number = icon_cache_catalogue(cache, cache_len, catalogue, sizeof catalogue,
                                           &place, &listed);
    if (!say_written("catalogue", number, place, listed)) {
        return;
    }
    number = icon_cache_write(catalogue, listed, 0, written, sizeof written, &place, &length);
    say_written("write with no buckets", number, place, length);
    number = icon_cache_write(catalogue, listed - 1, 7, written, sizeof written, &place, &length);
    say_written("write what is cut off", number, place, length);
    number = icon_cache_write(catalogue, listed, 7, written, sizeof written, &place, &length);
    if (say_written("write with 7 buckets", number, place, length)) {
        number = icon_cache_catalogue(written, length, catalogue, sizeof catalogue, &place, &listed);
        say_written("catalogue of that", number, place, listed);
    }
}

static uint32_t report[LARGEST / 2]; /* enough unless parts of the cache overlap or are shared */

/*
 * Saves what is sound, prints the rows of what went, and writes a cache of what is left, which the
 * check accepts.
 */
static void repair(void)
{
    size_t place, saved, rows, length, directories, icons, opened, longest;
    uint32_t number = icon_cache_salvage(cache, cache_len, catalogue, sizeof catalogue, report,
                                         sizeof report / sizeof report[0], &place, &saved, &rows);
    if (!say_written("salvage", number, place, saved)) {
        return;
    }
    for (size_t i = 0; i < rows; i++) {
        printf("  gone: %u at %u\n", (unsigned)report[2 * i], (unsigned)report[2 * i + 1]);
    }
    number = icon_cache_write(catalogue, saved, 3, written, sizeof written, &place, &length);
    if (say_written("write what is left", number, place, length)) {
        number = icon_cache_check(written, length, &place, &directories, &icons, &opened, &longest);
        printf("check of that: answer %u, %zu icons, %zu directories\n",
               (unsigned)number, icons, directories);
    }
}

/* Rewrites the cache without dead bytes; with image data it is refused. */
static void squeeze(void)
{
    size_t place, length, again;
    uint32_t number = icon_cache_squeeze(cache, cache_len, written, sizeof written,
                                         &place, &length);
    if (say_written("squeeze", number, place, length)) {
        number = icon_cache_squeeze(written, length, catalogue, sizeof catalogue, &place, &again);
        say_written("squeeze of that", number, place, again);
    }
}

int main(int argc, char **argv)
{
    if (argc != 3) {
        fprintf(stderr, "usage: example CACHE NAME\n");
        return 2;
    }
    if (!read_cache(argv[1])) {
        return 2;
    }
    int refused = check();
    check_long();
    int not_found = lookup(argv[2]);
    plain_lookup(argv[2]);
    list(); /* what it refuses, the check has refused too */
    pick_some(argv[2]);
    write_again();
    repair();
    squeeze();
    return refused || not_found;
}
