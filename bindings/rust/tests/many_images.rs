//! The safe lookup of icons with many images. It has room for 32 at once and
//! asks again for more.

use icon_cache::{lookup, plain_lookup, Found, Image};

/// Images that all differ, so that each must stand in its place.
fn images(count: usize) -> Vec<Image> {
    let image = |i| Image {
        directory: Image::NO_DIRECTORY,
        flags: (i % 16) as u16,
        data_offset: 7 * i as u32 + 1,
    };
    (0..count).map(image).collect()
}

fn numbers(fields: &[u32]) -> Vec<u8> {
    let bytes = fields.iter().flat_map(|field| field.to_be_bytes());
    bytes.collect()
}

/// One bucket, no directories, and two records: "m" without images leads to "n"
/// with these.
fn cache(images: &[Image]) -> Vec<u8> {
    let end = 0xFFFF_FFFF;
    let strings = u32::from_be_bytes(*b"m\0n\0");
    let mut fields = vec![0x0001_0000, 16, 12, 0, 1, 28, strings];
    // The records at 28 and 40, the image list at 52.
    fields.extend([40, 24, 12, end, 26, 52, images.len() as u32]);
    for image in images {
        let index_and_flags = u32::from(image.directory) << 16 | u32::from(image.flags);
        fields.extend([index_and_flags, image.data_offset]);
    }
    numbers(&fields)
}

fn demand_found(count: usize) {
    let images = images(count);
    let expected = Found {
        record: 40,
        images: images.clone(),
        opened: 2,
    };
    let cache = cache(&images);
    assert_eq!(lookup(&cache, b"n").as_ref(), Ok(&expected), "{count}");
    // "m" is tried before it, as by the hash.
    assert_eq!(plain_lookup(&cache, b"n"), Ok(expected), "{count}");
}

#[test]
fn few_images() {
    for count in [0, 1, 31] {
        demand_found(count);
    }
}

#[test]
fn as_many_as_there_is_room_for_at_once() {
    demand_found(32);
}

#[test]
fn one_more_than_there_is_room_for_at_once() {
    demand_found(33);
}

#[test]
fn the_most_images_allowed() {
    demand_found(1_023);
    demand_found(1_024);
}

#[test]
fn one_image_too_many() {
    let refusal = lookup(&cache(&images(1_025)), b"n").unwrap_err();
    assert_eq!((refusal.number, refusal.place), (10, 48));
    assert_eq!(refusal.opened, 2);
}

/// The whole list is judged before the room is.
#[test]
fn an_image_beyond_the_room_is_not_allowed() {
    let mut images = images(40);
    images[39].flags = 16;
    let refusal = lookup(&cache(&images), b"n").unwrap_err();
    let image = 52 + 4 + 8 * 39;
    assert_eq!((refusal.number, refusal.place), (11, image));
}
