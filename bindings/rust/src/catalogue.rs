use crate::{raw, Image, Refusal, LARGEST};

/// What a cache is written from: the paths of its directories, and its icons, in
/// order. Any may be filled in; [`to_bytes`](Catalogue::to_bytes) judges them.
///
/// As bytes, with all numbers big-endian, a catalogue is
///
/// - a number of 2 bytes, how many directories there are, and for each its path
///   behind a number of 2 bytes, how long it is (1 to 1,023);
/// - a number of 2 bytes, how many icons there are, and for each a length byte (1 to
///   255), its name, a number of 2 bytes, how many images it has (up to 1,024), and
///   for each 8 bytes, as in a cache: directory index, flags, offset of image data.
///
/// No text holds a zero byte, and paths keep the rules of [`directory`]. An image names
/// one of the directories, or [`Image::NO_DIRECTORY`] where there are none, and its
/// flags are at most 15. No two icons have one name. An image's offset may be any
/// number and is handed on as it is; the data is not, and what follows the offset, as
/// [`check_long`](crate::check_long) and `gtk-update-icon-cache --validate` do, may
/// refuse the cache.
///
/// ```
/// use icon_cache::{check, lookup, write, Catalogue, Icon, Image};
///
/// let image = Image { directory: 0, flags: 1, data_offset: 0 };
/// let catalogue = Catalogue {
///     directories: vec![b"16".to_vec()],
///     icons: vec![Icon { name: b"cow".to_vec(), images: vec![image] }],
/// };
/// let bytes = catalogue.to_bytes()?;
/// assert_eq!(bytes, b"\0\x01\0\x0216\0\x01\x03cow\0\x01\0\0\0\x01\0\0\0\0");
/// assert_eq!(Catalogue::from_bytes(&bytes)?, catalogue);
///
/// let cache = write(&bytes, 1)?;
/// assert_eq!(check(&cache)?.icons, 1);
/// assert_eq!(lookup(&cache, b"cow")?.images, [image]);
/// # Ok::<(), icon_cache::Refusal>(())
/// ```
///
/// [`directory`]: crate::directory
#[derive(Clone, Debug, Default, PartialEq, Eq)]
pub struct Catalogue {
    /// The paths of the directories. An image names one by its index.
    pub directories: Vec<Vec<u8>>,
    /// The icons.
    pub icons: Vec<Icon>,
}

/// An icon of a [`Catalogue`].
#[derive(Clone, Debug, Default, PartialEq, Eq)]
pub struct Icon {
    /// Its name, 1 to 255 bytes.
    pub name: Vec<u8>,
    /// Its images, at most 1,024.
    pub images: Vec<Image>,
}

impl Catalogue {
    /// Reads a catalogue. What is not one is refused as by [`write`].
    ///
    /// ```
    /// use icon_cache::{Catalogue, Refusal};
    ///
    /// // The path is two bytes long, and one of them is there.
    /// let refusal = Catalogue::from_bytes(b"\0\x01\0\x021").unwrap_err();
    /// assert_eq!((refusal.number, refusal.place), (Refusal::BAD_FIELD, 4));
    /// ```
    pub fn from_bytes(bytes: &[u8]) -> Result<Catalogue, Refusal> {
        judge(bytes)?;
        let mut rest = Rest(bytes);
        let count = rest.u16();
        let directories = (0..count).map(|_| {
            let length = rest.u16();
            rest.take(length.into()).to_vec()
        });
        let directories = directories.collect();
        let count = rest.u16();
        let icons = (0..count).map(|_| rest.icon()).collect();
        Ok(Catalogue { directories, icons })
    }

    /// The catalogue as bytes, if it keeps the rules. Else it is refused as by
    /// [`write`], with its place in these bytes.
    ///
    /// ```
    /// use icon_cache::{Catalogue, Icon, Refusal};
    ///
    /// let cow = Icon { name: b"cow".to_vec(), images: vec![] };
    /// let catalogue = Catalogue { directories: vec![], icons: vec![cow.clone(), cow] };
    /// let refusal = catalogue.to_bytes().unwrap_err();
    /// assert_eq!((refusal.number, refusal.place), (Refusal::REPEATED_NAME, 11));
    /// ```
    pub fn to_bytes(&self) -> Result<Vec<u8>, Refusal> {
        let mut bytes = Vec::new();
        // A count or a length that its field can't say is left out, and so are the
        // fields behind: there the bytes are refused as cut off.
        let _ = self.put(&mut bytes);
        judge(&bytes)?;
        Ok(bytes)
    }

    fn put(&self, bytes: &mut Vec<u8>) -> Option<()> {
        put_u16(bytes, self.directories.len())?;
        for path in &self.directories {
            put_u16(bytes, path.len())?;
            bytes.extend(path);
        }
        put_u16(bytes, self.icons.len())?;
        for icon in &self.icons {
            bytes.push(icon.name.len().try_into().ok()?);
            bytes.extend(&icon.name);
            put_u16(bytes, icon.images.len())?;
            for image in &icon.images {
                bytes.extend(image.directory.to_be_bytes());
                bytes.extend(image.flags.to_be_bytes());
                bytes.extend(image.data_offset.to_be_bytes());
            }
        }
        Some(())
    }
}

fn put_u16(bytes: &mut Vec<u8>, number: usize) -> Option<()> {
    let number: u16 = number.try_into().ok()?;
    bytes.extend(number.to_be_bytes());
    Some(())
}

/// The most buckets that a cache is [written](write) with.
pub const MOST_BUCKETS: usize = 4_096;

/// Writes the cache of a catalogue: header, hash, records, image lists, directory list
/// and strings, in the catalogue's order without gaps. [`check`](crate::check) accepts
/// it, and [`lookup`](crate::lookup) gives each name its images.
///
/// There may be 1 to [`MOST_BUCKETS`] buckets; about as many as icons serve lookups best.
/// It needs 300 KiB of stack. Refused are, in this order,
///
/// - the first field of the catalogue that is cut off, breaks a rule or follows the end
///   ([`BAD_FIELD`](Refusal::BAD_FIELD)): the place is its first byte, and
///   [`Field::at`](crate::Field::at) tells which it is;
/// - the first name that was used before ([`REPEATED_NAME`](Refusal::REPEATED_NAME)):
///   the place is the first byte of its text;
/// - the bucket count ([`BAD_FIELD`](Refusal::BAD_FIELD) at 0);
/// - a cache above [`LARGEST`] bytes ([`DOES_NOT_FIT`](Refusal::DOES_NOT_FIT)).
///
/// ```
/// use icon_cache::{check, write, Refusal};
///
/// // No directory and no icon.
/// let cache = write(b"\0\0\0\0", 1)?;
/// assert_eq!(cache.len(), 24);
/// assert_eq!(check(&cache)?.icons, 0);
/// assert_eq!(write(b"\0\0\0\0", 4_097).unwrap_err().number, Refusal::BAD_FIELD);
/// # Ok::<(), Refusal>(())
/// ```
pub fn write(catalogue: &[u8], buckets: usize) -> Result<Vec<u8>, Refusal> {
    // An icon takes 14 bytes more in a cache than in a catalogue, where it has 4 at
    // least, and a directory 3 more; both counts take 4 bytes, and the header, the
    // bucket count and the directory count 20.
    let most = 20 + 4 * buckets.min(MOST_BUCKETS) + 5 * catalogue.len();
    let mut cache = vec![0; most.min(LARGEST)];
    let answer = raw::write(catalogue, buckets, &mut cache);
    kept(answer)?;
    cache.truncate(answer.length);
    cache.shrink_to_fit();
    Ok(cache)
}

/// With 65,535 directories and as many icons, all as long as they may be.
pub(crate) const LARGEST_CATALOGUE: usize = 4 + 65_535 * (2 + 1_023 + 1 + 255 + 2 + 8 * 1_024);

/// Lists a cache as a catalogue: its directories, and its icons by rising offset of
/// their records. A cache that was [written](write) gives back the bytes that it was
/// written from.
///
/// Refused are, in this order, what [`check`](crate::check) refuses; a name that two
/// records bear ([`REPEATED_NAME`](Refusal::REPEATED_NAME)): the place is that of the
/// later one's field, 4 bytes into its record; and more than 65,535 icons
/// ([`TOO_MANY_ICONS`](Refusal::TOO_MANY_ICONS)).
///
/// It needs 300 KiB of stack. A cache that was made to cost time can take some seconds,
/// and since its parts may be shared, its catalogue may be much longer than the
/// cache, up to 621 MB. From one that is too long no cache is written
/// ([`DOES_NOT_FIT`](Refusal::DOES_NOT_FIT)).
///
/// ```
/// use icon_cache::{catalogue_of, write, Catalogue, FARM_CACHE};
///
/// let bytes = catalogue_of(FARM_CACHE)?;
/// let catalogue = Catalogue::from_bytes(&bytes)?;
/// assert_eq!(catalogue.directories, [b"16", b"64"]);
/// let names: Vec<&[u8]> = catalogue.icons.iter().map(|icon| &*icon.name).collect();
/// assert_eq!(names, [b"hen", b"oat", b"cow"]);
///
/// // With another number of buckets.
/// let cache = write(&bytes, 7)?;
/// assert_eq!(catalogue_of(&cache)?, bytes);
/// # Ok::<(), icon_cache::Refusal>(())
/// ```
pub fn catalogue_of(cache: &[u8]) -> Result<Vec<u8>, Refusal> {
    let mut room = cache.len();
    loop {
        let mut catalogue = vec![0; room];
        let answer = raw::catalogue_of(cache, &mut catalogue);
        if answer.number != Refusal::DOES_NOT_FIT {
            kept(answer)?;
            catalogue.truncate(answer.length);
            catalogue.shrink_to_fit();
            return Ok(catalogue);
        }
        room = LARGEST_CATALOGUE.min(4 * room);
    }
}

/// What is refused of the catalogue itself. Each good one needs room, so this is the
/// answer to one if none is lent.
fn judge(catalogue: &[u8]) -> Result<(), Refusal> {
    let answer = raw::write(catalogue, 1, &mut []);
    match answer.number {
        Refusal::DOES_NOT_FIT => Ok(()),
        _ => kept(answer),
    }
}

pub(crate) fn kept(answer: raw::Written) -> Result<(), Refusal> {
    match answer.number {
        0 => Ok(()),
        number => Err(Refusal {
            number,
            place: answer.place,
            opened: 0,
        }),
    }
}

/// What is left to read of a catalogue that was judged good.
struct Rest<'a>(&'a [u8]);

impl<'a> Rest<'a> {
    fn take(&mut self, length: usize) -> &'a [u8] {
        let (part, rest) = self.0.split_at(length);
        self.0 = rest;
        part
    }

    fn array<const N: usize>(&mut self) -> [u8; N] {
        self.take(N).try_into().expect("as many as were taken")
    }

    fn u16(&mut self) -> u16 {
        u16::from_be_bytes(self.array())
    }

    fn image(&mut self) -> Image {
        Image {
            directory: self.u16(),
            flags: self.u16(),
            data_offset: u32::from_be_bytes(self.array()),
        }
    }

    fn icon(&mut self) -> Icon {
        let [length] = self.array();
        let name = self.take(length.into()).to_vec();
        let count = self.u16();
        let images = (0..count).map(|_| self.image()).collect();
        Icon { name, images }
    }
}
