//! A device as a link announces it.

use crate::errors::TellError;
use crate::{system, Capabilities};
use paltukwi_sys as sys;
use std::io::{self, ErrorKind};
use std::os::fd::{AsFd, AsRawFd, BorrowedFd, OwnedFd};

/// A device as it is announced. Its regions are told in their order.
#[derive(Clone, Copy, Debug, Default)]
pub struct DeviceSetup<'a> {
    /// Its name; an empty one is none.
    pub name: Option<&'a str>,
    /// What it is capable of: an interface for each.
    pub capabilities: Capabilities,
    /// What it is.
    pub device_type: DeviceType,
    /// Its width and its height in millimetres; both 0 is none.
    pub size: Option<(u32, u32)>,
    /// The regions in which it moves.
    pub regions: &'a [Region<'a>],
    /// The keymap of its keyboard.
    pub keymap: Option<Keymap<'a>>,
}

/// What a device is.
#[derive(Clone, Copy, Debug, Default, PartialEq, Eq, Hash)]
pub enum DeviceType {
    /// It has regions, and its distances are in logical pixels.
    #[default]
    Virtual,
    /// It has a size.
    Physical,
}

/// A region in which a device moves, in logical pixels.
#[derive(Clone, Copy, Debug, PartialEq)]
pub struct Region<'a> {
    /// Where its corner is from the left.
    pub x: u32,
    /// Where its corner is from the top.
    pub y: u32,
    /// How wide it is.
    pub width: u32,
    /// How high it is.
    pub height: u32,
    /// By what the client is to multiply distances in it, else 1.
    pub scale: f32,
    /// By what a client finds the region in what another program told it of the screen; an empty one is none.
    pub mapping_id: Option<&'a str>,
}

/// A keymap: a file of the program's, which stays the program's.
#[derive(Clone, Copy, Debug)]
pub struct Keymap<'a> {
    file: BorrowedFd<'a>,
    size: u32,
}

impl<'a> Keymap<'a> {
    /// The text of a keymap, as libxkbcommon writes it, in a file of so many bytes.
    #[must_use]
    pub fn xkb(file: &'a impl AsFd, size: u32) -> Keymap<'a> {
        Keymap { file: file.as_fd(), size }
    }

    /// A descriptor of the file that is to wait with the bytes, whatever the program does with its own.
    pub(crate) fn duplicate(self) -> Result<OwnedFd, TellError> {
        let duplicate = self.file.try_clone_to_owned();
        duplicate.map_err(|error| TellError::Descriptor { code: error.raw_os_error().unwrap_or(0) })
    }
}

/// A file in memory with the text of a keymap, which nobody can change any more.
#[derive(Debug)]
pub struct KeymapFile {
    file: OwnedFd,
    size: u32,
}

impl KeymapFile {
    /// The text of a keymap, as libxkbcommon writes it, and a zero behind it.
    ///
    /// # Errors
    ///
    /// What the system fails with: so many descriptors are open that there is no room for one more, or memory ran out.
    /// `InvalidInput`, where the text has 4 gigabytes.
    pub fn xkb(text: &str) -> io::Result<KeymapFile> {
        let bytes = [text.as_bytes(), &[0]].concat();
        let size = u32::try_from(bytes.len()).map_err(|_| ErrorKind::InvalidInput)?;
        Ok(KeymapFile { file: system::sealed_file(c"keymap", &bytes)?, size })
    }

    /// The keymap, for any number of devices.
    #[must_use]
    pub fn keymap(&self) -> Keymap<'_> {
        Keymap::xkb(self, self.size)
    }
}

impl AsFd for KeymapFile {
    fn as_fd(&self) -> BorrowedFd<'_> {
        self.file.as_fd()
    }
}

/// Which modifiers hold on a keyboard, as masks, and the number of its layout.
#[derive(Clone, Copy, Debug, Default, PartialEq, Eq, Hash)]
pub struct Modifiers {
    /// Those whose keys are down.
    pub depressed: u32,
    /// Those that hold until they are unlocked.
    pub locked: u32,
    /// Those that hold for the next key.
    pub latched: u32,
    /// The layout.
    pub group: u32,
}

/// The regions of a device, as the library reads them, and their mapping ids, one behind another.
pub(crate) struct Regions {
    raw: Vec<sys::reis_region>,
    mapping_ids: String,
}

impl Regions {
    /// These regions; `MessageTooLong` where their mapping ids have 4 gigabytes.
    pub(crate) fn of(regions: &[Region<'_>]) -> Result<Regions, TellError> {
        let mut of = Regions { raw: Vec::with_capacity(regions.len()), mapping_ids: String::new() };
        for region in regions {
            of.add(region)?;
        }
        Ok(of)
    }

    fn add(&mut self, region: &Region<'_>) -> Result<(), TellError> {
        let id = region.mapping_id.unwrap_or("");
        let number = |count| u32::try_from(count).map_err(|_| TellError::MessageTooLong);
        self.raw.push(sys::reis_region {
            x: region.x,
            y: region.y,
            width: region.width,
            height: region.height,
            scale: region.scale,
            mapping_id: number(self.mapping_ids.len())?,
            mapping_id_length: number(id.len())?,
        });
        self.mapping_ids.push_str(id);
        Ok(())
    }
}

impl DeviceSetup<'_> {
    /// The device as the library reads it, with these regions, which are its own, and the handle of its keymap, if it has
    /// one. What it points to is lent by both.
    pub(crate) fn raw(&self, regions: &Regions, keymap: Option<&OwnedFd>) -> sys::reis_device {
        let name = self.name.unwrap_or("");
        let (width, height) = self.size.unwrap_or((0, 0));
        sys::reis_device {
            size: size_of::<sys::reis_device>(),
            name: name.as_ptr().cast(),
            name_length: name.len(),
            capabilities: self.capabilities.bits(),
            r#type: match self.device_type {
                DeviceType::Virtual => sys::REIS_DEVICE_VIRTUAL,
                DeviceType::Physical => sys::REIS_DEVICE_PHYSICAL,
            },
            width,
            height,
            keymap_type: keymap.map_or(sys::REIS_KEYMAP_NONE, |_| sys::REIS_KEYMAP_XKB),
            keymap: keymap.map_or(0, |file| file.as_raw_fd().unsigned_abs()),
            keymap_size: self.keymap.map_or(0, |keymap| keymap.size),
            regions: regions.raw.as_ptr(),
            region_count: regions.raw.len(),
            mapping_ids: regions.mapping_ids.as_ptr().cast(),
            mapping_ids_length: regions.mapping_ids.len(),
        }
    }
}
