//! Where the monitor is, told to the firmware: the discovery fields of the secrets page (document 02, 2026-01).

use crate::Plan;

/// What [`announce`] and [`discover`] answer. Where more than one refusal would fit, it is the one that is tested first: in both a length (7) before all
/// others, and 1 to 5 in this order; no monitor (6) is tested after them by the writer, and before them by the reader. Unless it is [`Located::Told`], nothing
/// has changed.
#[derive(Clone, Copy, Debug, PartialEq, Eq, Hash)]
pub enum Located {
    /// 0: it is written, or read.
    Told,
    /// 1: the base is not a multiple of 4,096.
    UnalignedBase,
    /// 2: the size is not a multiple of 4,096.
    UnalignedSize,
    /// 3: the area is not a multiple of 4,096.
    UnalignedArea,
    /// 4: the range passes the end of 64-bit addresses: base plus size is above 2^64.
    PastEnd,
    /// 5: the area is inside the range: at the base or above it, and below base plus size.
    AreaInside,
    /// 6: the size is 0, which means no monitor.
    NoMonitor,
    /// 7: the page is not 4,096 bytes, or the fields are not 32.
    WrongLength,
}

impl Located {
    /// The number that document 02 gives the answer.
    pub fn number(self) -> u32 {
        match self {
            Located::Told => 0,
            Located::UnalignedBase => 1,
            Located::UnalignedSize => 2,
            Located::UnalignedArea => 3,
            Located::PastEnd => 4,
            Located::AreaInside => 5,
            Located::NoMonitor => 6,
            Located::WrongLength => 7,
        }
    }

    fn from_number(step: &str, number: u32) -> Located {
        match number {
            0 => Located::Told,
            1 => Located::UnalignedBase,
            2 => Located::UnalignedSize,
            3 => Located::UnalignedArea,
            4 => Located::PastEnd,
            5 => Located::AreaInside,
            6 => Located::NoMonitor,
            7 => Located::WrongLength,
            _ => panic!("{step} answered {number}, which document 02 does not know"),
        }
    }
}

/// What the writer is given beside the page.
#[derive(Clone, Copy, Debug, PartialEq, Eq, Hash)]
pub struct Place {
    /// The address where the monitor's pages start.
    pub base: u64,
    /// How many bytes they are.
    pub size: u64,
    /// The address of the startup vCPU's calling area.
    pub area: u64,
    /// The VMPL of the guest. Any is taken.
    pub vmpl: u8,
}

impl Place {
    /// The place of a machine that was launched by this plan. The VMPL is the startup vCPU's: byte +1 of record 0, after the launch.
    ///
    /// After a launch that answered [`Launched::Made`](crate::Launched::Made) the writer takes it. A product past 64 bits, which no such launch has, becomes
    /// 2^64 - 1: no multiple of 4,096, so that it is refused.
    pub fn launched(plan: &Plan, vmpl: u8) -> Place {
        let bytes = |pages: usize| (pages as u64).saturating_mul(4096);
        Place {
            base: bytes(plan.monitor_first),
            size: bytes(plan.monitor_count),
            area: bytes(plan.calling_page),
            vmpl,
        }
    }
}

/// What the reader finds in a page.
#[derive(Clone, Copy, Debug, PartialEq, Eq, Hash)]
pub struct Discovery {
    /// The address where the monitor's pages start, a multiple of 4,096.
    pub base: u64,
    /// How many bytes they are, a multiple of 4,096 and not 0.
    pub size: u64,
    /// The address of the calling area, a multiple of 4,096, outside the monitor's pages.
    pub area: u64,
    /// The highest version of the protocol, as it stands in the page. The writer's is 1.
    pub version: u32,
    /// The VMPL of the guest, as it stands in the page.
    pub vmpl: u8,
}

impl Discovery {
    /// The fields that [`discover_into`] has filled: base, size and area of eight bytes each, version of four and VMPL of one, little-endian; then three of 0.
    pub fn from_bytes(fields: &[u8; 32]) -> Discovery {
        let eight = |at: usize| {
            let bytes = fields[at..at + 8].try_into().expect("these are eight");
            u64::from_le_bytes(bytes)
        };
        Discovery {
            base: eight(0),
            size: eight(8),
            area: eight(16),
            version: u32::from_le_bytes([fields[24], fields[25], fields[26], fields[27]]),
            vmpl: fields[28],
        }
    }
}

/// Writes where the monitor is into a secrets page, for the firmware.
///
/// The page is 4,096 bytes. Bytes 0x140 to 0x15F of it become base, size and area (eight bytes each), the version 1 (four), the VMPL (one) and three of 0,
/// little-endian; the other 4,064 stay, the keys of VMPL 0 among them: to clear those is the host's part. Unless the answer is [`Located::Told`], all of them stay.
///
/// ```
/// use monitor::{announce, discover, launch, Discovery, Launched, Located, Place};
/// # let (mut memory, mut table, mut sheet) = (vec![0; 65536], [0; 16], [0; 512]);
/// # (memory[0xB0CA], memory[0xB0D1]) = (1, 0x10);
/// # let (monitor_first, monitor_count) = (12, 4);
/// # let plan = monitor::Plan { pages: 16, monitor_first, monitor_count, vmsa_page: 11, calling_page: 10, apic_id: 0, valid_below: 8 };
///
/// // The machine at the start of this documentation, and a secrets page that says nothing yet.
/// assert_eq!(launch(&mut memory, &mut table, &mut sheet, &plan), Launched::Made);
/// let mut page = [0; 4096];
/// assert_eq!(discover(&page), Err(Located::NoMonitor));
///
/// let place = Place::launched(&plan, sheet[1]); // record 0's VMPL
/// assert_eq!(announce(&mut page, &place), Located::Told);
/// let found = Discovery { base: 0xC000, size: 0x4000, area: 0xA000, version: 1, vmpl: 1 };
/// assert_eq!(discover(&page), Ok(found));
///
/// let inside = Place { area: 0xF000, ..place };
/// assert_eq!(announce(&mut page, &inside), Located::AreaInside);
/// assert_eq!(discover(&page), Ok(found)); // nothing has changed
/// ```
pub fn announce(page: &mut [u8], place: &Place) -> Located {
    // SAFETY: the pointer comes with the length of the slice that it is from.
    let number = unsafe {
        monitor_sys::monitor_announce(
            page.as_mut_ptr(),
            page.len(),
            place.base,
            place.size,
            place.area,
            place.vmpl,
        )
    };
    Located::from_number("announce", number)
}

/// Reads from a secrets page where the monitor is, as firmware would.
///
/// A page with size 0 is [`Located::NoMonitor`], whatever else stands there. Version, VMPL and the three reserved bytes are not judged. The error is never
/// [`Located::Told`]; [`Located::WrongLength`] is the page's.
pub fn discover(page: &[u8]) -> Result<Discovery, Located> {
    let mut fields = [0; 32];
    match discover_into(page, &mut fields) {
        Located::Told => Ok(Discovery::from_bytes(&fields)),
        refused => Err(refused),
    }
}

/// What [`discover`] does, as the core exports it: where the answer is [`Located::Told`], the 32 bytes of `fields` become bytes 0x140 to 0x15C of the page and
/// three of 0. Else they stay. Fields of another length are [`Located::WrongLength`], as a page of another length is.
pub fn discover_into(page: &[u8], fields: &mut [u8]) -> Located {
    // SAFETY: each pointer comes with the length of the slice that it is from; the fields are borrowed mutably, so the page does not overlap them.
    let number = unsafe {
        monitor_sys::monitor_discover(page.as_ptr(), page.len(), fields.as_mut_ptr(), fields.len())
    };
    Located::from_number("discover", number)
}

#[cfg(test)]
mod tests {
    use super::{Discovery, Located, Place};
    use crate::Plan;

    #[test]
    fn each_answer_has_its_number() {
        for number in 0..8 {
            assert_eq!(Located::from_number("announce", number).number(), number);
        }
    }

    #[test]
    #[should_panic(expected = "announce answered 8, which document 02 does not know")]
    fn an_answer_that_is_not_known_is_a_panic() {
        Located::from_number("announce", 8);
    }

    #[test]
    fn a_place_past_64_bits_is_no_multiple() {
        let plan = Plan {
            pages: 16,
            monitor_first: 1 << 52,
            monitor_count: usize::MAX,
            vmsa_page: 11,
            calling_page: (1 << 52) - 1,
            apic_id: 0,
            valid_below: 8,
        };
        let place = Place {
            base: u64::MAX,
            size: u64::MAX,
            area: 0xFFFF_FFFF_FFFF_F000,
            vmpl: 3,
        };
        assert_eq!(Place::launched(&plan, 3), place);
    }

    #[test]
    fn each_field_is_read_from_its_bytes() {
        let fields = std::array::from_fn(|at| at as u8 + 1);
        let found = Discovery {
            base: 0x0807_0605_0403_0201,
            size: 0x100F_0E0D_0C0B_0A09,
            area: 0x1817_1615_1413_1211,
            version: 0x1C1B_1A19,
            vmpl: 0x1D,
        };
        assert_eq!(Discovery::from_bytes(&fields), found);
    }
}
