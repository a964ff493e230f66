//! The one table of devices (document 01, "What the bench models"; document 02, W-202, W-203 and W-206). Every rule
//! that differs between devices reads a column of it; none asks which device it is.

/// The block protection bits BP1 and BP0 of the status register.
pub const BP: u8 = 0b0000_1100;
/// The status register write disable bit.
pub const SRWD: u8 = 0b1000_0000;

/// What the identification page of the M95M02 starts with when prepared.
pub(crate) const IDENTIFICATION_CODE: [u8; 3] = [0x20, 0x00, 0x12];

/// One row of the table.
#[derive(Clone, Debug, PartialEq, Eq)]
pub struct Device {
    pub number: u8,
    pub name: &'static str,
    /// Bytes of the array; a power of two on all devices.
    pub cells: usize,
    /// Bytes of a page of cells, and of each half of the write latch.
    pub page: usize,
    pub address_bytes: u8,
    /// Microseconds that a cycle takes.
    pub write_time: u32,
    pub has_srwd: bool,
    /// Bytes of the identification page: a page, or 0 where there is none.
    pub identification: usize,
    /// What the identification page starts with when prepared; FFh follows.
    pub identification_code: &'static [u8],
    /// The row of the service sheet: the first protected address for the block settings 00, 01, 10 and 11, each a
    /// multiple of the page. Where the sheet says "none" it is the number of cells, which no address reaches.
    pub sheet: [usize; 4],
    /// Whether deselecting in hold starts a write whose bytes are all in; elsewhere it drops every command (document
    /// 02, W-206).
    pub writes_in_hold: bool,
}

/// The table itself, in the order of the device numbers.
pub const DEVICES: [Device; 7] = [
    Device {
        number: 1,
        name: "M95040-DF",
        cells: 512,
        page: 16,
        address_bytes: 1,
        write_time: 5000,
        has_srwd: false,
        identification: 16,
        identification_code: &[],
        sheet: [0x200, 0x180, 0x100, 0],
        writes_in_hold: false,
    },
    Device {
        number: 2,
        name: "M95128-D",
        cells: 16_384,
        page: 64,
        address_bytes: 2,
        write_time: 5000,
        has_srwd: true,
        identification: 64,
        identification_code: &[],
        sheet: [0x4000, 0x3000, 0x2000, 0],
        writes_in_hold: true,
    },
    Device {
        number: 3,
        name: "M95M01",
        cells: 131_072,
        page: 256,
        address_bytes: 3,
        write_time: 4000,
        has_srwd: true,
        identification: 256,
        identification_code: &[],
        sheet: [0x20000, 0x18000, 0x10000, 0],
        writes_in_hold: false,
    },
    Device {
        number: 4,
        name: "M95M02",
        cells: 262_144,
        page: 256,
        address_bytes: 3,
        write_time: 5000,
        has_srwd: true,
        identification: 256,
        identification_code: &IDENTIFICATION_CODE,
        sheet: [0x40000, 0x30000, 0x20000, 0],
        writes_in_hold: false,
    },
    Device {
        number: 5,
        name: "M95010",
        cells: 128,
        page: 16,
        address_bytes: 1,
        write_time: 5000,
        has_srwd: false,
        identification: 0,
        identification_code: &[],
        sheet: [0x80, 0x60, 0x40, 0],
        writes_in_hold: false,
    },
    Device {
        number: 6,
        name: "M95020",
        cells: 256,
        page: 16,
        address_bytes: 1,
        write_time: 5000,
        has_srwd: false,
        identification: 0,
        identification_code: &[],
        sheet: [0x100, 0xC0, 0x80, 0],
        writes_in_hold: false,
    },
    Device {
        number: 7,
        name: "M95128",
        cells: 16_384,
        page: 64,
        address_bytes: 2,
        write_time: 5000,
        has_srwd: true,
        identification: 0,
        identification_code: &[],
        sheet: [0x4000, 0x3000, 0x2000, 0],
        writes_in_hold: true,
    },
];

/// The row of a device number, or none where the table has none.
pub fn device(number: u8) -> Option<&'static Device> {
    DEVICES.iter().find(|row| row.number == number)
}

impl Device {
    /// Pages of cells, each with a count of its own (document 02, W-204).
    pub fn pages(&self) -> usize {
        self.cells / self.page
    }

    /// The status bits that this device stores.
    pub fn status_bits(&self) -> u8 {
        if self.has_srwd {
            SRWD | BP
        } else {
            BP
        }
    }

    /// Whether each of these status bits is one that this device stores.
    pub fn has_bits(&self, status: u8) -> bool {
        status & !self.status_bits() == 0
    }

    /// Whether the device is of the sheet of the smallest ones, those with a single address byte: there W guards the
    /// writes themselves, and bit 3 tells no two of the short codes apart (document 02, W-202).
    pub fn has_one_address_byte(&self) -> bool {
        self.address_bytes == 1
    }

    /// Whether the address bytes cannot name all the cells, so that the code has to bring the bit that is missing, A8.
    pub fn code_brings_a8(&self) -> bool {
        self.cells > 1 << (8 * self.address_bytes)
    }

    /// Whether there is an identification page, and with it the four instructions on it and a lock.
    pub fn has_identification(&self) -> bool {
        self.identification > 0
    }

    /// The address bit that makes an identification instruction a lock instruction ("Instructions", Address). A single
    /// address byte does not reach up to the usual one.
    pub fn lock_bit(&self) -> usize {
        if self.has_one_address_byte() {
            1 << 7
        } else {
            1 << 10
        }
    }

    /// Whole bytes of a command before its data: the code and the address.
    pub fn bytes_before_data(&self) -> u8 {
        1 + self.address_bytes
    }

    /// Whether the page that holds `address` is protected by the block protection bits of `status`; any cell of the
    /// page gives its answer.
    pub fn is_protected(&self, status: u8, address: usize) -> bool {
        address >= self.first_protected(status)
    }

    /// The entry of the sheet for the block setting that `status` holds.
    pub fn first_protected(&self, status: u8) -> usize {
        self.sheet[usize::from((status & BP) >> 2)]
    }
}
