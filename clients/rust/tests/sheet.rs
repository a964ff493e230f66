//! The technician's page, docs/SERVICE-SHEET.md, beside the library: under every setting each page of each device is written to at its first
//! and at its last cell, and a cycle starts exactly where the page says that nothing is protected yet. The page's status bytes are sent to
//! each device too. The devices' names are held to the second model's, which no call of the library tells.

mod common;

use common::Buffers;
use m95_model::DEVICES;
use proved::{kind, pin};

const PAGE: &str = include_str!("../../../docs/SERVICE-SHEET.md");
const IN_PROGRESS: usize = 1;

/// A line of the page's table: the first protected address under each setting of BP1 and BP0, or none.
struct Line {
    device: usize,
    name: &'static str,
    last: usize,
    first: [Option<usize>; 4],
}

/// An address as the page prints it, `180h` or `0`; any other word is none.
fn address(word: &str) -> Option<usize> {
    match word.strip_suffix('h') {
        Some(digits) => usize::from_str_radix(digits, 16).ok(),
        None => (word == "0").then_some(0),
    }
}

/// The lines of the table whose heading begins with this, each as its words.
fn table(heading: &str) -> Vec<Vec<&'static str>> {
    let table = PAGE.lines().skip_while(|line| !line.starts_with(heading));
    let lines = table.skip(2).take_while(|line| line.starts_with('|'));
    let words = |line: &'static str| line.trim_matches('|').split('|').map(str::trim).collect();
    lines.map(words).collect()
}

fn line_of(words: Vec<&'static str>) -> Line {
    assert_eq!(words.len(), 7, "{words:?}");
    let first = [3, 4, 5, 6].map(|column| address(words[column]));
    for (word, first) in words[3..].iter().zip(first) {
        assert!(first.is_some() || *word == "none", "{words:?}: {word}");
    }
    Line {
        device: words[0].parse().unwrap(),
        name: words[1],
        last: address(words[2]).unwrap(),
        first,
    }
}

fn lines() -> Vec<Line> {
    let lines = table("| number | device |");
    lines.into_iter().map(line_of).collect()
}

/// A chip. What its cells hold does not matter here, so that one does for all writes.
struct Chip {
    device: usize,
    buffers: Buffers,
}

impl Chip {
    fn new(device: usize) -> Chip {
        let mut buffers = Buffers::new(device);
        assert_eq!(proved::prepare(device, &mut buffers.lent()), 0);
        Chip { device, buffers }
    }

    /// The code and the address bytes of a WRITE. One address byte has A8 in bit 3 of the code.
    fn write(&self, address: usize) -> Vec<u8> {
        let bytes = match self.buffers.cells.len() {
            0..=512 => 1,
            513..=65_536 => 2,
            _ => 3,
        };
        let code = 0x02 | (bytes == 1 && address > 0xFF) as u8 * 0x08;
        let mut command = vec![code];
        command.extend((0..bytes).rev().map(|byte| (address >> (8 * byte)) as u8));
        command
    }

    /// A whole selection in which these bytes are sent.
    fn send(&mut self, bytes: &[u8]) {
        let mut pins = vec![pin::S];
        for byte in bytes {
            for bit in (0..8).rev() {
                pins.extend([pin::D + (byte >> bit & 1) as usize, pin::C + 1, pin::C]);
            }
        }
        pins.push(pin::S + 1);
        let record = |pin: &usize| [3, 0, kind::SET_PIN as u8, 0, *pin as u8];
        let trace: Vec<u8> = pins.iter().flat_map(record).collect();
        let mut answers = vec![0; pins.len()];
        let (device, mut lent) = (self.device, self.buffers.lent());
        let ran = proved::run(device, &mut lent, &trace, &mut answers, pins.len());
        assert_eq!((ran.number, ran.done), (0, pins.len()));
    }

    /// The status bits stored after a WRSR with this byte, or none where it starts no cycle.
    fn stores(&mut self, status: usize) -> Option<usize> {
        assert_eq!(proved::load(self.device, &mut self.buffers.state, 0, 0), 0);
        self.send(&[0x06]);
        self.send(&[0x01, status as u8]);
        let started = proved::status_byte(&self.buffers.state).unwrap() & IN_PROGRESS != 0;
        let (device, mut lent) = (self.device, self.buffers.lent());
        assert_eq!(proved::event(device, &mut lent, kind::WAIT, 5000).0, 0);
        started.then(|| proved::stored(&self.buffers.state).unwrap().0)
    }

    /// Whether a WRITE of one byte to an address starts a cycle, with this setting of the block protection bits stored.
    fn takes(&mut self, setting: usize, address: usize) -> bool {
        assert_eq!(
            proved::load(self.device, &mut self.buffers.state, setting << 2, 0),
            0
        );
        self.send(&[0x06]);
        let mut command = self.write(address);
        command.push(0x55);
        self.send(&command);
        proved::status_byte(&self.buffers.state).unwrap() & IN_PROGRESS != 0
    }
}

#[test]
fn each_page_is_protected_where_the_sheet_says() {
    for line in lines() {
        let mut chip = Chip::new(line.device);
        let page = proved::page(line.device);
        for (setting, first) in line.first.iter().enumerate() {
            for start in (0..=line.last).step_by(page) {
                for address in [start, start + page - 1] {
                    let open = first.is_none_or(|first| address < first);
                    assert_eq!(
                        chip.takes(setting, address),
                        open,
                        "device {}, BP {setting:02b}, {address:X}h",
                        line.device
                    );
                }
            }
        }
    }
}

#[test]
fn the_sheet_has_every_device_its_name_and_its_last_cell() {
    let printed: Vec<(usize, &str, usize)> = lines()
        .iter()
        .map(|line| (line.device, line.name, line.last + 1))
        .collect();
    let devices = (1..).take_while(|device| proved::cells(*device) > 0);
    let known: Vec<(usize, &str, usize)> = devices
        .map(|device| (device, DEVICES[device - 1].name, proved::cells(device)))
        .collect();
    assert_eq!(printed, known);
}

#[test]
fn each_status_byte_sets_its_setting() {
    let settings = table("| setting |");
    assert_eq!(settings.len(), 4);
    for (setting, words) in settings.into_iter().enumerate() {
        assert_eq!(words[0], format!("{setting:02b}"));
        let [plain, with_srwd] = [1, 2].map(|column| address(words[column]).unwrap());
        for device in &DEVICES {
            let mut chip = Chip::new(device.number as usize);
            assert_eq!(chip.stores(plain), Some(setting << 2), "{words:?}");
            let stored = if device.has_srwd { 0x80 } else { 0 } | setting << 2;
            assert_eq!(chip.stores(with_srwd), Some(stored), "{words:?}");
        }
    }
}
