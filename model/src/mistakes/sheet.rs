//! Mistakes of the service sheet (document 02, W-203): the right rules go by a row with wrong entries.

use crate::device::{Device, DEVICES};
use crate::fault::Fault;

/// The row of this device with the mistake in its entries, or none where the mistake is of another kind.
pub(super) fn wrong_row(fault: Fault, device: &Device) -> Option<Device> {
    let sheet = wrong_in_all(fault, device).or_else(|| wrong_in_one(fault, device))?;
    Some(Device {
        sheet,
        ..device.clone()
    })
}

/// The entries with a mistake that any row can have, and those of another row.
fn wrong_in_all(fault: Fault, device: &Device) -> Option<[usize; 4]> {
    let right = device.sheet;
    let [none, quarter, half, all] = right;
    let wrong = match fault {
        Fault::ProtectionOnePageLess => right.map(|entry| entry + device.page),
        Fault::ProtectionOnePageMore => right.map(|entry| entry.saturating_sub(device.page)),
        Fault::ProtectionOneAddressLess => right.map(|entry| entry + 1),
        Fault::ProtectionOneAddressMore => [none, quarter - 1, half - 1, all],
        Fault::ProtectionBitsSwapped => [none, half, quarter, all],
        Fault::ProtectionNoneIsZero => [0, quarter, half, all],
        Fault::ProtectionNoneIsLastAddress => [none - 1, quarter, half, all],
        Fault::ProtectionZeroIsNone => [none, quarter, half, none],
        Fault::ProtectionEntriesInTwoBytes => right.map(|entry| entry & 0xFFFF),
        Fault::Device3And4RowsExchanged if device.number == 3 => entries_of(4),
        Fault::Device3And4RowsExchanged => entries_of(3),
        Fault::Device5And6RowsExchanged if device.number == 5 => entries_of(6),
        Fault::Device5And6RowsExchanged => entries_of(5),
        Fault::Device5And6ProtectionAsDevice1 => entries_of(1),
        _ => return None,
    };
    Some(wrong)
}

fn entries_of(number: u8) -> [usize; 4] {
    DEVICES[usize::from(number) - 1].sheet
}

/// The entries with a mistake in the row of one device: its name is `Device`, the number and what is wrong there. The
/// other devices have theirs. For 00 an entry too high would change nothing, so there it is too low.
fn wrong_in_one(fault: Fault, device: &Device) -> Option<[usize; 4]> {
    let right = device.sheet;
    let ([none, quarter, half, all], page) = (right, device.page);
    let name = format!("{fault:?}");
    let (number, mistake) = name.strip_prefix("Device")?.split_at_checked(1)?;
    let wrong = match mistake {
        "Entry00OnePageLow" => [none - page, quarter, half, all],
        "Entry01OnePageHigh" => [none, quarter + page, half, all],
        "Entry10OnePageHigh" => [none, quarter, half + page, all],
        "Entry11OnePageHigh" => [none, quarter, half, all + page],
        "Entries01And10Exchanged" => [none, half, quarter, all],
        "EntriesMisprinted" => [none, 0x3000, 0x2000, all],
        _ => return None,
    };
    let is_here = number.parse() == Ok(device.number);
    Some(if is_here { wrong } else { right })
}
