//! The named faults: each is wrong at its own place only. `sharpness` shows that it is wrong there.

mod common;

use std::process::Command;

use common::{write_at, Board};
use m95_model::generate::{
    blanks, lendings, loads, states, trace, view_bytes, views, Blank, Lending, Profile, View,
};
use m95_model::{
    append_record, device, event_wrongly, is_sound, is_sound_wrongly, load, load_wrongly, play,
    play_wrongly, view, view_wrongly, Contents, Cycle, Device, Event, Fault, Instruction, Number,
    Output, Region, Vector, DEVICES,
};

/// A fault whose place the trace never reaches must change nothing: the mistakes stand around the right model.
#[test]
fn a_fault_elsewhere_changes_nothing() {
    let device = &DEVICES[1];
    let trace = trace(Profile::Mixed, device, 11, 5000);
    let mut first = Contents::prepared(device);
    let right = play(device, &mut first, &trace);
    for fault in [
        Fault::Device1CodeBit3Counts,
        Fault::Device1UpperBitsOne,
        Fault::Device3WriteTimeAsOthers,
        Fault::PinTenTaken,
        Fault::IdentificationCodeMissing,
    ]
    .into_iter()
    .chain(
        Fault::ALL
            .iter()
            .copied()
            .filter(|fault| !fault.is_of_trace()),
    ) {
        let mut second = Contents::prepared_wrongly(fault, device);
        let all = usize::MAX;
        let wrong = play_wrongly(fault, device, &mut second, &trace, all, all);
        assert_eq!(right, wrong, "{fault:?}");
        assert_eq!(first, second, "{fault:?}");
    }
}

#[test]
fn names_and_meanings_are_all_different() {
    let mut meanings: Vec<&str> = Fault::ALL.iter().map(|fault| fault.meaning()).collect();
    meanings.sort_unstable();
    meanings.dedup();
    assert_eq!(meanings.len(), Fault::ALL.len());
    assert!(!Fault::ALL.contains(&Fault::None));
}

/// The devices that the name of a fault says it is about, or none where it names no device.
fn devices_named(fault: Fault) -> Option<&'static [u8]> {
    let name = format!("{fault:?}");
    let starts: [(&str, &[u8]); 10] = [
        ("Smaller", &[5, 6, 7]),
        ("Device5And6", &[5, 6]),
        ("Device3And4", &[3, 4]),
        ("Device1", &[1]),
        ("Device2", &[2]),
        ("Device3", &[3]),
        ("Device4", &[4]),
        ("Device5", &[5]),
        ("Device6", &[6]),
        ("Device7", &[7]),
    ];
    let ends: [(&str, &[u8]); 2] = [("OnDevice1", &[1]), ("OnDevice3", &[3])];
    let started = starts.iter().find(|(start, _)| name.starts_with(start));
    let ended = ends.iter().find(|(end, _)| name.ends_with(end));
    started.or(ended).map(|(_, devices)| *devices)
}

#[test]
fn a_fault_of_some_devices_changes_nothing_on_the_others() {
    for device in &DEVICES {
        let trace = trace(Profile::Mixed, device, 12, 4000);
        let mut first = Contents::prepared(device);
        let right = play(device, &mut first, &trace);
        let others = Fault::ALL.iter().copied().filter(|fault| {
            devices_named(*fault).is_some_and(|named| !named.contains(&device.number))
        });
        for fault in others {
            let mut second = Contents::prepared_wrongly(fault, device);
            let all = usize::MAX;
            let wrong = play_wrongly(fault, device, &mut second, &trace, all, all);
            assert_eq!(right, wrong, "{fault:?} {}", device.name);
            assert_eq!(first, second, "{fault:?} {}", device.name);
        }
    }
}

/// `bytes` in one selection.
fn send(trace: &mut Vec<u8>, bytes: &[u8]) {
    append_record(trace, Event::Select(false));
    for place in 0..8 * bytes.len() {
        let level = bytes[place / 8] << (place % 8) & 0x80 != 0;
        append_record(trace, Event::Data(level));
        append_record(trace, Event::Clock(true));
        append_record(trace, Event::Clock(false));
    }
    append_record(trace, Event::Select(true));
}

/// A WRITE of one byte with this block setting.
fn write_with(row: &Device, setting: usize, address: usize) -> Vec<u8> {
    let mut trace = Vec::new();
    send(&mut trace, &[0x06]);
    send(&mut trace, &[0x01, (setting << 2) as u8]);
    append_record(&mut trace, Event::Wait(row.write_time));
    send(&mut trace, &[0x06]);
    send(&mut trace, &write_at(row, address));
    trace
}

/// The device and the setting of a fault in which one entry of the sheet is wrong.
fn entry_named(fault: Fault) -> Option<(u8, usize)> {
    let name = format!("{fault:?}");
    let (number, setting) = name.strip_prefix("Device")?.split_once("Entry")?;
    let setting = usize::from_str_radix(&setting[..2], 2).ok()?;
    Some((number.parse().ok()?, setting))
}

/// The pages on both sides of each entry of a row.
fn pages_at_entries(row: &Device) -> Vec<usize> {
    let entries = row.sheet.into_iter();
    let pages = entries.flat_map(|entry| [entry.checked_sub(row.page), Some(entry)]);
    pages.flatten().filter(|page| *page < row.cells).collect()
}

#[test]
fn an_entry_is_wrong_on_its_device_with_its_setting_and_nowhere_else() {
    let named = |&fault: &Fault| Some((fault, entry_named(fault)?));
    let faults: Vec<_> = Fault::ALL.iter().filter_map(named).collect();
    assert_eq!(faults.len(), 4 * DEVICES.len());
    for row in &DEVICES {
        for (setting, entry) in row.sheet.into_iter().enumerate() {
            // A page too high opens the page above, and for 00 a page too low closes the one below.
            let below = if setting == 0 { row.page } else { 0 };
            for page in pages_at_entries(row) {
                let right = Vector::of(Fault::None, row, &write_with(row, setting, page));
                for &(fault, named) in &faults {
                    let place = named == (row.number, setting) && page == entry - below;
                    let asked = format!("{fault:?} {} BP {setting:02b} {page:X}h", row.name);
                    assert_eq!(right.notices(fault), place, "{asked}");
                }
            }
        }
    }
}

/// A mistake of this sort lets a state pass that has nothing else against it, and stops none.
#[test]
fn a_state_is_called_sound_at_the_place_of_its_fault_and_nowhere_else() {
    for fault in Fault::ALL.iter().copied().chain([Fault::None]) {
        for row in &DEVICES {
            let marks = vec![0; row.page];
            let mut noticed = 0;
            for state in states(row) {
                let (instruction, cycle) = (state.instruction, state.cycle);
                let of_lock = matches!(instruction, Instruction::Rdls | Instruction::Lid);
                let of_page =
                    of_lock || matches!(instruction, Instruction::Rdid | Instruction::Wrid);
                let of_cycle = matches!(cycle, Cycle::Identification | Cycle::Lock);
                let only_lock = state.locked && !of_page && !of_cycle;
                let only_cycle = of_cycle && !of_page && !state.locked;
                let only_instruction = of_page && !of_cycle && !state.locked;
                let place = match fault {
                    Fault::StateLockedIsSound => only_lock,
                    Fault::StateIdentificationCycleIsSound => {
                        only_cycle && cycle == Cycle::Identification
                    }
                    Fault::StateLockCycleIsSound => only_cycle && cycle == Cycle::Lock,
                    Fault::StateInstructionIsSound => only_instruction,
                    Fault::StateLeftoverIsSound => only_instruction && !state.selected,
                    Fault::StateLockInstructionIsSound => only_instruction && of_lock,
                    _ => false,
                };
                let right = is_sound(row, &state, &marks);
                let wrong = is_sound_wrongly(fault, row, &state, &marks);
                let expected = place && !row.has_identification();
                assert_eq!((wrong, right != wrong), (right || expected, expected));
                noticed += usize::from(right != wrong);
            }
            let expected = fault.is_of_state() && !row.has_identification();
            assert_eq!(noticed > 0, expected, "{fault:?} {}", row.name);
        }
    }
}

#[test]
fn a_load_is_wrong_at_the_place_of_its_fault_and_nowhere_else() {
    for fault in Fault::ALL.iter().copied().chain([Fault::None]) {
        let mut noticed = 0;
        for (number, status, lock) in loads() {
            let (bits, srwd) = (status & !0x80, status & 0x80 != 0);
            let can_be = bits & !0x0C == 0;
            let place = match fault {
                Fault::LoadTakesLock if number == 7 => can_be && lock == 1,
                Fault::LoadTakesLock => matches!(number, 5 | 6) && can_be && !srwd && lock == 1,
                Fault::LoadTakesSrwd => matches!(number, 5 | 6) && can_be && srwd && lock == 0,
                Fault::LoadRefusesSrwd => number == 7 && can_be && srwd && lock == 0,
                _ => false,
            };
            let right = load(number, status, lock);
            let wrong = load_wrongly(fault, number, status, lock);
            let asked = format!("{fault:?} device {number} status {status:02X} lock {lock}");
            assert_eq!(right != wrong, place, "{asked}");
            noticed += usize::from(place);
        }
        assert_eq!(noticed > 0, fault.is_of_load(), "{fault:?}");
    }
}

/// `play` asks for no view and is not the bench program, so a fault of theirs would never be found in it; nor would one
/// of the states, loads, wrong counts and lengths that it never has, also when it looks for a blank page.
#[test]
fn wrong_play_has_the_faults_of_traces_and_of_blank_pages() {
    let output = Command::new(env!("CARGO_BIN_EXE_wrong_play"))
        .arg("list")
        .output()
        .expect("wrong_play starts");
    let text = String::from_utf8(output.stdout).expect("text");
    let listed: Vec<&str> = text.lines().collect();
    for fault in Fault::ALL {
        let name = format!("{fault:?}");
        let others = ["Bench", "View", "State", "Load", "CountWrong", "Counts"];
        let of_blanks = ["BlankWrong", "BlankLent"];
        let mut unseen = others.iter().chain(&of_blanks);
        let of_play = !unseen.any(|other| name.starts_with(other));
        assert_eq!(listed.contains(&name.as_str()), of_play, "{name}");
    }
    let refused = Command::new(env!("CARGO_BIN_EXE_wrong_play"))
        .args(["ViewRegionsSwapped", "1", "chip", "trace", "answers"])
        .output()
        .expect("wrong_play starts");
    assert_eq!(refused.status.code(), Some(2));
}

/// Where the fault of a view must differ from the right one; everywhere else it must not.
fn is_place_of(fault: Fault, row: &Device, view: &View, right: Number) -> bool {
    let known = view.device == row.number;
    let cells_wrong = known && view.cells != row.cells;
    let page_wrong = known && view.identification != row.identification;
    let passed = known && !cells_wrong && !page_wrong;
    let a_page_lent = known && view.identification == row.page;
    let of_cells = view.region == Region::Cells;
    let past = view.address >= row.cells;
    let within_page = !view.address.is_multiple_of(row.page);
    match fault {
        Fault::ViewUnaskedUnchecked if of_cells => page_wrong && !cells_wrong,
        Fault::ViewUnaskedUnchecked => cells_wrong,
        Fault::ViewThreeBeforeTwo => cells_wrong && page_wrong,
        Fault::ViewAskedJudgedFirst => cells_wrong && page_wrong && !of_cells,
        Fault::ViewThirteenBeforeTwo => (cells_wrong || page_wrong) && of_cells && past,
        Fault::ViewThirteenBeforeThree => page_wrong && !cells_wrong && of_cells && past,
        Fault::ViewRefusalShowsPart if of_cells => right != Number::Done && view.cells > 0,
        Fault::ViewRefusalShowsPart => right != Number::Done && view.identification > 0,
        Fault::ViewRegionsSwapped => passed,
        Fault::ViewAddressAlwaysJudged => passed && !of_cells && past,
        Fault::ViewCountIsAddress => passed && of_cells && view.address == row.cells,
        Fault::ViewAddressWraps => passed && of_cells && past,
        Fault::ViewStartsAtAddress => passed && of_cells && !past && within_page,
        Fault::ViewShowsAllCells => passed && of_cells && !past,
        Fault::ViewIdentificationFromAddress => {
            passed && !of_cells && within_page && row.has_identification()
        }
        _ if row.has_identification() => false,
        Fault::ViewSmallerUnknown => known,
        Fault::ViewSmallerAsksForPage => passed || a_page_lent && !cells_wrong,
        Fault::ViewSmallerTakesAnyLength => page_wrong && !cells_wrong,
        Fault::ViewSmallerIsRefused | Fault::ViewSmallerShowsCells => passed && !of_cells,
        _ => false,
    }
}

/// Whether a device has a place at all for the fault of a view: those of smaller boards have none elsewhere, and
/// without an identification page there is nothing to start at an address.
fn has_place(fault: Fault, row: &Device) -> bool {
    match fault {
        Fault::ViewSmallerUnknown
        | Fault::ViewSmallerAsksForPage
        | Fault::ViewSmallerTakesAnyLength
        | Fault::ViewSmallerIsRefused
        | Fault::ViewSmallerShowsCells => !row.has_identification(),
        Fault::ViewIdentificationFromAddress => row.has_identification(),
        _ => fault.is_of_view(),
    }
}

/// Faults of anything else have no place in a view, so they are held to changing nothing.
#[test]
fn a_view_is_wrong_at_the_place_of_its_fault_and_nowhere_else() {
    let (cells, identification) = view_bytes();
    for fault in Fault::ALL.iter().copied().chain([Fault::None]) {
        for row in &DEVICES {
            let mut noticed = 0;
            for view in views(row) {
                let right = view.show(Fault::None, &cells, &identification);
                let wrong = view.show(fault, &cells, &identification);
                let differs = right != wrong;
                let place = is_place_of(fault, row, &view, right.0);
                assert_eq!(differs, place, "{fault:?} {view:?}");
                noticed += usize::from(differs);
            }
            let expected = has_place(fault, row);
            assert_eq!(noticed > 0, expected, "{fault:?} {}", row.name);
        }
    }
}

/// Without a fault the mistaken view is the right one, and lends the same bytes.
#[test]
fn a_view_without_a_fault_is_the_right_one() {
    let (cells, identification) = view_bytes();
    for asked in DEVICES.iter().flat_map(views) {
        let View {
            device,
            region,
            address,
            ..
        } = asked;
        let (cells, page) = (
            &cells[..asked.cells],
            &identification[..asked.identification],
        );
        let right = view(device, region, cells, page, address);
        let same = view_wrongly(Fault::None, device, region, cells, page, address);
        assert_eq!(right, same, "{asked:?}");
        // Of which bytes an empty part is, nobody says.
        let is_lent = right.1.is_empty() || std::ptr::eq(right.1, same.1);
        assert!(is_lent, "{asked:?}");
    }
}

/// The faults about counts of one sort.
fn faults_of_counts(sort: impl Fn(Fault) -> bool) -> Vec<Fault> {
    let all = Fault::ALL.iter().copied();
    all.filter(|fault| fault.is_of_count() && sort(*fault))
        .collect()
}

/// WRITE of these bytes to the first page.
fn write_of(row: &Device, data: &[u8]) -> Vec<u8> {
    let mut bytes = write_at(row, 0);
    bytes.pop();
    [&bytes, data].concat()
}

/// The same trace with HOLD low at the rise of S that ends the command.
fn held(row: &Device, bytes: &[u8]) -> Vec<u8> {
    let mut trace = written(row, bytes);
    let mut end = trace.split_off(trace.len() - DESELECTED - WAITED);
    append_record(&mut trace, Event::Hold(false));
    trace.append(&mut end);
    trace
}

/// Bytes of the last two records of `written`.
const DESELECTED: usize = 5;
const WAITED: usize = 8;

/// A trace of WREN and this command, then a full wait.
fn written(row: &Device, bytes: &[u8]) -> Vec<u8> {
    let mut trace = Vec::new();
    send(&mut trace, &[0x06]);
    send(&mut trace, bytes);
    append_record(&mut trace, Event::Wait(row.write_time));
    trace
}

/// The command that starts a cycle, where the device has it.
fn starting(row: &Device, cycle: Cycle) -> Option<Vec<u8>> {
    let address = match cycle {
        Cycle::Array => return Some(write_of(row, &[0x5A])),
        Cycle::Status => return Some(vec![0x01, 0x04]),
        _ if !row.has_identification() => return None,
        Cycle::Lock => row.lock_bit(),
        _ => 0,
    };
    let places = (0..row.address_bytes).rev();
    let address = places.map(|place| (address >> (8 * place)) as u8);
    Some([0x82].into_iter().chain(address).chain([0x02]).collect())
}

/// The faults that every array cycle shows which fills a cell.
const COUNTS_CHANGED: [Fault; 3] = [
    Fault::CountOfBlankCells,
    Fault::CountTestedAfterChange,
    Fault::CountLeftAtCycleEnd,
];

/// Traces from a prepared chip with the faults of counts that each must show, and no others.
fn traces_of_counts(row: &Device) -> Vec<(Vec<u8>, Vec<Fault>)> {
    let changed = COUNTS_CHANGED.to_vec();
    let with = |other| [changed.clone(), vec![other]].concat();
    let byte = written(row, &write_of(row, &[0x5A]));
    let mut power = byte.clone();
    append_record(&mut power, Event::Power);
    let mut in_cycle = byte.clone();
    in_cycle.truncate(byte.len() - WAITED);
    let blank = vec![Fault::CountOfBlankCells, Fault::CountAddsMarkedBytes];
    let full = match row.page {
        256 => with(Fault::CountInByte),
        _ => changed.clone(),
    };
    let mut traces = vec![
        (
            [byte.clone(), byte.clone()].concat(),
            with(Fault::CountAddsMarkedBytes),
        ),
        (byte, changed.clone()),
        (in_cycle, vec![Fault::CountSetAtSelectRise]),
        (
            written(row, &write_of(row, &[0x00])),
            with(Fault::CountSkipsZero),
        ),
        (written(row, &write_of(row, &[0xFF])), blank),
        (written(row, &write_of(row, &vec![0x5A; row.page])), full),
        (power, with(Fault::CountClearedByPower)),
        (written(row, &[0x01, 0x04]), vec![]),
    ];
    if let Some(bytes) = starting(row, Cycle::Identification) {
        let expected = vec![Fault::CountSetByIdentificationCycle];
        traces.push((written(row, &bytes), expected));
    }
    let of_held = with(Fault::CountLeftByHeldWrite);
    let starts = row.writes_in_hold;
    let shown = of_held.into_iter().filter(|_| starts).collect();
    traces.push((held(row, &write_of(row, &[0x5A])), shown));
    traces
}

#[test]
fn a_count_is_wrong_in_the_traces_of_its_fault_and_no_others() {
    let faults = faults_of_counts(Fault::is_of_trace);
    let mut noticed = Vec::new();
    for row in &DEVICES {
        let blank = Contents::prepared(row);
        let mut filled = Contents::prepared(row);
        filled.cells[row.cells - 1] = 0x00;
        // A chip that is not blank needs no write to show what its counts start as.
        let of_file = (&filled, vec![], vec![Fault::CountOfFileIsBlank]);
        let from_blank = traces_of_counts(row).into_iter();
        let cases = from_blank.map(|(trace, shown)| (&blank, trace, shown));
        for (start, trace, expected) in cases.chain([of_file]) {
            let all = usize::MAX;
            let (mut first, mut second) = (start.clone(), start.clone());
            let right = play(row, &mut first, &trace);
            for &fault in &faults {
                second.clone_from(start);
                let wrong = play_wrongly(fault, row, &mut second, &trace, all, all);
                let differs = (&right, &first) != (&wrong, &second);
                let place = format!("{fault:?} {} {} bytes", row.name, trace.len());
                assert_eq!(differs, expected.contains(&fault), "{place}");
                noticed.extend(differs.then_some(fault));
            }
        }
    }
    assert!(faults.iter().all(|fault| noticed.contains(fault)));
}

/// How the counts are wrong: not at all, those of the page that a cycle is on by one or by more than a page has, or
/// that of another page.
#[derive(Clone, Copy, Debug, PartialEq, Eq)]
enum Wrong {
    Nowhere,
    ByOne,
    Above256,
    Elsewhere,
}

/// The events that matter to a cycle.
#[derive(Clone, Copy, Debug, PartialEq, Eq)]
enum Step {
    SelectRise,
    ShortWait,
    EndingWait,
    Other,
}

/// Whether the fault of a wrong count must differ there; everywhere else it must not.
fn is_place_of_count(fault: Fault, cycle: Cycle, wrong: Wrong, step: Step) -> bool {
    let here = matches!(wrong, Wrong::ByOne | Wrong::Above256);
    let ends = step == Step::EndingWait;
    let refused = cycle == Cycle::Array && here && ends;
    match fault {
        Fault::CountWrongOnlyAbove256 => refused && wrong == Wrong::ByOne,
        Fault::CountWrongRefusedAtSelectRise => {
            cycle == Cycle::Array && here && step == Step::SelectRise
        }
        Fault::CountWrongRefusedAtEveryWait => {
            cycle == Cycle::Array && here && step == Step::ShortWait
        }
        Fault::CountWrongRefusedForAnyPage => {
            cycle == Cycle::Array && wrong == Wrong::Elsewhere && ends
        }
        Fault::CountWrongRefusedInIdentification => cycle == Cycle::Identification && here && ends,
        Fault::CountWrongRefusedInStatus => cycle == Cycle::Status && here && ends,
        Fault::CountWrongRefusedInLock => cycle == Cycle::Lock && here && ends,
        Fault::CountWrongNotRefused
        | Fault::CountWrongTakesTime
        | Fault::CountWrongMendedByRefusal
        | Fault::CountWrongDropsCycle
        | Fault::CountWrongAnswersQ => refused,
        Fault::CountWrongIsUnsound => wrong != Wrong::Nowhere,
        _ => false,
    }
}

/// A board with WEL set and the command sent but for the rise of S, its counts wrong as asked for.
fn about_to_write(row: &Device, bytes: &[u8], wrong: Wrong) -> Board {
    let mut board = Board::new(row.number);
    board.command(&[0x06]);
    board.select();
    board.bytes(bytes);
    match wrong {
        Wrong::Nowhere => {}
        Wrong::ByOne => board.counts[0] = 1,
        Wrong::Above256 => board.counts[0] = 257,
        Wrong::Elsewhere => board.counts[row.pages() - 1] = 1,
    }
    board
}

/// The steps of a cycle to its last microsecond, RDSR sent meanwhile so that Q is not Z, then the wait that ends it,
/// twice.
fn steps(row: &Device) -> Vec<(Step, Event)> {
    let mut steps = vec![
        (Step::SelectRise, Event::Select(true)),
        (Step::ShortWait, Event::Wait(0)),
        (Step::ShortWait, Event::Wait(row.write_time - 1)),
        (Step::Other, Event::Power),
        (Step::Other, Event::Select(false)),
    ];
    for level in [false, false, false, false, false, true, false, true] {
        let bit = [Event::Data(level), Event::Clock(true), Event::Clock(false)];
        steps.extend(bit.map(|event| (Step::Other, event)));
    }
    steps.extend([(Step::EndingWait, Event::Wait(1)); 2]);
    steps
}

/// What the board gives with a fault, and what it has then.
fn tried(board: &Board, fault: Fault, event: Event) -> (Number, Output, String) {
    let mut state = board.state.clone();
    let (mut cells, mut identification) = (board.cells.clone(), board.identification.clone());
    let (mut latch, mut counts) = (board.latch.clone(), board.counts.clone());
    let (number, answer) = event_wrongly(
        fault,
        board.device.number,
        &mut state,
        &mut cells,
        &mut identification,
        &mut latch,
        &mut counts,
        event,
    );
    // Only the first page is ever written.
    let page = &cells[..board.device.page];
    let left = format!("{state:?} {page:?} {identification:?} {latch:?} {counts:?}");
    (number, answer, left)
}

/// Runs one cycle and gives each fault that differs from the right model in one of its steps.
fn noticed_in(row: &Device, cycle: Cycle, wrong: Wrong, faults: &[Fault]) -> Vec<Fault> {
    let Some(bytes) = starting(row, cycle) else {
        return Vec::new();
    };
    let mut board = about_to_write(row, &bytes, wrong);
    let mut noticed = Vec::new();
    let mut is_over = false;
    for (step, event) in steps(row) {
        let right = tried(&board, Fault::None, event);
        for &fault in faults {
            let differs = tried(&board, fault, event) != right;
            // Once the cycle has ended a wait has nothing to refuse.
            let unsound = fault == Fault::CountWrongIsUnsound;
            let place = is_place_of_count(fault, cycle, wrong, step) && (!is_over || unsound);
            let asked = format!("{fault:?} {} {cycle:?} {wrong:?} {event:?}", row.name);
            assert_eq!(differs, place, "{asked}");
            noticed.extend(differs.then_some(fault));
        }
        let (number, answer) = board.try_set(event);
        assert_eq!((number, answer), (right.0, right.1));
        is_over = step == Step::EndingWait && number == Number::Done;
    }
    noticed
}

#[test]
fn a_wrong_count_is_met_at_the_place_of_its_fault_and_nowhere_else() {
    let faults = faults_of_counts(|fault| !fault.is_of_trace());
    let cycles = [
        Cycle::Array,
        Cycle::Identification,
        Cycle::Status,
        Cycle::Lock,
    ];
    let mut noticed = Vec::new();
    for row in &DEVICES {
        for cycle in cycles {
            for wrong in [
                Wrong::Nowhere,
                Wrong::ByOne,
                Wrong::Above256,
                Wrong::Elsewhere,
            ] {
                // A judgement of lengths finds nothing here but for one that wants another count.
                let others = faults.iter().copied();
                let tried: Vec<Fault> = others
                    .filter(|fault| *fault != Fault::CountsHaveIdentification)
                    .collect();
                noticed.extend(noticed_in(row, cycle, wrong, &tried));
            }
        }
    }
    for fault in faults {
        let expected = fault.is_of_wrong_count();
        assert_eq!(noticed.contains(&fault), expected, "{fault:?}");
    }
}

/// Where preparing and an event must differ that are lent these lengths.
fn are_places_of_lending(fault: Fault, row: &Device, lending: &Lending) -> [bool; 2] {
    let stored = lending.cells == row.cells && lending.identification == row.identification;
    let known = lending.device == row.number && stored;
    let latch = lending.latch == 2 * row.page;
    let (pages, lent) = (row.pages(), lending.counts);
    let wrong = known && latch && lent != pages;
    match fault {
        Fault::CountsJudgedAfterState => [false, wrong && !lending.is_sound],
        Fault::CountsJudgedBeforeLatch => [known && !latch && lent != pages; 2],
        Fault::CountsNotJudgedInPreparing => [wrong, false],
        Fault::CountsLongerTaken => [wrong && lent > pages; 2],
        Fault::CountsHaveIdentification => {
            [known && latch && row.has_identification() && [pages, pages + 1].contains(&lent); 2]
        }
        Fault::CountsLeftByPreparing => [known && latch && lent == pages, false],
        // The bytes lent are no FFh and the counts those of nothing.
        Fault::CountWrongIsUnsound => {
            let judged = known && latch && lent == pages;
            [false, judged && lending.is_sound]
        }
        _ => [false; 2],
    }
}

#[test]
fn lent_counts_are_judged_wrongly_at_the_place_of_their_fault_and_nowhere_else() {
    let faults = faults_of_counts(|_| true);
    for row in &DEVICES {
        let mut noticed = Vec::new();
        for lending in lendings(row) {
            let right = [lending.prepare(Fault::None), lending.event(Fault::None)];
            for &fault in &faults {
                let wrong = [lending.prepare(fault), lending.event(fault)];
                let differs = [right[0] != wrong[0], right[1] != wrong[1]];
                let places = are_places_of_lending(fault, row, &lending);
                assert_eq!(differs, places, "{fault:?} {lending:?}");
                noticed.extend(differs.contains(&true).then_some(fault));
            }
        }
        for fault in faults.iter().copied().filter(|fault| fault.is_of_lent()) {
            let with_page = fault == Fault::CountsHaveIdentification;
            let expected = !with_page || row.has_identification();
            assert_eq!(noticed.contains(&fault), expected, "{fault:?} {}", row.name);
        }
    }
}

/// Without a fault the mistaken calls are the right ones.
#[test]
fn counts_without_a_fault_are_the_right_ones() {
    for row in &DEVICES {
        for wrong in [
            Wrong::Nowhere,
            Wrong::ByOne,
            Wrong::Above256,
            Wrong::Elsewhere,
        ] {
            let mut board = about_to_write(row, &write_of(row, &[0x5A]), wrong);
            for (_, event) in steps(row) {
                let (number, answer, left) = tried(&board, Fault::None, event);
                assert_eq!(board.try_set(event), (number, answer), "{event:?}");
                let same = tried(&board, Fault::None, Event::Wait(0));
                assert_eq!(same.2, left, "{event:?}");
            }
        }
    }
}

/// What there is to know of a question for a blank page.
struct Asked<'a> {
    /// None where the number is of no device.
    row: Option<&'static Device>,
    counts: &'a [u16],
    is_right_length: bool,
    first: Option<usize>,
    /// The counts that a search passes on its way.
    passed: &'a [u16],
}

impl Asked<'_> {
    fn new(blank: &Blank) -> Asked<'_> {
        let row = device(blank.device);
        let first = blank.counts.iter().position(|&count| count == 0);
        Asked {
            row,
            counts: &blank.counts,
            is_right_length: row.is_some_and(|row| blank.counts.len() == row.pages()),
            first,
            passed: &blank.counts[..first.unwrap_or(blank.counts.len())],
        }
    }

    /// Whether a fault of the search differs from the right one, which finds or does not find a page.
    fn is_place_of_search(&self, fault: Fault, row: &Device) -> bool {
        let passes = |sort: &dyn Fn(usize) -> bool| {
            let mut passed = self.passed.iter();
            passed.any(|&count| sort(count.into()))
        };
        let (page, last) = (row.page, row.pages() - 1);
        let gives = |sort: &dyn Fn(usize) -> bool| self.first.is_some_and(sort);
        match fault {
            Fault::BlankIsLast => self.counts.iter().filter(|&&count| count == 0).count() > 1,
            Fault::BlankBehindLastWritten => gives(&|at| self.counts[at..].iter().any(|&c| c != 0)),
            Fault::BlankZeroNotLookedAt => gives(&|at| at == 0),
            Fault::BlankLastNotLookedAt => gives(&|at| at == last),
            Fault::BlankEndsAtWritten | Fault::BlankIsAddress => gives(&|at| at > 0),
            Fault::BlankPast255NotLookedAt | Fault::BlankNumberInByte => gives(&|at| at > 255),
            Fault::BlankFromOne => gives(&|_| true),
            Fault::BlankByLowByte => passes(&|count| count % 256 == 0),
            Fault::BlankTakesFull => passes(&|count| count == page),
            Fault::BlankIsFull => gives(&|_| true) || passes(&|count| count == page),
            Fault::BlankTakesOneCell => passes(&|count| count == 1),
            Fault::BlankIsLeastWritten
            | Fault::BlankNoneIsZero
            | Fault::BlankNoneIsLast
            | Fault::BlankNoneIsPages
            | Fault::BlankNoneIsRefused => self.first.is_none(),
            Fault::BlankWrongRefused | Fault::BlankWrongIsBlank => passes(&|count| count > page),
            Fault::BlankWrongEndsSearch => gives(&|_| true) && passes(&|count| count > page),
            Fault::BlankWrongIsNegative => passes(&|count| count > 0x7FFF),
            Fault::BlankLentHasIdentification => row.has_identification(),
            Fault::BlankLentSmallerUnknown => !row.has_identification(),
            _ => false,
        }
    }

    /// Whether a fault about the device or the length differs from the right one, which refuses.
    fn is_place_of_refusal(&self, fault: Fault) -> bool {
        let lent = self.counts.len();
        let of_some_device = [8, 16, 32, 256, 512, 1024].contains(&lent);
        let Some(row) = self.row else {
            return match fault {
                Fault::BlankLentJudgedFirst => !of_some_device,
                Fault::BlankLentRefusalIsPage
                | Fault::BlankLentDeviceIs14
                | Fault::BlankLentDeviceTaken => true,
                _ => false,
            };
        };
        match fault {
            Fault::BlankLentRefusalIsPage | Fault::BlankLentRefusalIsNone => true,
            Fault::BlankLentLongerTaken | Fault::BlankLentLongerSearched => lent > row.pages(),
            Fault::BlankLentShorterTaken => lent < row.pages(),
            Fault::BlankLentEmptyTaken => lent == 0,
            Fault::BlankLentOfOtherTaken => of_some_device,
            Fault::BlankLentHasIdentification => {
                row.has_identification() && lent == row.pages() + 1
            }
            Fault::BlankLentSmallerUnknown => !row.has_identification(),
            _ => false,
        }
    }

    fn is_place_of(&self, fault: Fault) -> bool {
        match self.row {
            Some(row) if self.is_right_length => self.is_place_of_search(fault, row),
            _ => self.is_place_of_refusal(fault),
        }
    }
}

/// Whether a device has a place at all for the fault of a blank page: a page's number outgrows a byte on devices 3 and 4
/// alone, and some faults are about an identification page that not all have.
fn has_place_of_blank(fault: Fault, row: &Device) -> bool {
    match fault {
        Fault::BlankPast255NotLookedAt | Fault::BlankNumberInByte => row.pages() > 256,
        Fault::BlankLentHasIdentification => row.has_identification(),
        Fault::BlankLentSmallerUnknown => !row.has_identification(),
        _ => fault.is_of_blank(),
    }
}

#[test]
fn a_blank_page_is_wrong_at_the_place_of_its_fault_and_nowhere_else() {
    let all = Fault::ALL.iter().copied();
    let (of_blanks, others): (Vec<Fault>, Vec<Fault>) = all.partition(|fault| fault.is_of_blank());
    for row in &DEVICES {
        let mut noticed = Vec::new();
        for (index, blank) in blanks(row).iter().enumerate() {
            let (asked, right) = (Asked::new(blank), blank.ask(Fault::None));
            // Faults of anything else have no place here; that shows in a part of the questions too.
            let more = match index % 16 {
                0 => &others[..],
                _ => &[],
            };
            for &fault in of_blanks.iter().chain(more) {
                let differs = blank.ask(fault) != right;
                let place = asked.is_place_of(fault);
                assert_eq!(differs, place, "{fault:?} {} question {index}", row.name);
                noticed.extend((differs && !noticed.contains(&fault)).then_some(fault));
            }
        }
        for &fault in &of_blanks {
            let expected = has_place_of_blank(fault, row);
            assert_eq!(noticed.contains(&fault), expected, "{fault:?} {}", row.name);
        }
    }
}

/// The number of the device that a fault's name starts with, if it does, and the rest of the name.
fn of_device(name: &str) -> (Option<u8>, &str) {
    let rest = name.strip_prefix("Device").unwrap_or(name);
    let digits = rest.trim_start_matches(|one: char| one.is_ascii_digit());
    (rest[..rest.len() - digits.len()].parse().ok(), digits)
}

/// Whether a fault is one about a command that S's rise finds held, by its name.
fn is_of_held(fault: Fault) -> bool {
    let name = format!("{fault:?}");
    let (_, rest) = of_device(&name);
    ["Held", "HoldPin", "CountLeftByHeld"]
        .iter()
        .any(|start| rest.starts_with(start))
}

/// Whether such a fault may show on a device: on the one that it names, on all, or where a write starts in hold.
fn may_show(fault: Fault, row: &Device) -> bool {
    match of_device(&format!("{fault:?}")).0 {
        Some(number) => number == row.number,
        None => row.writes_in_hold || is_of_every_device(fault),
    }
}

/// Whether such a fault is one of all devices and not only of those that let a write start in hold.
fn is_of_every_device(fault: Fault) -> bool {
    matches!(
        fault,
        Fault::HeldCommandJudged
            | Fault::HeldWithHoldHighJudged
            | Fault::HoldPinDropsCommand
            | Fault::HeldDeselectClearsWel
            | Fault::HeldDeselectEndsCycle
    )
}

/// Whether the fault makes anything else of this trace than the right model does, counts and latch included.
fn differs(fault: Fault, row: &'static Device, trace: &[u8]) -> bool {
    let (mut first, mut second) = (Contents::prepared(row), Contents::prepared(row));
    let right = play(row, &mut first, trace);
    let wrong = play_wrongly(fault, row, &mut second, trace, usize::MAX, usize::MAX);
    (right, first) != (wrong, second)
}

#[test]
fn a_mistake_about_held_commands_shows_nowhere_else() {
    let faults: Vec<Fault> = Fault::ALL
        .iter()
        .copied()
        .filter(|one| is_of_held(*one))
        .collect();
    for row in &DEVICES {
        // Nothing is ever held in the first two.
        let unheld = [Profile::Commands, Profile::Lengths].map(|one| trace(one, row, 13, 6_000));
        let held = trace(Profile::Held, row, 13, 6_000);
        for &fault in &faults {
            let asked = format!("{fault:?} {}", row.name);
            assert!(
                !unheld.iter().any(|trace| differs(fault, row, trace)),
                "{asked}"
            );
            assert!(
                may_show(fault, row) || !differs(fault, row, &held),
                "{asked}"
            );
        }
    }
}

/// What a fault makes of a command with WEL set: these bits of it are received, these events come, S rises and HOLD
/// goes high.
fn noticed_after(row: &'static Device, bytes: &[u8], bits: usize, ending: &[Event]) -> Vec<Fault> {
    let mut trace = Vec::new();
    send(&mut trace, &[0x06]);
    append_record(&mut trace, Event::Select(false));
    for place in 0..bits {
        let level = bytes[place / 8] << (place % 8) & 0x80 != 0;
        append_record(&mut trace, Event::Data(level));
        append_record(&mut trace, Event::Clock(true));
        append_record(&mut trace, Event::Clock(false));
    }
    for &event in ending {
        append_record(&mut trace, event);
    }
    append_record(&mut trace, Event::Select(true));
    append_record(&mut trace, Event::Hold(true));
    let faults = Fault::ALL.iter().copied().filter(|one| is_of_held(*one));
    faults
        .filter(|fault| differs(*fault, row, &trace))
        .collect()
}

/// The faults that a complete WRITE to the first page shows when it starts its cycle in hold, whichever way it is held.
const OF_HELD_WRITE: [Fault; 5] = [
    Fault::HeldCommandDropped,
    Fault::HeldWriteDropped,
    Fault::HeldWriteDoneAtOnce,
    Fault::HeldWriteWritesNothing,
    Fault::HeldDeselectClearsWel,
];

#[test]
fn a_held_write_shows_its_faults_and_no_others() {
    let (low, rise, fall) = (Event::Hold(false), Event::Clock(true), Event::Clock(false));
    let ways: [(&[Event], &[Fault]); 3] = [
        (&[low], &[]),
        (&[low, rise, fall], &[Fault::HeldClockSpoilsWrite]),
        (
            &[low, rise],
            &[Fault::HeldWriteNeedsClockLow, Fault::HeldClockSpoilsWrite],
        ),
    ];
    for row in DEVICES.iter().filter(|row| row.writes_in_hold) {
        let bytes = write_at(row, 0);
        let alone = match row.number {
            2 => Fault::Device2HeldWritesDropped,
            _ => Fault::Device7HeldWriteDropped,
        };
        for (way, more) in ways {
            let mut noticed = noticed_after(row, &bytes, 32, way);
            let mut expected = [&OF_HELD_WRITE[..], more, &[alone]].concat();
            noticed.sort_unstable_by_key(|fault| *fault as usize);
            expected.sort_unstable_by_key(|fault| *fault as usize);
            assert_eq!(noticed, expected, "{} {way:?}", row.name);
        }
        let cut = noticed_after(row, &bytes, 31, &[low]);
        let expected = [Fault::HeldCutByteCounts, Fault::HeldDeselectClearsWel];
        assert_eq!(cut, expected, "{}", row.name);
    }
}
