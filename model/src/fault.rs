//! Named ways to be wrong. `mistakes` makes them; `sharpness` uses them to show that the generated traces, or else the
//! inputs of the bench program or the chosen views, states, loads, wrong counts, lent lengths and questions for a blank
//! page, would notice each one.

/// Declares the enum, the list of all faults and their meanings from one table.
macro_rules! faults {
    ($($name:ident = $meaning:literal,)*) => {
        /// One named mistake; `None` makes none.
        #[derive(Clone, Copy, Debug, PartialEq, Eq)]
        pub enum Fault {
            None,
            $(#[doc = $meaning] $name,)*
        }

        impl Fault {
            /// Every mistake, in the order of document 01's headings; those that a request brought are in its order.
            pub const ALL: &'static [Fault] = &[$(Fault::$name,)*];

            /// Whether the mistake is that of a device on a trace, from counts that agree with the cells.
            pub fn is_of_trace(self) -> bool {
                let of_calls = self.is_of_view() || self.is_of_state() || self.is_of_load();
                let of_counts = self.is_of_wrong_count() || self.is_of_lent() || self.is_of_blank();
                !(self.is_of_bench() || of_calls || of_counts)
            }

            /// Whether the mistake is one that `play` can have. It looks for a blank page in counts that it made itself,
            /// so it never has wrong ones, too many or too few of them, or a device that is not in the table.
            pub fn is_of_play(self) -> bool {
                let of_odd_counts = self.starts_with("BlankWrong") || self.starts_with("BlankLent");
                self.is_of_trace() || self.is_of_blank() && !of_odd_counts
            }

            /// Whether the mistake is the bench program's and not the library's.
            pub fn is_of_bench(self) -> bool {
                self.starts_with("Bench")
            }

            /// Whether the mistake is that of a view, which no trace asks for.
            pub fn is_of_view(self) -> bool {
                self.starts_with("View")
            }

            /// Whether the mistake is that of calling a state sound, which all states that a trace reaches are.
            pub fn is_of_state(self) -> bool {
                self.starts_with("State")
            }

            /// Whether the mistake is that of `load`, which comes before a trace.
            pub fn is_of_load(self) -> bool {
                self.starts_with("Load")
            }

            /// Whether the mistake is one about counts, whatever shows it.
            pub fn is_of_count(self) -> bool {
                self.starts_with("Count")
            }

            /// Whether the mistake is that of a count that is wrong before, which no trace makes so.
            pub fn is_of_wrong_count(self) -> bool {
                self.starts_with("CountWrong")
            }

            /// Whether the mistake is that of judging the lent counts, or of preparing them, which comes before a trace.
            pub fn is_of_lent(self) -> bool {
                self.starts_with("Counts")
            }

            /// Whether the mistake is that of looking for a blank page, which no trace asks for.
            pub fn is_of_blank(self) -> bool {
                self.starts_with("Blank")
            }

            fn starts_with(self, word: &str) -> bool {
                format!("{self:?}").starts_with(word)
            }

            /// What the mistaken model does.
            pub fn meaning(self) -> &'static str {
                match self {
                    Fault::None => "the right model",
                    $(Fault::$name => $meaning,)*
                }
            }
        }
    };
}

faults! {
    // The device's state: preparing, and the count of whole bytes.
    IdentificationCodeMissing = "device 4 is prepared with FFh in its whole identification page",
    IdentificationCodeOnDevice3 = "device 3 is prepared with device 4's identification code",
    NewStatusIsScratch = "every whole byte received goes to new status",
    WholeBytesStopAtFive = "whole bytes stop counting at 5",
    // Events: edges.
    RedundantClockHighIsRise = "setting C high when it is high is a rise",
    RedundantSelectLowIsFall = "setting S low when it is low is a fall",
    LeastBitFirst = "the least significant bit comes first",
    OutputMovesAtRise = "Q moves at the rise of C",
    ByteTakenAtLastRise = "the byte to send is taken at the rise before its top bit",
    ReceivedKeptAtSelectFall = "the bits of a cut byte stay for the next selection",
    // Events: hold.
    RiseDecodedWhileHeld = "a rise of C while held is decoded",
    FallDecodedWhileHeld = "a fall of C while held is decoded, HOLD low",
    FallEndingHoldDecoded = "the fall that ends hold is decoded",
    FallStartingHoldNotDecoded = "the fall that starts hold is not decoded",
    HoldStartsWithClockHigh = "HOLD lowered with C high holds at once",
    HoldEndsWithClockHigh = "HOLD raised with C high ends hold at once",
    HoldNeedsAnEdge = "S falling with HOLD low does not hold",
    HoldAtSelectWithClockHigh = "S falling with HOLD low holds also with C high",
    HoldShowsOutput = "Q is not Z while held",
    HoldLosesOutput = "Q stays Z after hold until the next fall",
    HeldCommandJudged = "every command deselected while held is judged",
    HoldPinDropsCommand = "a command deselected with HOLD low is taken for held, held or not",
    HeldWithHoldHighJudged = "every command deselected while held with HOLD high is judged",
    // Events: W.
    ProtectSampledAtEnd = "W counts only at the rise of S",
    ProtectSampledAtStart = "W counts only at the fall of S",
    ProtectNotSeenInHold = "W low while held is not seen",
    ProtectSeenKept = "W seen low stays for later selections",
    // Events: time.
    WriteTimeOneShort = "a cycle takes a microsecond less",
    WriteTimeOneLong = "a cycle takes a microsecond more",
    Device3WriteTimeAsOthers = "device 3 takes 5000 microseconds",
    WaitPastEndWraps = "a wait longer than the time left does not end the cycle",
    WaitWithoutCycleClearsWel = "a wait with no cycle clears WEL",
    ZeroWaitIsOne = "a wait of 0 counts as one microsecond",
    TimeStopsWhileHeld = "no time passes while held",
    TimeStopsWhileSelected = "no time passes while selected",
    CellsChangeAtSelectRise = "cells change when S rises",
    IdentificationChangesAtSelectRise = "the identification page changes when S rises",
    StatusChangesAtSelectRise = "status bits change when S rises",
    LockChangesAtSelectRise = "the lock changes when S rises",
    UnmarkedBytesWritten = "the whole latch is written, marked or not",
    CycleEndKeepsWel = "WEL stays at the end of a cycle",
    CycleEndClearsMarks = "the marks are cleared at the end of a cycle",
    CycleEndDropsSelection = "the end of a cycle deselects",
    // Events: power.
    PowerKeepsWel = "power keeps WEL",
    SelectedAfterPower = "S low is selected after power",
    PowerKeepsSelection = "power keeps the selection as it was",
    PowerJudgesCommand = "power while selected judges the command",
    PowerClearsStatus = "power clears the status bits",
    PowerUnlocks = "power unlocks",
    PowerRaisesSelect = "power sets S high",
    PowerTakenInArrayCycle = "power ends an array cycle",
    PowerTakenInIdentificationCycle = "power ends an identification cycle",
    PowerTakenInStatusCycle = "power ends a status cycle",
    PowerTakenInLockCycle = "power ends a lock cycle",
    // Instructions: codes.
    Device1CodeBit3Counts = "bit 3 of the code is not ignored on device 1",
    Device1Address8Ignored = "A8 is always 0 on device 1",
    Device1IdentificationCodesLoose = "8Ah and 8Bh are 82h and 83h on device 1",
    CodeBit3IgnoredEverywhere = "bit 3 of the code is ignored on all devices",
    UnknownCodeSkipped = "the byte after an unknown code is taken as a code",
    // Instructions: during a cycle.
    RdsrTurnedAway = "RDSR is turned away in a cycle",
    WrdiTurnedAway = "WRDI is turned away in a cycle",
    WrenTakenInCycle = "WREN is taken in a cycle",
    WrsrTakenInCycle = "WRSR is taken in a cycle",
    ReadTakenInCycle = "READ is taken in a cycle",
    WriteTakenInCycle = "WRITE is taken in a cycle",
    RdidTakenInCycle = "83h is taken in a cycle",
    WridTakenInCycle = "82h is taken in a cycle",
    UnknownTakenInCycle = "an unknown code is not turned away in a cycle",
    LatchReusedInCycle = "a WRITE turned away still fills the latch",
    TurnedAwayJudgedAtSelectFall = "turning away is judged when S falls",
    TurnedAwayJudgedAtFirstBit = "turning away is judged at the first bit of the code",
    TurnedAwayEndsWithCycle = "a turned away command is taken again once the cycle ends",
    WrdiStopsCycle = "WRDI ends a running cycle",
    // Instructions: address.
    AddressAboveArrayCounts = "an address above the array is not taken",
    AddressMaskOneBitShort = "the top address bit of the array is ignored",
    IdentificationHighBitsCount = "83h and 82h with other address bits set are not taken",
    LockBitOneLower = "lock instructions have the address bit below set",
    Device1LockBitIsTen = "device 1 has no lock instructions",
    // Instructions: sending.
    ReadStopsAtLastCell = "READ sends Z past the last cell",
    ReadRollsInPage = "READ rolls round within its page",
    ReadTurnsOneEarly = "READ goes to cell 0 before the last cell",
    RdidTurnsRound = "RDID goes on at the start of its page",
    RdidEndsOneEarly = "RDID ends before the last byte of its page",
    RdlsSentOnce = "RDLS sends the lock once, then 00h",
    RdlsInverted = "RDLS sends 00h if locked",
    RdsrSentOnce = "RDSR sends the status once, then Z",
    RdsrTakenOnce = "RDSR repeats the status it took first",
    RdsrTakenEachBit = "RDSR takes the status afresh at every bit",
    RdsrWithoutWip = "RDSR does not show WIP",
    RdsrWithoutWel = "RDSR does not show WEL",
    Device1UpperBitsOne = "RDSR sends ones in the upper four bits on device 1",
    // Instructions: WREN and WRDI.
    WrenTakesMoreBytes = "WREN is done with more than 8 rises, a multiple of eight",
    WrenTakesMoreBits = "WREN is done with 9 to 15 rises",
    WrenAtEighthRise = "WREN is done at its eighth rise",
    WrenStoppedByProtect = "W low stops WREN on device 1",
    ProtectClearsWel = "W low clears WEL on device 1",
    WrdiTakesMoreBytes = "WRDI is done with more than 8 rises, a multiple of eight",
    WrdiTakesMoreBits = "WRDI is done with 9 to 15 rises",
    // Instructions: WRSR.
    WrsrWithoutWel = "WRSR is done without WEL",
    WrsrTakesMoreBytes = "WRSR is done with more than 16 rises, a multiple of eight",
    WrsrTakesMoreBits = "WRSR is done with 17 to 23 rises",
    WrsrTakesLess = "WRSR is done with 8 rises",
    WrsrStoresOtherBits = "WRSR stores bits 4 to 6 too",
    WrsrStoresSrwdOnDevice1 = "WRSR stores bit 7 on device 1",
    WrsrIgnoresProtect = "W low never stops WRSR where SRWD exists",
    WrsrIgnoresProtectOnDevice1 = "W low does not stop WRSR on device 1",
    WrsrStoppedWithoutSrwd = "W low stops WRSR also with SRWD 0",
    // Instructions: WRITE.
    WriteWithoutWel = "WRITE is done without WEL",
    WriteWithoutData = "WRITE is done without a data byte",
    WriteTakesMoreBits = "WRITE is done with a cut byte at its end",
    WriteIgnoresProtection = "WRITE is done in a protected page",
    WriteIgnoresProtectOnDevice1 = "W low does not stop WRITE on device 1",
    WriteStoppedByProtect = "W low stops WRITE on all devices",
    PageRollsIntoNext = "a page write goes on in the next page",
    PageRollsOneEarly = "a page write rolls round before the last byte of the page",
    FirstByteForPlaceCounts = "the first byte for a place counts",
    MarksNotCleared = "the code of WRITE or 82h leaves the marks",
    MarksClearedOnlyWithWel = "the marks are cleared only with WEL set",
    MarksClearedForWriteOnly = "82h leaves the marks",
    LatchDataCleared = "the code of WRITE or 82h clears the latch data too",
    LatchedOnlyWithWel = "data bytes are latched only with WEL set",
    // Instructions: WRID.
    WridWithoutWel = "WRID is done without WEL",
    WridWithoutData = "WRID is done without a data byte",
    WridTakesMoreBits = "WRID is done with a cut byte at its end",
    WridIgnoresLock = "WRID is done when locked",
    WridIgnoresProtection = "WRID is done with BP 11",
    WridProtectedByAddress = "WRID is protected as the uppermost page of the array is",
    WridIgnoresProtectOnDevice1 = "W low does not stop WRID on device 1",
    // Instructions: LID.
    LidWithoutWel = "LID is done without WEL",
    LidWithoutData = "LID is done without a data byte",
    LidTakesMoreBytes = "LID is done with more than one data byte",
    LidTakesMoreBits = "LID is done with a cut byte at its end",
    LidIgnoresBit1 = "LID is done whatever its data byte",
    LidAsksBit0 = "LID asks for bit 0 of its data byte",
    LidIgnoresLock = "LID is done when locked",
    LidIgnoresProtection = "LID is done with BP 11",
    LidIgnoresProtectOnDevice1 = "W low does not stop LID on device 1",
    LidByteLatched = "LID's data byte is latched",
    // Instructions: what a dropped write leaves, and protection.
    DroppedWriteClearsWel = "a dropped write clears WEL",
    DroppedWriteStartsCycle = "a write into a protected page starts a cycle that changes nothing",
    ProtectionOnePageLess = "the first protected page can be written",
    ProtectionOnePageMore = "the last unprotected page cannot be written",
    ProtectionBitsSwapped = "BP 01 protects the upper half and 10 the upper quarter",
    ProtectionFromBottom = "BP 01 and 10 protect the lower part",
    // Traces and numbers.
    TailIsEnd = "one to three bytes left end the trace with 0",
    BodyJudgedBeforeKind = "6 for the body comes before 7",
    BodyJudgedBeforeLength = "6 for the body comes before 8",
    LengthJudgedBeforeKind = "8 comes before 7 for a length that no kind has",
    LengthHighByteIgnored = "the length is one byte",
    KindHighByteIgnored = "the kind is one byte",
    PinTenTaken = "pin bytes 10 and 11 are taken",
    RoomJudgedBeforePin = "10 comes before 9",
    PowerJudgedBeforeRoom = "11 comes before 10",
    RefusalWritesAnswer = "a refused record writes an answer",
    LookPastLimit = "the record after the limit is looked at",
    DeviceRecordTakenInTrace = "a record of kind 16 is taken in a trace",
    // What is stored, as it is given out.
    StoredBitsWithWel = "the stored bits are given out with WEL and WIP",
    StoredBitsAreNew = "the new bits of a running status cycle are given out as stored",
    StoredLockIsNew = "the lock of a running lock cycle is given out as stored",
    // Smaller boards: rows of the table, and what depends on their cells and pages.
    SmallerWriteTimeIs4000 = "devices 5 to 7 take 4000 microseconds",
    Device5And6PageIs32 = "a page write rolls round within 32 bytes on devices 5 and 6",
    Device5AddressBit7Counts = "an address with bit 7 set is not taken on device 5",
    Device6AddressBit7Ignored = "bit 7 of the address is ignored on device 6",
    Device6ReadStopsAtLastCell = "READ sends Z past FFh on device 6",
    Device5And6ProtectionAsDevice1 = "the protected part begins on devices 5 and 6 where device 1's does",
    // Smaller boards: bit 3 of the code.
    Device5And6ShortBit3Counts = "0Eh, 0Ch, 0Dh and 09h are unknown codes on devices 5 and 6",
    Device5And6ArrayBit3Counts = "0Ah and 0Bh are unknown codes on devices 5 and 6",
    Device5And6Address8IsTopBit = "0Ah and 0Bh mean the upper half of the array on devices 5 and 6",
    Device7CodeBit3Ignored = "bit 3 of the code is ignored on device 7",
    // Smaller boards: 83h and 82h.
    Device7RdidSends = "83h sends FFh on device 7",
    Device7RdlsSends = "83h with the lock bit set sends 00h on device 7",
    Device5And6RdidSends = "83h sends FFh on devices 5 and 6",
    Device5And6RdlsSends = "83h with the lock bit set sends 00h on devices 5 and 6",
    SmallerRdidTakenInCycle = "83h sends FFh in a cycle on devices 5 to 7",
    SmallerWridStartsCycle = "82h starts a cycle on devices 5 to 7",
    SmallerWridDoneAtOnce = "82h clears WEL without a cycle on devices 5 to 7",
    SmallerWridClearsMarks = "82h clears the marks on devices 5 to 7",
    SmallerWridLatches = "82h puts its data bytes into the latch on devices 5 to 7",
    SmallerWridTakenInCycle = "82h takes over the latch of a running cycle on devices 5 to 7",
    SmallerLidLocks = "82h with the lock bit set locks on devices 5 to 7",
    // Smaller boards: W and the status bits.
    Device5And6WrsrIgnoresProtect = "W low does not stop WRSR on devices 5 and 6",
    Device5And6WriteIgnoresProtect = "W low does not stop WRITE on devices 5 and 6",
    Device5And6WrenStopped = "W low stops WREN on devices 5 and 6",
    Device5And6ProtectClearsWel = "W low clears WEL on devices 5 and 6",
    Device7WrsrIgnoresProtect = "W low does not stop WRSR with SRWD 1 on device 7",
    Device7WrsrStoppedWithoutSrwd = "W low stops WRSR also with SRWD 0 on device 7",
    Device7WriteStoppedByProtect = "W low stops WRITE on device 7",
    Device5And6StoreSrwd = "WRSR stores bit 7 on devices 5 and 6",
    Device7SrwdMissing = "WRSR does not store bit 7 on device 7",
    Device5And6UpperBitsOne = "RDSR sends ones in the upper four bits on devices 5 and 6",
    // Smaller boards: which states are sound, and what is loaded.
    StateLockedIsSound = "a locked state is sound on devices 5 to 7",
    StateIdentificationCycleIsSound = "a state in an identification cycle is sound on devices 5 to 7",
    StateLockCycleIsSound = "a state in a lock cycle is sound on devices 5 to 7",
    StateInstructionIsSound = "RDID, RDLS, WRID and LID are sound on devices 5 to 7",
    StateLeftoverIsSound = "RDID, RDLS, WRID and LID are sound on devices 5 to 7 while deselected",
    StateLockInstructionIsSound = "RDLS and LID are sound on devices 5 to 7",
    LoadTakesLock = "lock 1 is loaded on devices 5 to 7",
    LoadTakesSrwd = "bit 7 is loaded on devices 5 and 6",
    LoadRefusesSrwd = "bit 7 is not loaded on device 7",
    // The sheet: one entry, or one row, is wrong.
    Device1Entry00OnePageLow = "the entry of device 1 for BP 00 is a page too low",
    Device1Entry01OnePageHigh = "the entry of device 1 for BP 01 is a page too high",
    Device1Entry10OnePageHigh = "the entry of device 1 for BP 10 is a page too high",
    Device1Entry11OnePageHigh = "the entry of device 1 for BP 11 is a page too high",
    Device2Entry00OnePageLow = "the entry of device 2 for BP 00 is a page too low",
    Device2Entry01OnePageHigh = "the entry of device 2 for BP 01 is a page too high",
    Device2Entry10OnePageHigh = "the entry of device 2 for BP 10 is a page too high",
    Device2Entry11OnePageHigh = "the entry of device 2 for BP 11 is a page too high",
    Device3Entry00OnePageLow = "the entry of device 3 for BP 00 is a page too low",
    Device3Entry01OnePageHigh = "the entry of device 3 for BP 01 is a page too high",
    Device3Entry10OnePageHigh = "the entry of device 3 for BP 10 is a page too high",
    Device3Entry11OnePageHigh = "the entry of device 3 for BP 11 is a page too high",
    Device4Entry00OnePageLow = "the entry of device 4 for BP 00 is a page too low",
    Device4Entry01OnePageHigh = "the entry of device 4 for BP 01 is a page too high",
    Device4Entry10OnePageHigh = "the entry of device 4 for BP 10 is a page too high",
    Device4Entry11OnePageHigh = "the entry of device 4 for BP 11 is a page too high",
    Device5Entry00OnePageLow = "the entry of device 5 for BP 00 is a page too low",
    Device5Entry01OnePageHigh = "the entry of device 5 for BP 01 is a page too high",
    Device5Entry10OnePageHigh = "the entry of device 5 for BP 10 is a page too high",
    Device5Entry11OnePageHigh = "the entry of device 5 for BP 11 is a page too high",
    Device6Entry00OnePageLow = "the entry of device 6 for BP 00 is a page too low",
    Device6Entry01OnePageHigh = "the entry of device 6 for BP 01 is a page too high",
    Device6Entry10OnePageHigh = "the entry of device 6 for BP 10 is a page too high",
    Device6Entry11OnePageHigh = "the entry of device 6 for BP 11 is a page too high",
    Device7Entry00OnePageLow = "the entry of device 7 for BP 00 is a page too low",
    Device7Entry01OnePageHigh = "the entry of device 7 for BP 01 is a page too high",
    Device7Entry10OnePageHigh = "the entry of device 7 for BP 10 is a page too high",
    Device7Entry11OnePageHigh = "the entry of device 7 for BP 11 is a page too high",
    Device1Entries01And10Exchanged = "the entries of device 1 for BP 01 and 10 are exchanged",
    Device2Entries01And10Exchanged = "the entries of device 2 for BP 01 and 10 are exchanged",
    Device3Entries01And10Exchanged = "the entries of device 3 for BP 01 and 10 are exchanged",
    Device4Entries01And10Exchanged = "the entries of device 4 for BP 01 and 10 are exchanged",
    Device5Entries01And10Exchanged = "the entries of device 5 for BP 01 and 10 are exchanged",
    Device6Entries01And10Exchanged = "the entries of device 6 for BP 01 and 10 are exchanged",
    Device7Entries01And10Exchanged = "the entries of device 7 for BP 01 and 10 are exchanged",
    Device4EntriesMisprinted = "the entries of device 4 are 3000h and 2000h, as its sheets print them",
    Device3And4RowsExchanged = "devices 3 and 4 go by each other's entries",
    Device5And6RowsExchanged = "devices 5 and 6 go by each other's entries",
    // The sheet: how an entry is understood.
    ProtectionNoneIsZero = "BP 00 protects all: none is taken for the address 0",
    ProtectionZeroIsNone = "BP 11 protects nothing: the address 0 is taken for none",
    ProtectionNoneIsLastAddress = "the entry for BP 00 is the last address and not the number of cells",
    ProtectionEntriesInTwoBytes = "an entry above FFFFh keeps its low two bytes",
    ProtectionLostWithSrwd = "no page is protected with SRWD 1",
    ProtectionOneAddressMore = "WRITE is not done if it leaves the address just before the upper quarter or half",
    ProtectionOneAddressLess = "WRITE is done if it leaves the address at the first protected one",
    ProtectionFirstAddressOpen = "WRITE is done if it is sent to the first protected address",
    // Counts: how a page is counted, and when its count is set.
    CountInByte = "a count is kept in a byte, so that a full page of 256 counts 0",
    CountOfBlankCells = "a count is the number of cells that are FFh",
    CountSkipsZero = "00h is as blank as FFh for a count",
    CountTestedAfterChange = "the count is tested against the cells after the change",
    CountLeftAtCycleEnd = "the end of an array cycle leaves the count",
    CountAddsMarkedBytes = "the new count is the old one and the number of marked bytes",
    CountSetAtSelectRise = "the count is set when S rises",
    CountSetByIdentificationCycle = "the end of an identification cycle sets the count of page 0",
    CountClearedByPower = "power sets all counts to 0",
    CountOfFileIsBlank = "a chip's file is played with counts of 0, whatever its cells",
    // Counts: one that is wrong before.
    CountWrongNotRefused = "a wrong count is set right without a refusal",
    CountWrongOnlyAbove256 = "only a count above 256 is wrong",
    CountWrongRefusedAtSelectRise = "a wrong count refuses the rise of S that starts an array cycle",
    CountWrongRefusedAtEveryWait = "a wrong count refuses every wait in an array cycle",
    CountWrongRefusedForAnyPage = "a wrong count of any page refuses the end of an array cycle",
    CountWrongRefusedInIdentification = "a wrong count of page 0 refuses the end of an identification cycle",
    CountWrongRefusedInStatus = "a wrong count of the page written before refuses the end of a status cycle",
    CountWrongRefusedInLock = "a wrong count of the page written before refuses the end of a lock cycle",
    CountWrongTakesTime = "a wait refused for a wrong count takes its time all the same",
    CountWrongMendedByRefusal = "a wait refused for a wrong count sets it right",
    CountWrongDropsCycle = "a wait refused for a wrong count ends the cycle without its change",
    CountWrongAnswersQ = "a wait refused for a wrong count answers Q",
    CountWrongIsUnsound = "a wrong count gives 5",
    // Counts: the lent buffer, and preparing.
    CountsJudgedAfterState = "14 comes after 5",
    CountsJudgedBeforeLatch = "14 comes before 4",
    CountsNotJudgedInPreparing = "preparing takes a counts buffer of any length",
    CountsLongerTaken = "a counts buffer that is too long is taken",
    CountsHaveIdentification = "an identification page has a count of its own",
    CountsLeftByPreparing = "preparing leaves the counts",
    // The first blank page: which one is given.
    BlankIsLast = "the last blank page is given and not the first",
    BlankBehindLastWritten = "the page behind the last written one is given, as if no page before it were blank",
    BlankZeroNotLookedAt = "the search for a blank page starts at page 1",
    BlankLastNotLookedAt = "the search for a blank page ends before the last page",
    BlankPast255NotLookedAt = "only the first 256 pages are looked at for a blank one",
    BlankEndsAtWritten = "the search for a blank page ends at the first page that is not blank",
    // The first blank page: what a count says.
    BlankByLowByte = "a page is taken for blank if the low byte of its count is 0",
    BlankTakesFull = "a full page is taken for blank too",
    BlankIsFull = "the first full page is given, and no blank one",
    BlankTakesOneCell = "a page with one written cell is taken for blank",
    BlankIsLeastWritten = "the page with the lowest count is given, blank or not",
    // The first blank page: how the answer is told.
    BlankIsAddress = "a blank page is given by the address of its first cell",
    BlankFromOne = "a blank page is given by its number from 1",
    BlankNumberInByte = "the number of a blank page keeps its low byte",
    BlankNoneIsZero = "page 0 is given where no page is blank",
    BlankNoneIsLast = "the last page is given where no page is blank",
    BlankNoneIsPages = "the number of pages is given as a page where none is blank",
    BlankNoneIsRefused = "14 is given where no page is blank",
    // The first blank page: counts that no page can have.
    BlankWrongRefused = "a count above a page's cells that is met in the search gives 15",
    BlankWrongIsBlank = "a page whose count is above its cells is taken for blank",
    BlankWrongEndsSearch = "the search for a blank page ends with none at a count above a page's cells",
    BlankWrongIsNegative = "a count of 32,768 or more is taken for less than 1, and its page for blank",
    // The first blank page: the device and the lent buffer.
    BlankLentLongerTaken = "a blank page is looked for in the first counts of a buffer that is too long",
    BlankLentLongerSearched = "a blank page is looked for in all counts of a buffer that is too long",
    BlankLentShorterTaken = "a blank page is looked for in a counts buffer that is too short",
    BlankLentEmptyTaken = "no page is blank in a counts buffer of length 0",
    BlankLentOfOtherTaken = "a blank page is looked for in a counts buffer of another device's length",
    BlankLentHasIdentification = "an identification page has a count too in the search for a blank page",
    BlankLentRefusalIsNone = "a counts buffer of wrong length is told as no blank page",
    BlankLentRefusalIsPage = "a refused search for a blank page gives page 0",
    BlankLentJudgedFirst = "14 comes before 1 in the search for a blank page, for a length that no device has",
    BlankLentDeviceIs14 = "a device that is not in the table gives 14 in the search for a blank page",
    BlankLentDeviceTaken = "a blank page is looked for in the counts of a device that is not in the table",
    BlankLentSmallerUnknown = "the search for a blank page gives 1 for devices 5 to 7",
    // Deselected while held: the column of the table.
    HeldCommandDropped = "every command deselected while held is dropped, on all devices",
    Device2HeldWritesDropped = "a WRITE, WRID or LID deselected while held is dropped on device 2",
    Device7HeldWriteDropped = "a WRITE deselected while held is dropped on device 7",
    Device1HeldWritesJudged = "a WRITE, WRID or LID deselected while held is judged on device 1",
    Device3HeldWritesJudged = "a WRITE, WRID or LID deselected while held is judged on device 3",
    Device4HeldWritesJudged = "a WRITE, WRID or LID deselected while held is judged on device 4",
    Device5HeldWriteJudged = "a WRITE deselected while held is judged on device 5",
    Device6HeldWriteJudged = "a WRITE deselected while held is judged on device 6",
    // Deselected while held: which commands are judged on devices 2 and 7.
    HeldWriteDropped = "a WRITE deselected while held is dropped, WRID and LID are not",
    HeldWridDropped = "a WRID deselected while held is dropped",
    HeldLidDropped = "a LID deselected while held is dropped",
    HeldWrenJudged = "a WREN deselected while held is judged on devices 2 and 7",
    HeldWrdiJudged = "a WRDI deselected while held is judged on devices 2 and 7",
    HeldWrsrJudged = "a WRSR deselected while held is judged on devices 2 and 7",
    Device7HeldWridStartsCycle = "82h with all bytes of a WRID starts a cycle on device 7 when deselected while held",
    // Deselected while held: the flag and the pins.
    HoldPinDropsWrite = "a WRITE, WRID or LID deselected with HOLD low but not held is dropped on devices 2 and 7",
    HeldWriteNeedsHoldLow = "a WRITE, WRID or LID deselected while held with HOLD high is dropped",
    HeldWriteNeedsClockLow = "a WRITE, WRID or LID deselected while held with C high is dropped",
    HeldClockSpoilsWrite = "a rise of C in hold spoils a WRITE, WRID or LID that is then deselected while held",
    // Deselected while held: what a write may lack.
    HeldWriteWithoutWel = "a WRITE deselected while held is done without WEL",
    HeldWriteWithoutData = "a WRITE deselected while held is done without a data byte",
    HeldWriteTakesMoreBits = "a WRITE deselected while held is done with a cut byte at its end",
    HeldWriteIgnoresProtection = "a WRITE deselected while held is done in a protected page",
    HeldWriteStoppedByProtect = "W low stops a WRITE deselected while held on devices 2 and 7",
    HeldWridWithoutWel = "a WRID deselected while held is done without WEL",
    HeldWridWithoutData = "a WRID deselected while held is done without a data byte",
    HeldWridTakesMoreBits = "a WRID deselected while held is done with a cut byte at its end",
    HeldWridIgnoresLock = "a WRID deselected while held is done when locked",
    HeldWridIgnoresProtection = "a WRID deselected while held is done with BP 11",
    HeldLidWithoutWel = "a LID deselected while held is done without WEL",
    HeldLidWithoutData = "a LID deselected while held is done without a data byte",
    HeldLidTakesMoreBytes = "a LID deselected while held is done with more than one data byte",
    HeldLidTakesMoreBits = "a LID deselected while held is done with a cut byte at its end",
    HeldLidIgnoresBit1 = "a LID deselected while held is done whatever its data byte",
    HeldLidIgnoresLock = "a LID deselected while held is done when locked",
    HeldLidIgnoresProtection = "a LID deselected while held is done with BP 11",
    HeldCutByteCounts = "a WRITE or WRID deselected while held is done with its only data byte cut",
    HeldWriteTakesOneByte = "a WRITE or WRID deselected while held is dropped if it has more than one data byte",
    HeldTurnedAwayJudged = "a WRITE or WRID that a cycle turned away is judged when deselected while held",
    // Deselected while held: the cycle, and what is left.
    HeldWriteTimeOneShort = "a cycle that was started in hold takes a microsecond less",
    HeldWriteStartsAtRelease = "the cycle of a write deselected while held starts when HOLD rises",
    HeldWriteDoneAtOnce = "a write deselected while held makes its change at once, without a cycle",
    HeldWriteWritesNothing = "the cycle of a WRITE or WRID deselected while held changes no byte",
    HeldWriteToFirstPage = "a WRITE deselected while held goes to the first page",
    HeldWriteStaysHeld = "hold goes on after a write deselected in it, until HOLD rises in a selection",
    HeldWriteFreesNext = "after a write deselected while held HOLD holds no more until it was high",
    HeldDeselectClearsWel = "deselecting while held clears WEL",
    HeldDeselectEndsCycle = "deselecting while held ends a cycle that was running before",
    CountLeftByHeldWrite = "the end of an array cycle that was started in hold leaves the count",
    // A view of a page.
    ViewUnaskedUnchecked = "a view does not judge the slice that was not asked for",
    ViewThreeBeforeTwo = "3 comes before 2 in a view",
    ViewAskedJudgedFirst = "a view judges the slice that was asked for before the other",
    ViewThirteenBeforeTwo = "13 comes before 2 and 3 in a view",
    ViewThirteenBeforeThree = "13 comes before 3 in a view",
    ViewRefusalShowsPart = "a refused view shows the slice that was asked for",
    ViewRegionsSwapped = "a view shows the identification page for cells and a page of cells for it",
    ViewAddressAlwaysJudged = "an address past the cells gives 13 for the identification page too",
    ViewCountIsAddress = "the number of cells itself is taken for an address in a view",
    ViewAddressWraps = "a view past the last cell goes on at cell 0",
    ViewStartsAtAddress = "a view of cells starts at the address",
    ViewShowsAllCells = "a view of cells shows all of them",
    ViewIdentificationFromAddress = "a view of the identification page starts at the address's place in it",
    ViewSmallerUnknown = "a view gives 1 for devices 5 to 7",
    ViewSmallerAsksForPage = "a view asks for an identification page of a page's length on devices 5 to 7",
    ViewSmallerTakesAnyLength = "a view takes an identification page of any length on devices 5 to 7",
    ViewSmallerIsRefused = "a view of the identification page gives 3 on devices 5 to 7",
    ViewSmallerShowsCells = "a view of the identification page shows the first page of cells on devices 5 to 7",
    // Bench program.
    BenchStatusIsStored = "the bench program ends with the stored status bits",
    BenchRefusalIsBare = "the bench program prints only the end of a refused trace",
    BenchHeaderNeedsRecord = "the bench program prints no header without a record done",
    BenchLimitOneLess = "the bench program refuses 32,768 bytes",
    BenchLimitCountsTrace = "the bench program does not count the first record in its limit",
    BenchLimitJudgedLast = "the bench program judges its first record before 12",
    BenchLengthBeforeKind = "the bench program judges the first record's length before its kind",
    BenchBodyBeforeKind = "the bench program judges the first record's body before its kind",
    BenchTakesLargeDevices = "the bench program runs devices 3 and 4",
    BenchTakesSmallerDevices = "the bench program runs devices 5 to 7",
    BenchTakesNoInput = "the bench program takes no input for a whole one",
}
