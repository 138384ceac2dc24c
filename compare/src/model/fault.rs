//! The ways in which the model can be made wrong on purpose.

macro_rules! faults {
    ($($fault:ident $name:literal $what:literal)*) => {
        #[derive(Clone, Copy, Debug, PartialEq, Eq)]
        pub enum Fault { $($fault),* }

        impl Fault {
            pub const ALL: &'static [Fault] = &[$(Fault::$fault),*];

            /// The name on the command line.
            pub fn name(self) -> &'static str {
                match self { $(Fault::$fault => $name),* }
            }

            pub fn what(self) -> &'static str {
                match self { $(Fault::$fault => $what),* }
            }
        }
    };
}

faults! {
    // Document 01, "Errors we have met in bought software".
    AddressNumber "address-as-number" "origins are compared as numbers"
    AddressNoLength "address-without-length" "origins are compared over their zero-filled octets alone"
    RestartDropsNew "restart-drops-new" "a restart throws away the new first segment too"
    LossForgetsBreaker "loss-forgets-breaker" "a loss record leaves out the breaking segment"
    LossBreakerInstruction "loss-breaker-instruction" "a loss record has the breaking segment's instruction"
    TimerRestarted "timer-restarted" "each segment starts the timer anew"
    AgePlain "age-plain-subtraction" "an age is taken by plain subtraction"
    // Of our own.
    RestartBeforeRemaining "line-2-before-1" "line 2 is tried before line 1"
    RemainingAtMost "remaining-at-most" "line 5 lets segments be missed"
    LongByOne "2048-lost" "line 6 loses 2,048 octets already"
    FullRefusesRestart "full-refuses-restart" "a full table refuses line 2 too"
    HighestFree "highest-free-place" "line 3 takes the highest free place"
    FreeMarkOnly "free-clears-mark-only" "a freed place keeps its other fields"
    StoreAtStart "store-at-place-start" "each segment is written at the place's start"
    LastNotStored "last-not-stored" "the final segment is not written to the store"
    RecordLittleEndian "record-little-endian" "a record's octets go least significant octet first"
    RefusedReport "refused-call-writes" "a refused call writes the report area"
    Octet3aEarly "7-before-5" "7 is found before 3a is read"
    AddressLate "9-after-the-address" "9 is found after the address's octets"
    SpareRead "spare-bits-read" "octet 2's spare bits count as instruction"
    AddressesAlways "1998-as-2000" "a context of 1998 is read with address fields"
    TwiceByKind "twice-by-kind" "opening takes a context listed twice with different kinds"
    ZeroFill "zero-fill-unchecked" "the octets after a place's origin are not looked at"
    MarkAny "any-mark-is-open" "any mark but 0 counts as open"
    SumEleven "segments-sum-of-11" "segments plus remaining may be 11"
    ClockHalf "half-step-accepted" "a clock step of 2^31 is accepted"
    TimerLate "timer-late" "a sequence of age T is kept"
    ReleaseAll "release-all" "a release ends the sequences of every association"
    DeliveryPastPlace "delivery-past-place" "a part may reach past its place's stretch"
    RefusedOpening "refused-opening-keeps-clock" "a refused opening answers with T and clock"
    RegistryFirst "11-before-12" "opening looks at the registry first"
    CountOneMore "count-one-more" "sending's count is one more than the least where all is full"
    RoomUnused "unused-room-unchecked" "an R over 255 passes where it is not used"
    ReferenceFirst "16-before-17" "sending looks at the reference before the instruction"
    ContextLong "context-in-two-octets" "a context is always written in two octets"
    // Of A1's totals.
    RefusedCounted "refused-segments-taken" "a refused segment counts as taken where its association has a row"
    RestartBillsNew "restart-bills-new" "a restart counts the new segment as lost too"
    ReleaseUnbilled "release-unbilled" "what a release ends does not count as lost"
    RowsKept "rows-kept-over-opening" "an opening leaves the rows as they are"
    RefusedRowsKept "rows-kept-by-refusal" "a refused opening leaves the rows as they are"
    SecondRow "second-row" "an association gets another row while one is unused"
    ParameterBilled "parameter-billed" "the octets taken are the whole parameter's"
    AtOnceUnbilled "lost-at-once-unbilled" "a segment that is lost where no sequence was open is not counted"
    MostExcluded "2-63-refused" "a total may not become 2^63"
    LargeLookedAt "past-2-63-refused" "a total past 2^63 is refused though nothing is added to it"
    LossesAlone "losses-judged-alone" "several losses of one association are judged one by one"
    HighestRow "highest-unused-row" "an association gets the highest unused row"
    RowBeforeFull "21-before-10" "21 is found before 10"
    TotalBeforeFull "22-before-10" "22 is found before 10"
    TotalBeforeStep "22-before-13" "22 is found before 13"
    UnusedUnchecked "unused-rows-unchecked" "the totals of an unused row are not looked at"
    TwiceUnchecked "rows-twice-unchecked" "an association may have two rows"
    PlacesUnchecked "rows-of-places-unchecked" "an open place's association needs no row"
    // Of A2's padded contexts.
    PaddedTaken "padded-taken" "a padded context is taken as before"
    PaddedLate "23-after-8" "23 is found after 8"
    PaddedEarly "23-before-6" "23 is found before octet 1a's extension is looked at"
    PaddedByLow "padded-by-low-part" "23 looks at the lower part of the context"
    TwoOctetsRefused "two-octets-refused" "23 refuses any context in two octets"
    Padded128 "128-padded" "a context of 128 counts as padded"
    PaddedLater "padded-later-taken" "a padded context is taken in a subsequent segment"
    // Of A3's destinations.
    DestinationIgnored "destination-not-in-key" "a sequence is found whatever its destination"
    DestinationNumber "destination-as-number" "destinations are compared as numbers"
    DestinationNoLength "destination-without-length" "destinations are compared over their zero-filled octets alone"
    KeysNoDestination "shared-but-destination" "two open places that differ in the destination alone are not sound"
    AddressesSwapped "addresses-swapped" "origin and destination are taken one for the other"
    OriginRecorded "origin-recorded-twice" "a record has the origin in the destination's place"
    DestinationOfSaved "destination-of-saved-only" "the record of a segment that was never saved has no destination"
    DestinationUnjudged "destination-unjudged" "an open place's destination is not judged"
    DestinationFill "destination-fill-unchecked" "the octets after a place's destination are not looked at"
    DestinationOf1998 "destination-of-1998" "a place of a context of 1998 may have a destination"
    FreeDestination "free-destination-unchecked" "a free place's destination is not looked at"
    OldSweep "old-sweep-report" "512 octets of report are enough for a clock or a release"
    OldKinds "old-record-kinds" "records are of kinds 16 and 17"
    // Of A5's positions.
    PositionsFrom1 "positions-from-1" "positions are counted from 1"
    NextBlamed "next-octet-blamed" "6, 8, 9 and 23 are at the octet after the one at fault"
    CutAtField "5-at-the-field" "5 is at the start of the field that is cut"
    CutAtLast "5-at-the-last-octet" "5 is at the parameter's last octet"
    ExtensionAtField "6-at-the-field" "6 is at the start of its field: at octet 1 or 3 for 1a or 3a"
    Octet3aBlamed "7-at-octet-3a" "7 is at octet 3a, or where it would be"
    ContextStart "8-at-octet-1" "8 is at octet 1 also where there is octet 1a"
    AddressBlamed "9-at-the-address" "9 is at the first octet after the length"
    PaddedStart "23-at-octet-1" "23 is at octet 1"
    LongPlaced "4-at-an-octet" "4 has a position, that of the first octet over 255"
    FullPlaced "10-at-an-octet" "10 has a position, where the information starts"
    AcceptedPlaced "accepted-at-an-octet" "a segment that is not refused has a position, where its information starts"
    NowhereZero "nowhere-0" "no position is 0"
    NowhereOctet "nowhere-255" "no position is 255"
    // Of A6's arrivals.
    SegmentFirst "segment-first" "an arrival does its segment's work first and then the clock's"
    ClockUndone "clock-undone-by-refusal" "the clock's work is undone where the segment is refused"
    ClockKept "clock-kept-at-22" "the clock's work stands where the segment is refused by 22"
    ClockTotalPassed "clock-alone-undone-at-22" "at a 22 of the clock's work its segment is taken all the same"
    ClockTotalLate "clock-22-after-reading" "a 22 of the clock's work is found after 4 to 9"
    StepFirst "13-before-2" "13 is found before 2"
    StepPassed "13-passed-over" "where the step is 2^31 or more, the segment is taken at the table's own time"
    OldStart "start-at-the-old-time" "a sequence starts at the time that the table had before the arrival"
    FullBefore "10-before-the-clock" "10 is found in the table as it came"
    FreedPassedOver "freed-place-passed-over" "a place that the clock's work frees is taken only if no other is free"
    TimeOnly "arrival-ends-nothing" "an arrival sets the time, and what is due is left to the clock call"
    OwnKept "own-sequence-kept" "an arrival does not time out the sequence that its segment is of"
    SumsApart "22-without-the-clock" "the segment's 22 is judged without what the clock's work adds"
    OwnRecordFirst "own-record-first" "the segment's record is put before the clock's"
    TimeoutsAll "timeouts-all" "the segment's record is told as one of the clock's"
    TimeoutsUntoldRefused "timeouts-0-refused" "no record is told as the clock's where the segment is refused"
    RecordsOwnOnly "records-own-only" "the number of records is without the clock's"
    OldReport "arrival-report-53" "53 octets of report are enough for an arrival"
    SweepReport "arrival-report-848" "848 octets of report are enough for an arrival"
    // Of the programs.
    TimeoutsUntold "timeouts-untold" "records' line of a segment does not tell how many records are the clock's"
    TimeoutsEverywhere "timeouts-on-every-line" "records' lines of other events have that field too"
    TimeoutsLast "timeouts-last" "records prints that field at the end of the line"
    RefusedUntold "refused-records-untold" "replay's line of a refused segment has no records and no octets"
    PositionUntold "position-untold" "replay's line of a segment has no position"
    PositionNumber "position-65535" "replay prints 65535 where there is no position"
    PositionEverywhere "position-on-every-line" "replay's lines of other events have the field too"
    PositionOnStop "position-on-stop" "replay's stop has the field too"
    PositionLast "position-last" "records prints the position at the end of the line"
    TimeLate "time-after-association" "replay reads a segment's time after its association"
    TimeLittleEndian "time-little-endian" "replay reads a segment's time least significant octet first"
    RegistryAfterOpen "registry-after-open" "replay takes registry records after the first open"
    FirstRecordOnly "first-record-only" "replay counts the octets of a call's first record alone"
    CutSilent "cut-without-stop" "replay ends at a cut record without a stop"
    DroppedUntold "dropped-untold" "records does not tell what an opening drops"
    HeldUntold "held-untold" "records does not tell what is open at the end"
    OriginNoLength "origin-without-length" "records prints twenty octets of an origin, whatever its length"
    DestinationUntold "destination-untold" "records prints no destination"
    DestinationAsOrigin "origin-told-twice" "records prints the origin as the destination"
    DestinationWhole "destination-20-told" "records prints twenty octets of a destination, whatever its length"
    RecordsPassed "records-passed-over" "replay passes over records of kinds 16 to 19"
    ReferenceAlways "reference-255" "records prints 255 for the reference of an unsegmented parameter"
    LastOpeningOnly "last-opening-only" "totals prints the rows of the last opening alone"
    RefusedOpeningUntold "refused-opening-untold" "totals has no heading for a refused opening"
}
