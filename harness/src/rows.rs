//! The rows of the paper that decide an answer.

macro_rules! rows {
    ($($name:ident $id:literal $refusal:literal $words:literal;)*) => {
        /// The row that decides an answer.
        #[derive(Clone, Copy, Debug, PartialEq, Eq, PartialOrd, Ord)]
        pub enum Row { $($name),* }

        impl Row {
            pub const ALL: &'static [Row] = &[$(Row::$name),*];

            /// A short name.
            pub fn id(self) -> &'static str {
                match self { $(Row::$name => $id),* }
            }

            /// The refusal number, 0 where the event is accepted.
            pub fn refusal(self) -> u8 {
                match self { $(Row::$name => $refusal),* }
            }

            /// A few words of the paper.
            pub fn words(self) -> &'static str {
                match self { $(Row::$name => $words),* }
            }
        }
    };
}

rows! {
    StartAccepted "ST-0" 0 "start accepted";
    StartRangeLength "ST-9-01" 9 "a length not a multiple: three for each range";
    StartNoRange "ST-9-02" 9 "1 to 4 ranges: none";
    StartManyRanges "ST-9-03" 9 "1 to 4 ranges: more";
    StartRangeVpci "ST-9-04" 9 "VPCI 0 to 255, in a range";
    StartRangeVci "ST-9-05" 9 "VCI 32 to 65535, in a range";
    StartRangeTurned "ST-9-06" 9 "first at most last";
    StartRangeOrder "ST-9-07" 9 "ranges ascend and are disjoint";
    StartPairLength "ST-9-08" 9 "a length not a multiple: two for each pair";
    StartManyPairs "ST-9-09" 9 "0 to 8 pairs: more";
    StartPairVpci "ST-9-10" 9 "VPCI 0 to 255, in a pair";
    StartPairVci "ST-9-11" 9 "VCI 32 to 65535, in a pair";
    StartPairOrder "ST-9-12" 9 "pairs strictly ascend";
    Room "RF-01" 1 "reply room under 1,024 octets";
    Label "RF-02" 2 "clock label not 1";
    ReadingLarge "RF-03" 3 "reading above 4,000,000,000,000";
    ReadingBack "RF-04" 4 "reading below the last accepted";
    MessageLength "RF-05" 5 "message empty or over 1,024 octets";
    Slot "RF-06" 6 "slot over 31 or empty";
    WrongState "RF-07" 7 "wrong state";
    HostCause "RF-08" 8 "cause not in the host's list";
    OfferLong "RF-10-1" 10 "offer body over 512 octets";
    OfferBroken "RF-10-2" 10 "a whole number of elements, none overrunning";
    OfferMissing "RF-10-3" 10 "59, 5C, 5E, 70 once each: one missing";
    OfferRepeated "RF-10-4" 10 "59, 5C, 5E, 70 once each: one repeated";
    OfferConnection "RF-10-5" 10 "no 5A";
    OfferUnreadable "RF-10-6" 10 "59, 5C, 5E, 70 readable";
    OfferMulti "RF-10-7" 10 "point-to-point";
    OfferTraffic "RF-10-8" 10 "passing the traffic rule";
    OfferNoSlot "RF-11" 11 "offer, no empty slot";
    OfferNoPair "RF-12" 12 "offer, no permitted pair free";
    RestartSecond "RF-13-1" 13 "restart, a second command";
    RestartNotPermitted "RF-13-2" 13 "restart, a pair not permitted";
    Short "S1-1" 0 "under 9 octets: ignored";
    FirstOctet "S1-2" 0 "first octet not 09: ignored";
    SecondOctet "S2" 0 "octet 2 not 03: ignored";
    GlobalStatus "S3-G1" 0 "global: STATUS does nothing";
    GlobalAcknowledge "S3-G2" 0 "global: RESTART ACKNOWLEDGE with flag 1: STATUS 101";
    GlobalElse "S3-G3" 0 "global: all else: STATUS 81";
    SetupFlag "S3-S1" 0 "SETUP with flag 1: ignored";
    SetupLive "S3-S2" 0 "SETUP on a live call: ignored";
    NoCallComplete "S3-N1" 0 "no such call: RELEASE COMPLETE does nothing";
    NoCallEnquiry "S3-N2" 0 "no such call: STATUS ENQUIRY gets STATUS 30";
    NoCallElse "S3-N3" 0 "no such call: others get RELEASE COMPLETE 81";
    UnknownType "S4-97" 0 "live call: unknown type gets STATUS 97";
    NotExpected "S4-101" 0 "live call: known type not expected gets STATUS 101";
    LengthField "S5" 0 "length field not equal: ignored";
    SetupMissing "SE-96" 0 "SETUP: 96 with the missing";
    SetupUnreadable "SE-100" 0 "SETUP: 100 with the unreadable";
    SetupMulti "SE-65" 0 "SETUP: 65 multipoint";
    SetupTraffic "SE-73" 0 "SETUP: 73";
    SetupNoSlot "SE-47" 0 "SETUP: 47 no empty slot";
    SetupNoPair "SE-45" 0 "SETUP: 45 no permitted pair free";
    SetupAccepted "SE-0" 0 "SETUP: CALL PROCEEDING, N3, notice 1";
    ReleaseN12 "RE-1" 0 "RELEASE in N12: gone, no reply";
    Release "RE-2" 0 "RELEASE else: RELEASE COMPLETE, no element";
    ReleaseAbsent "RE-3" 0 "RELEASE else: 96 if Cause is absent";
    ReleaseUnreadable "RE-4" 0 "RELEASE else: 100 if Cause is unreadable";
    ReleaseComplete "RC" 0 "RELEASE COMPLETE: gone";
    Enquiry "EN" 0 "STATUS ENQUIRY: STATUS 30";
    StatusUnread "SU-1" 0 "STATUS, live call, no readable Call state: nothing";
    StatusGone "SU-2" 0 "STATUS, live call and state 0: gone";
    StatusElse "SU-3" 0 "STATUS, live call and state not 0: nothing";
    NoCallStatusUnread "SU-4" 0 "STATUS, no call, no readable Call state: nothing";
    NoCallStatusState "SU-5" 0 "STATUS, no call and state not 0: RELEASE COMPLETE 101";
    NoCallStatusElse "SU-6" 0 "STATUS, no call and state 0: nothing";
    CallProceeding "CP" 0 "CALL PROCEEDING: N6 to N9, T310";
    Connect "CO" 0 "CONNECT: N6 or N9 to N10, CONNECT ACKNOWLEDGE, notice 2";
    ConnectAcknowledge "CA" 0 "CONNECT ACKNOWLEDGE: N10, nothing";
    RestartIndicatorAbsent "RS-1" 0 "RESTART: 79 absent, STATUS 96";
    RestartIndicatorUnreadable "RS-2" 0 "RESTART: 79 unreadable, STATUS 100";
    RestartConnectionAbsent "RS-3" 0 "RESTART 80: 5A absent, STATUS 96";
    RestartConnectionUnreadable "RS-4" 0 "RESTART 80: 5A unreadable, STATUS 100";
    RestartVpci "RS-5" 0 "RESTART 80: VPCI in no range and in no pair, STATUS 100";
    RestartVci "RS-6" 0 "RESTART 80: VCI under 32, STATUS 82";
    RestartPermanent "RS-7" 0 "RESTART 80: a permanent pair, STATUS 82";
    RestartHeld "RS-8" 0 "RESTART 80: calls on the pair are gone, notice 3";
    RestartFree "RS-9" 0 "RESTART 80: no call on the pair, notice 0";
    RestartAll "RS-10" 0 "RESTART 82: all calls are gone, notice 3";
    RestartNone "RS-11" 0 "RESTART 82: no call, notice 0";
    AcknowledgeHeld "AK-1" 0 "RESTART ACKNOWLEDGE of the pair: its call is gone, notice 3";
    AcknowledgeFree "AK-2" 0 "RESTART ACKNOWLEDGE of the pair: no call, notice 0";
    AcknowledgeAll "AK-3" 0 "RESTART ACKNOWLEDGE of all: all calls are gone, notice 3";
    AcknowledgeNone "AK-4" 0 "RESTART ACKNOWLEDGE of all: no call, notice 0";
    AcknowledgeIndicatorAbsent "AK-5" 0 "RESTART ACKNOWLEDGE, 79 absent: discarded";
    AcknowledgeIndicatorUnreadable "AK-6" 0 "RESTART ACKNOWLEDGE, 79 unreadable: discarded";
    AcknowledgeOfAll "AK-7" 0 "RESTART ACKNOWLEDGE of all for one pair: discarded";
    AcknowledgeOfOne "AK-8" 0 "RESTART ACKNOWLEDGE of a pair for all: discarded";
    AcknowledgeConnectionAbsent "AK-9" 0 "RESTART ACKNOWLEDGE for one pair, 5A absent: discarded";
    AcknowledgeConnectionUnreadable "AK-10" 0 "RESTART ACKNOWLEDGE for one pair, 5A unreadable: discarded";
    AcknowledgeOfOther "AK-11" 0 "RESTART ACKNOWLEDGE of another pair: discarded";
    HostConnect "HO-1" 0 "connect: CONNECT without elements, N10";
    HostClear "HO-2" 0 "clear: RELEASE with the cause, N12, T308";
    HostOffer "HO-3" 0 "offer: SETUP with 5A and then the body, N6, T303";
    HostRestartOne "HO-4" 0 "restart of one pair: RESTART with 79 and 5A, T316";
    HostRestartAll "HO-5" 0 "restart of all: RESTART with 79, T316";
    HostPutBack "HO-6" 0 "put-back: every mark is taken away";
    TickNone "TI-0" 0 "with none due only the reading is stored";
    T303 "TI-1" 0 "T303: gone, no message";
    T310 "TI-2" 0 "T310: RELEASE 102, diagnostic 310, N12, T308";
    T308First "TI-3" 0 "T308 first: RELEASE again and T308";
    T308Second "TI-4" 0 "T308 second: gone, the pair in doubt";
    T308Waits "TI-5" 0 "T308 second with 64 pairs in doubt: N12, T308 again, no message";
    T316First "TI-6" 0 "T316 first: RESTART again and T316";
    T316Second "TI-7" 0 "T316 second: the pairs are out of service, no call went";
    T316Gone "TI-8" 0 "T316 second: the pairs are out of service, calls are gone, notice 3";
    T316Waits "TI-9" 0 "T316 second of a pair with 64 marked: RESTART again and T316";
    SaveAccepted "SV-0" 0 "save: the form";
    SaveRoom "SV-1" 1 "save: a smaller room is refused and untouched";
    ReloadAccepted "RL-0" 0 "reload accepted";
    ReloadTag "RL-9-01" 9 "unknown tag";
    ReloadCut "RL-9-02" 9 "a field that is cut";
    ReloadMissing "RL-9-03" 9 "a field that is missing";
    ReloadRepeated "RL-9-04" 9 "a field that is repeated";
    ReloadMisplaced "RL-9-05" 9 "a field that is misplaced";
    ReloadLength "RL-9-06" 9 "a wrong length";
    ReloadReading "RL-9-07" 9 "a reading over the limit";
    ReloadSlot "RL-9-08" 9 "a slot the table lacks";
    ReloadReferenceZero "RL-9-09" 9 "reference 0";
    ReloadReferenceTwice "RL-9-10" 9 "two calls on one flagged reference";
    ReloadPairTwice "RL-9-11" 9 "two calls on one pair";
    ReloadPair "RL-9-12" 9 "a pair not permitted";
    ReloadState "RL-9-13" 9 "a state that is none of a live call";
    ReloadSide "RL-9-14" 9 "a side that the state does not have";
    ReloadTimer "RL-9-15" 9 "neither the first T308 nor the second";
    ReloadCause "RL-9-16" 9 "a cause that no RELEASE of ours has";
    ReloadDeadline "RL-9-17" 9 "a deadline further past the last reading than its timer is long";
    ReloadDoubtsMissing "RL-9-18" 9 "pairs in doubt: the field is missing";
    ReloadDoubtsLength "RL-9-19" 9 "pairs in doubt: a length not a multiple";
    ReloadDoubtsMany "RL-9-20" 9 "more than 64 pairs in doubt";
    ReloadDoubtsRange "RL-9-21" 9 "a pair in doubt in no range";
    ReloadDoubtsPermanent "RL-9-22" 9 "a pair in doubt that is permanent";
    ReloadDoubtsTwice "RL-9-23" 9 "a pair in doubt twice";
    ReloadDoubtsOrder "RL-9-24" 9 "pairs in doubt that do not ascend";
    ReloadDoubtsHeld "RL-9-25" 9 "a pair in doubt that a call holds";
    ReloadMarksMissing "RL-9-26" 9 "pairs out of service: the field is missing";
    ReloadMarksLength "RL-9-27" 9 "pairs out of service: a wrong length";
    ReloadMarksAll "RL-9-28" 9 "pairs out of service: neither 00 nor 01 for all";
    ReloadMarksMany "RL-9-29" 9 "more than 64 single pairs out of service";
    ReloadMarksRange "RL-9-30" 9 "a pair out of service in no range";
    ReloadMarksPermanent "RL-9-31" 9 "a pair out of service that is permanent";
    ReloadMarksTwice "RL-9-32" 9 "a pair out of service twice";
    ReloadMarksOrder "RL-9-33" 9 "pairs out of service that do not ascend";
    ReloadMarksDoubt "RL-9-34" 9 "a pair out of service that is in doubt";
    ReloadMarksHeld "RL-9-35" 9 "a pair out of service that a call holds";
    ReloadAllDoubt "RL-9-36" 9 "all out of service, and a pair in doubt";
    ReloadAllHeld "RL-9-37" 9 "all out of service, and a call";
    ReloadRestartMissing "RL-9-38" 9 "the RESTART under way: the field is missing";
    ReloadRestartLength "RL-9-39" 9 "the RESTART under way: a wrong length";
    ReloadRestartTimes "RL-9-40" 9 "neither the first T316 nor the second";
    ReloadRestartDeadline "RL-9-41" 9 "T316 further past the last reading than it is long";
    ReloadRestartRange "RL-9-42" 9 "a RESTART of a pair in no range";
    ReloadRestartPermanent "RL-9-43" 9 "a RESTART of a permanent pair";
}
