//! A second model of document 01 and of document 02's requests 01, 02 and 03, written by hand from the
//! documents alone.
//!
//! `Model` is the plain one. `Machine` with a `Wrong` has one rule wrong, with `Before` it is without Xon and
//! Xoff; the plain model pays nothing for them.
use crate::wrong::Wrong::{self, *};
use crate::Answer;
use std::collections::VecDeque;

/// Says which rule is wrong.
pub trait Switch: Copy {
    fn has(self, wrong: Wrong) -> bool;

    /// Whether EFR 3:0 act, which document 01 alone only stores.
    #[inline(always)]
    fn xon_xoff(self) -> bool {
        true
    }

    /// The right value, unless the wrong change is on.
    #[inline(always)]
    fn pick<T>(self, right: T, wrong: Wrong, other: T) -> T {
        if self.has(wrong) { other } else { right }
    }
}

/// No rule is wrong.
#[derive(Clone, Copy, Debug)]
pub struct Right;

impl Switch for Right {
    #[inline(always)]
    fn has(self, _: Wrong) -> bool {
        false
    }
}

/// No rule is wrong, and Xon and Xoff aren't there yet.
#[derive(Clone, Copy, Debug)]
pub struct Before;

impl Switch for Before {
    #[inline(always)]
    fn has(self, _: Wrong) -> bool {
        false
    }

    #[inline(always)]
    fn xon_xoff(self) -> bool {
        false
    }
}

pub type Model = Machine<Right>;

// Marks: "1 parity wrong (in 9-bit mode: ninth bit is 1), 2 framing wrong, 4 break".
const NINTH: u8 = 1;
const BREAK: u8 = 4;

// Fates: "0 kept, 1 lost for want of room, 2 dropped by a disabled receiver, 3 dropped by address".
const KEPT: u32 = 0;
const LOST: u32 = 1;
const DISABLED: u32 = 2;
const ADDRESS: u32 = 3;
/// "Neither is queued: new fate 4."
const TAKEN: u32 = 4;

/// "character that left, or 256"
const NONE_LEFT: u32 = 256;

/// "Room is 64 with FCR 0 set"; "Room is 64 in both modes".
const ROOM: usize = 64;

/// "quiet count 4"
const QUIET: u8 = 4;

const CD: u8 = 8;
const RI: u8 = 4;
const DSR: u8 = 2;
const CTS: u8 = 1;

/// "by FCR 7:6 one of 8, 16, 56, 60"
const RECEIVE_LEVELS: [usize; 4] = [8, 16, 56, 60];
/// "by FCR 5:4 one of 8, 16, 32, 56"
const TRANSMIT_LEVELS: [usize; 4] = [8, 16, 32, 56];
/// "resume 0, 8, 16 or 56 in step"
const RESUME_LEVELS: [usize; 4] = [0, 8, 16, 56];

/// Which registers LCR opens.
#[derive(Clone, Copy, PartialEq, Eq)]
enum Window {
    General,
    Enhanced,
    Divisor,
}

#[inline(always)]
fn bit(byte: u8, n: u32) -> bool {
    byte >> n & 1 != 0
}

/// A number of an event, or the refusal for one above its range.
#[inline(always)]
fn up_to(most: u64, n: u64, refusal: u32) -> Result<u8, u32> {
    if n <= most { Ok(n as u8) } else { Err(refusal) }
}

#[derive(Clone)]
struct Channel<S> {
    w: S,
    lcr: u8,
    ier: u8,
    fcr: u8,
    mcr: u8,
    efr: u8,
    tcr: u8,
    tlr: u8,
    efcr: u8,
    dll: u8,
    dlh: u8,
    spr: u8,
    xon: [u8; 2],
    xoff: [u8; 2],
    /// CD 8, RI 4, DSR 2, CTS 1.
    pins: u8,
    /// MSR 3:0.
    changes: u8,
    /// Characters with their marks, oldest first.
    received: VecDeque<(u8, u8)>,
    /// How many of them have a mark that isn't 0.
    marked: usize,
    to_send: VecDeque<u8>,
    shift: Option<u8>,
    overrun: bool,
    quiet: u8,
    thr_flag: bool,
    special_flag: bool,
    cts_flag: bool,
    rts_flag: bool,
    /// The auto-RTS latch, true while asserted.
    latch: bool,
    /// An Xoff stopped loading, which is the Xoff flag too.
    stopped: bool,
    /// The second latch, true while on.
    second: bool,
    /// The Xon or Xoff that waits to be sent.
    waiting: Option<u8>,
}

impl<S: Switch> Channel<S> {
    /// "A new device is a reset one with those bytes and the pins 0."
    fn new(w: S) -> Channel<S> {
        let mut channel = Channel {
            w,
            lcr: 0,
            ier: 0,
            fcr: 0,
            mcr: 0,
            efr: 0,
            tcr: 0,
            tlr: 0,
            efcr: 0,
            dll: 0,
            dlh: 0,
            spr: 0,
            xon: [0; 2],
            xoff: [0; 2],
            pins: 0,
            changes: 0,
            received: VecDeque::with_capacity(ROOM),
            marked: 0,
            to_send: VecDeque::with_capacity(ROOM),
            shift: None,
            overrun: false,
            quiet: 0,
            thr_flag: false,
            special_flag: false,
            cts_flag: false,
            rts_flag: false,
            latch: true,
            stopped: false,
            second: true,
            waiting: None,
        };
        channel.reset();
        channel
    }

    fn reset(&mut self) {
        let w = self.w;
        // "LCR 1D; IER, FCR, MCR, EFR, TCR, TLR, EFCR 0"
        self.lcr = w.pick(0x1D, ResetLcr, 0x03);
        self.ier = w.pick(0, ResetKeepsIer, self.ier);
        self.fcr = w.pick(0, ResetKeepsFcr, self.fcr);
        self.mcr = w.pick(0, ResetKeepsMcr, self.mcr);
        self.efr = w.pick(0, ResetKeepsEfr, self.efr);
        self.tcr = w.pick(0, ResetKeepsTcr, self.tcr);
        self.tlr = w.pick(0, ResetKeepsTlr, self.tlr);
        self.efcr = w.pick(0, ResetKeepsEfcr, self.efcr);
        // "both queues, shift register, overrun, MSR 3:0, quiet count and flags cleared"
        if !w.has(ResetKeepsReceived) {
            self.clear_received();
        }
        if !w.has(ResetKeepsToSend) {
            self.to_send.clear();
        }
        self.shift = w.pick(None, ResetKeepsShift, self.shift);
        self.overrun = w.pick(false, ResetKeepsOverrun, self.overrun);
        self.changes = w.pick(0, ResetKeepsChanges, self.changes);
        self.quiet = 0;
        self.special_flag = w.pick(false, ResetKeepsSpecial, self.special_flag);
        self.cts_flag = w.pick(false, ResetKeepsCts, self.cts_flag);
        self.rts_flag = w.pick(false, ResetKeepsRts, self.rts_flag);
        // "THR flag set (house); auto-RTS latch asserted"
        self.thr_flag = w.pick(true, ResetThrFlagClear, false);
        self.latch = true;
        // "Reset ... drops what waits and sets the latch on; reset also resumes and clears the flag."
        self.waiting = w.pick(None, ResetKeepsWaiting, self.waiting);
        self.second = w.pick(true, ResetKeepsSecond, self.second);
        self.stopped = w.pick(false, ResetKeepsStop, self.stopped);
        // "DLL, DLH, SPR, XON and XOFF keep theirs. Pins are inputs and stay."
        if w.has(ResetSpr) {
            self.spr = 0;
        }
        if w.has(ResetDivisor) {
            (self.dll, self.dlh) = (0, 0);
        }
        if w.has(ResetXon) {
            (self.xon, self.xoff) = ([0; 2], [0; 2]);
        }
        if w.has(ResetPins) {
            self.pins = 0;
        }
    }

    /// "Within an event: the act, the latch, the RTS flag, the THR flag".
    #[inline]
    fn event(&mut self, act: impl FnOnce(&mut Self) -> u32) -> u32 {
        let (rts, latch, ready) = (self.rts(), self.latch, self.thr_condition());
        let reply = act(self);
        self.settle(rts, latch, ready);
        reply
    }

    #[inline]
    fn settle(&mut self, rts: bool, latch: bool, ready: bool) {
        let w = self.w;
        let early = w.has(RtsFlagBefore) && rts && !self.rts();
        // "asserted if EFR 6 is clear; else off at count ≥ halt; else on at count ≤ resume; else as before"
        self.latch = if !bit(self.efr, 6) {
            w.pick(true, LatchStays, self.latch)
        } else {
            self.stepped(self.latch, self.halt_and_resume())
        };
        self.step_second();
        // "The RTS flag sets when RTS goes from asserted to not."
        let now = self.rts();
        if w.has(RtsFlagBefore) {
            self.rts_flag |= early;
        } else if w.has(RtsFlagLatch) {
            self.rts_flag |= latch && !self.latch;
        } else if rts && !now || w.has(RtsFlagEither) && rts != now {
            self.rts_flag = true;
        }
        // "After each event the flag sets if the condition has become true and clears if it is false."
        if !self.thr_condition() {
            self.thr_flag = w.pick(false, ThrStays, self.thr_flag);
        } else if !ready || w.has(ThrAgain) {
            self.thr_flag = true;
        }
    }

    /// A latch by the halt and resume rule.
    #[inline]
    fn stepped(&self, latch: bool, (halt, resume): (usize, usize)) -> bool {
        let w = self.w;
        let count = self.received.len();
        let on = w.pick(count <= resume, ResumeBelow, count < resume);
        if w.has(ResumeFirst) && on {
            true
        } else if w.pick(count >= halt, HaltAbove, count > halt) {
            false
        } else {
            on || w.pick(latch, LatchFree, true)
        }
    }

    // Register windows.

    #[inline]
    fn window(&self) -> Window {
        // "LCR bit 7 = 0: general set. LCR = BF: EFR 2, XON1 4, ... Other LCR with bit 7 = 1: DLL 0, DLH 1."
        match self.lcr {
            0xBF => Window::Enhanced,
            lcr if bit(lcr, 7) => self.w.pick(Window::Divisor, BfByTopBit, Window::Enhanced),
            _ => Window::General,
        }
    }

    /// "With EFR bit 4 and MCR bit 2 both set, 6 is TCR and 7 is TLR."
    #[inline]
    fn levels_open(&self) -> bool {
        (bit(self.efr, 4) || self.w.has(LevelsByMcr)) && (bit(self.mcr, 2) || self.w.has(LevelsByEfr))
    }

    /// "Written only with EFR bit 4 set: ...; otherwise those bits keep their value."
    #[inline]
    fn guarded(&self, old: u8, new: u8, bits: u8) -> u8 {
        let kept = if bit(self.efr, 4) { 0 } else { bits };
        old & kept | new & !kept
    }

    fn write(&mut self, address: u8, byte: u8) {
        let w = self.w;
        match (self.window(), address) {
            // "LCR (3) is always open."
            (_, 3) => self.lcr = byte & w.pick(0xFF, LcrSixLost, 0xBF),
            (Window::General, 0) => self.write_thr(byte),
            (Window::General, 1) => {
                let bits = w.pick(w.pick(0xF0, IerGuardMissing, 0), IerGuardWhole, 0xFF);
                let old = w.pick(self.ier, IerGuardZeroes, 0);
                self.ier = self.guarded(old, byte & w.pick(0xFF, IerFourLost, 0xEF), bits);
                if w.has(ThrByIer) && self.thr_condition() {
                    self.thr_flag = true;
                }
            }
            (Window::General, 2) => self.write_fcr(byte),
            (Window::General, 4) => {
                let bits = w.pick(w.pick(0xE4, McrGuardMissing, 0x04), McrTwoUnguarded, 0xE0);
                let bits = w.pick(bits, McrFourGuarded, 0xF4);
                // "FCR 3, MCR 3 and EFCR 7, 6, 3 stay 0."
                let stored = w.pick(w.pick(0xF7, McrThreeStored, 0xFF), McrTopLost, 0x17);
                self.mcr = self.guarded(self.mcr, byte & stored, bits);
            }
            (Window::General, 6 | 7) if self.levels_open() => {
                if (address == 6) != w.has(LevelsExchanged) {
                    self.tcr = byte;
                } else {
                    self.tlr = byte;
                    if w.has(SprBehindTlr) {
                        self.spr = byte;
                    }
                }
            }
            (Window::General, 7) => self.spr = byte,
            (Window::General, 0x0F) => self.write_efcr(byte),
            // "DLL and DLH take nothing while IER 4 is set."
            (Window::Divisor, 0) if !bit(self.ier, 4) || w.has(DllUnguarded) => self.dll = byte,
            (Window::Divisor, 1) if !bit(self.ier, 4) || w.has(DlhUnguarded) => self.dlh = byte,
            (Window::Enhanced, 2) => self.write_efr(byte),
            (Window::Enhanced, 4 | 5) => self.xon[usize::from(address - 4)] = byte,
            (Window::Enhanced, 6 | 7) => self.xoff[usize::from(address - 6)] = byte,
            (Window::Enhanced, 0) if w.has(DivisorInBf) => self.dll = byte,
            (Window::Enhanced, 1) if w.has(DivisorInBf) => self.dlh = byte,
            (_, 0x0F) if w.has(EfcrAlways) => self.write_efcr(byte),
            (Window::General, 5) if w.has(LsrWritten) => self.overrun = false,
            (Window::General, 6) if w.has(MsrWritten) => self.changes = 0,
            // "Any other address is closed there: reads 0, writes nothing." "Writes to LSR, MSR, TXLVL and
            // RXLVL do nothing." "Addresses 0A to 0D read 0 and take nothing."
            _ => {}
        }
    }

    fn write_efcr(&mut self, byte: u8) {
        let w = self.w;
        let bits = 0x37
            | w.pick(0, EfcrSevenStored, 0x80)
            | w.pick(0, EfcrSixStored, 0x40)
            | w.pick(0, EfcrThreeStored, 0x08);
        self.efcr = byte & bits;
    }

    fn write_fcr(&mut self, byte: u8) {
        let w = self.w;
        // "Bits 1 and 2 aren't stored."
        let bits = w.pick(w.pick(0x30, FcrGuardMissing, 0), FcrGuardWide, 0xF0);
        let fcr = self.guarded(self.fcr, byte & 0xF1, bits);
        let turned = bit(fcr ^ self.fcr, 0) || w.has(FifoAlwaysClears) && bit(fcr, 0);
        self.fcr = fcr;
        // "An FCR write with bit 1 set clears the receive queue, with bit 2 the transmit queue; a change of
        // bit 0 clears both (house). Overrun stays."
        let (mut receive, mut transmit) = (bit(byte, 1), bit(byte, 2));
        if w.has(ClearsExchanged) {
            (receive, transmit) = (transmit, receive);
        }
        if w.has(ClearNeedsFifo) && !bit(fcr, 0) {
            (receive, transmit) = (false, false);
        }
        if receive || turned && !w.has(FifoKeepsReceived) {
            self.clear_received();
        }
        if transmit || turned && !w.has(FifoKeepsToSend) {
            self.to_send.clear();
            if w.has(ClearShift) {
                self.shift = None;
            }
            if w.has(ClearWaiting) {
                self.waiting = None;
            }
        }
    }

    fn clear_received(&mut self) {
        self.received.clear();
        self.marked = 0;
        // "an arrival of any fate, an RHR read or a receive clear makes it 0"
        self.quiet = 0;
        if self.w.has(ClearOverrun) {
            self.overrun = false;
        }
    }

    fn read(&mut self, address: u8) -> u8 {
        let w = self.w;
        match (self.window(), address) {
            (Window::Enhanced, 3) if w.has(LcrShut) => 0,
            (_, 3) => self.lcr,
            (Window::General, 0) => self.read_rhr(),
            (Window::General, 1) => self.ier,
            (Window::General, 2) => self.read_iir(),
            (Window::General, 4) => self.mcr,
            (Window::General, 5) => {
                let lsr = self.lsr();
                // "1 overrun, cleared by this read"
                self.overrun = w.pick(false, LsrKeepsOverrun, self.overrun);
                lsr
            }
            (Window::General, 6 | 7) if self.levels_open() && !(address == 6 && w.has(MsrBesideTcr)) => {
                if (address == 6) != w.has(LevelsExchanged) { self.tcr } else { self.tlr }
            }
            (Window::General, 6) => {
                // "MSR 7:4 show CD, RI, DSR, CTS; MSR 3:0 are ... cleared by an MSR read."
                let shown = w.pick(self.pins, PinsTurned, self.pins.reverse_bits() >> 4);
                let msr = shown << 4 | self.changes;
                self.changes = w.pick(0, MsrKeeps, self.changes);
                msr
            }
            (Window::General, 7) => self.spr,
            // "TXLVL is free spaces." "count of queued characters, which RXLVL reads"
            (Window::General, 8) => {
                let spaces = w.pick(self.spaces(), LevelQueued, self.to_send.len()) as u8;
                w.pick(spaces, LevelWaiting, spaces.saturating_sub(u8::from(self.waiting.is_some())))
            }
            (Window::General, 9) => self.received.len() as u8,
            (Window::General, 0x0A..=0x0D) => w.pick(0, GapReads, 0xFF),
            // "IOControl reads 06"
            (Window::General, 0x0E) => w.pick(0x06, IoControlZero, 0),
            (Window::General, 0x0F) => self.efcr,
            (Window::Divisor, 0) => self.dll,
            (Window::Divisor, 1) => self.dlh,
            (Window::Enhanced, 2) => self.efr,
            (Window::Enhanced, 4 | 5) => self.xon[usize::from(address - 4)],
            (Window::Enhanced, 6 | 7) => self.xoff[usize::from(address - 6)],
            (Window::Enhanced, 0) if w.has(DivisorInBf) => self.dll,
            (Window::Enhanced, 1) if w.has(DivisorInBf) => self.dlh,
            (_, 0x0E) if w.has(IoControlAlways) => 0x06,
            (_, 0x0F) if w.has(EfcrAlways) => self.efcr,
            _ => 0,
        }
    }

    // Receive queue.

    /// "the byte is cut to the word length, 5 + LCR 1:0 bits"
    #[inline]
    fn cut(&self, byte: u8) -> u8 {
        let dropped = 3 - (self.lcr & 3);
        byte & 0xFF >> self.w.pick(dropped, WordSeven, dropped.max(1))
    }

    fn arrival(&mut self, byte: u8, mark: u8) -> u32 {
        let w = self.w;
        // "a break's byte counts as 0"
        let byte = if mark & BREAK != 0 && !w.has(BreakByteKept) { 0 } else { byte };
        let character = w.pick(self.cut(byte), ArrivalUncut, byte);
        // "compared so with the whole XOFF2"
        let compared = w.pick(self.cut(byte), CompareUncut, byte);
        let address = w.pick(w.pick(self.xoff[1], XoffCut, self.cut(self.xoff[1])), XoffOne, self.xoff[0]);
        let equal = compared == address;
        let ninth = mark & NINTH != 0;
        let off = bit(self.efcr, 1);
        let full = self.received.len() >= self.room();
        let quiet = self.quiet;
        // "an arrival of any fate ... makes it 0"
        self.quiet = 0;
        // A wrong resume: by the characters that are dropped below, too.
        if w.has(AnyDropped) && bit(self.mcr, 5) {
            self.stopped = false;
        }
        let special = match (bit(self.efcr, 0), bit(self.efr, 5)) {
            // "EFCR 0 clear: dropped (2) if EFCR 1 is set. Otherwise it passes, and if EFR 5 is set and it
            // equals XOFF2 the special flag is set."
            (false, special) => {
                let matched = (special || w.has(SpecialAlways)) && equal;
                let passes = w.has(DisabledPasses)
                    || w.has(DisabledTaken) && self.xon_or_xoff(byte, mark, matched).is_some();
                if off && !passes {
                    self.special_flag |= w.has(DisabledSpecial) && matched;
                    self.quiet = w.pick(0, QuietDropped, quiet);
                    return DISABLED;
                }
                self.special_flag |= matched && !(full && w.has(LostSpecial));
                matched
            }
            // "ninth bit 1 and equal to XOFF2 clears EFCR 1 and passes; ninth bit 1 and unequal sets EFCR 1
            // and is dropped (3) ... No special flag."
            (true, true) if ninth => {
                if equal {
                    if !w.has(MatchLeavesOff) && !(full && w.has(LostMatch)) {
                        self.efcr &= !2;
                    }
                    self.special_flag |= w.has(SpecialNineBit);
                    if w.has(MatchTaken) {
                        return KEPT;
                    }
                    false
                } else {
                    if !w.has(MismatchLeavesOn) {
                        self.efcr |= 2;
                    }
                    self.overrun |= w.has(DropOverrun);
                    if w.has(MismatchKept) && !full {
                        self.keep(character, mark);
                    }
                    self.quiet = w.pick(0, QuietDropped, quiet);
                    return w.pick(ADDRESS, MismatchFate, DISABLED);
                }
            }
            // "ninth bit 1 passes; ninth bit 0 passes unless EFCR 1 is set (2)"
            (true, auto) => {
                let dropped = off && (!ninth || w.has(NinthDropped));
                if dropped && !w.has(if auto { AutoDataPasses } else { DataPasses }) {
                    self.quiet = w.pick(0, QuietDropped, quiet);
                    return DISABLED;
                }
                false
            }
        };
        if w.has(LoopbackActs) && bit(self.mcr, 4) {
            return KEPT;
        }
        match self.xon_or_xoff(byte, mark, special) {
            Some(xoff) if !(full && w.has(FullFirst)) => {
                self.stop_or_resume(xoff);
                if !w.has(if xoff { XoffQueued } else { XonQueued }) {
                    self.overrun |= full && w.has(TakenOverrun);
                    self.quiet = w.pick(0, QuietTaken, quiet);
                    return w.pick(w.pick(TAKEN, TakenKept, KEPT), TakenDropped, DISABLED);
                }
            }
            // "With MCR 5, any other passing character also resumes, clears the flag and is queued as usual."
            _ => {
                if self.any_resumes(mark, special, full) {
                    let stopped = self.stopped;
                    self.stopped = false;
                    if w.has(AnyTaken) && stopped {
                        return TAKEN;
                    }
                }
            }
        }
        // "A passing character is kept with its mark if fewer than room are queued, else lost (1) and overrun
        // is set."
        if full {
            self.overrun |= !w.has(LossUnseen);
            self.quiet = w.pick(0, QuietLost, quiet);
            if w.has(OldestLost) {
                self.take();
                self.keep(character, mark);
            }
            LOST
        } else {
            self.quiet = w.pick(0, QuietKept, quiet);
            self.keep(character, mark);
            KEPT
        }
    }

    // Xon and Xoff.

    /// "EFR 1:0 of 10 compares XON1 and XOFF1, 01 the second pair, 00 and 11 nothing yet".
    #[inline]
    fn compared(&self) -> Option<usize> {
        let bits = self.efr >> self.w.pick(0, PairsExchanged, 2);
        self.pair(bits, [ComparedTurned, ComparedFirst, ComparedEleven, ComparedZero])
    }

    /// "EFR 3:2 chooses alike what is sent."
    #[inline]
    fn sent(&self) -> Option<usize> {
        let bits = self.efr >> self.w.pick(2, PairsExchanged, 0);
        self.pair(bits, [SentTurned, SentFirst, SentEleven, SentZero])
    }

    #[inline(always)]
    fn pair(&self, bits: u8, [turned, first, eleven, zero]: [Wrong; 4]) -> Option<usize> {
        let w = self.w;
        match bits & 3 {
            _ if !w.xon_xoff() => None,
            2 => Some(w.pick(0, turned, 1)),
            1 => Some(w.pick(w.pick(1, turned, 0), first, 0)),
            3 if w.has(eleven) => Some(0),
            0 if w.has(zero) => Some(0),
            _ => None,
        }
    }

    fn write_efr(&mut self, byte: u8) {
        let w = self.w;
        let old = (self.compared(), self.sent());
        self.efr = byte & w.pick(0xFF, EfrLowLost, 0xF0);
        let changed = |old: Option<usize>, new, wrong| w.has(wrong) && old != new;
        // "Setting EFR 1:0 to 00 or 11 resumes and clears it too."
        let kept = w.has(if bit(self.efr, 0) { ElevenKeepsStop } else { ZeroKeepsStop });
        let compared = self.compared();
        if compared.is_none() && !kept || changed(old.0, compared, ComparedChange) {
            self.stopped = false;
        }
        // "EFR 3:2 set to 00 or 11, drops what waits and sets the latch on"
        let kept = w.has(if bit(self.efr, 2) { ElevenKeepsWaiting } else { ZeroKeepsWaiting });
        let sent = self.sent();
        if sent.is_none() && !kept || changed(old.1, sent, SentChange) {
            self.waiting = None;
        }
        if sent.is_none() && !w.has(SentKeepsSecond) || changed(old.1, sent, SentChangeSecond) {
            self.second = true;
        }
    }

    /// "With EFCR 0 clear, a passing, unmarked character that wasn't a special match and equals, cut, the
    /// whole Xoff ...; one equal to Xon ... If the two are equal, Xoff decides." True for Xoff, false for Xon.
    #[inline]
    fn xon_or_xoff(&self, byte: u8, mark: u8, special: bool) -> Option<bool> {
        let w = self.w;
        let pair = self.compared()?;
        if bit(self.efcr, 0) && !w.has(NineBitTaken)
            || mark != 0 && !w.has(MarkedTaken)
            || special && !w.has(SpecialTaken)
        {
            return None;
        }
        let character = w.pick(self.cut(byte), TakenUncut, byte);
        let equals = |stored| character == w.pick(stored, XonCut, self.cut(stored));
        let xon = equals(self.xon[pair]) && (self.stopped || !w.has(XonStopped));
        let xoff = equals(self.xoff[pair]) && !(self.stopped && w.has(XoffOnce));
        if xoff && !(xon && w.has(XonDecides)) {
            Some(true)
        } else if xon {
            Some(false)
        } else {
            None
        }
    }

    /// Xoff "stops loading and sets an Xoff flag", Xon "resumes and clears it".
    #[inline]
    fn stop_or_resume(&mut self, xoff: bool) {
        let w = self.w;
        if xoff {
            self.stopped = !(w.has(StopByIer) && !bit(self.ier, 5) || w.has(AnyXoff) && bit(self.mcr, 5));
            self.special_flag |= w.has(XoffSpecial);
        } else {
            self.stopped &= w.has(XonIdle);
        }
    }

    /// Whether MCR 5 has a character resume that isn't taken.
    #[inline]
    fn any_resumes(&self, mark: u8, special: bool, full: bool) -> bool {
        let w = self.w;
        (bit(self.mcr, 5) && !w.has(AnyIgnored) || w.has(AnyAlways))
            && (bit(self.efr, 4) || !w.has(AnyGuarded))
            && !(full && w.has(AnyKept))
            && !(bit(self.efcr, 0) && w.has(AnyPlain))
            && !(mark != 0 && w.has(AnyUnmarked))
            && !(special && w.has(AnyNotSpecial))
    }

    /// "While EFR 3:2 sends, the halt and resume rule drives a second latch, stepped after the first; each
    /// time it turns, Xoff for off or Xon for on waits, the byte as stored then, replacing one still waiting".
    #[inline]
    fn step_second(&mut self) {
        let w = self.w;
        let Some(pair) = self.sent() else {
            if w.has(SecondAlways) {
                self.second = self.stepped(self.second, self.halt_and_resume());
            }
            return;
        };
        if w.has(SecondByRts) && !bit(self.efr, 6) || w.has(SecondWithoutRts) && bit(self.efr, 6) {
            return;
        }
        let (halt, resume) = self.halt_and_resume();
        let on = self.stepped(self.second, (w.pick(halt, SecondByTlr, self.receive_level()), resume));
        if on != self.second || w.has(PutAgain) && !on {
            self.second = on;
            let byte = self.put(pair, w.pick(on, PutTurned, !on));
            let byte = w.pick(byte, PutCut, self.cut(byte));
            let waits = self.waiting.is_some();
            if !(w.has(FirstStays) && waits || w.has(XonUnsent) && on) {
                self.waiting = if w.has(TurnDrops) && waits { None } else { Some(byte) };
            }
        }
    }

    /// The byte of a pair that a latch calls for.
    #[inline]
    fn put(&self, pair: usize, on: bool) -> u8 {
        if on { self.xon[pair] } else { self.xoff[pair] }
    }

    /// "Room is 64 with FCR 0 set, 1 without".
    #[inline]
    fn room(&self) -> usize {
        if bit(self.fcr, 0) {
            self.w.pick(ROOM, RoomShort, ROOM - 1)
        } else {
            self.w.pick(1, RoomWithoutFifo, ROOM)
        }
    }

    #[inline]
    fn keep(&mut self, character: u8, mark: u8) {
        let mark = self.w.pick(mark, MarkLost, mark & !BREAK);
        self.received.push_back((character, mark));
        self.marked += usize::from(mark != 0);
    }

    #[inline]
    fn take(&mut self) -> Option<u8> {
        let (character, mark) =
            if self.w.has(RhrNewest) { self.received.pop_back() } else { self.received.pop_front() }?;
        self.marked -= usize::from(mark != 0);
        Some(character)
    }

    /// "RHR read: oldest character, removed; 0 if empty."
    fn read_rhr(&mut self) -> u8 {
        let w = self.w;
        self.quiet = w.pick(0, QuietRead, self.quiet);
        self.overrun &= !w.has(RhrClearsOverrun);
        if w.has(RhrStays) && self.received.len() == 1 {
            return self.received[0].0;
        }
        self.take().unwrap_or(w.pick(0, EmptyReadsFf, 0xFF))
    }

    /// "reads RHR into a lent buffer ..., and hands back the filled front part ... Device and part equal as many
    /// single reads as the part is long, ...; later bytes stay." Says how long the part is.
    fn drain(&mut self, most: u64, buffer: &mut [u8]) -> usize {
        let w = self.w;
        let reads = self.reads(most, buffer.len());
        let (quiet, marked, latch) = (self.quiet, self.marked, self.latch);
        let (second, waiting) = (self.second, self.waiting);
        for (at, place) in buffer[..reads].iter_mut().enumerate() {
            let byte = if w.has(DrainClosed) {
                self.event(|c| u32::from(c.read(0))) as u8
            } else if w.has(DrainSettlesFirst) && at != 0 {
                self.read_rhr()
            } else {
                self.event(|c| u32::from(c.read_rhr())) as u8
            };
            *place = w.pick(byte, DrainCuts, self.cut(byte));
        }
        if reads != 0 {
            self.quiet = w.pick(self.quiet, DrainKeepsQuiet, quiet);
            self.marked = w.pick(self.marked, DrainKeepsMarks, marked);
            self.latch = w.pick(self.latch, DrainKeepsLatch, latch);
            self.overrun &= !w.has(DrainClearsOverrun);
            if w.has(DrainKeepsSecond) {
                (self.second, self.waiting) = (second, waiting);
            }
            if w.has(DrainPutsXon) && self.second {
                self.waiting = self.sent().map(|pair| self.put(pair, true));
            }
            if w.has(DrainRestLost) || w.has(DrainNoRoomLost) && reads == buffer.len() {
                self.clear_received();
            }
        } else if w.has(DrainZeroQuiet) && most == 0
            || w.has(DrainNoRoomQuiet) && buffer.is_empty()
            || w.has(DrainClosedQuiet) && bit(self.lcr, 7)
        {
            self.quiet = 0;
        }
        if w.has(DrainTurned) {
            buffer[..reads].reverse();
        }
        if let Some(behind) = buffer.get_mut(reads) {
            *behind = w.pick(*behind, DrainEnds, 0);
        }
        if w.has(DrainFills) {
            buffer[reads..].fill(0);
        }
        reads
    }

    /// "up to a stated number of times, until the queue is empty or the buffer full"; "With LCR 7 set ... the
    /// part is empty".
    fn reads(&self, most: u64, room: usize) -> usize {
        let w = self.w;
        if bit(self.lcr, 7)
            && !(w.has(DrainAnyWindow) || w.has(DrainClosed))
            && !w.has(if self.lcr == 0xBF { DrainEnhanced } else { DrainDivisor })
        {
            return 0;
        }
        // Wrong conditions: the request has none of these.
        if w.has(DrainByTimeout) && self.quiet < QUIET
            || w.has(DrainByIer) && !bit(self.ier, 0)
            || w.has(DrainByFifo) && !bit(self.fcr, 0)
            || w.has(DrainByReceiver) && bit(self.efcr, 1)
        {
            return 0;
        }
        let most = w.pick(most, DrainMostByte, most & 0xFF);
        let most = w.pick(most, DrainMostCut, most & 0xFFFF_FFFF);
        let most = w.pick(most, DrainMostIgnored, u64::MAX);
        let most = w.pick(most, DrainMostPast, most.saturating_add(1));
        let most = w.pick(most, DrainMostShort, most.saturating_sub(1));
        let most = w.pick(most, DrainMostSigned, if most > i64::MAX as u64 { 0 } else { most });
        let most = w.pick(most, DrainMostZero, if most == 0 { u64::MAX } else { most });
        let room = w.pick(room, DrainRoomByte, room & 0xFF);
        let room = w.pick(room, DrainRoomShort, room.saturating_sub(1));
        most.min(self.queued() as u64).min(room as u64) as usize
    }

    /// How many characters there are for a drain: "none of an empty queue".
    fn queued(&self) -> usize {
        let w = self.w;
        let count = self.received.len();
        let until = |wrong, stops: fn(&(u8, u8)) -> bool| {
            let at = if w.has(wrong) { self.received.iter().position(stops) } else { None };
            at.unwrap_or(count)
        };
        let count = until(DrainToZero, |&(byte, _)| byte == 0).min(until(DrainToMark, |&(_, mark)| mark != 0));
        let count = w.pick(count, DrainToLevel, (count + 1).saturating_sub(self.receive_level()));
        let count = w.pick(count, DrainLeavesLast, count.saturating_sub(1));
        let count = w.pick(count, DrainPastLast, count + usize::from(count != 0));
        let count = w.pick(count, DrainEmpty, count.max(1));
        w.pick(count, DrainPastEmpty, usize::MAX)
    }

    fn lsr(&self) -> u8 {
        let w = self.w;
        let shown = w.pick(self.received.front(), LsrNewest, self.received.back());
        let mark = shown.map_or(0, |&(_, mark)| mark);
        let mark = w.pick(mark, LsrMarksTurned, mark.reverse_bits() >> 5);
        let empty = self.to_send.is_empty();
        let idle = empty && self.shift.is_none();
        let none_waits = self.waiting.is_none();
        let five = w.pick(w.pick(empty, LsrFiveShift, idle), LsrFiveWaiting, empty && none_waits);
        // "LSR 6 then also needs nothing waiting."
        let six = w.pick(w.pick(idle, LsrSixQueue, empty) && none_waits, LsrSixWaiting, idle);
        // "bit 0 queue not empty; 1 overrun ...; 4:2 marks of the oldest (break, framing, parity); 5 transmit
        // queue empty; 6 that and shift register empty; 7 some queued mark not 0"
        u8::from(!self.received.is_empty())
            | u8::from(self.overrun) << 1
            | mark << 2
            | u8::from(five) << 5
            | u8::from(six) << 6
            | u8::from(self.some_mark()) << 7
    }

    #[inline]
    fn some_mark(&self) -> bool {
        if self.w.has(LsrSevenOldest) {
            return self.oldest_mark();
        }
        if self.w.has(LsrSevenNinth) && bit(self.efcr, 0) {
            return self.received.iter().any(|&(_, mark)| mark & !NINTH != 0);
        }
        self.marked != 0
    }

    fn oldest_mark(&self) -> bool {
        self.received.front().is_some_and(|&(_, mark)| mark != 0)
    }

    // Transmit side.

    #[inline]
    fn spaces(&self) -> usize {
        self.transmit_room() - self.to_send.len()
    }

    #[inline]
    fn transmit_room(&self) -> usize {
        let room = self.w.pick(ROOM, TransmitRoomShort, ROOM - 1);
        if self.w.has(TransmitRoomOne) && !bit(self.fcr, 0) { 1 } else { room }
    }

    /// "THR write to a full queue loses the byte."
    fn write_thr(&mut self, byte: u8) {
        let byte = self.w.pick(byte, CutAtWrite, self.cut(byte));
        if self.to_send.len() < self.transmit_room() {
            self.to_send.push_back(byte);
        } else if self.w.has(TransmitOldestLost) {
            self.to_send.pop_front();
            self.to_send.push_back(byte);
        }
    }

    /// "a held character leaves, cut to the word length"
    fn slot(&mut self) -> u32 {
        let w = self.w;
        if w.has(DisabledHolds) && bit(self.efcr, 2)
            || w.has(CtsHolds) && !self.clear_to_send()
            || w.has(StopHolds) && self.stopped
        {
            return NONE_LEFT;
        }
        // "Their bits are stored as below without other effect. The divisor doesn't affect events."
        if w.has(BreakActs) && bit(self.lcr, 6)
            || w.has(SleepActs) && bit(self.ier, 4)
            || w.has(DivisorActs) && self.dll | self.dlh == 0
        {
            return NONE_LEFT;
        }
        let early = w.has(LoadBeforeLeave) || w.has(WaitingLeaves) && self.waiting.is_some();
        if early && self.shift.is_none() {
            self.load();
        }
        let left = self.shift.take();
        self.load();
        left.map_or(NONE_LEFT, |byte| u32::from(w.pick(self.cut(byte), SlotUncut, byte)))
    }

    /// "EFR 7 is clear or CTS is asserted"
    #[inline]
    fn clear_to_send(&self) -> bool {
        self.w.pick(!bit(self.efr, 7), CtsAlways, false) || self.pins & CTS != 0
    }

    /// "then the oldest is loaded if there is one, EFCR 2 is clear, and EFR 7 is clear or CTS is asserted"; of
    /// what waits, "the next slot with EFCR 2 clear loads it before the queue, despite a stop or CTS".
    #[inline]
    fn load(&mut self) {
        let w = self.w;
        let enabled = !bit(self.efcr, 2);
        let clear = self.clear_to_send();
        if self.waiting.is_some()
            && (enabled || w.has(WaitingDisabled))
            && !(self.stopped && w.has(WaitingStopped))
            && !(!clear && w.has(WaitingCts))
            && !(!self.to_send.is_empty() && w.has(WaitingAfter))
        {
            self.shift = w.pick(self.waiting, PutAtLoad, self.sent().map(|pair| self.put(pair, self.second)));
            self.waiting = w.pick(None, WaitingStays, self.waiting);
            if w.has(WaitingTakes) {
                self.to_send.pop_front();
            }
        } else if (enabled || w.has(DisabledLoads))
            && (clear || w.has(CtsIgnored))
            && (!self.stopped || w.has(StopIgnored))
        {
            self.shift = self.to_send.pop_front();
        }
        if w.has(CutAtLoad) {
            self.shift = self.shift.map(|byte| self.cut(byte));
        }
    }

    // Trigger levels.

    #[inline]
    fn tlr(&self) -> (usize, usize) {
        let tlr = if self.w.has(GuardStopsLevels) && !bit(self.efr, 4) { 0 } else { self.tlr };
        let (high, low) = (usize::from(tlr >> 4), usize::from(tlr & 15));
        self.w.pick((high, low), TlrExchanged, (low, high))
    }

    #[inline]
    fn fcr_level(&self) -> usize {
        let at = usize::from(self.fcr >> 6);
        if self.w.has(ReceiveTable) && at == 2 { 32 } else { RECEIVE_LEVELS[at] }
    }

    /// "Receive: 4 × TLR 7:4 if not 0, else by FCR 7:6".
    #[inline]
    fn receive_level(&self) -> usize {
        match self.tlr().0 {
            0 => self.fcr_level(),
            high => self.w.pick(4, TlrEights, 8) * high,
        }
    }

    /// "Transmit: 4 × TLR 3:0 if not 0, else by FCR 5:4".
    #[inline]
    fn transmit_level(&self) -> usize {
        let at = usize::from(self.fcr >> 4 & 3);
        match self.w.pick(self.tlr().1, TlrTransmitIgnored, 0) {
            0 if self.w.has(TransmitTable) && at == 3 => 60,
            0 => TRANSMIT_LEVELS[at],
            low => 4 * low,
        }
    }

    /// "Halt is 4 × TCR 3:0, resume 4 × TCR 7:4; if TCR is 0, halt is the FCR 7:6 level and resume 0, 8, 16 or
    /// 56 in step".
    #[inline]
    fn halt_and_resume(&self) -> (usize, usize) {
        let w = self.w;
        let at = usize::from(self.fcr >> 6);
        let default_halt = if w.has(HaltByTlr) { self.receive_level() } else { self.fcr_level() };
        let default_resume = if w.has(ResumeTable) && at == 3 { 60 } else { RESUME_LEVELS[at] };
        if self.tcr == 0 {
            return (default_halt, default_resume);
        }
        let tcr = w.pick(self.tcr, TcrExchanged, self.tcr.rotate_left(4));
        let halt = 4 * usize::from(tcr & 15);
        let resume = 4 * usize::from(tcr >> 4);
        (
            if w.has(HaltZeroDefault) && halt == 0 { default_halt } else { halt },
            if w.has(ResumeZeroDefault) && resume == 0 { default_resume } else { resume },
        )
    }

    /// "with EFCR 4, asserted exactly while the transmit queue or shift register holds something, turned over
    /// by EFCR 5; else with EFR 6, the latch; else MCR 1"
    #[inline]
    fn rts(&self) -> bool {
        let w = self.w;
        let turned = bit(self.efcr, 5) && !w.has(RtsUnturned);
        if bit(self.efcr, 4) && !(w.has(RtsLatchFirst) && bit(self.efr, 6)) {
            let sending = !self.to_send.is_empty()
                || self.shift.is_some() && !w.has(RtsQueueOnly)
                || self.waiting.is_some() && w.has(RtsWaiting);
            return sending != turned;
        }
        let rts = if bit(self.efr, 6) { self.latch } else { bit(self.mcr, w.pick(1, RtsByMcrZero, 0)) };
        rts != (turned && w.has(RtsTurnedAlways))
    }

    // Interrupts.

    /// "The THR condition is an empty queue (FCR 0 clear) or spaces ≥ level."
    #[inline]
    fn thr_condition(&self) -> bool {
        let w = self.w;
        if w.pick(w.pick(bit(self.fcr, 0), ThrByLevel, true), ThrByEmpty, false) {
            let (spaces, level) = (self.spaces(), self.transmit_level());
            w.pick(spaces >= level, TransmitAbove, spaces > level)
        } else {
            self.to_send.is_empty() && !(self.waiting.is_some() && w.has(ThrWaiting))
        }
    }

    /// The code of the highest interrupt pending, or 01.
    fn code(&self) -> u8 {
        let w = self.w;
        let fifo = bit(self.fcr, 0);
        let ier = if w.has(GuardStopsActing) && !bit(self.efr, 4) { self.ier & 15 } else { self.ier };
        let count = self.received.len();
        // "IER 2 and (overrun or LSR 7)"
        let line = || {
            let marked = if w.has(LineByOldest) { self.oldest_mark() } else { self.some_mark() };
            bit(ier, 2) && (self.overrun && !w.has(LineWithoutOverrun) || marked)
        };
        // "IER 0, FCR 0, queue not empty, quiet count 4"
        let timeout = || {
            bit(ier, 0)
                && (fifo || w.has(TimeoutWithoutFifo))
                && (count != 0 || w.has(TimeoutEmpty))
                && self.quiet >= w.pick(QUIET, TimeoutThree, 3)
        };
        // "IER 0 and count ≥ level (1 if FCR 0 clear)"
        let level = || {
            let level = if fifo || w.has(FifoOffLevel) { self.receive_level() } else { 1 };
            bit(ier, 0) && w.pick(count >= level, ReceiveAbove, count > level)
        };
        // "IER 1 and THR flag"
        let thr = || bit(ier, 1) && self.thr_flag;
        // "IER 3 and a bit of MSR 3:0 (bit 0 not counted with EFR 7)"
        let modem = || {
            let uncounted = w.pick(bit(self.efr, 7), ModemCountsCts, false) || w.has(ModemLeavesCts);
            bit(ier, 3) && self.changes & if uncounted { 0x0E } else { 0x0F } != 0
        };
        // "IER 5 and special flag"; "Code 10 is now pending on either flag".
        let special = || {
            bit(ier, w.pick(5, SpecialByFour, 4)) && (self.special_flag || self.stopped && !w.has(XoffUnseen))
        };
        // "IER 7 and CTS flag, or IER 6 and RTS flag"
        let flow = || {
            let (cts, rts) = w.pick((7, 6), FlowExchanged, (6, 7));
            bit(ier, cts) && self.cts_flag || bit(ier, rts) && self.rts_flag
        };
        // A wrong rank: the lower of two neighbours is asked first.
        if w.has(RankTimeout) && timeout() {
            0x0C
        } else if line() {
            0x06
        } else if w.has(RankLevel) && level() {
            0x04
        } else if timeout() {
            0x0C
        } else if w.has(RankThr) && thr() {
            0x02
        } else if level() {
            0x04
        } else if w.has(RankModem) && modem() {
            0x00
        } else if thr() {
            0x02
        } else if w.has(RankSpecial) && special() {
            0x10
        } else if modem() {
            0x00
        } else if w.has(RankFlow) && flow() {
            0x20
        } else if special() {
            0x10
        } else if flow() {
            0x20
        } else {
            0x01
        }
    }

    /// "IIR is C0 (if FCR 0) plus the code, from the state before the read. Reading it clears the THR flag if
    /// 02 was shown, the special flag if 10, CTS and RTS flags if 20"; of the two behind 10, "the special flag
    /// only".
    fn read_iir(&mut self) -> u8 {
        let w = self.w;
        let code = self.code();
        match code {
            0x02 => self.thr_flag = w.pick(false, IirKeepsThr, self.thr_flag),
            0x10 if w.has(IirWrongFlag) => (self.cts_flag, self.rts_flag) = (false, false),
            0x10 => {
                let kept = w.has(IirKeepsSpecial) || w.has(IirOneFlag) && self.stopped;
                self.special_flag &= kept;
                self.stopped &= !w.has(IirResumes);
            }
            0x20 => {
                self.cts_flag = w.pick(false, IirKeepsCts, self.cts_flag);
                self.rts_flag = w.pick(false, IirKeepsRts, self.rts_flag);
            }
            _ => {}
        }
        self.thr_flag &= !w.has(IirAlwaysClears);
        let fifo = w.pick(w.pick(bit(self.fcr, 0), IirPlain, false), IirFull, true);
        code | if fifo { 0xC0 } else { 0 }
    }

    fn set_pins(&mut self, pins: u8) {
        let w = self.w;
        let (any, on, off) = (self.pins ^ pins, pins & !self.pins, self.pins & !pins);
        // "MSR 3:0 are set by any change of the same pin", but MSR 2 "sets only when RI goes from asserted to not
        // asserted. The other three stay."
        let ri = w.pick(w.pick(w.pick(off, RingAny, any), RingOn, on), RingNever, 0) & RI;
        let cd = w.pick(any, ChangeCd, off) & CD;
        let dsr = w.pick(any, ChangeDsr, off) & DSR;
        let cts = w.pick(any, ChangeCts, off) & CTS;
        let changed = w.pick(cd | ri | dsr | cts, ChangeOff, off);
        let before = w.pick(self.changes, RingClears, self.changes & !(on & RI));
        self.changes = w.pick(before, ChangeLast, 0) | changed;
        // "CTS going off sets the CTS flag unless EFR 7 is set."
        let (from, to) = w.pick((self.pins, pins), CtsFlagOn, (pins, self.pins));
        if from & !to & CTS != 0 && (!bit(self.efr, 7) || w.has(CtsFlagWithAuto)) {
            self.cts_flag = true;
        }
        self.pins = pins;
    }

    /// "Quiet adds 1 up to 4".
    fn quiet_time(&mut self) {
        self.quiet = if self.quiet < QUIET { self.quiet + 1 } else { self.w.pick(QUIET, QuietTurns, 0) };
    }
}

/// The device: two channels.
#[derive(Clone)]
pub struct Machine<S> {
    w: S,
    channels: [Channel<S>; 2],
}

impl Machine<Right> {
    pub fn new() -> Model {
        Machine::with(Right)
    }
}

impl Default for Machine<Right> {
    fn default() -> Model {
        Model::new()
    }
}

impl<S: Switch> Machine<S> {
    pub fn with(w: S) -> Machine<S> {
        Machine { w, channels: [Channel::new(w), Channel::new(w)] }
    }

    /// One event by its kind and operands, any numbers at all.
    pub fn step(&mut self, kind: u64, x: u64, y: u64, z: u64) -> Answer {
        match self.judged(kind, x, y, z) {
            Ok(reply) => Answer::Reply(reply),
            Err(refusal) => Answer::Refused(refusal),
        }
    }

    /// "judge 3 and then 4 to 8; operands that the kind lacks aren't looked at"
    fn judged(&mut self, kind: u64, mut x: u64, mut y: u64, mut z: u64) -> Result<u32, u32> {
        let w = self.w;
        if w.has(HugeCut) {
            (x, y, z) = (x & 0xFFFF_FFFF, y & 0xFFFF_FFFF, z & 0xFFFF_FFFF);
        }
        let channel = |n| up_to(1, n, 4).map(usize::from);
        let address = |n| up_to(15, n, 5);
        let byte = |n| up_to(255, n, 6);
        let mark = |n| up_to(7, n, 7);
        let pins = |n| up_to(w.pick(15, PinsSixteen, 16), n, 8);
        match kind {
            0 => {
                if w.has(AddressFirst) {
                    address(y)?;
                }
                let (channel, address, byte) = (channel(x)?, address(y)?, byte(z)?);
                Ok(self.write(channel, address, byte))
            }
            1 => {
                if w.has(ReadByteJudged) {
                    byte(z)?;
                }
                let (channel, address) = (channel(x)?, address(y)?);
                Ok(self.channels[channel].event(|c| u32::from(c.read(address))))
            }
            2 => {
                if w.has(MarkFirst) {
                    channel(x)?;
                    mark(z)?;
                }
                let (channel, byte, mark) = (channel(x)?, byte(y)?, mark(z)?);
                Ok(self.channels[channel].event(|c| c.arrival(byte, mark)))
            }
            3 => Ok(self.channels[channel(x)?].event(Channel::slot)),
            4 => {
                let (channel, pins) = (channel(x)?, pins(y)?);
                Ok(self.channels[channel].event(|c| {
                    c.set_pins(pins & 15);
                    0
                }))
            }
            5 => Ok(self.channels[channel(x)?].event(|c| {
                c.quiet_time();
                0
            })),
            6 => {
                self.reset();
                Ok(0)
            }
            // "1 if either channel has an interrupt pending, else 0"
            7 => {
                let looked = &self.channels[..w.pick(2, LookOne, 1)];
                Ok(u32::from(looked.iter().any(|c| c.code() != 0x01)))
            }
            8 if w.has(KindEightRefused) => Err(3),
            // "1 if asserted, else 0"
            8 => Ok(u32::from(self.channels[channel(x)?].rts())),
            _ => Err(3),
        }
    }

    /// "a call that reads RHR into a lent buffer, ... and hands back the filled front part of the caller's own
    /// buffer"
    pub fn drain<'a>(&mut self, channel: u64, most: u64, buffer: &'a mut [u8]) -> &'a mut [u8] {
        let w = self.w;
        let channel = w.pick(channel, DrainChannelByte, channel & 0xFF);
        let channel = w.pick(channel, DrainChannelCut, channel & 0xFFFF_FFFF);
        let channel = w.pick(channel, DrainChannelOdd, channel & 1);
        let channel = w.pick(channel, DrainChannelHigh, channel.min(1));
        let channel = w.pick(channel, DrainChannelZero, channel.saturating_sub(1));
        // "With ... a channel above 1, the part is empty and nothing changes."
        let reads = match up_to(1, channel, 4) {
            Ok(channel) => self.channels[usize::from(channel)].drain(most, buffer),
            Err(_) => 0,
        };
        &mut buffer[..reads]
    }

    fn write(&mut self, channel: usize, address: u8, byte: u8) -> u32 {
        let w = self.w;
        let c = &mut self.channels[channel];
        let open = c.window() == Window::General || w.has(IoControlAlways);
        // "writing bit 3 resets the device"; "a reset is the act only, on both channels"
        if address == 0x0E && open && (bit(byte, 3) || w.has(IoControlAnyBit) && byte != 0) {
            let before = (c.rts(), c.latch, c.thr_condition());
            if w.has(IoControlOne) {
                c.reset();
            } else {
                self.reset();
            }
            if w.has(ResetSettles) {
                self.channels[channel].settle(before.0, before.1, before.2);
            }
            return 0;
        }
        c.event(|c| {
            c.write(address, byte);
            0
        });
        if w.has(CommonSpr) {
            self.channels[1 - channel].spr = self.channels[channel].spr;
        }
        0
    }

    fn reset(&mut self) {
        let reset = self.w.pick(2, ResetOneChannel, 1);
        self.channels[..reset].iter_mut().for_each(Channel::reset);
    }

    /// Whether a write to address 2 of a channel is one of EFR now.
    pub fn efr_open(&self, channel: u64) -> bool {
        channel < 2 && self.channels[channel as usize].window() == Window::Enhanced
    }

    /// The addresses of a channel whose reads change nothing now.
    pub fn still_addresses(&self, channel: usize) -> &'static [u64] {
        let c = &self.channels[channel];
        match c.window() {
            Window::General if c.levels_open() => &[1, 3, 4, 6, 7, 8, 9, 10, 11, 12, 13, 14, 15],
            Window::General => &[1, 3, 4, 7, 8, 9, 10, 11, 12, 13, 14, 15],
            _ => &[0, 1, 2, 3, 4, 5, 6, 7, 8, 9, 10, 11, 12, 13, 14, 15],
        }
    }
}

#[cfg(test)]
mod tests {
    use super::*;

    fn replies(events: &[[u64; 4]]) -> Vec<u32> {
        replies_of(&mut Model::new(), events)
    }

    fn replies_of(model: &mut Model, events: &[[u64; 4]]) -> Vec<u32> {
        let answers = events.iter().map(|&[kind, x, y, z]| model.step(kind, x, y, z));
        answers
            .map(|answer| match answer {
                Answer::Reply(n) => n,
                Answer::Refused(n) => 1000 + n,
            })
            .collect()
    }

    #[test]
    fn the_event_file_of_the_document() {
        let events = [
            [0, 0, 3, 3],
            [0, 0, 2, 1],
            [2, 0, 0x41, 1],
            [0, 0, 1, 4],
            [1, 0, 2, 0],
            [1, 0, 5, 0],
            [1, 0, 0, 0],
            [1, 0, 5, 0],
            [1, 2, 5, 0],
            [9, 0, 0, 0],
        ];
        assert_eq!(replies(&events), [0, 0, 0, 0, 198, 229, 65, 96, 1004, 1003]);
    }

    #[test]
    fn reset_and_thr_interrupt() {
        assert_eq!(replies(&[[6, 0, 0, 0], [1, 0, 2, 0]]), [0, 1]);
        assert_eq!(replies(&[[6, 0, 0, 0], [0, 0, 1, 2], [1, 0, 2, 0], [1, 0, 2, 0]]), [0, 0, 2, 1]);
    }

    #[test]
    fn rooms() {
        let mut events = vec![[0, 0, 2, 1]];
        events.extend([[2, 0, 0x41, 0]; 65]);
        assert_eq!(replies(&events)[64..], [0, 1]);
        assert_eq!(replies(&[[2, 0, 0x41, 0]; 2]), [0, 1]);
    }

    #[test]
    fn addresses() {
        let auto = [[0, 0, 3, 0xBF], [0, 0, 2, 0x20], [0, 0, 7, 0x12], [0, 0, 3, 3], [0, 0, 15, 3]];
        let with = |byte| replies(&[&auto[..], &[[2, 0, byte, 1], [1, 0, 15, 0]]].concat())[5..].to_vec();
        assert_eq!(with(0x12), [0, 1]);
        assert_eq!(with(0x13), [3, 3]);
    }

    #[test]
    fn marks_and_windows() {
        let events = [[0, 0, 2, 1], [2, 0, 1, 0], [2, 0, 2, 2], [1, 0, 5, 0], [0, 0, 3, 0xBF], [1, 0, 0, 0]];
        assert_eq!(replies(&events), [0, 0, 0, 0xE1, 0, 0]);
    }

    const XON: u64 = 0x11;
    const XOFF: u64 = 0x13;
    const SLOT: [u64; 4] = [3, 0, 0, 0];
    const IIR: [u64; 4] = [1, 0, 2, 0];
    const LSR: [u64; 4] = [1, 0, 5, 0];
    const RHR: [u64; 4] = [1, 0, 0, 0];

    fn arrival(byte: u64) -> [u64; 4] {
        [2, 0, byte, 0]
    }

    /// An EFR, Xon and Xoff in both pairs (the second with bit 5 set), IER 5 and 8 bits.
    fn setup(efr: u64) -> [[u64; 4]; 9] {
        [
            [0, 0, 3, 0xBF],
            [0, 0, 4, XON],
            [0, 0, 5, XON | 0x20],
            [0, 0, 6, XOFF],
            [0, 0, 7, XOFF | 0x20],
            [0, 0, 2, efr | 0x10],
            [0, 0, 3, 3],
            [0, 0, 1, 0x20],
            [0, 0, 2, 1],
        ]
    }

    /// The replies after that.
    fn with_efr(efr: u64, events: &[[u64; 4]]) -> Vec<u32> {
        let setup = setup(efr);
        replies(&[&setup[..], events].concat())[setup.len()..].to_vec()
    }

    #[test]
    fn xoff_stops_and_xon_resumes() {
        let events = [[0, 0, 0, 0x41], arrival(XOFF), IIR, IIR, SLOT, SLOT, [1, 0, 9, 0]];
        assert_eq!(with_efr(2, &events), [0, 4, 0xD0, 0xD0, 256, 256, 0]);
        let events = [[0, 0, 0, 0x41], arrival(XOFF), SLOT, arrival(XON), IIR, SLOT, SLOT];
        assert_eq!(with_efr(2, &events), [0, 4, 256, 4, 0xC1, 256, 0x41]);
    }

    #[test]
    fn pairs() {
        let events = [XON, XOFF, XON | 0x20, XOFF | 0x20].map(arrival);
        assert_eq!(with_efr(0, &events), [0, 0, 0, 0]);
        assert_eq!(with_efr(1, &events), [0, 0, 4, 4]);
        assert_eq!(with_efr(2, &events), [4, 4, 0, 0]);
        assert_eq!(with_efr(3, &events), [0, 0, 0, 0]);
    }

    #[test]
    fn what_is_not_taken() {
        // A mark, a special match, 9-bit mode.
        assert_eq!(with_efr(2, &[[2, 0, XOFF, 1], IIR]), [0, 0xC1]);
        assert_eq!(with_efr(0x21, &[arrival(XOFF | 0x20), IIR, IIR]), [0, 0xD0, 0xC1]);
        assert_eq!(with_efr(2, &[[0, 0, 15, 1], arrival(XOFF), IIR]), [0, 0, 0xC1]);
        // "equals, cut, the whole Xoff"
        assert_eq!(with_efr(2, &[[0, 0, 3, 0], arrival(XOFF | 0xE0)]), [0, 4]);
        assert_eq!(with_efr(1, &[[0, 0, 3, 0], arrival(XOFF | 0x20)]), [0, 0]);
    }

    #[test]
    fn xoff_decides() {
        let same = [[0, 0, 3, 0xBF], [0, 0, 4, XOFF], [0, 0, 3, 3]];
        assert_eq!(with_efr(2, &[&same[..], &[arrival(XOFF), IIR]].concat())[3..], [4, 0xD0]);
    }

    #[test]
    fn any_other_resumes() {
        let any = [[0, 0, 4, 0x20], arrival(XOFF), IIR, [2, 0, 0x41, 2], IIR, [1, 0, 9, 0]];
        assert_eq!(with_efr(2, &any), [0, 4, 0xD0, 0, 0xC1, 1]);
        // Lost, without the FIFO.
        let any = [[0, 0, 4, 0x20], [0, 0, 2, 0], arrival(0x41), arrival(XOFF), IIR, arrival(0x42), IIR];
        assert_eq!(with_efr(2, &any), [0, 0, 0, 4, 0x10, 1, 0x01]);
    }

    #[test]
    fn efr_resumes() {
        let set = |efr| [arrival(XOFF), [0, 0, 3, 0xBF], [0, 0, 2, efr], [0, 0, 3, 3], IIR];
        assert_eq!([0, 1, 2, 3].map(|efr| with_efr(2, &set(efr))[4]), [0xC1, 0xD0, 0xD0, 0xC1]);
    }

    /// Halt 4 and resume 0.
    const LEVELS: [[u64; 4]; 2] = [[0, 0, 4, 4], [0, 0, 6, 1]];

    fn sending(efr: u64, events: &[[u64; 4]]) -> Vec<u32> {
        let filled = [&LEVELS[..], &[arrival(0x41); 4], events].concat();
        with_efr(efr, &filled)[6..].to_vec()
    }

    #[test]
    fn xoff_and_xon_are_sent() {
        // Before the queue, and LSR 6 sees what waits.
        assert_eq!(sending(8, &[LSR, SLOT, LSR, SLOT, LSR]), [0x21, 256, 0x21, XOFF as u32, 0x61]);
        assert_eq!(sending(8, &[[0, 0, 0, 0x42], SLOT, SLOT, SLOT]), [0, 256, XOFF as u32, 0x42]);
        assert_eq!(sending(4, &[SLOT, SLOT])[1], XOFF as u32 | 0x20);
        assert_eq!([0, 12].map(|efr| sending(efr, &[LSR])[0]), [0x61, 0x61]);
        // Xon replaces the Xoff that still waits.
        assert_eq!(sending(8, &[RHR, RHR, RHR, RHR, SLOT, SLOT, LSR])[4..], [256, XON as u32, 0x60]);
    }

    #[test]
    fn what_holds_back_what_waits() {
        // A stop and CTS don't, EFCR 2 does.
        assert_eq!(sending(0x8A, &[arrival(XOFF), SLOT, SLOT]), [4, 256, XOFF as u32]);
        let disabled = [[0, 0, 15, 4], SLOT, SLOT, [0, 0, 15, 0], SLOT, SLOT];
        assert_eq!(sending(8, &disabled), [0, 256, 256, 0, 256, XOFF as u32]);
    }

    #[test]
    fn the_byte_is_as_stored_then() {
        let set = |address, byte| [[0, 0, 3, 0xBF], [0, 0, address, byte], [0, 0, 3, 3], SLOT, SLOT];
        assert_eq!(sending(8, &set(6, 0x55))[4], XOFF as u32);
        // A change of the pair drops nothing; 00 and 11 do.
        assert_eq!([0x04, 0x00, 0x0C].map(|efr| sending(8, &set(2, efr))[4]), [XOFF as u32, 256, 256]);
    }

    #[test]
    fn a_reset_drops_and_resumes() {
        let events = [arrival(XOFF), [6, 0, 0, 0], LSR, [0, 0, 0, 0x0A], SLOT, SLOT, LSR];
        assert_eq!(sending(10, &events), [4, 0, 0x60, 0, 256, 0x0A, 0x60]);
    }

    #[test]
    fn before_xon_and_xoff() {
        let mut model = Machine::with(Before);
        for [kind, x, y, z] in [[0, 0, 3, 0xBF], [0, 0, 2, 0x0F], [0, 0, 2, 0x0A], [0, 0, 3, 3]] {
            model.step(kind, x, y, z);
        }
        assert_eq!(model.step(2, 0, 0, 0), Answer::Reply(KEPT));
    }

    const QUIET_TIME: [u64; 4] = [5, 0, 0, 0];
    const TELEGRAM: &[u8] = b"/ISk5";

    /// A telegram in the queue and the timeout interrupt, which no IIR read has seen yet.
    fn telegram() -> Model {
        let mut model = Model::new();
        let arrivals: Vec<_> = TELEGRAM.iter().map(|&byte| arrival(u64::from(byte))).collect();
        let setup = [[0, 0, 3, 3], [0, 0, 2, 1], [0, 0, 1, 1]];
        replies_of(&mut model, &[&setup[..], &arrivals, &[QUIET_TIME; 4]].concat());
        model
    }

    /// The part that a drain hands back. The buffer behind it must be as it was.
    fn drained(model: &mut Model, channel: u64, most: u64, length: usize) -> Vec<u8> {
        let mut buffer = vec![0xEE; length];
        let part = model.drain(channel, most, &mut buffer).to_vec();
        assert!(buffer[part.len()..].iter().all(|&byte| byte == 0xEE));
        part
    }

    #[test]
    fn a_telegram_at_one_go() {
        let mut model = telegram();
        assert_eq!(replies_of(&mut model, &[IIR]), [0xCC]);
        assert_eq!(drained(&mut model, 0, u64::MAX, 64), TELEGRAM);
        assert_eq!(replies_of(&mut model, &[IIR, LSR, RHR]), [0xC1, 0x60, 0]);
        assert_eq!(drained(&mut model, 0, u64::MAX, 64), []);
    }

    #[test]
    fn the_least_of_three() {
        let part = |most, length| drained(&mut telegram(), 0, most, length);
        assert_eq!(part(5, 5), TELEGRAM);
        assert_eq!(part(4, 5), TELEGRAM[..4]);
        assert_eq!(part(5, 4), TELEGRAM[..4]);
        assert_eq!(part(1 << 32 | 1, 6), TELEGRAM);
        // What isn't read stays, and its quiet count is 0.
        let mut model = telegram();
        assert_eq!(drained(&mut model, 0, 3, 64), TELEGRAM[..3]);
        assert_eq!(replies_of(&mut model, &[IIR, [1, 0, 9, 0], RHR]), [0xC1, 2, u32::from(TELEGRAM[3])]);
    }

    #[test]
    fn a_drain_of_nothing_changes_nothing() {
        let mut model = telegram();
        assert_eq!(drained(&mut model, 0, 0, 64), []);
        assert_eq!(drained(&mut model, 0, 64, 0), []);
        for channel in [1, 2, 3, 256, 257, 1 << 32, 1 << 32 | 1, u64::MAX] {
            assert_eq!(drained(&mut model, channel, 64, 64), []);
        }
        for lcr in [0x80, 0x83, 0xBF, 0xFF] {
            replies_of(&mut model, &[[0, 0, 3, lcr]]);
            assert_eq!(drained(&mut model, 0, 64, 64), []);
        }
        assert_eq!(replies_of(&mut model, &[[0, 0, 3, 3], IIR]), [0, 0xCC]);
        assert_eq!(drained(&mut model, 0, 64, 64), TELEGRAM);
    }

    #[test]
    fn a_drain_takes_marks_and_leaves_overrun() {
        let mut model = telegram();
        replies_of(&mut model, &[[2, 0, 0x41, 2]]);
        replies_of(&mut model, &[arrival(0x42); 59]);
        assert_eq!(drained(&mut model, 0, 6, 64).len(), 6);
        assert_eq!(replies_of(&mut model, &[LSR]), [0x63]);
    }

    #[test]
    fn a_drain_turns_the_latches() {
        // EFR 6, and EFR 3:2 that send: halted at 4, resumed at 0.
        let halted = || {
            let mut model = Model::new();
            replies_of(&mut model, &[&setup(0x48)[..], &LEVELS, &[arrival(0x41); 4]].concat());
            model
        };
        const RTS: [u64; 4] = [8, 0, 0, 0];
        let mut model = halted();
        assert_eq!(drained(&mut model, 0, 3, 64), [0x41; 3]);
        assert_eq!(replies_of(&mut model, &[RTS, SLOT, SLOT]), [0, 256, XOFF as u32]);
        let mut model = halted();
        assert_eq!(drained(&mut model, 0, 4, 64), [0x41; 4]);
        assert_eq!(replies_of(&mut model, &[RTS, LSR, SLOT, SLOT, LSR]), [1, 0x20, 256, XON as u32, 0x60]);
    }
}
