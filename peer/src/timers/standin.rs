//! A stand-in for the library's timer, over words and with wrapping
//! subtraction, which can be made wrong in one way.

use super::calls::Timers;
use super::faults::Fault;
use crate::boundary::{read_words, write_words};
use crate::timer::BLOCK;

use Fault::*;

/// The stand-in, with a fault or without.
#[derive(Clone, Copy, Debug, Default)]
pub struct Standin(pub Option<Fault>);

/// Count, compare, status and enable.
type Words = [u32; 4];

const COUNT: usize = 0;
const COMPARE: usize = 1;
const STATUS: usize = 2;
const ENABLE: usize = 3;

/// Bit 0.
const BIT: u32 = 1;
const OTHER_BITS: u32 = !BIT;

impl Timers for Standin {
    fn fresh(&self, block: &mut [u8]) -> u32 {
        if self.is(ShorterStarted) && block.len() < BLOCK {
            block.fill(0);
            return 0;
        }
        if !self.takes(block, LongerStarted) {
            return self.other_length(block);
        }
        let words = self.words(block);
        self.put(self.started(words), block);
        u32::from(self.is(StartGives1))
    }

    fn reading(&self, block: &mut [u8], count: u32) -> u32 {
        if !self.takes(block, LongerBroughtIn) {
            return self.other_length(block);
        }
        let words = self.words(block);
        if self.is(Count0Ignored) && count == 0 {
            return 0;
        }
        let next = self.brought_in(words, count);
        self.put(next, block);
        if self.is(ReadingGivesMatch) {
            return next[STATUS];
        }
        0
    }

    fn read(&self, block: &mut [u8], address: u32) -> u64 {
        let (number, value) = if self.takes(block, LongerRead) {
            self.read_at(block, address)
        } else {
            self.read_short(block, address)
        };
        match self.0 {
            Some(ReadExchanged) => u64::from(number) << 32 | u64::from(value),
            _ => u64::from(value) << 32 | u64::from(number),
        }
    }

    fn write(&self, block: &mut [u8], address: u32, value: u32) -> u32 {
        if self.takes(block, LongerWritten) {
            return self.write_at(block, address, value);
        }
        match self.0 {
            Some(ShorterWritten) if is_inside(block, address) && address != 0 => {
                write_words(&[value], &mut block[address as usize..][..4]);
                0
            }
            Some(CountOfOtherLength39) if address == 0 => 39,
            Some(WriteToOtherLength39) => 39,
            _ => self.other_length(block),
        }
    }

    fn interrupt(&self, block: &mut [u8]) -> u32 {
        if !self.takes(block, LongerRaised) {
            return match self.0 {
                Some(InterruptOfOtherLength38) => 38,
                Some(InterruptOfOtherLength1) => 1,
                Some(ShorterRaised) if block.len() > 12 => {
                    u32::from(block[8]) & u32::from(block[12]) & BIT
                }
                _ => 0,
            };
        }
        let words = self.words(block);
        match self.0 {
            Some(InterruptClears) => self.put(with(words, STATUS, 0), block),
            Some(InterruptDisables) => self.put(with(words, ENABLE, 0), block),
            _ => {}
        }
        self.raised(words)
    }
}

fn with(mut words: Words, register: usize, value: u32) -> Words {
    words[register] = value;
    words
}

/// Whether a shorter block has a register whole.
fn is_inside(block: &[u8], address: u32) -> bool {
    [0, 4, 8, 12].contains(&address) && block.len() < BLOCK && address as usize + 4 <= block.len()
}

/// Which register an address that is none's is taken for.
#[derive(Clone, Copy)]
enum Misled {
    Modulo(u32),
    RoundedDown,
    /// As a signed number, not above 12.
    Below0,
}

/// The register at an address, by its number.
fn register(address: u32, misled: Option<Misled>) -> Option<usize> {
    let address = match misled {
        Some(Misled::Modulo(bound)) => address % bound,
        Some(Misled::RoundedDown) => address & !3,
        Some(Misled::Below0) if address as i32 <= 12 => address & 12,
        _ => address,
    };
    match address {
        0 | 4 | 8 | 12 => Some(address as usize / 4),
        _ => None,
    }
}

impl Standin {
    fn is(&self, fault: Fault) -> bool {
        self.0 == Some(fault)
    }

    /// Whether a block's length will do; `longer` is the fault of the call.
    fn takes(&self, block: &[u8], longer: Fault) -> bool {
        let length = block.len();
        match self.0 {
            Some(LengthModulo256) => length % 256 == BLOCK,
            Some(LengthModulo65536) => length % 65_536 == BLOCK,
            Some(fault) if fault == longer || fault == LongerTaken => length >= BLOCK,
            _ => length == BLOCK,
        }
    }

    fn other_length(&self, block: &mut [u8]) -> u32 {
        match self.0 {
            Some(OtherLengths27) => 27,
            Some(OtherLengths0) => 0,
            Some(OtherLengthsReset) => {
                block.fill(0);
                38
            }
            _ => 38,
        }
    }

    fn words(&self, block: &[u8]) -> Words {
        let words = read_words(&block[..BLOCK]);
        self.placed(words.try_into().expect("four words"))
    }

    fn put(&self, words: Words, block: &mut [u8]) {
        write_words(&self.placed(words), &mut block[..BLOCK]);
    }

    /// Registers in the places of words, and words in those of registers.
    fn placed(&self, mut words: Words) -> Words {
        match self.0 {
            Some(BigEndian) => return words.map(u32::swap_bytes),
            Some(CountAndCompareSwapped) => words.swap(COUNT, COMPARE),
            Some(StatusAndEnableSwapped) => words.swap(STATUS, ENABLE),
            Some(CompareAndStatusSwapped) => words.swap(COMPARE, STATUS),
            _ => {}
        }
        words
    }

    fn started(&self, words: Words) -> Words {
        let kept = |register: usize| with([0; 4], register, words[register]);
        match self.0 {
            Some(StartKeepsCount) => kept(COUNT),
            Some(StartKeepsCompare) => kept(COMPARE),
            Some(StartKeepsMatch) => kept(STATUS).map(|word| word & BIT),
            Some(StartKeepsEnable) => kept(ENABLE).map(|word| word & BIT),
            Some(StartKeepsOtherBits) => {
                let others = words.map(|word| word & OTHER_BITS);
                [0, 0, others[STATUS], others[ENABLE]]
            }
            Some(StartEnables) => [0, 0, 0, 1],
            Some(StartSetsCompare) => [0, u32::MAX, 0, 0],
            Some(StartDoesNothing) => words,
            _ => [0; 4],
        }
    }

    /// The registers after a reading.
    fn brought_in(&self, words: Words, count: u32) -> Words {
        let [old, compare, status, enable] = words;
        let (gone, ahead) = (count.wrapping_sub(old), compare.wrapping_sub(old));
        let comes = self.comes(words, count);
        let set = u32::from(comes);
        let next = [count, compare, (status | set) & BIT, enable & BIT];
        let Some(fault) = self.0 else {
            return next;
        };
        match fault {
            MatchRecomputed => with(next, STATUS, set),
            MatchRecomputedWithTicks if gone > 0 => with(next, STATUS, set),
            MatchToggled => with(next, STATUS, (status ^ set) & BIT),
            MatchDisables if comes => with(next, ENABLE, 0),
            MatchEnables if comes => with(next, ENABLE, 1),
            MatchMovesCompare if comes => with(next, COMPARE, compare.wrapping_add(ahead)),
            MatchResetsCompare if comes => with(next, COMPARE, 0),
            CountStays => with(next, COUNT, old),
            CountStaysWhereMatched if status & BIT == 1 => with(next, COUNT, old),
            CountStaysAtCompare if comes => with(next, COUNT, compare),
            CountNeverFalls if count < old => words,
            CountIsTicks => with(next, COUNT, gone),
            Count31Bits => with(next, COUNT, count & 0x7FFF_FFFF),
            AnyStatusBitMatches if status != 0 => with(next, STATUS, 1),
            ReadingDisables => with(next, ENABLE, 0),
            ReadingKeepsStatusBits => with(next, STATUS, status | set),
            ReadingKeepsEnableBits => with(next, ENABLE, enable),
            ClearedForGood => with(next, STATUS, (status | set) & 3),
            _ => next,
        }
    }

    /// Whether the counter has come to compare.
    fn comes(&self, words: Words, count: u32) -> bool {
        let [old, compare, status, enable] = words;
        let (gone, ahead) = (count.wrapping_sub(old), compare.wrapping_sub(old));
        let right = ahead != 0 && ahead <= gone;
        let masked = |mask: u32| ahead & mask != 0 && ahead & mask <= gone & mask;
        let Some(fault) = self.0 else {
            return right;
        };
        match fault {
            NeverMatches => false,
            AlwaysMatches => gone > 0,
            MatchAtOldCount => ahead <= gone,
            MatchAtOldCountWithTicks => ahead <= gone && gone > 0,
            MatchWithoutTick => right || (gone, ahead) == (0, 0),
            NoTickIsATurn => right || gone == 0,
            MatchOneLate => ahead != 0 && ahead < gone,
            MatchOneEarly => ahead != 0 && ahead - 1 <= gone,
            MatchJustAtCompareOnly => right && count == compare,
            MatchByLevel => count >= compare,
            MatchBySignedLevel => count.wrapping_sub(compare) as i32 >= 0,
            MatchWithoutWrap => old < compare && compare <= count,
            GoneWithoutWrap => ahead != 0 && ahead <= count.saturating_sub(old),
            AheadWithoutWrap => (1..=gone).contains(&compare.saturating_sub(old)),
            GoneOneLessOverWrap if count < old => ahead != 0 && ahead < gone,
            AheadOneLessOverWrap if compare < old => (1..=gone).contains(&(ahead - 1)),
            SignedComparison => ahead as i32 > 0 && ahead as i32 <= gone as i32,
            HalfATurnIsBack => right && gone < 1 << 31,
            HalfATurnIsBehind => right && ahead < 1 << 31,
            Modulo16Bits => masked(0xFFFF),
            Modulo24Bits => masked(0xFF_FFFF),
            Modulo31Bits => masked(0x7FFF_FFFF),
            Compare0Never => right && compare != 0,
            CompareMaxNever => right && compare != u32::MAX,
            MatchOnlyWhereEnabled => right && enable & BIT == 1,
            ClearedForGood => right && status & 2 == 0,
            _ => right,
        }
    }

    /// The number and the value of a read.
    fn read_at(&self, block: &mut [u8], address: u32) -> (u32, u32) {
        let misled = match self.0 {
            Some(ReadModulo16) => Some(Misled::Modulo(16)),
            Some(ReadModulo256) => Some(Misled::Modulo(256)),
            Some(ReadModulo65536) => Some(Misled::Modulo(65_536)),
            Some(ReadRoundedDown) => Some(Misled::RoundedDown),
            Some(ReadBelow0) => Some(Misled::Below0),
            _ => None,
        };
        let words = self.words(block);
        match register(address, misled) {
            None => self.refused_read(block, words, address),
            Some(COUNT) if self.is(CountReads39) => (39, 0),
            Some(register) => {
                self.disturb(block, register);
                (0, self.value(words, register))
            }
        }
    }

    fn refused_read(&self, block: &[u8], words: Words, address: u32) -> (u32, u32) {
        match self.0 {
            Some(RefusedReadGivesCount) => (38, words[COUNT]),
            Some(RefusedReadGivesRegister) => (38, words[address as usize / 4 % 4]),
            Some(RefusedRead39) => (39, 0),
            Some(RefusedRead0) => (0, 0),
            Some(ReadUnaligned) if address < 12 => (0, read_words(&block[address as usize..])[0]),
            Some(ReadBehind) if address >= 16 => (0, 0),
            _ => (38, 0),
        }
    }

    /// A read of a block of another length.
    fn read_short(&self, block: &mut [u8], address: u32) -> (u32, u32) {
        let inside = is_inside(block, address);
        let value = |block: &[u8]| read_words(&block[address as usize..])[0];
        match self.0 {
            Some(ShorterRead) if inside => (0, value(block)),
            Some(RefusedReadOfOtherLengthGives) if inside => (38, value(block)),
            _ => (self.other_length(block), 0),
        }
    }

    /// The value that a register reads.
    fn value(&self, words: Words, register: usize) -> u32 {
        let [count, compare, status, enable] = words;
        let right = match register {
            COUNT | COMPARE => words[register],
            _ => words[register] & BIT,
        };
        match (self.0, register) {
            (Some(CountReadsOneMore), COUNT) => count.wrapping_add(1),
            (Some(CountReadsCompare), COUNT) => compare,
            (Some(CompareReadsCount), COMPARE) => count,
            (Some(StatusReadsWord), STATUS) => status,
            (Some(StatusReadsInterrupt), STATUS) => status & enable & BIT,
            (Some(StatusReads0), STATUS) => 0,
            (Some(StatusReadsByte), STATUS) => status & 0xFF,
            (Some(StatusReadsAnyBit), STATUS) => u32::from(status != 0),
            (Some(EnableReadsAnyBit), ENABLE) => u32::from(enable != 0),
            (Some(StatusReadsEnable), STATUS) => enable & BIT,
            (Some(EnableReadsWord), ENABLE) => enable,
            (Some(EnableReadsStatus), ENABLE) => status & BIT,
            _ => right,
        }
    }

    /// What a read that is none leaves behind.
    fn disturb(&self, block: &mut [u8], register: usize) {
        let words = self.words(block);
        let [count, _, status, enable] = words;
        let on = count.wrapping_add(1);
        let next = match (self.0, register) {
            (Some(ReadMovesCount), COUNT) => with(words, COUNT, on),
            (Some(ReadBringsInATick), COUNT) => self.brought_in(words, on),
            (Some(ReadClearsMatch), STATUS) => with(words, STATUS, 0),
            (Some(ReadClearsOtherBits), _) => {
                let words = with(words, STATUS, status & BIT);
                with(words, ENABLE, enable & BIT)
            }
            _ => words,
        };
        self.put(next, block);
    }

    fn write_at(&self, block: &mut [u8], address: u32, value: u32) -> u32 {
        let misled = match self.0 {
            Some(WriteModulo16) => Some(Misled::Modulo(16)),
            Some(WriteModulo256) => Some(Misled::Modulo(256)),
            Some(WriteModulo65536) => Some(Misled::Modulo(65_536)),
            Some(WriteRoundedDown) => Some(Misled::RoundedDown),
            Some(WriteBelow0) => Some(Misled::Below0),
            _ => None,
        };
        let words = self.words(block);
        let [count, compare, status, enable] = words;
        let right = [count, compare, status & BIT, enable & BIT];
        let next = match register(address, misled) {
            None => return self.refuse_write(block, address, value),
            Some(COUNT) => return self.write_count(block, value),
            Some(COMPARE) => self.with_compare(words, right, value),
            Some(STATUS) => self.with_status(words, right, value),
            Some(_) => self.with_enable(words, right, value),
        };
        self.put(next, block);
        0
    }

    fn write_count(&self, block: &mut [u8], value: u32) -> u32 {
        let words = self.words(block);
        match self.0 {
            Some(CountWritable) => {
                self.put(with(words, COUNT, value), block);
                0
            }
            Some(CountWritten39) => {
                self.put(with(words, COUNT, value), block);
                39
            }
            Some(CountWrite38) => 38,
            Some(CountWriteIgnored) => 0,
            Some(CountWriteOfSameTaken) if value == words[COUNT] => 0,
            _ => 39,
        }
    }

    fn refuse_write(&self, block: &mut [u8], address: u32, value: u32) -> u32 {
        let words = self.words(block);
        let [_, _, status, enable] = words;
        match self.0 {
            Some(RefusedWrite39) => return 39,
            Some(RefusedWriteBehindCount39) if address < 4 => return 39,
            Some(RefusedWrite0) => return 0,
            Some(WriteBehind) if address >= 16 => return 0,
            Some(WriteUnaligned) if address > 3 && address < 12 => {
                write_words(&[value], &mut block[address as usize..][..4]);
                return 0;
            }
            Some(RefusedWriteWrites) => {
                self.put(with(words, address as usize / 4 % 4, value), block);
            }
            Some(RefusedWriteWritesCompare) => self.put(with(words, COMPARE, value), block),
            Some(RefusedWriteClears) if value & BIT == 1 => {
                self.put(with(words, STATUS, 0), block);
            }
            Some(RefusedWriteClearsOtherBits) => {
                let words = with(words, STATUS, status & BIT);
                self.put(with(words, ENABLE, enable & BIT), block);
            }
            _ => {}
        }
        38
    }

    /// The registers with compare written; `next` has other bits cleared.
    fn with_compare(&self, words: Words, next: Words, value: u32) -> Words {
        let [count, _, status, enable] = words;
        let next = with(next, COMPARE, value);
        match self.0 {
            Some(CompareClears) => with(next, STATUS, 0),
            Some(CompareMatches) if value == count => with(next, STATUS, 1),
            Some(CompareBehindMatches) if count.wrapping_sub(value) as i32 >= 0 => {
                with(next, STATUS, 1)
            }
            Some(CompareDisables) => with(next, ENABLE, 0),
            Some(Compare16Bits) => with(next, COMPARE, value & 0xFFFF),
            Some(Compare31Bits) => with(next, COMPARE, value & 0x7FFF_FFFF),
            Some(CompareNotAtCount) if value == count => with(next, COMPARE, words[COMPARE]),
            Some(CompareStaysWhereMatched) if status & BIT == 1 => {
                with(next, COMPARE, words[COMPARE])
            }
            Some(CompareResetsCount) => with(next, COUNT, 0),
            Some(CompareKeepsStatusBits) => with(next, STATUS, status),
            Some(CompareKeepsEnableBits) => with(next, ENABLE, enable),
            _ => next,
        }
    }

    fn with_status(&self, words: Words, next: Words, value: u32) -> Words {
        let bit = value & BIT;
        let status = words[STATUS] & BIT;
        let cleared = |clears: bool| with(next, STATUS, if clears { 0 } else { status });
        let right = cleared(bit == 1);
        let Some(fault) = self.0 else {
            return right;
        };
        match fault {
            ClearedBy0 => cleared(bit == 0),
            ClearedByAny => cleared(true),
            ClearedByNonzero => cleared(value != 0),
            ClearedBy1Alone => cleared(value == 1),
            ClearedByBit1 => cleared(value & 2 == 2),
            ClearedByBit31 => cleared(value >> 31 == 1),
            NeverCleared => cleared(false),
            ClearedOnlyWhereEnabled => cleared(bit == 1 && words[ENABLE] & BIT == 1),
            ClearedOnlyPastCompare => cleared(bit == 1 && words[COUNT] != words[COMPARE]),
            SetBy1 => with(next, STATUS, status | bit),
            SetByOtherBits if value > 1 && bit == 0 => with(next, STATUS, 1),
            StatusStored => with(next, STATUS, bit),
            StatusToggled => with(next, STATUS, status ^ bit),
            StatusStoresWord => with(next, STATUS, right[STATUS] | value & OTHER_BITS),
            StatusKeepsOtherBits => with(next, STATUS, right[STATUS] | words[STATUS] & OTHER_BITS),
            ClearingDisables if bit == 1 => with(right, ENABLE, 0),
            ClearingResetsCompare if bit == 1 => with(right, COMPARE, 0),
            ClearingResetsCount if bit == 1 => with(right, COUNT, 0),
            ClearedForGood if bit == 1 => with(next, STATUS, 2),
            _ => right,
        }
    }

    fn with_enable(&self, words: Words, next: Words, value: u32) -> Words {
        let bit = value & BIT;
        let enable = words[ENABLE] & BIT;
        let right = with(next, ENABLE, bit);
        let enabled = |by: bool| with(next, ENABLE, u32::from(by));
        let Some(fault) = self.0 else {
            return right;
        };
        match fault {
            EnabledByNonzero => enabled(value != 0),
            EnabledByBit1 => enabled(value & 2 == 2),
            EnabledBy1Alone => enabled(value == 1),
            NeverEnabled => enabled(false),
            NeverDisabled => with(next, ENABLE, enable | bit),
            EnableInverted => enabled(bit == 0),
            EnableToggled => with(next, ENABLE, enable ^ bit),
            EnableStoresWord => with(next, ENABLE, value),
            EnableKeepsOtherBits => with(next, ENABLE, bit | words[ENABLE] & OTHER_BITS),
            EnableStaysWhereMatched if words[STATUS] & BIT == 1 => with(next, ENABLE, enable),
            EnablingClears if bit == 1 => with(right, STATUS, 0),
            DisablingClears if bit == 0 => with(right, STATUS, 0),
            _ => right,
        }
    }

    fn raised(&self, words: Words) -> u32 {
        let [count, compare, status, enable] = words;
        let right = status & enable & BIT;
        match self.0 {
            Some(NeverRaised) => 0,
            Some(AlwaysRaised) => 1,
            Some(RaisedByMatchAlone) => status & BIT,
            Some(RaisedByEnableAlone) => enable & BIT,
            Some(RaisedByEither) => (status | enable) & BIT,
            Some(RaisedByWords) => u32::from(status != 0 && enable != 0),
            Some(RaisedByAnyBitOfBoth) => u32::from(status & enable != 0),
            Some(RaisedGivesWord) => status & enable,
            Some(RaisedGives2) => 2 * right,
            Some(RaisedAtCompare) => u32::from(count == compare) & enable & BIT,
            _ => right,
        }
    }
}
