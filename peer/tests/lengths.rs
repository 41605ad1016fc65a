//! Wrong readings of how many ticks a frame takes: the mutants show each of
//! them.

#[macro_use]
mod ways;

use peer::image::{Frame, Piece, Plan};
use peer::mutate::mutant;
use peer::{asked_before, check, Answer, Rng};

ways! {
    /// Ways to read it.
    enum Reading { Right }

    const WRONG: 16 = {
        RoundedDown,
        RoundedToNearest,
        OneMoreAlways,
        OneAtLeastElseDown,
        BareBits,
        UntaggedBits,
        WithoutPreambleAndGap,
        BytesForBits,
        RoundedByBytes,
        PreviousRate,
        NextRate,
        FirstRate,
        LastRate,
        SlowestRate,
        FastestRate,
        FirstLinkRow,
    };
}

use Reading::*;

/// A plan in which questions 1 to 14 are answered yes.
struct Asked<'a> {
    plan: &'a Plan,
    reading: Reading,
}

impl Asked<'_> {
    fn frame(&self, stream: u32, k: u32, hop: u32) -> Option<&Frame> {
        let mut frames = self.plan.frames.iter();
        frames.find(|frame| frame[..3] == [stream, k, hop])
    }

    /// The rate that this reading takes for a frame.
    fn rate(&self, &[stream, k, hop, link, ..]: &Frame) -> u64 {
        let hops = self.plan.streams[stream as usize][3];
        let rate = |link: u32| u64::from(self.plan.links[link as usize][3]);
        let of_hop = |hop: u32| self.frame(stream, k, hop).map(|frame| rate(frame[3]));
        let route = (0..hops).filter_map(of_hop);
        let read = match self.reading {
            PreviousRate => of_hop(hop.wrapping_sub(1)),
            NextRate => of_hop(hop.wrapping_add(1)),
            FirstRate => of_hop(0),
            LastRate => of_hop(hops - 1),
            SlowestRate => route.min(),
            FastestRate => route.max(),
            FirstLinkRow => Some(rate(0)),
            _ => None,
        };
        read.unwrap_or(rate(link))
    }

    fn ticks(&self, frame: &Frame) -> u64 {
        let payload = u64::from(self.plan.streams[frame[0] as usize][4]);
        let rate = self.rate(frame);
        let bits = 8 * (payload + 42);
        match self.reading {
            RoundedDown => bits / rate,
            RoundedToNearest => (bits + rate / 2) / rate,
            OneMoreAlways => bits / rate + 1,
            OneAtLeastElseDown => (bits / rate).max(1),
            BareBits => (8 * payload).div_ceil(rate),
            UntaggedBits => (8 * (payload + 38)).div_ceil(rate),
            WithoutPreambleAndGap => (8 * (payload + 22)).div_ceil(rate),
            BytesForBits => (payload + 42).div_ceil(rate),
            RoundedByBytes => 8 * (payload + 42).div_ceil(rate),
            _ => bits.div_ceil(rate),
        }
    }

    fn end(&self, frame: &Frame) -> u64 {
        u64::from(frame[4]) + self.ticks(frame)
    }

    fn arrival(&self, frame: &Frame) -> u64 {
        let delay = self.plan.links[frame[3] as usize][2];
        self.end(frame) + u64::from(delay) + u64::from(self.plan.precision)
    }

    fn fifteen(&self, frame: &Frame) -> bool {
        let &[stream, k, hop, _, start, ..] = frame;
        let [sender, _, _, hops, ..] = self.plan.streams[stream as usize];
        let period = u64::from(self.plan.period(sender));
        let from = u64::from(k) * period;
        k < self.plan.jobs(sender)
            && hop < hops
            && from <= u64::from(start)
            && self.end(frame) <= from + period
    }

    fn eighteen(&self, frame: &Frame) -> bool {
        let &[stream, k, hop, _, start, ..] = frame;
        let before = self.frame(stream, k, hop.wrapping_sub(1));
        before.is_none_or(|before| self.arrival(before) <= u64::from(start))
    }

    fn nineteen(&self, row: usize) -> bool {
        let frame = &self.plan.frames[row];
        let mut lower = self.plan.frames[..row].iter();
        !lower.any(|other| {
            let one_link = other[3] == frame[3];
            let begins_in = u64::from(frame[4]) < self.end(other);
            one_link && begins_in && u64::from(other[4]) < self.end(frame)
        })
    }

    /// The half of question 20 that asks for a length.
    fn twenty(&self, stream: usize) -> bool {
        let [sender, receiver, _, hops, ..] = self.plan.streams[stream];
        (0..self.plan.jobs(sender)).all(|k| {
            let of_job = |piece: &&Piece| piece[..2] == [receiver, k];
            let pieces = self.plan.pieces.iter().filter(of_job);
            let start = pieces.map(|piece| u64::from(piece[2])).min();
            let last = self.frame(stream as u32, k, hops - 1);
            start >= last.map(|frame| self.arrival(frame))
        })
    }

    /// The first no to 15, 18, 19 and the half of 20, as far as the right
    /// answer lets them be asked.
    fn answer(&self, right: Answer) -> Option<Answer> {
        let frames = &self.plan.frames;
        let at = |number: u32, table: u32, row: Option<usize>| {
            row.map(|row| Answer::at(number, table, row as u32))
        };
        let fifteen = at(15, 8, frames.iter().position(|frame| !self.fifteen(frame)));
        if fifteen.is_some() || [15, 16, 17].contains(&right.number) {
            return fifteen;
        }
        let eighteen = frames.iter().position(|frame| !self.eighteen(frame));
        let nineteen = || (0..frames.len()).find(|row| !self.nineteen(*row));
        let twenty = || (0..self.plan.streams.len()).find(|row| !self.twenty(*row));
        at(18, 8, eighteen)
            .or_else(|| at(19, 8, nineteen()))
            .or_else(|| at(20, 7, twenty()))
    }
}

#[test]
fn mutants_show_every_wrong_reading() {
    let mut shown = [0; WRONG.len()];
    for case in 0..12_000 {
        let image = mutant(&mut Rng::for_case(23, case));
        let right = check(&image);
        if asked_before(right.number, 15) {
            continue;
        }
        let plan = Plan::decode(&image);
        if plan.frames.len() > 100 || plan.pieces.len() > 500 {
            continue;
        }
        let asked = |reading| Asked {
            plan: &plan,
            reading,
        };
        let first = asked(Right).answer(right);
        match right.number {
            15 | 18 | 19 => assert_eq!(first, Some(right)),
            // Either half of 20 may be what is broken.
            20 => assert!(first.is_none_or(|first| first.number == 20)),
            _ => assert_eq!(first, None, "{right}"),
        }
        for (count, reading) in shown.iter_mut().zip(WRONG) {
            *count += u32::from(asked(reading).answer(right) != first);
        }
    }
    for (count, reading) in shown.into_iter().zip(WRONG) {
        println!("{reading:?}: {count}");
        assert!(count >= 10, "{reading:?}: {count}");
    }
}
