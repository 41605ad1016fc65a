//! What the calls of the shifts met, and what they have to.

use std::collections::BTreeSet;
use std::fmt;
use std::rc::Rc;

use super::calls::{Call, Room, BLOCK, PLACES};
use super::model::Held;
use super::plans::{Accepted, Offer};
use crate::answer::Answer;
use crate::boundary::STATE;
use crate::gave::{Gave, Numbers};
use crate::image::WORD;
use crate::simulate::{Fact, Tally};

/// The numbers of each call; of holds, those besides the image's own.
const NUMBERS: [Numbers; 5] = [
    ("fresh", &[0, 27]),
    ("hold", &[0, 26, 27, 43]),
    ("start", &[0, 27, 43]),
    ("request", &[0, 27, 43, 44]),
    ("step", &[0, 27, 28]),
];

/// Lengths of a block that are another's.
pub const LENGTHS: [usize; 8] = [0, 1, 28, 171, 173, 176, 344, 428];
/// One that is a block's in its lowest 16 bits.
pub const LONG: usize = 65_536 + BLOCK;

/// What runs.
#[derive(Clone, Debug)]
pub struct Now {
    pub plan: Rc<Held>,
    /// Where it is held.
    pub place: Option<u32>,
    /// The tick that is next.
    pub cycle: u64,
    pub tick: u32,
}

impl Now {
    /// Whether the calendar's last tick is next.
    pub fn is_last(&self) -> bool {
        self.cycle == u64::MAX && self.tick + 1 == self.plan.cycle
    }
}

/// Where a shift stands.
#[derive(Clone, Debug)]
pub struct Moment {
    pub running: Option<Now>,
    /// The plan requested and not yet taken.
    pub requested: Option<Rc<Held>>,
    pub requested_place: Option<u32>,
    pub held: [bool; PLACES],
    /// Words taken.
    pub taken: usize,
    /// Steps since the last request that gave 0.
    pub waited: u64,
    /// Whether a start was refused since then.
    pub tried: bool,
    /// Whether a hold has ended the last run.
    pub ended: bool,
}

/// A call, and what came of it.
pub struct Facts<'a> {
    pub call: Call,
    pub room: Room,
    pub gave: Answer,
    pub offers: &'a [Offer],
    /// The plan at the place that the call names.
    pub named: Option<Rc<Held>>,
    pub before: Moment,
    pub after: Moment,
}

type Mark = (&'static str, fn(&Facts) -> bool);

const MARKS: [Mark; 107] = [
    // Fresh blocks
    ("fresh: nothing held", |f| f.fresh() && f.holding() == 0),
    ("fresh: over plans, nothing runs", |f| {
        f.fresh() && f.holding() > 0 && f.before.running.is_none()
    }),
    ("fresh: over a run", |f| f.fresh() && f.runs()),
    ("fresh: over a request", |f| f.fresh() && f.stands()),
    // Holds
    ("hold: the first", |f| f.hold(0) && f.before.taken == 0),
    ("hold: behind others", |f| f.hold(0) && f.before.taken > 0),
    ("hold: the eighth place", |f| {
        f.hold(0) && f.holding() == 7 && f.after.held == [true; PLACES]
    }),
    ("hold: where another plan was, nothing runs", |f| {
        f.hold(0) && f.is_held() && !f.runs()
    }),
    ("hold: at the running plan's place", |f| {
        f.hold(0) && f.is_running_place()
    }),
    ("hold: at another plan's place, in a run", |f| {
        f.hold(0) && f.runs() && f.is_held() && !f.is_running_place()
    }),
    ("hold: at a free place, in a run", |f| {
        f.hold(0) && f.runs() && !f.is_held()
    }),
    ("hold: while a request stands", |f| f.hold(0) && f.stands()),
    ("hold: at the requested plan's place", |f| {
        f.hold(0) && f.before.requested_place == f.call.place() && f.stands()
    }),
    ("hold: in mid-cycle", |f| f.hold(0) && f.tick() > 0),
    ("hold: the running plan's image again", |f| {
        f.hold(0) && f.is_running_image()
    }),
    ("hold: words just enough", |f| {
        f.hold(0) && f.room.words == f.needed()
    }),
    ("hold: words just enough, and a part of one", |f| {
        f.hold(0) && (f.needed() + 1..f.needed() + WORD).contains(&f.room.words)
    }),
    ("hold: words enough by one", |f| {
        f.hold(0) && f.room.words == f.needed() + WORD
    }),
    ("hold: one byte too few", |f| {
        f.hold(26) && f.room.words + 1 == f.needed()
    }),
    ("hold: one word too few", |f| {
        f.hold(26) && f.room.words + WORD == f.needed()
    }),
    ("hold: words enough but for those taken", |f| {
        f.hold(26) && f.before.taken > 0 && f.room.words >= f.needed() - WORD * f.before.taken
    }),
    ("hold: no words", |f| f.hold(26) && f.room.words == 0),
    ("hold: too few words, in a run", |f| f.hold(26) && f.runs()),
    ("hold: too few words at a place that holds a plan", |f| {
        f.hold(26) && f.is_held()
    }),
    ("hold: at place 8", |f| {
        f.hold(43) && f.call.place() == Some(8)
    }),
    ("hold: at place 2^32 - 1", |f| {
        f.hold(43) && f.call.place() == Some(u32::MAX)
    }),
    ("hold: at a place past 8, in a run", |f| {
        f.hold(43) && f.runs()
    }),
    ("hold: at no place, with too few words", |f| {
        f.hold(43) && f.room.words < f.needed()
    }),
    ("hold: a refused image", |f| f.is_refused_image()),
    ("hold: a refused image, in a run", |f| {
        f.is_refused_image() && f.runs()
    }),
    ("hold: a refused image, while a request stands", |f| {
        f.is_refused_image() && f.stands()
    }),
    ("hold: a refused image, at the running plan's place", |f| {
        f.is_refused_image() && f.is_running_place()
    }),
    ("hold: a refused image, at place 8 or past it", |f| {
        f.is_refused_image() && f.call.place() >= Some(8)
    }),
    ("hold: a refused image, no words", |f| {
        f.is_refused_image() && f.room.words == 0
    }),
    ("hold: a refused image, a block of another length", |f| {
        f.is_other_length() && f.offer().is_some_and(|offer| !offer.is_accepted())
    }),
    // Starts
    ("start: the first", |f| {
        f.start(0) && !f.runs() && !f.before.ended
    }),
    ("start: a hold has ended the run", |f| {
        f.start(0) && f.before.ended
    }),
    ("start: 40 lanes or more", |f| {
        f.start(0) && f.lanes_after() >= 40
    }),
    ("start: in a run, of another plan", |f| {
        f.start(0) && f.runs() && !f.is_running_place()
    }),
    ("start: in a run, of the plan that runs", |f| {
        f.start(0) && f.is_running_place()
    }),
    ("start: a request is dropped", |f| f.start(0) && f.stands()),
    ("start: a request for this plan is dropped", |f| {
        f.start(0) && f.stands() && f.before.requested_place == f.call.place()
    }),
    ("start: in mid-cycle", |f| f.start(0) && f.tick() > 0),
    ("start: more lanes than before", |f| {
        f.start(0) && f.lanes_before() < f.lanes_after()
    }),
    ("start: fewer lanes than before", |f| {
        f.start(0) && f.lanes_before() > f.lanes_after() && f.runs()
    }),
    ("start: another H than before", |f| {
        f.start(0)
            && f.length()
                .is_some_and(|length| f.after_length() != Some(length))
    }),
    ("start: in cycle 0", |f| f.starts_in(0)),
    ("start: in the calendar's last cycle", |f| {
        f.starts_in(u64::MAX)
    }),
    ("start: in the calendar's last cycle, H is 1", |f| {
        f.starts_in(u64::MAX) && f.after_length() == Some(1)
    }),
    ("start: in the last cycle but one", |f| {
        f.starts_in(u64::MAX - 1)
    }),
    ("start: after the calendar's end", |f| {
        f.start(0) && f.is_over()
    }),
    ("start: words just enough", |f| {
        f.start(0) && f.room.words == f.reach() && f.reach() < WORD * f.before.taken
    }),
    ("start: one byte of words too few", |f| {
        f.start(27) && f.room.words + 1 == f.reach() && f.is_fitting_row()
    }),
    ("start: one word too few", |f| {
        f.start(27) && f.room.words + WORD == f.reach() && f.is_fitting_row()
    }),
    ("start: one record too few", |f| {
        f.start(27) && f.is_row(-(STATE as isize))
    }),
    ("start: one record too many", |f| {
        f.start(27) && f.is_row(STATE as isize)
    }),
    ("start: one byte of states too few", |f| {
        f.start(27) && f.is_row(-1)
    }),
    ("start: one byte of states too many", |f| {
        f.start(27) && f.is_row(1)
    }),
    ("start: no records", |f| f.start(27) && f.room.states == 0),
    (
        "start: as many records as the running plan has lanes",
        |f| f.start(27) && f.runs() && f.room.states == f.lanes_before() * STATE,
    ),
    ("start: refused by 27, a request stands", |f| {
        f.start(27) && f.stands() && f.room.modes == BLOCK
    }),
    ("start: refused by 43, a request stands", |f| {
        f.start(43) && f.stands()
    }),
    ("start: of no plan, before any hold", |f| {
        f.start(43) && f.holding() == 0
    }),
    ("start: of a place below 8 that holds none", |f| {
        f.start(43) && f.call.place() < Some(8) && f.holding() > 0
    }),
    ("start: of place 8", |f| {
        f.start(43) && f.call.place() == Some(8)
    }),
    ("start: of place 2^32 - 1", |f| {
        f.start(43) && f.call.place() == Some(u32::MAX)
    }),
    ("start: of no plan, with no records", |f| {
        f.start(43) && f.room.states == 0
    }),
    // Requests
    ("request: right after a start", |f| {
        f.request(0) && f.is_tick_0() && !f.stands() && f.before.waited == 0
    }),
    ("request: tick 0 is next, later", |f| {
        f.request(0) && f.is_tick_0() && f.before.waited > 0
    }),
    ("request: tick 1 is next", |f| f.request(0) && f.tick() == 1),
    ("request: the cycle's last tick is next", |f| {
        f.request(0) && f.is_last_tick() && f.tick() > 0
    }),
    ("request: replaces one, in mid-cycle", |f| {
        f.request(0) && f.stands() && f.tick() > 0 && f.replaces()
    }),
    ("request: replaces one, tick 0 is next", |f| {
        f.request(0) && f.stands() && f.is_tick_0() && f.replaces()
    }),
    ("request: the same again", |f| {
        f.request(0) && f.stands() && !f.replaces()
    }),
    ("request: of the plan that runs", |f| {
        f.request(0) && f.is_running_place() && !f.stands()
    }),
    ("request: the plan that runs replaces another", |f| {
        f.request(0) && f.is_running_place() && f.stands() && f.replaces()
    }),
    ("request: of a plan with another P", |f| {
        f.request(0) && f.differs(|plan| plan.plan.precision)
    }),
    (
        "request: of a plan with other masks, and equal tables",
        |f| f.request(0) && f.differs(masks) && !f.differs(|plan| plan.tables.clone()),
    ),
    ("request: 44, in H alone", |f| {
        f.request(44) && f.unlike() == Some([true, false, false])
    }),
    ("request: 44, in cores alone", |f| {
        f.request(44) && f.unlike() == Some([false, true, false])
    }),
    ("request: 44, in links alone", |f| {
        f.request(44) && f.unlike() == Some([false, false, true])
    }),
    ("request: 44, cores and links, as many lanes", |f| {
        f.request(44) && f.unlike() == Some([false, true, true]) && f.has_as_many_lanes()
    }),
    ("request: 44, a request stands", |f| {
        f.request(44) && f.stands()
    }),
    ("request: 44, before any start", |f| {
        f.request(44) && !f.runs() && !f.before.ended
    }),
    ("request: 44, a hold has ended the run", |f| {
        f.request(44) && f.before.ended
    }),
    ("request: 43, nothing runs", |f| f.request(43) && !f.runs()),
    ("request: 43, a place below 8 that holds none", |f| {
        f.request(43) && f.runs() && f.call.place() < Some(8)
    }),
    ("request: 43, place 8", |f| {
        f.request(43) && f.call.place() == Some(8)
    }),
    ("request: 43, place 2^32 - 1", |f| {
        f.request(43) && f.call.place() == Some(u32::MAX)
    }),
    ("request: 43, the running plan's place and 8", |f| {
        f.request(43) && f.is_running_place_and(8)
    }),
    ("request: 43, the running plan's place and 256", |f| {
        f.request(43) && f.is_running_place_and(256)
    }),
    ("request: 43, a request stands", |f| {
        f.request(43) && f.stands()
    }),
    ("request: in the last cycle, after tick 0", |f| {
        f.request(0) && f.cycle() == Some(u64::MAX) && f.tick() > 0
    }),
    ("request: in the last cycle, tick 0 is next", |f| {
        f.request(0) && f.cycle() == Some(u64::MAX) && f.is_tick_0() && f.length() > Some(1)
    }),
    ("request: in the last cycle, H is 1", |f| {
        f.request(0) && f.cycle() == Some(u64::MAX) && f.length() == Some(1)
    }),
    // Steps
    ("step: a request is not yet due", |f| {
        f.step(0) && f.stands() && f.tick() > 0
    }),
    ("step: takes what was requested at once", |f| {
        f.takes() && f.before.waited == 0
    }),
    ("step: takes it after H - 1 steps", |f| {
        f.takes()
            && f.length()
                .is_some_and(|length| length > 1 && f.before.waited == u64::from(length) - 1)
    }),
    ("step: takes it, a start was refused since", |f| {
        f.takes() && f.before.tried
    }),
    ("step: takes it in the calendar's last cycle", |f| {
        f.takes() && f.cycle() == Some(u64::MAX)
    }),
    ("step: takes it, H is 1", |f| {
        f.takes() && f.length() == Some(1)
    }),
    ("step: takes it, every lane's table is another", |f| {
        f.takes() && f.changes() == Some([true, false])
    }),
    ("step: takes it, some lanes' tables are equal", |f| {
        f.takes() && f.changes() == Some([true, true])
    }),
    ("step: takes it, 40 lanes or more", |f| {
        f.takes() && f.lanes_before() >= 40
    }),
    ("step: takes the plan that runs", |f| {
        f.takes() && f.before.requested_place == f.running_place()
    }),
    ("step: 28, a request stands", |f| f.step(28) && f.stands()),
    ("step: 28, a request stands, tick 0 is next", |f| {
        f.step(28) && f.stands() && f.is_tick_0()
    }),
];

/// Steps that are refused by 27.
const REFUSED: [Mark; 16] = [
    ("step: 27, before any start", |f| {
        f.step(27) && !f.runs() && !f.before.ended && f.before.taken > 0
    }),
    ("step: 27, a hold has ended the run", |f| {
        f.step(27) && f.before.ended
    }),
    ("step: 27, nothing held", |f| {
        f.step(27) && f.before.taken == 0
    }),
    ("step: 27, no records", |f| f.step(27) && f.room.states == 0),
    ("step: 27, one record too few", |f| {
        f.step(27) && f.is_row(-(STATE as isize))
    }),
    ("step: 27, one record too many", |f| {
        f.step(27) && f.is_row(STATE as isize)
    }),
    ("step: 27, one byte of states too few", |f| {
        f.step(27) && f.is_row(-1)
    }),
    ("step: 27, one byte of states too many", |f| {
        f.step(27) && f.is_row(1)
    }),
    ("step: 27, a wrong row, a request is due", |f| {
        f.step(27) && f.stands() && f.is_tick_0() && !f.is_fitting_row()
    }),
    ("step: 27, no words", |f| {
        f.step(27) && f.runs() && f.room.words == 0
    }),
    ("step: 27, one byte of words too few", |f| {
        f.step(27) && f.room.words + 1 == f.reach() && f.is_fitting_row()
    }),
    ("step: 27, one word too few", |f| {
        f.step(27) && f.room.words + WORD == f.reach() && f.is_fitting_row()
    }),
    ("step: 27, the requested plan's words too few", |f| {
        f.step(27)
            && f.is_fitting_row()
            && f.stands()
            && f.is_tick_0()
            && f.running_end() <= f.room.words
            && f.room.words < f.reach()
    }),
    ("step: words just enough", |f| {
        f.step(0) && f.room.words == f.reach() && f.reach() < WORD * f.before.taken
    }),
    ("step: not yet the requested plan's words", |f| {
        f.step(0) && f.stands() && f.tick() > 0 && f.room.words < f.wanted_end()
    }),
    ("step: words too few at the calendar's end", |f| {
        f.room.words < f.reach() && f.is_over() && f.is_fitting_row() && f.call == Call::Step
    }),
];

fn masks(plan: &Accepted) -> Vec<u32> {
    plan.plan.tasks.iter().map(|task| task[1]).collect()
}

impl Facts<'_> {
    fn fresh(&self) -> bool {
        self.call == Call::Fresh && self.gave.number == 0
    }

    fn gave(&self, number: u32) -> bool {
        self.gave.number == number && self.room.modes == BLOCK
    }

    fn hold(&self, number: u32) -> bool {
        matches!(self.call, Call::Hold { .. }) && self.gave(number)
    }

    fn start(&self, number: u32) -> bool {
        matches!(self.call, Call::Start { .. }) && self.gave(number)
    }

    fn request(&self, number: u32) -> bool {
        matches!(self.call, Call::Request { .. }) && self.gave(number)
    }

    fn step(&self, number: u32) -> bool {
        self.call == Call::Step && self.gave(number)
    }

    fn is_other_length(&self) -> bool {
        self.room.modes != BLOCK
    }

    fn runs(&self) -> bool {
        self.before.running.is_some()
    }

    /// Whether a request stands.
    fn stands(&self) -> bool {
        self.before.requested.is_some()
    }

    fn holding(&self) -> usize {
        self.before.held.iter().filter(|held| **held).count()
    }

    fn is_held(&self) -> bool {
        let held = |place: u32| self.before.held.get(place as usize) == Some(&true);
        self.call.place().is_some_and(held)
    }

    fn running_place(&self) -> Option<u32> {
        self.before.running.as_ref()?.place
    }

    fn is_running_place(&self) -> bool {
        self.runs() && self.call.place() == self.running_place()
    }

    fn is_running_place_and(&self, more: u32) -> bool {
        let place = self.running_place();
        place.is_some() && self.call.place() == place.map(|place| place + more)
    }

    fn offer(&self) -> Option<&Offer> {
        match self.call {
            Call::Hold { offer, .. } => Some(&self.offers[offer]),
            _ => None,
        }
    }

    fn is_running_image(&self) -> bool {
        match (self.call, &self.before.running) {
            (Call::Hold { offer, .. }, Some(now)) => now.plan.offer == offer,
            _ => false,
        }
    }

    fn is_refused_image(&self) -> bool {
        !self.is_other_length() && self.offer().is_some_and(|offer| !offer.is_accepted())
    }

    /// The bytes of words that a hold needs.
    fn needed(&self) -> usize {
        WORD * (self.before.taken + self.offer().map_or(0, Offer::words))
    }

    fn tick(&self) -> u32 {
        self.before.running.as_ref().map_or(0, |now| now.tick)
    }

    fn is_tick_0(&self) -> bool {
        self.runs() && self.tick() == 0
    }

    fn is_last_tick(&self) -> bool {
        self.length() == Some(self.tick() + 1)
    }

    fn cycle(&self) -> Option<u64> {
        self.before.running.as_ref().map(|now| now.cycle)
    }

    fn is_over(&self) -> bool {
        self.before.running.as_ref().is_some_and(Now::is_last)
    }

    /// H of the running plan.
    fn length(&self) -> Option<u32> {
        self.before.running.as_ref().map(|now| now.plan.cycle)
    }

    fn after_length(&self) -> Option<u32> {
        self.after.running.as_ref().map(|now| now.plan.cycle)
    }

    fn lanes_before(&self) -> usize {
        let running = self.before.running.as_ref();
        running.map_or(0, |now| now.plan.lanes())
    }

    fn lanes_after(&self) -> usize {
        let running = self.after.running.as_ref();
        running.map_or(0, |now| now.plan.lanes())
    }

    fn starts_in(&self, cycle: u64) -> bool {
        let is_it = |now: &Now| now.cycle == cycle;
        self.start(0) && self.after.running.as_ref().is_some_and(is_it)
    }

    /// The plan whose tables a start or a step needs.
    fn shows(&self) -> Option<&Rc<Held>> {
        match self.call {
            Call::Step if self.is_tick_0() && self.stands() => self.before.requested.as_ref(),
            Call::Step => self.before.running.as_ref().map(|now| &now.plan),
            Call::Start { .. } => self.named.as_ref(),
            _ => None,
        }
    }

    /// The bytes up to where its tables end.
    fn reach(&self) -> usize {
        self.shows().map_or(0, |plan| WORD * plan.end)
    }

    fn running_end(&self) -> usize {
        let running = self.before.running.as_ref();
        running.map_or(0, |now| WORD * now.plan.end)
    }

    fn wanted_end(&self) -> usize {
        let requested = self.before.requested.as_ref();
        requested.map_or(0, |plan| WORD * plan.end)
    }

    fn is_fitting_row(&self) -> bool {
        let is_fitting = |plan: &Rc<Held>| self.room.states == plan.lanes() * STATE;
        self.shows().is_some_and(is_fitting)
    }

    /// Whether the words suffice, and the row is so much longer than it should be.
    fn is_row(&self, by: isize) -> bool {
        let is_so = |plan: &Rc<Held>| {
            let fitting = plan.lanes() * STATE;
            fitting.checked_add_signed(by) == Some(self.room.states)
        };
        self.gave(27) && self.room.words >= self.reach() && self.shows().is_some_and(is_so)
    }

    /// Whether a request is for another plan than the one that stands.
    fn replaces(&self) -> bool {
        self.before.requested_place != self.call.place()
    }

    /// Whether the plan named has another such thing than the running one.
    fn differs<T: PartialEq>(&self, thing: impl Fn(&Accepted) -> T) -> bool {
        let (Some(now), Some(named)) = (&self.before.running, &self.named) else {
            return false;
        };
        let of = |plan: &Held| self.offers[plan.offer].told.as_ref().ok().map(&thing);
        of(&now.plan) != of(named)
    }

    /// In what the plan named differs from the running one: H, cores, links.
    fn unlike(&self) -> Option<[bool; 3]> {
        let (now, named) = (self.before.running.as_ref()?, self.named.as_ref()?);
        let plan = &now.plan;
        Some([
            plan.cycle != named.cycle,
            plan.cores != named.cores,
            plan.links != named.links,
        ])
    }

    fn has_as_many_lanes(&self) -> bool {
        let named = self.named.as_ref().map(|plan| plan.lanes());
        self.runs() && named == Some(self.lanes_before())
    }

    fn takes(&self) -> bool {
        self.step(0) && self.stands() && self.is_tick_0()
    }

    /// Whether some lanes' tables become others, and whether some stay equal.
    fn changes(&self) -> Option<[bool; 2]> {
        let (now, next) = (self.before.running.as_ref()?, self.shows()?);
        let tables = |plan: &Held| {
            self.offers[plan.offer]
                .told
                .as_ref()
                .ok()
                .map(|of| &of.tables)
        };
        let (old, new) = (tables(&now.plan)?, tables(next)?);
        let mut lanes = old.iter().zip(new);
        let some = |is_equal: bool| lanes.any(|(old, new)| (old == new) == is_equal);
        Some([false, true].map(some))
    }
}

/// What was met.
#[derive(Clone, Debug)]
pub struct Met {
    gave: Gave,
    /// Other lengths of a block, by call.
    lengths: BTreeSet<(&'static str, usize)>,
    marks: [u64; MARKS.len()],
    refused: [u64; REFUSED.len()],
    shifts: u64,
    copies: u64,
    switches: u64,
    runs: u64,
    changes: u64,
    /// Calls on blocks that others have changed, done and refused.
    rough: [u64; 2],
    tally: Tally,
}

impl Default for Met {
    fn default() -> Met {
        Met {
            gave: Gave::default(),
            lengths: BTreeSet::new(),
            marks: [0; MARKS.len()],
            refused: [0; REFUSED.len()],
            shifts: 0,
            copies: 0,
            switches: 0,
            runs: 0,
            changes: 0,
            rough: [0; 2],
            tally: Tally::default(),
        }
    }
}

fn tally(counts: &mut [u64], marks: &[Mark], facts: &Facts) {
    for (count, (_, is_met)) in counts.iter_mut().zip(marks) {
        *count += u64::from(is_met(facts));
    }
}

/// What the claims of runs have to be asked of.
const ASKED: [(Fact, &str); 9] = [
    (Fact::GaveEnd, "runs: a step that gives 28"),
    (Fact::JobWhole, "runs: a job of a completed cycle"),
    (Fact::ReceiverStarted, "runs: a receiver started"),
    (
        Fact::StartedAtArrival,
        "runs: a receiver started at the very arrival",
    ),
    (
        Fact::EndedAtLatency,
        "runs: a receiver ended exactly E after",
    ),
    (Fact::ChainEnded, "runs: a chain ended"),
    (Fact::HoldOver, "runs: a buffer's hold over"),
    (Fact::HoldOpen, "runs: a buffer's hold open"),
    (Fact::StayOver, "runs: a frame alone in its queue"),
];

impl Met {
    pub fn count(&mut self, call: &'static str, number: u32) {
        self.gave.count(call, number);
    }

    pub fn meet(&mut self, facts: &Facts) {
        if facts.is_other_length() {
            self.lengths.insert((facts.call.name(), facts.room.modes));
        }
        tally(&mut self.marks, &MARKS, facts);
        tally(&mut self.refused, &REFUSED, facts);
    }

    pub fn began(&mut self) {
        self.shifts += 1;
    }

    pub fn copied(&mut self) {
        self.copies += 1;
    }

    pub fn switched(&mut self) {
        self.switches += 1;
    }

    /// A call on a block that others have changed.
    pub fn rough(&mut self, gave: Answer) {
        self.rough[usize::from(!gave.is_accepted())] += 1;
    }

    /// A run was asked, stretch by stretch of cycles with one plan.
    pub fn ran(&mut self, stretches: &[Tally]) {
        self.runs += 1;
        self.changes += stretches.len().saturating_sub(1) as u64;
        for tally in stretches {
            self.tally.add(tally);
        }
    }

    pub fn calls(&self) -> u64 {
        self.gave.total()
    }

    /// Each mark with its count.
    fn marks(&self) -> impl Iterator<Item = (&'static str, u64)> + '_ {
        let names = MARKS.iter().chain(&REFUSED).map(|mark| mark.0);
        let counts = self.marks.iter().chain(&self.refused).copied();
        let asked = ASKED
            .iter()
            .map(|(fact, name)| (*name, self.tally.of(*fact)));
        let others = [
            ("copies that go their own ways", self.copies),
            ("changes from copy to copy", self.switches),
            ("runs: a change from plan to plan", self.changes),
            ("calls on a block of other bytes, done", self.rough[0]),
            ("calls on a block of other bytes, refused", self.rough[1]),
        ];
        names.zip(counts).chain(asked).chain(others)
    }

    /// What should have been met and was not.
    pub fn missing(&self) -> Vec<String> {
        let mut missing = Vec::new();
        for numbers in NUMBERS {
            missing.extend(self.gave.missing(numbers));
            let call = numbers.0;
            let lengths = LENGTHS.iter().chain([&LONG]);
            let unmet = lengths.filter(|length| !self.lengths.contains(&(call, **length)));
            missing.extend(unmet.map(|length| format!("{call}: a block of {length} bytes")));
        }
        let unmet = self.marks().filter(|(_, count)| *count == 0);
        missing.extend(unmet.map(|(mark, _)| mark.to_string()));
        missing
    }
}

impl fmt::Display for Met {
    fn fmt(&self, out: &mut fmt::Formatter<'_>) -> fmt::Result {
        writeln!(out, "calls by number:")?;
        for call in NUMBERS {
            writeln!(out, "{}", self.gave.line(call))?;
        }
        writeln!(out, "among them:")?;
        for (mark, count) in self.marks() {
            writeln!(out, "{count:8}  {mark}")?;
        }
        let (shifts, runs) = (self.shifts, self.runs);
        writeln!(out, "{shifts} shifts, {runs} runs, {} calls", self.calls())
    }
}
