//! Calls what is to be measured, of the library and of this package, on one
//! image, or joins two.
//!
//! Arguments: the image's file, and how long each is repeated in milliseconds
//! (0: once, for callgrind). Or `join`, the files of two images, the number of
//! leading tasks that they share (0), and the milliseconds. Prints a line for
//! each, in a fixed order: whose, which, nanoseconds. Each is called once on a
//! small plan first, so that what happens only once is not measured. Build with
//! RD_LIB_DIR.

#[cfg(rd_lib)]
mod ops {
    use peer::boundary::{Boundary, Peer, STATE};
    use peer::image::LONGEST;
    use peer::joins::Joins;
    use peer::library::Library;
    use peer::{join, start, step, step_all, tables, State};

    /// What can be called on an image, with all that it needs.
    pub struct Ops {
        image: Vec<u8>,
        /// The tables of all lanes, as the peer has them; none where the image is refused.
        tables: Vec<Vec<u32>>,
        words: Vec<u8>,
        firsts: Vec<u32>,
    }

    pub type Op<'a> = (&'static str, &'static str, Box<dyn FnMut() + 'a>);

    fn op<'a>(whose: &'static str, which: &'static str, call: impl FnMut() + 'a) -> Op<'a> {
        (whose, which, Box::new(call))
    }

    /// The join of two images, with bytes for any.
    pub fn joins<'a>(first: &'a [u8], second: &'a [u8], shared: u32) -> Vec<Op<'a>> {
        let (mut ours, mut peers) = (vec![0; LONGEST], vec![0; LONGEST]);
        let ours = move || {
            Library.join(first, second, shared, &mut ours, &mut [0; 2]);
        };
        let peers = move || {
            join(first, second, shared, &mut peers);
        };
        vec![op("ours", "join", ours), op("peer", "join", peers)]
    }

    impl Ops {
        pub fn new(image: Vec<u8>) -> Ops {
            let tables = tables(&image).unwrap_or_default();
            let mut words: Vec<u32> = Vec::new();
            let mut firsts = Vec::new();
            for table in &tables {
                firsts.push(words.len() as u32);
                words.extend_from_slice(table);
            }
            let words = words.iter().flat_map(|word| word.to_le_bytes()).collect();
            Ops {
                image,
                tables,
                words,
                firsts,
            }
        }

        /// All that can be measured: of a refused image, the check, arrivals and gates alone.
        pub fn all(&self) -> Vec<Op<'_>> {
            let mut ops = vec![
                op("ours", "check", || self.check(&Library)),
                op("peer", "check", || self.check(&Peer)),
                op("ours", "arrivals of frame 0", || self.arrivals(&Library)),
                op("peer", "arrivals of frame 0", || self.arrivals(&Peer)),
                op("ours", "gates of link 0", || self.gates(&Library)),
                op("peer", "gates of link 0", || self.gates(&Peer)),
            ];
            if !self.tables.is_empty() {
                ops.push(op("ours", "build of each lane", || self.build(&Library)));
                ops.push(op("peer", "build of each lane", || self.build(&Peer)));
                ops.push(op("ours", "build of all lanes", || self.build_all()));
                ops.push(op("peer", "build of all lanes", || {
                    assert!(tables(&self.image).is_ok());
                }));
                self.add_steps(&mut ops);
            }
            ops
        }

        fn check(&self, of: &dyn Boundary) {
            of.check(&self.image);
        }

        fn arrivals(&self, of: &dyn Boundary) {
            of.arrivals(&self.image, 0, &mut [0; 8]);
        }

        /// With words for the longest list that 512 frames can make.
        fn gates(&self, of: &dyn Boundary) {
            of.gates(&self.image, 0, &mut [0; 4 * (1 + 2 * 1_025)]);
        }

        /// Builds every lane with words that just suffice.
        fn build(&self, of: &dyn Boundary) {
            let mut words = vec![0; self.words.len()];
            for (lane, table) in (0..).zip(&self.tables) {
                let answer = of.build(&self.image, lane, &mut words[..4 * table.len()]);
                assert_eq!(answer, 0);
            }
        }

        fn build_all(&self) {
            let mut words = vec![0; self.words.len()];
            assert_eq!(Library.build_all(&self.image, &mut words), 0);
        }

        /// Steps of lane 0 and of all lanes. The library's are over bytes, the peer's over words, as it has them.
        fn add_steps<'a>(&'a self, ops: &mut Vec<Op<'a>>) {
            let mut bytes = vec![0; STATE * self.firsts.len()];
            for (state, &first) in bytes.chunks_mut(STATE).zip(&self.firsts) {
                Library.start(0, first, state);
            }
            let mut one = bytes[..STATE].to_vec();
            ops.push(op("ours", "step of one lane", move || {
                assert_eq!(Library.step(&self.words, &mut one), 0);
            }));
            let words = self.tables.concat();
            let mut states: Vec<State> = self.firsts.iter().map(|&first| start(0, first)).collect();
            let (mut one, own) = (states[0], words.clone());
            ops.push(op("peer", "step of one lane", move || {
                assert_eq!(step(&own, &mut one), 0);
            }));
            ops.push(op("ours", "step of all lanes", move || {
                assert_eq!(Library.step_all(&self.words, &mut bytes), 0);
            }));
            ops.push(op("peer", "step of all lanes", move || {
                assert_eq!(step_all(&words, &mut states), 0);
            }));
        }
    }
}

/// What callgrind counts: it collects inside this function only.
#[cfg(rd_lib)]
#[no_mangle]
#[inline(never)]
pub fn measured(call: &mut dyn FnMut()) {
    call();
}

/// Nanoseconds of a call, of as many as fit the time, at least one.
#[cfg(rd_lib)]
fn timed(call: &mut dyn FnMut(), milliseconds: u128) -> u128 {
    let begin = std::time::Instant::now();
    let mut calls = 0;
    loop {
        measured(call);
        calls += 1;
        let passed = begin.elapsed();
        if passed.as_millis() >= milliseconds {
            return passed.as_nanos() / calls;
        }
    }
}

/// Calls once what comes before, and measures the others.
#[cfg(rd_lib)]
fn measure(before: Vec<ops::Op>, ops: Vec<ops::Op>, milliseconds: u128) {
    for (_, _, mut call) in before {
        call();
    }
    for (whose, which, mut call) in ops {
        println!("{whose}\t{which}\t{}", timed(&mut call, milliseconds));
    }
}

#[cfg(rd_lib)]
fn main() -> std::io::Result<()> {
    let mut arguments = std::env::args().skip(1);
    let mut next = || arguments.next();
    let small = peer::generate::small(&mut peer::Rng::new(1)).encode();
    let file = next().expect("the first argument is a file, or join");
    if file == "join" {
        let [first, second] = [0; 2].map(|_| next().expect("two files are to be joined"));
        let (first, second) = (std::fs::read(first)?, std::fs::read(second)?);
        let [shared, milliseconds] = peer::numbers(arguments, [0, 0]);
        let ops = ops::joins(&first, &second, shared as u32);
        measure(ops::joins(&small, &small, 0), ops, milliseconds.into());
        return Ok(());
    }
    let [milliseconds] = peer::numbers(arguments, [0]);
    let (small, ops) = (ops::Ops::new(small), ops::Ops::new(std::fs::read(file)?));
    measure(small.all(), ops.all(), milliseconds.into());
    Ok(())
}

#[cfg(not(rd_lib))]
fn main() {
    panic!("built without RD_LIB_DIR: there is no library to measure");
}
