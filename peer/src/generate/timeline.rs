//! What is taken of a core's or a link's cycle.

/// Ticks `from` to `to` (not included), and whose they are.
#[derive(Clone, Copy, Debug)]
struct Taken {
    from: u32,
    to: u32,
    owner: u32,
}

/// Taken ticks in the order of time, without overlap.
#[derive(Clone, Debug, Default)]
pub struct Timeline {
    taken: Vec<Taken>,
}

impl Timeline {
    /// The first start, no sooner than `earliest`, of `length` free ticks
    /// with `lead` free ticks before them, that ends by `latest_end`.
    pub fn fit(&self, earliest: u32, latest_end: u32, lead: u32, length: u32) -> Option<u32> {
        let mut start = earliest.max(lead);
        for taken in &self.taken {
            if taken.from >= start + length {
                break;
            }
            if taken.to > start - lead {
                start = taken.to + lead;
            }
        }
        (start + length <= latest_end).then_some(start)
    }

    /// The same, right behind ticks of one owner and so without a lead.
    pub fn fit_behind(
        &self,
        owner: u32,
        earliest: u32,
        latest_end: u32,
        length: u32,
    ) -> Option<u32> {
        let starts = self.taken.iter().filter(|taken| taken.owner == owner);
        let mut starts = starts.map(|taken| taken.to).filter(|&to| to >= earliest);
        starts.find(|&start| self.fit(start, latest_end, 0, length) == Some(start))
    }

    /// Takes free ticks.
    pub fn take(&mut self, from: u32, to: u32, owner: u32) {
        let place = self.taken.partition_point(|taken| taken.from < from);
        self.taken.insert(place, Taken { from, to, owner });
    }
}
