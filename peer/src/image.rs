//! The plan image: ten tables of 32-bit little-endian words, then a trailer.

/// Bytes of a word.
pub const WORD: usize = 4;

/// The tables' numbers.
pub const CORE: u32 = 1;
pub const VCPU: u32 = 2;
pub const TASK: u32 = 3;
pub const WINDOW: u32 = 4;
pub const PIECE: u32 = 5;
pub const LINK: u32 = 6;
pub const STREAM: u32 = 7;
pub const FRAME: u32 = 8;
pub const BUFFER: u32 = 9;
pub const CHAIN: u32 = 10;

/// The number of tables.
pub const TABLES: usize = 10;

/// Words of a row, table by table. All sizes follow from these and from the
/// highest row counts.
pub const WIDTHS: [usize; TABLES] = [3, 1, 5, 3, 4, 5, 6, 5, 3, 3];
/// The least and the highest row count, table by table.
pub const ROW_BOUNDS: [(u32, u32); TABLES] = [
    (1, 32),
    (0, 64),
    (0, 256),
    (0, 1024),
    (0, 2048),
    (0, 64),
    (0, 64),
    (0, 512),
    (0, 64),
    (0, 32),
];

/// Words of a table's row.
pub const fn width(table: u32) -> usize {
    WIDTHS[table as usize - 1]
}

/// Bytes of the trailer with the last word: H, P, an offset and a count for
/// each table, and that word itself.
pub const TRAILER: usize = (2 + 2 * TABLES + 1) * WORD;

/// The longest image: every table at its highest row count.
pub const LONGEST: usize = {
    let mut length = TRAILER;
    let mut table = 0;
    while table < TABLES {
        length += WIDTHS[table] * WORD * ROW_BOUNDS[table].1 as usize;
        table += 1;
    }
    length
};

// A row of each table: its words in the paper's order. A row is taken apart
// as `[first, second, ..]` and made by `row_of`, so that a wider row is a
// change of `WIDTHS` alone.

/// node, d, v
pub type Core = [u32; width(CORE)];
/// core
pub type Vcpu = [u32; width(VCPU)];
/// VCPU, core mask, period T, budget C, deadline D
pub type Task = [u32; width(TASK)];
/// VCPU, start, length
pub type Window = [u32; width(WINDOW)];
/// task, job k, start, length
pub type Piece = [u32; width(PIECE)];
/// from node, to node, delay, rate, lowest delay
pub type Link = [u32; width(LINK)];
/// sender task, receiver task, latency E, hops, payload, queue
pub type Stream = [u32; width(STREAM)];
/// stream, job k, hop, link, start
pub type Frame = [u32; width(FRAME)];
/// buffer number, writer task, reader task
pub type Buffer = [u32; width(BUFFER)];
/// first task, last task, limit
pub type Chain = [u32; width(CHAIN)];

/// The row that begins with these words; the words after them are 0.
pub fn row_of<const N: usize, const W: usize>(words: [u32; N]) -> [u32; W] {
    let mut row = [0; W];
    row[..N].copy_from_slice(&words);
    row
}

/// The same for many.
pub fn rows_of<const N: usize, const W: usize>(rows: &[[u32; N]]) -> Vec<[u32; W]> {
    rows.iter().copied().map(row_of).collect()
}

/// The queues of a link.
pub const QUEUES: u32 = 8;

/// Bytes of a frame besides its payload: header, check, preamble and gap of
/// tagged Ethernet.
const FRAMING: u32 = 42;

/// A plan as plain rows.
#[derive(Clone, Debug, Default, PartialEq, Eq)]
pub struct Plan {
    /// H
    pub cycle: u32,
    /// P
    pub precision: u32,
    pub cores: Vec<Core>,
    pub vcpus: Vec<Vcpu>,
    pub tasks: Vec<Task>,
    pub windows: Vec<Window>,
    pub pieces: Vec<Piece>,
    pub links: Vec<Link>,
    pub streams: Vec<Stream>,
    pub frames: Vec<Frame>,
    pub buffers: Vec<Buffer>,
    pub chains: Vec<Chain>,
}

/// What the trailer says: H, P, and each table's byte offset and row count.
#[derive(Clone, Copy, Debug, PartialEq, Eq)]
pub struct Trailer {
    pub cycle: u32,
    pub precision: u32,
    pub tables: [(u32, u32); TABLES],
}

/// The word at a byte of the image.
pub fn word_at(image: &[u8], byte: usize) -> u32 {
    let bytes = image[byte..byte + WORD].try_into();
    u32::from_le_bytes(bytes.expect("a word is four bytes"))
}

/// Overwrites the word at a byte of the image.
pub fn set_word(image: &mut [u8], byte: usize, word: u32) {
    image[byte..byte + WORD].copy_from_slice(&word.to_le_bytes());
}

/// Makes the last word of an image the length less the trailer's; the image
/// is at least that long.
pub fn point_back(image: &mut [u8]) {
    let length = image.len();
    set_word(image, length - WORD, (length - TRAILER) as u32);
}

impl Trailer {
    /// Reads the trailer of an image that is at least that long.
    pub fn read(image: &[u8]) -> Trailer {
        let begin = image.len() - TRAILER;
        let field = |index: usize| word_at(image, begin + index * WORD);
        Trailer {
            cycle: field(0),
            precision: field(1),
            tables: std::array::from_fn(|table| (field(2 + 2 * table), field(3 + 2 * table))),
        }
    }
}

impl Plan {
    /// The image of the plan, whatever its row counts and words are.
    pub fn encode(&self) -> Vec<u8> {
        let mut image = Vec::new();
        let tables = [
            append(&mut image, &self.cores),
            append(&mut image, &self.vcpus),
            append(&mut image, &self.tasks),
            append(&mut image, &self.windows),
            append(&mut image, &self.pieces),
            append(&mut image, &self.links),
            append(&mut image, &self.streams),
            append(&mut image, &self.frames),
            append(&mut image, &self.buffers),
            append(&mut image, &self.chains),
        ];
        let begin = image.len() as u32;
        put(&mut image, &[self.cycle, self.precision]);
        for (offset, rows) in tables {
            put(&mut image, &[offset, rows]);
        }
        put(&mut image, &[begin]);
        image
    }

    /// Reads the rows of an image whose tables lie as its trailer says.
    pub fn decode(image: &[u8]) -> Plan {
        let trailer = Trailer::read(image);
        let tables = trailer.tables;
        Plan {
            cycle: trailer.cycle,
            precision: trailer.precision,
            cores: rows(image, tables[0]),
            vcpus: rows(image, tables[1]),
            tasks: rows(image, tables[2]),
            windows: rows(image, tables[3]),
            pieces: rows(image, tables[4]),
            links: rows(image, tables[5]),
            streams: rows(image, tables[6]),
            frames: rows(image, tables[7]),
            buffers: rows(image, tables[8]),
            chains: rows(image, tables[9]),
        }
    }

    /// The row counts, table by table.
    pub fn counts(&self) -> [usize; TABLES] {
        [
            self.cores.len(),
            self.vcpus.len(),
            self.tasks.len(),
            self.windows.len(),
            self.pieces.len(),
            self.links.len(),
            self.streams.len(),
            self.frames.len(),
            self.buffers.len(),
            self.chains.len(),
        ]
    }

    /// Whether no table has more rows than it may.
    pub fn rows_in_bounds(&self) -> bool {
        let counts = self.counts();
        let mut bounds = counts.iter().zip(ROW_BOUNDS);
        bounds.all(|(&rows, (_, most))| rows <= most as usize)
    }

    /// The number of lanes: cores and links.
    pub fn lanes(&self) -> usize {
        self.cores.len() + self.links.len()
    }
}

/// What rows that name existing rows lead to.
impl Plan {
    pub fn core_of_vcpu(&self, vcpu: u32) -> u32 {
        self.vcpus[vcpu as usize][0]
    }

    pub fn core_of_task(&self, task: u32) -> u32 {
        self.core_of_vcpu(self.tasks[task as usize][0])
    }

    pub fn node_of_task(&self, task: u32) -> u32 {
        self.cores[self.core_of_task(task) as usize][0]
    }

    /// d of the task's core.
    pub fn task_switch(&self, task: u32) -> u32 {
        self.cores[self.core_of_task(task) as usize][1]
    }

    /// v of the VCPU's core.
    pub fn vcpu_switch(&self, vcpu: u32) -> u32 {
        self.cores[self.core_of_vcpu(vcpu) as usize][2]
    }

    pub fn period(&self, task: u32) -> u32 {
        self.tasks[task as usize][2]
    }

    /// D, in ticks from a release.
    pub fn deadline(&self, task: u32) -> u32 {
        self.tasks[task as usize][4]
    }

    /// The node by whose clock a lane runs.
    pub fn node_of_lane(&self, lane: usize) -> u32 {
        match lane.checked_sub(self.cores.len()) {
            None => self.cores[lane][0],
            Some(link) => self.links[link][0],
        }
    }

    /// The ticks that a frame of the stream takes on the link, where payload
    /// and rate are in range.
    pub fn frame_ticks(&self, stream: u32, link: u32) -> u32 {
        let [_, _, _, _, payload, ..] = self.streams[stream as usize];
        let [_, _, _, rate, ..] = self.links[link as usize];
        (8 * (payload + FRAMING)).div_ceil(rate)
    }

    /// The number of jobs of a task in the cycle, H/T.
    pub fn jobs(&self, task: u32) -> u32 {
        self.cycle / self.period(task)
    }
}

fn put(image: &mut Vec<u8>, words: &[u32]) {
    for word in words {
        image.extend_from_slice(&word.to_le_bytes());
    }
}

/// Appends a table and gives its byte offset and row count.
fn append<const W: usize>(image: &mut Vec<u8>, rows: &[[u32; W]]) -> (u32, u32) {
    let offset = image.len() as u32;
    for row in rows {
        put(image, row);
    }
    (offset, rows.len() as u32)
}

fn rows<const W: usize>(image: &[u8], (offset, count): (u32, u32)) -> Vec<[u32; W]> {
    let begin = offset as usize;
    let end = begin + count as usize * W * WORD;
    image[begin..end].chunks_exact(W * WORD).map(row).collect()
}

fn row<const W: usize>(bytes: &[u8]) -> [u32; W] {
    std::array::from_fn(|column| word_at(bytes, column * WORD))
}
