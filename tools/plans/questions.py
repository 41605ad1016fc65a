"""The questions in short, in the order in which the plan paper asks them, and what an answer's number says."""

QUESTIONS = {
    1: "is the image's length in bounds?",
    2: "is the last word the length less the trailer's?",
    3: "are row counts in bounds, and do the tables lie without gaps?",
    4: "is H 1 to 1,000,000 and P at most 10,000?",
    5: "does each row number in the row name an existing row?",
    32: "do windows, pieces and frames rise by start, equal starts by their words from the first on?",
    6: "are the row's values in range?",
    40: "is the stream's queue at most 7?",
    7: "is the window longer than its VCPU switch (v, or 0 where the VCPU keeps its core), and does it end by H?",
    8: "do windows on one core never overlap?",
    9: "does the task's mask allow its VCPU's core?",
    10: "is k below H/T, the piece longer than d, and between release and due tick?",
    11: "does the piece lie in one window of its VCPU, after that window's VCPU switch?",
    12: "do pieces on one core never overlap?",
    13: "do each job's n pieces sum to C + n×d?",
    14: "have sender and receiver equal periods and different nodes?",
    15: "is k below H/T, the hop below the stream's hops, and the frame in its job's period?",
    16: "has each job and hop of the stream exactly one frame?",
    17: "do each job's hops lead from the sender's node to the receiver's?",
    18: "does the frame start no sooner than the previous hop's end + delay + P?",
    19: "do frames on one link never overlap?",
    20: "does hop 0 start after the sender's last end, and the receiver after the last hop's end + delay + P?",
    21: "is receiver's last end less sender's first start, plus P, at most E?",
    41: "do stays of frames in one queue of a link never overlap?",
    22: "have writer and reader equal periods and one node?",
    23: "does each reader job start no sooner than the writer job ends?",
    24: "do holds of one buffer never overlap between rows?",
    29: "do the chain's tasks exist and differ?",
    30: "does a path of streams and buffers lead from the chain's first task to its last?",
    31: "is each job's last end of the last task less first start of the first, plus P, at most the limit?",
}

# What questions 6 and 40 ask of a row's values, by the keys of texts; kinds that one passes over are not here.
RANGES = {
    6: {
        "core": "node at most 15, d and v at most 1,000",
        "task": "period at least 1 and dividing the cycle, budget at least 1 and at most deadline, deadline at most period",
        "link": "from and to at most 15 and different, delay at most 1,000,000, rate 1 to 10,000, lowest at most delay",
        "stream": "sender and receiver different, latency at most 1,000,000, hops 1 to 8, payload 46 to 1,500",
        "buffer": "number at most 63, writer and reader different",
    },
    40: {
        "stream": "queue at most 7",
    },
}

# What each number of an answer says, from 0 on: the checker's own phrases (crates/texts/specs/Wording.antt; test_questions.py compares).
PHRASES = (
    "accepted, every question is answered yes",  # 0
    "the image's length is out of bounds",
    "the last word does not point to the trailer",
    "row counts, offsets and trailer do not fit",
    "the cycle H or the precision P is out of range",
    "a row number names no existing row",  # 5
    "a value is out of range",
    "a window is too short, or ends after H",
    "two windows on one core overlap",
    "a task's mask does not allow its VCPU's core",
    "no such job, or a piece too short, early or late",  # 10
    "not in one window of its VCPU after the switch",
    "two pieces on one core overlap",
    "a job's pieces do not sum to budget and switches",
    "periods differ, or both tasks are on one node",
    "no such job or hop, or not in its job's period",  # 15
    "a job's hop has no frame, or several",
    "the hops do not lead from sender to receiver",
    "may start before the previous hop has arrived",
    "two frames on one link overlap",
    "sent before the sender ends, or may be read early",  # 20
    "may take longer than its latency",
    "periods differ, or the tasks are not on one node",
    "a reader job starts before the writer job ends",
    "two holds of one buffer overlap",
    "there is no such lane or link",  # 25
    "too few words are lent",
    "a state does not fit its bytes or its words",
    "the calendar is over",
    "one of its tasks does not exist, or both are one",
    "no path joins its tasks",  # 30
    "a job may take longer than the limit",
    "a row is out of order, below the one before it",
    "no draft with true totals, or no such piece",
    "no such free place, or too few words are lent",
    "H, P, cores, VCPUs, windows or links differ",  # 35
    "the shared tasks differ, or are not in both plans",
    "too many rows, or too few bytes are lent",
    "no register has this address",
    "the count is read only",
    "the queue is out of range",  # 40
    "two frames stay in one queue of a link at once",
    "too few words are lent for the gate list",
    "no plan is held at that place",
    "H, core or link count is not the running plan's",
)
UNKNOWN = "no question has this number"


def phrase(number):
    return PHRASES[number] if 0 <= number < len(PHRASES) else UNKNOWN
