//! The store table: "Hosts, chunks, one network and a fixed map."

use crate::queue::Queue;

/// "1 to 8 hosts, 1 to 8 chunks, 1 to 16 blocks."
pub const HOSTS: usize = 8;
pub const CHUNKS: usize = 8;
pub const BLOCKS: usize = 16;
/// A host has "up to 8 operations, counting the current one".
pub const OPERATIONS: usize = 8;
/// A block of a chunk has "up to 8 waiting entries in timestamp order".
pub const WAITING: usize = 8;
/// "Network: 64 places."
pub const PLACES: usize = 64;
/// "Clocks and epochs go up to 4,294,967,295", and so does the age limit.
pub const LARGEST: u64 = 4_294_967_295;
/// "a timestamp anything up to 34,359,738,367"
pub const LARGEST_TIMESTAMP: u64 = LARGEST * TIMESTAMP_STEP + 7;
/// "A timestamp is clock x 8 + host number."
const TIMESTAMP_STEP: u64 = 8;

/// "An epoch number and a timestamp are never compared with each other": two types.
#[derive(Clone, Copy, Debug, PartialEq, Eq, PartialOrd, Ord)]
pub struct Epoch(pub u64);

/// Zero means "never".
#[derive(Clone, Copy, Debug, PartialEq, Eq, PartialOrd, Ord)]
pub struct Timestamp(pub u64);

impl Timestamp {
    pub const NEVER: Timestamp = Timestamp(0);

    /// "A timestamp is clock x 8 + host number."
    pub fn drawn(clock: u64, host: usize) -> Timestamp {
        Timestamp(clock * TIMESTAMP_STEP + host as u64)
    }

    pub fn clock(self) -> u64 {
        self.0 / TIMESTAMP_STEP
    }
}

/// A set of chunks or of blocks, as "the sum of 2 to the power c". Zero is the empty set.
#[derive(Clone, Copy, Debug, PartialEq, Eq)]
pub struct Set(pub u64);

impl Set {
    pub const EMPTY: Set = Set(0);

    pub fn of(member: usize) -> Set {
        Set(1 << member)
    }

    pub fn contains(self, member: usize) -> bool {
        self.0 >> member & 1 == 1
    }

    pub fn with(self, member: usize) -> Set {
        Set(self.0 | 1 << member)
    }

    pub fn without(self, member: usize) -> Set {
        Set(self.0 & !(1 << member))
    }

    pub fn is_empty(self) -> bool {
        self.0 == 0
    }

    pub fn size(self) -> usize {
        self.0.count_ones() as usize
    }

    /// Whether every member is below the limit.
    pub fn is_below(self, limit: usize) -> bool {
        self.0 >> limit == 0
    }

    /// The members in ascending order.
    pub fn members(self) -> impl Iterator<Item = usize> {
        (0..64).filter(move |&member| self.contains(member))
    }
}

/// What an application asked of a host.
#[derive(Clone, Copy, Debug, PartialEq, Eq)]
pub struct Operation {
    pub block: usize,
    pub sort: Sort,
}

#[derive(Clone, Copy, Debug, PartialEq, Eq)]
pub enum Sort {
    Read,
    Write(u64),
}

/// "Host: working or stopped; up to 8 operations, counting the current one; current timestamp
/// (0 if none); chunks outstanding; result okay; restart; result value; epoch known; map current
/// or not; last clock drawn."
#[derive(Clone, Copy, Debug, PartialEq, Eq)]
pub struct Host {
    pub working: bool,
    pub current: Option<Operation>,
    /// The other operations, front first.
    pub waiting: Queue<Operation, OPERATIONS>,
    pub timestamp: Timestamp,
    pub outstanding: Set,
    pub okay: bool,
    pub restart: bool,
    pub result: u64,
    pub epoch_known: Epoch,
    pub map_current: bool,
    pub last_clock: u64,
}

impl Host {
    /// An unused host's place.
    pub const ZERO: Host = Host {
        working: false,
        current: None,
        waiting: Queue::EMPTY,
        timestamp: Timestamp::NEVER,
        outstanding: Set::EMPTY,
        okay: false,
        restart: false,
        result: 0,
        epoch_known: Epoch(0),
        map_current: false,
        last_clock: 0,
    };

    /// "hosts working with map not current and epoch known 0"
    pub const FRESH: Host = Host {
        working: true,
        ..Host::ZERO
    };

    /// All operations, "counting the current one".
    pub fn operations(&self) -> usize {
        self.waiting.count + usize::from(self.current.is_some())
    }
}

/// Zero of a state is the first one, normal.
#[derive(Clone, Copy, Debug, PartialEq, Eq)]
pub enum State {
    Normal,
    Nolease,
    Failed,
}

/// "Chunk: normal, nolease or failed; a "lost" mark; epoch; the set of blocks needing
/// reconciliation;" and a record "for every block, held or not".
#[derive(Clone, Copy, Debug, PartialEq, Eq)]
pub struct Chunk {
    pub state: State,
    pub lost: bool,
    pub epoch: Epoch,
    pub reconciling: Set,
    pub records: [Record; BLOCKS],
}

impl Chunk {
    /// An unused chunk's place.
    pub const ZERO: Chunk = Chunk {
        state: State::Normal,
        lost: false,
        epoch: Epoch(0),
        reconciling: Set::EMPTY,
        records: [Record::ZERO; BLOCKS],
    };

    /// "epoch 1, chunks nolease and not lost"
    pub const FRESH: Chunk = Chunk {
        state: State::Nolease,
        epoch: Epoch(1),
        ..Chunk::ZERO
    };
}

/// "for each block a value, last read, last write, and up to 8 waiting entries"
#[derive(Clone, Copy, Debug, PartialEq, Eq)]
pub struct Record {
    pub value: u64,
    pub last_read: Timestamp,
    pub last_write: Timestamp,
    pub waiting: Queue<Entry, WAITING>,
}

impl Record {
    /// A fresh record, and an unused one.
    pub const ZERO: Record = Record {
        value: 0,
        last_read: Timestamp::NEVER,
        last_write: Timestamp::NEVER,
        waiting: Queue::EMPTY,
    };
}

/// "Beside its timestamp, sender and epoch, a waiting entry is a read, an undecided write, a
/// committed write or an aborted write; a write has its value."
#[derive(Clone, Copy, Debug, PartialEq, Eq)]
pub struct Entry {
    pub timestamp: Timestamp,
    pub sender: usize,
    pub epoch: Epoch,
    pub sort: Waiting,
}

#[derive(Clone, Copy, Debug, PartialEq, Eq)]
pub enum Waiting {
    Read,
    Undecided(u64),
    Committed(u64),
    Aborted(u64),
}

impl Waiting {
    /// A write's value; none for a read.
    pub fn written(self) -> Option<u64> {
        match self {
            Waiting::Read => None,
            Waiting::Undecided(value) | Waiting::Committed(value) | Waiting::Aborted(value) => {
                Some(value)
            }
        }
    }
}

/// "Each has host, chunk, block and timestamp"; the body has the rest. The block "may be 0 to 15",
/// whatever the store's block count.
#[derive(Clone, Copy, Debug, PartialEq, Eq)]
pub struct Message {
    pub host: usize,
    pub chunk: usize,
    pub block: usize,
    pub timestamp: Timestamp,
    pub body: Body,
}

/// "the first four also the epoch the host knows; a prewrite and a read reply a value"
#[derive(Clone, Copy, Debug, PartialEq, Eq)]
pub enum Body {
    Read(Epoch),
    Prewrite(Epoch, u64),
    Commit(Epoch),
    Abort(Epoch),
    VersionMismatch,
    Error,
    OutOfOrder,
    Busy,
    ReadReply(u64),
    PrewriteReply,
}

impl Body {
    /// The epoch of the four kinds that go to a chunk; none for a reply, which goes to a host.
    pub fn epoch(self) -> Option<Epoch> {
        match self {
            Body::Read(epoch)
            | Body::Prewrite(epoch, _)
            | Body::Commit(epoch)
            | Body::Abort(epoch) => Some(epoch),
            _ => None,
        }
    }

    pub fn is_reply(self) -> bool {
        self.epoch().is_none()
    }
}

/// The whole store. Hosts, chunks, blocks and sets past the store's counts are unused places.
#[derive(Clone, Debug, PartialEq, Eq)]
pub struct Table {
    pub host_count: usize,
    pub chunk_count: usize,
    pub block_count: usize,
    pub age_limit: u64,
    pub epoch: Epoch,
    /// "Each block has a non-empty set of chunks that hold its copies".
    pub sets: [Set; BLOCKS],
    pub hosts: [Host; HOSTS],
    pub chunks: [Chunk; CHUNKS],
    pub network: [Option<Message>; PLACES],
}

impl Table {
    /// A fresh store: "all values and timestamps 0, queues and network empty". "Any other creation
    /// is refused with code 1 and gives no store": here `None`.
    pub fn create(
        hosts: u64,
        chunks: u64,
        blocks: u64,
        age_limit: u64,
        sets: &[u64],
    ) -> Option<Table> {
        let sizes_fit = (1..=HOSTS as u64).contains(&hosts)
            && (1..=CHUNKS as u64).contains(&chunks)
            && (1..=BLOCKS as u64).contains(&blocks);
        if !sizes_fit || age_limit > LARGEST || sets.len() as u64 != blocks {
            return None;
        }
        let is_chunk_set = |&set: &u64| !Set(set).is_empty() && Set(set).is_below(chunks as usize);
        if !sets.iter().all(is_chunk_set) {
            return None;
        }
        let mut table = Table {
            host_count: hosts as usize,
            chunk_count: chunks as usize,
            block_count: blocks as usize,
            age_limit,
            epoch: Epoch(1),
            sets: [Set::EMPTY; BLOCKS],
            hosts: [Host::ZERO; HOSTS],
            chunks: [Chunk::ZERO; CHUNKS],
            network: [None; PLACES],
        };
        for (place, &set) in table.sets.iter_mut().zip(sets) {
            *place = Set(set);
        }
        table.hosts[..table.host_count].fill(Host::FRESH);
        table.chunks[..table.chunk_count].fill(Chunk::FRESH);
        Some(table)
    }

    pub fn free_places(&self) -> usize {
        self.network.iter().filter(|place| place.is_none()).count()
    }

    /// "New messages go to the lowest free places". The caller saw room.
    pub fn post(&mut self, message: Message) {
        if let Some(place) = self.network.iter_mut().find(|place| place.is_none()) {
            *place = Some(message);
        }
    }
}
