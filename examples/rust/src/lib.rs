//! A safe wrapper of the proved Fortuna, of Fortuna with its pools chosen by key, of the health tests of its noise
//! sources, of NIST's CTR_DRBG, of the converter of call logs, and of the reader of the events behind a pool.
//! include/fortuna.h says what each call does, and how much stack it needs.
use std::fmt;
use std::iter::FusedIterator;
use std::mem::{offset_of, size_of};

/// Why a call was refused, with the number of the header. After a refusal state, buffers and quotas are as before, save
/// that after `NoneDrawn` the state has advanced by the tries made, and if they made a pool reseed, nothing is spent.
/// Of a log that `convert` refused the lines before the refused one stand in the buffer.
#[derive(Clone, Copy, Debug, PartialEq, Eq)]
pub enum Refusal {
    BadSource = 11,
    BadPool = 12,
    BadData = 13,
    RequestTooLong = 14,
    BadSeed = 15,
    NoFrame = 16,
    MessageTooLong = 17,
    Malformed = 21,
    PoolFull = 22,
    Unseeded = 23,
    CounterSpent = 24,
    SlotRange = 31,
    TryRange = 32,
    NoneDrawn = 33,
    CutoffRange = 34,
    MalformedHealth = 35,
    BlankSeed = 36,
    BadQuotas = 37,
    NotListed = 38,
    OverAllowance = 39,
    EntropyLength = 40,
    InputTooLong = 41,
    SeedingNeeded = 42,
    LargeSource = 43,
    NoEvent = 44,
    StepsSpent = 45,
    NoRoom = 46,
}

impl Refusal {
    fn from_number(number: u32) -> Refusal {
        match number {
            11 => Refusal::BadSource,
            12 => Refusal::BadPool,
            13 => Refusal::BadData,
            14 => Refusal::RequestTooLong,
            15 => Refusal::BadSeed,
            16 => Refusal::NoFrame,
            17 => Refusal::MessageTooLong,
            21 => Refusal::Malformed,
            22 => Refusal::PoolFull,
            23 => Refusal::Unseeded,
            24 => Refusal::CounterSpent,
            31 => Refusal::SlotRange,
            32 => Refusal::TryRange,
            33 => Refusal::NoneDrawn,
            34 => Refusal::CutoffRange,
            35 => Refusal::MalformedHealth,
            36 => Refusal::BlankSeed,
            37 => Refusal::BadQuotas,
            38 => Refusal::NotListed,
            39 => Refusal::OverAllowance,
            40 => Refusal::EntropyLength,
            41 => Refusal::InputTooLong,
            42 => Refusal::SeedingNeeded,
            43 => Refusal::LargeSource,
            44 => Refusal::NoEvent,
            45 => Refusal::StepsSpent,
            46 => Refusal::NoRoom,
            _ => unreachable!("the header has no number {number} for these calls"),
        }
    }

    fn reason(self) -> &'static str {
        match self {
            Refusal::BadSource => "no such source",
            Refusal::BadPool => "no such pool",
            Refusal::BadData => "no data, or more than 32 bytes",
            Refusal::RequestTooLong => "more than 1,048,576 bytes asked for, or 65,536 of CTR_DRBG",
            Refusal::BadSeed => "a seed that is not 64 bytes",
            Refusal::NoFrame => "a line that is no frame",
            Refusal::MessageTooLong => "a message above 2^61 - 65 bytes",
            Refusal::Malformed => "a malformed state",
            Refusal::PoolFull => "a full pool",
            Refusal::Unseeded => "no seed and too little noise",
            Refusal::CounterSpent => "the counter is spent",
            Refusal::SlotRange => {
                "a bound outside 1 to 2^32, or a list that is too long or repeats a number"
            }
            Refusal::TryRange => "tries outside 1 to 64",
            Refusal::NoneDrawn => "no try gave a value",
            Refusal::CutoffRange => "a cutoff outside 2 to 512",
            Refusal::MalformedHealth => "a malformed test state",
            Refusal::BlankSeed => "a blank seed: 64 equal bytes",
            Refusal::BadQuotas => {
                "a list above 64 quotas, with a repeated source, or with more spent than allowed"
            }
            Refusal::NotListed => "a source with no quota",
            Refusal::OverAllowance => "more than the source's allowance",
            Refusal::EntropyLength => "entropy input that is not 48 bytes",
            Refusal::InputTooLong => "more than 48 bytes of another input",
            Refusal::SeedingNeeded => "never seeded, or 2^48 requests since",
            Refusal::LargeSource => "a source above 255, which frame 01 can't carry",
            Refusal::NoEvent => "no whole event starts there, or it is past the end",
            Refusal::StepsSpent => "all 2^64 - 1 steps are made",
            Refusal::NoRoom => "no room for the converted line",
        }
    }
}

impl fmt::Display for Refusal {
    fn fmt(&self, f: &mut fmt::Formatter) -> fmt::Result {
        write!(f, "refused, {} ({})", *self as u32, self.reason())
    }
}

impl std::error::Error for Refusal {}

/// A value drawn, and how many pools were emptied.
#[derive(Clone, Copy, Debug, PartialEq, Eq)]
pub struct Drawn {
    pub value: u64,
    pub emptied: u32,
}

/// Why a draw or a shuffle was not done, and how many pools were emptied, 0 unless the reason is `NoneDrawn`.
#[derive(Clone, Copy, Debug, PartialEq, Eq)]
pub struct NotDrawn {
    pub refusal: Refusal,
    pub emptied: u32,
}

impl fmt::Display for NotDrawn {
    fn fmt(&self, f: &mut fmt::Formatter) -> fmt::Result {
        self.refusal.fmt(f)
    }
}

impl std::error::Error for NotDrawn {}

impl From<NotDrawn> for Refusal {
    fn from(not_drawn: NotDrawn) -> Refusal {
        not_drawn.refusal
    }
}

/// The first sample that failed a health test: its place among those that were lent, from 0, and which tests it fails.
#[derive(Clone, Copy, Debug, PartialEq, Eq)]
pub struct Failure {
    pub place: usize,
    pub repetition: bool,
    pub proportion: bool,
}

impl fmt::Display for Failure {
    fn fmt(&self, f: &mut fmt::Formatter) -> fmt::Result {
        let tests = match (self.repetition, self.proportion) {
            (true, true) => "both tests",
            (true, false) => "the repetition count test",
            _ => "the adaptive proportion test",
        };
        write!(f, "sample {} fails {tests}", self.place)
    }
}

/// Why samples may not be used: one of them failed, or the call was refused.
#[derive(Clone, Copy, Debug, PartialEq, Eq)]
pub enum NotPassed {
    Failed(Failure),
    Refused(Refusal),
}

impl fmt::Display for NotPassed {
    fn fmt(&self, f: &mut fmt::Formatter) -> fmt::Result {
        match self {
            NotPassed::Failed(failure) => failure.fmt(f),
            NotPassed::Refused(refusal) => refusal.fmt(f),
        }
    }
}

impl std::error::Error for NotPassed {}

/// Why a log was not converted to its end: the reason, the line that was refused, from 1, and how many bytes were
/// written, which are the lines before it.
#[derive(Clone, Copy, Debug, PartialEq, Eq)]
pub struct NotConverted {
    pub refusal: Refusal,
    pub line: usize,
    pub written: usize,
}

impl fmt::Display for NotConverted {
    fn fmt(&self, f: &mut fmt::Formatter) -> fmt::Result {
        write!(f, "line {}: {}", self.line, self.refusal)
    }
}

impl std::error::Error for NotConverted {}

impl From<NotConverted> for Refusal {
    fn from(not_converted: NotConverted) -> Refusal {
        not_converted.refusal
    }
}

/// Why a pool's string has no event at a place: the reason, and the place.
#[derive(Clone, Copy, Debug, PartialEq, Eq)]
pub struct NotRead {
    pub refusal: Refusal,
    pub place: usize,
}

impl fmt::Display for NotRead {
    fn fmt(&self, f: &mut fmt::Formatter) -> fmt::Result {
        write!(f, "place {}: {}", self.place, self.refusal)
    }
}

impl std::error::Error for NotRead {}

impl From<NotRead> for Refusal {
    fn from(not_read: NotRead) -> Refusal {
        not_read.refusal
    }
}

#[repr(C)]
struct Generator {
    key: [u8; 32],
    counter: [u8; 16],
}

#[repr(C)]
struct Pool {
    chain: [u32; 8],
    tail: [u8; 64],
    length: u64,
}

#[repr(C)]
struct State {
    generator: Generator,
    pools: [Pool; 32],
    last_reseed: u32,
    reseed_count: u32,
    reseeded: bool,
    key_requests: u16,
}

#[repr(C)]
struct KeyedState {
    generator: Generator,
    pools: [Pool; 32],
    last_reseed: u32,
    reseed_count: u32,
    reseeded: bool,
    key_requests: u16,
    scheduler_key: [u8; 32],
    step: u64,
}

#[repr(C)]
struct Answer {
    number: u32,
    emptied: u32,
}

#[repr(C)]
struct Draw {
    number: u32,
    emptied: u32,
    value: u64,
}

/// What a source may bring between two pool reseeds, in bytes, each event's 3 of header too, and what it has brought.
#[repr(C)]
#[derive(Clone, Copy, Debug, PartialEq, Eq)]
pub struct Quota {
    pub source: u32,
    pub allowance: u32,
    pub spent: u32,
}

impl Quota {
    /// Nothing is spent.
    pub const fn new(source: u32, allowance: u32) -> Quota {
        Quota {
            source,
            allowance,
            spent: 0,
        }
    }
}

#[repr(C)]
struct HealthState {
    last: u32,
    run: u32,
    first: u32,
    count: u32,
    seen: u32,
}

#[repr(C)]
struct HealthAnswer {
    number: u32,
    repetition: bool,
    proportion: bool,
    place: usize,
}

#[repr(C)]
struct CtrDrbgState {
    key: [u8; 32],
    v: [u8; 16],
    reseed_counter: u64,
}

#[repr(C)]
struct Conversion {
    number: u32,
    line: usize,
    written: usize,
}

#[repr(C)]
struct EntryAnswer {
    number: u32,
    source: u32,
    found: bool,
    place: usize,
    from: usize,
    next: usize,
}

// The sizes that the header's structs have in C, and the places of the fields that stand last or behind smaller ones.
const _: () = assert!(size_of::<Pool>() == 104 && size_of::<State>() == 3392);
const _: () = assert!(size_of::<Answer>() == 8 && size_of::<Draw>() == 16);
const _: () = assert!(offset_of!(State, key_requests) == 3386);
const _: () = assert!(size_of::<KeyedState>() == 3432 && offset_of!(KeyedState, step) == 3424);
const _: () = assert!(offset_of!(KeyedState, key_requests) == 3386);
const _: () = assert!(offset_of!(KeyedState, scheduler_key) == 3388);
const _: () = assert!(size_of::<Quota>() == 12 && offset_of!(Quota, spent) == 8);
const _: () = assert!(size_of::<HealthState>() == 20 && offset_of!(HealthState, seen) == 16);
const _: () = assert!(size_of::<HealthAnswer>() == 16 && offset_of!(HealthAnswer, place) == 8);
const _: () = assert!(offset_of!(HealthAnswer, proportion) == 5);
const _: () = assert!(size_of::<Aes256>() == 240 && size_of::<Aes256Bytewise>() == 240);
const _: () = assert!(size_of::<CtrDrbgState>() == 56 && offset_of!(CtrDrbgState, v) == 32);
const _: () = assert!(offset_of!(CtrDrbgState, reseed_counter) == 48);
const _: () = assert!(size_of::<Conversion>() == 24 && offset_of!(Conversion, line) == 8);
const _: () = assert!(offset_of!(Conversion, written) == 16);
const _: () = assert!(size_of::<EntryAnswer>() == 40 && offset_of!(EntryAnswer, found) == 8);
const _: () = assert!(offset_of!(EntryAnswer, place) == 16 && offset_of!(EntryAnswer, next) == 32);

extern "C" {
    fn fortuna_sha_d256(data: *const u8, length: usize, digest: *mut [u8; 32]) -> u32;
    fn fortuna_aes256_expand(key: *const [u8; 32]) -> Aes256;
    fn fortuna_aes256_block(key: Aes256, block: *mut [u8; 16]);
    fn fortuna_aes256_bytewise_expand(key: *const [u8; 32]) -> Aes256Bytewise;
    fn fortuna_aes256_bytewise_block(key: Aes256Bytewise, block: *mut [u8; 16]);
    fn fortuna_new() -> State;
    fn fortuna_event(
        state: *mut State,
        source: u32,
        pool: u32,
        data: *const u8,
        length: usize,
    ) -> u32;
    fn fortuna_request(state: *mut State, clock: u32, out: *mut u8, length: usize) -> Answer;
    fn fortuna_update(state: *mut State, clock: u32, seed: *mut u8, length: usize) -> Answer;
    fn fortuna_write(state: *mut State, clock: u32, seed: *mut u8, length: usize) -> Answer;
    fn fortuna_random_below(state: *mut State, clock: u32, n: u64, tries: u32) -> Draw;
    fn fortuna_shuffle(state: *mut State, clock: u32, list: *mut u16, length: usize) -> Answer;
    fn fortuna_metered_event(
        state: *mut State,
        quotas: *mut Quota,
        records: usize,
        source: u32,
        pool: u32,
        data: *const u8,
        length: usize,
    ) -> u32;
    fn fortuna_metered_request(
        state: *mut State,
        quotas: *mut Quota,
        records: usize,
        clock: u32,
        out: *mut u8,
        length: usize,
    ) -> Answer;
    fn fortuna_metered_update(
        state: *mut State,
        quotas: *mut Quota,
        records: usize,
        clock: u32,
        seed: *mut u8,
        length: usize,
    ) -> Answer;
    fn fortuna_metered_write(
        state: *mut State,
        quotas: *mut Quota,
        records: usize,
        clock: u32,
        seed: *mut u8,
        length: usize,
    ) -> Answer;
    fn fortuna_metered_random_below(
        state: *mut State,
        quotas: *mut Quota,
        records: usize,
        clock: u32,
        n: u64,
        tries: u32,
    ) -> Draw;
    fn fortuna_metered_shuffle(
        state: *mut State,
        quotas: *mut Quota,
        records: usize,
        clock: u32,
        list: *mut u16,
        length: usize,
    ) -> Answer;
    fn fortuna_keyed_new(scheduler_key: *const [u8; 32]) -> KeyedState;
    fn fortuna_keyed_event(
        state: *mut KeyedState,
        source: u32,
        data: *const u8,
        length: usize,
    ) -> Answer;
    fn fortuna_keyed_request(state: *mut KeyedState, out: *mut u8, length: usize) -> Answer;
    fn fortuna_keyed_update(state: *mut KeyedState, seed: *mut u8, length: usize) -> Answer;
    fn fortuna_keyed_write(state: *mut KeyedState, seed: *mut u8, length: usize) -> Answer;
    fn fortuna_keyed_metered_event(
        state: *mut KeyedState,
        quotas: *mut Quota,
        records: usize,
        source: u32,
        data: *const u8,
        length: usize,
    ) -> Answer;
    fn fortuna_keyed_metered_request(
        state: *mut KeyedState,
        quotas: *const Quota,
        records: usize,
        out: *mut u8,
        length: usize,
    ) -> Answer;
    fn fortuna_keyed_metered_update(
        state: *mut KeyedState,
        quotas: *const Quota,
        records: usize,
        seed: *mut u8,
        length: usize,
    ) -> Answer;
    fn fortuna_keyed_metered_write(
        state: *mut KeyedState,
        quotas: *const Quota,
        records: usize,
        seed: *mut u8,
        length: usize,
    ) -> Answer;
    fn fortuna_keyed_input(scheduler_key: *const [u8; 32], step: u64) -> u32;
    fn fortuna_keyed_output(step: u64) -> u32;
    fn fortuna_log(log: *const u8, length: usize, out: *mut u8, room: usize) -> usize;
    fn fortuna_convert(
        log: *const u8,
        length: usize,
        wide: bool,
        out: *mut u8,
        room: usize,
    ) -> Conversion;
    fn fortuna_entry_at(string: *const u8, length: usize, place: usize) -> EntryAnswer;
    fn fortuna_health_new() -> HealthState;
    fn fortuna_health_test(
        state: *mut HealthState,
        samples: *const u32,
        length: usize,
        repetition: u32,
        proportion: u32,
    ) -> HealthAnswer;
    fn fortuna_ctr_drbg_new() -> CtrDrbgState;
    fn fortuna_ctr_drbg_instantiate(
        state: *mut CtrDrbgState,
        entropy: *const u8,
        length: usize,
        personalization: *const u8,
        personalization_length: usize,
    ) -> u32;
    fn fortuna_ctr_drbg_reseed(
        state: *mut CtrDrbgState,
        entropy: *const u8,
        length: usize,
        additional: *const u8,
        additional_length: usize,
    ) -> u32;
    fn fortuna_ctr_drbg_generate(
        state: *mut CtrDrbgState,
        out: *mut u8,
        length: usize,
        additional: *const u8,
        additional_length: usize,
    ) -> u32;
}

/// Fortuna with its pools, timer and seeds. It is not `Clone`: two copies would give the same bytes.
///
/// A state can't be stored and taken up again, only the seed: after an update of the library a station starts fresh, by
/// `new` and then `update` with the stored seed. The header says why that matters since the 2010 edition's D.
///
/// One call at a time on a state: a call stores the whole next state, so that of two calls at once one would be
/// lost, and two draws could give equal keys. Every call takes `&mut self`, so that safe code can't make two at once.
/// Let one task own the value, and let interrupts and other threads hand it their noise through a queue, such as a
/// ring buffer (examples/c/station.c) or a channel.
pub struct Fortuna {
    state: State,
}

// In each call below, those of Keyed, Health and CtrDrbg too, a pointer and the length after it are those of one slice,
// which lasts for the call. One that is written overlaps no other, and none overlaps the state. The pointer of an empty
// slice is not null either.
impl Fortuna {
    /// Unseeded, with empty pools.
    #[allow(clippy::new_without_default)]
    pub fn new() -> Fortuna {
        Fortuna {
            state: unsafe { fortuna_new() },
        }
    }

    /// A pool gains 1 to 32 bytes of noise from a source, whose number is at most 65,535.
    pub fn event(&mut self, source: u32, pool: u32, data: &[u8]) -> Result<(), Refusal> {
        noted(unsafe { fortuna_event(&mut self.state, source, pool, data.as_ptr(), data.len()) })
    }

    /// Fills `out`, after a pool reseed if one is due. Gives how many pools were emptied, as the seed calls do.
    pub fn request(&mut self, clock: u32, out: &mut [u8]) -> Result<u32, Refusal> {
        result(unsafe { fortuna_request(&mut self.state, clock, out.as_mut_ptr(), out.len()) })
    }

    /// The seed goes in, and its successor stands in its place. Store that before anything is drawn.
    ///
    /// `BlankSeed` tells that there is no seed: 64 equal bytes, as a page of flash memory that was never written. Give
    /// pool 0 as much noise as a key needs, and ask for nothing before: the first request that is accepted makes the
    /// pool reseed with what is there. Then `write` over the page and store it. `power_up` in src/main.rs does this.
    /// The refusal says nothing about a key in use.
    pub fn update(&mut self, clock: u32, seed: &mut [u8; 64]) -> Result<u32, Refusal> {
        result(unsafe { fortuna_update(&mut self.state, clock, seed.as_mut_ptr(), seed.len()) })
    }

    /// A seed for the next start, over any bytes: a blank page is written over as any other.
    pub fn write(&mut self, clock: u32, seed: &mut [u8; 64]) -> Result<u32, Refusal> {
        result(unsafe { fortuna_write(&mut self.state, clock, seed.as_mut_ptr(), seed.len()) })
    }

    /// A value below `n`, 1 to 2^32, in up to `tries` tries, 1 to 64.
    pub fn random_below(&mut self, clock: u32, n: u64, tries: u32) -> Result<Drawn, NotDrawn> {
        value(unsafe { fortuna_random_below(&mut self.state, clock, n, tries) })
    }

    /// Shuffles up to 256 numbers, no two of them equal. Gives how many pools were emptied.
    pub fn shuffle(&mut self, clock: u32, list: &mut [u16]) -> Result<u32, NotDrawn> {
        let answer =
            unsafe { fortuna_shuffle(&mut self.state, clock, list.as_mut_ptr(), list.len()) };
        drawn(answer.number, answer.emptied)
    }

    /// How stale the key is: the number of accepted requests, seed calls and single tries included, since the last
    /// pool reseed or the fresh start, stopping at 65,535. The request, seed call or try that makes the reseed counts
    /// as 1.
    pub fn key_requests(&self) -> u16 {
        self.state.key_requests
    }
}

/// The calls with quotas: a list of what each source may still bring, so that one that chatters can't crowd out the
/// others. Each is as the method of the same name without `metered_`, with the same refusals, and `BadQuotas` beside
/// them: a list above 64 quotas, one with a repeated source, or one with more spent than allowed.
///
/// An accepted event adds 3 and its data's length to what its source has spent. A call that made a pool reseed, which
/// is one that emptied pools, sets all spent to 0, `NoneDrawn` included. Nothing else changes the list. Lend every call
/// on the state the list that the last one left: then no source brings more than its allowance from one pool reseed to
/// the next. A call without the list neither looks at it nor clears it. The list is not stored: after a power-up begin
/// with nothing spent. The header says how to choose allowances: with too small ones no pool reseed comes due any more.
impl Fortuna {
    /// `NotListed`: the source has no quota. `OverAllowance`: the event would bring the source above its allowance.
    pub fn metered_event(
        &mut self,
        quotas: &mut [Quota],
        source: u32,
        pool: u32,
        data: &[u8],
    ) -> Result<(), Refusal> {
        let (list, records) = (quotas.as_mut_ptr(), quotas.len());
        let (at, length) = (data.as_ptr(), data.len());
        noted(unsafe {
            fortuna_metered_event(&mut self.state, list, records, source, pool, at, length)
        })
    }

    pub fn metered_request(
        &mut self,
        quotas: &mut [Quota],
        clock: u32,
        out: &mut [u8],
    ) -> Result<u32, Refusal> {
        let (list, records) = (quotas.as_mut_ptr(), quotas.len());
        let (at, length) = (out.as_mut_ptr(), out.len());
        result(unsafe {
            fortuna_metered_request(&mut self.state, list, records, clock, at, length)
        })
    }

    pub fn metered_update(
        &mut self,
        quotas: &mut [Quota],
        clock: u32,
        seed: &mut [u8; 64],
    ) -> Result<u32, Refusal> {
        let (list, records) = (quotas.as_mut_ptr(), quotas.len());
        let (at, length) = (seed.as_mut_ptr(), seed.len());
        result(unsafe { fortuna_metered_update(&mut self.state, list, records, clock, at, length) })
    }

    pub fn metered_write(
        &mut self,
        quotas: &mut [Quota],
        clock: u32,
        seed: &mut [u8; 64],
    ) -> Result<u32, Refusal> {
        let (list, records) = (quotas.as_mut_ptr(), quotas.len());
        let (at, length) = (seed.as_mut_ptr(), seed.len());
        result(unsafe { fortuna_metered_write(&mut self.state, list, records, clock, at, length) })
    }

    pub fn metered_random_below(
        &mut self,
        quotas: &mut [Quota],
        clock: u32,
        n: u64,
        tries: u32,
    ) -> Result<Drawn, NotDrawn> {
        let (list, records) = (quotas.as_mut_ptr(), quotas.len());
        value(unsafe {
            fortuna_metered_random_below(&mut self.state, list, records, clock, n, tries)
        })
    }

    /// A list of 0 or 1 numbers makes no request, but the quotas are looked at.
    pub fn metered_shuffle(
        &mut self,
        quotas: &mut [Quota],
        clock: u32,
        list: &mut [u16],
    ) -> Result<u32, NotDrawn> {
        let (quotas, records) = (quotas.as_mut_ptr(), quotas.len());
        let (at, length) = (list.as_mut_ptr(), list.len());
        let answer =
            unsafe { fortuna_metered_shuffle(&mut self.state, quotas, records, clock, at, length) };
        drawn(answer.number, answer.emptied)
    }
}

/// Fortuna with its pools chosen by key, for noise bursts that follow the round of pools: no event names a pool, and no
/// call takes a clock. It is not `Clone`: two copies would give the same bytes. As with `Fortuna` one task owns it.
///
/// **Update the seed first.** An empty pool is emptied too, so that from the 33rd event on requests are answered, even
/// where nothing unknown went in. Where there is no seed (`BlankSeed`), draw nothing until enough noise is in the key:
/// `input` and `output` tell which events are, as in src/main.rs.
///
/// The scheduler key is a secret, made by a generator of its own, another for each device, and kept: each start takes
/// it again. The header says more. There are no draws and no shuffles: for these keep a `Fortuna` beside it.
pub struct Keyed {
    state: KeyedState,
}

impl Keyed {
    /// The fresh start: unseeded, with empty pools, at step 0.
    pub fn new(scheduler_key: &[u8; 32]) -> Keyed {
        Keyed {
            state: unsafe { fortuna_keyed_new(scheduler_key) },
        }
    }

    /// The pool that the step picks gains 1 to 32 bytes of noise from a source. Then the step may empty a pool into the
    /// key: gives how many, 0 or 1. `StepsSpent`: 2^64 - 1 events were taken.
    pub fn event(&mut self, source: u32, data: &[u8]) -> Result<u32, Refusal> {
        let (at, length) = (data.as_ptr(), data.len());
        result(unsafe { fortuna_keyed_event(&mut self.state, source, at, length) })
    }

    /// Fills `out`. It empties no pool, and neither does a seed call.
    pub fn request(&mut self, out: &mut [u8]) -> Result<(), Refusal> {
        let (at, length) = (out.as_mut_ptr(), out.len());
        noted(unsafe { fortuna_keyed_request(&mut self.state, at, length) }.number)
    }

    /// The seed goes in, and its successor stands in its place. Store that before anything is drawn.
    pub fn update(&mut self, seed: &mut [u8; 64]) -> Result<(), Refusal> {
        let (at, length) = (seed.as_mut_ptr(), seed.len());
        noted(unsafe { fortuna_keyed_update(&mut self.state, at, length) }.number)
    }

    /// A seed for the next start, over any bytes.
    pub fn write(&mut self, seed: &mut [u8; 64]) -> Result<(), Refusal> {
        let (at, length) = (seed.as_mut_ptr(), seed.len());
        noted(unsafe { fortuna_keyed_write(&mut self.state, at, length) }.number)
    }

    /// The step number: how many events were taken.
    pub fn step(&self) -> u64 {
        self.state.step
    }

    /// How stale the key is: the number of accepted requests, seed calls included, since the last step that emptied a
    /// pool or the fresh start, stopping at 65,535.
    pub fn key_requests(&self) -> u16 {
        self.state.key_requests
    }

    /// The pool, 0 to 31, that the event at a step goes to.
    pub fn input(scheduler_key: &[u8; 32], step: u64) -> u32 {
        unsafe { fortuna_keyed_input(scheduler_key, step) }
    }

    /// The pool that a step empties; `None` where it empties none.
    pub fn output(step: u64) -> Option<u32> {
        let pool = unsafe { fortuna_keyed_output(step) };
        (pool < 32).then_some(pool)
    }
}

/// The same with quotas. An event that empties a pool sets all spent to 0, its own source's too; a request and a seed
/// call only look at the list. Allowances must let the sources bring 33 events from a fresh start and then 32 from one
/// emptying to the next: if all are spent before, no pool is emptied any more, and every event is `OverAllowance`.
impl Keyed {
    pub fn metered_event(
        &mut self,
        quotas: &mut [Quota],
        source: u32,
        data: &[u8],
    ) -> Result<u32, Refusal> {
        let (list, records) = (quotas.as_mut_ptr(), quotas.len());
        let (at, length) = (data.as_ptr(), data.len());
        result(unsafe {
            fortuna_keyed_metered_event(&mut self.state, list, records, source, at, length)
        })
    }

    pub fn metered_request(&mut self, quotas: &[Quota], out: &mut [u8]) -> Result<(), Refusal> {
        let (list, records) = (quotas.as_ptr(), quotas.len());
        let (at, length) = (out.as_mut_ptr(), out.len());
        let state = &mut self.state;
        noted(unsafe { fortuna_keyed_metered_request(state, list, records, at, length) }.number)
    }

    pub fn metered_update(&mut self, quotas: &[Quota], seed: &mut [u8; 64]) -> Result<(), Refusal> {
        let (list, records) = (quotas.as_ptr(), quotas.len());
        let (at, length) = (seed.as_mut_ptr(), seed.len());
        let state = &mut self.state;
        noted(unsafe { fortuna_keyed_metered_update(state, list, records, at, length) }.number)
    }

    pub fn metered_write(&mut self, quotas: &[Quota], seed: &mut [u8; 64]) -> Result<(), Refusal> {
        let (list, records) = (quotas.as_ptr(), quotas.len());
        let (at, length) = (seed.as_mut_ptr(), seed.len());
        let state = &mut self.state;
        noted(unsafe { fortuna_keyed_metered_write(state, list, records, at, length) }.number)
    }
}

/// The health tests of a noise source (NIST SP 800-90B, 4.4.1 and 4.4.2), which tell a stuck source before its samples
/// become events. Each source has a value of its own, and the same cutoffs as long as that value is used. The header
/// says how to choose them, and which samples may become events.
pub struct Health {
    state: HealthState,
}

impl Health {
    /// No sample was seen.
    #[allow(clippy::new_without_default)]
    pub fn new() -> Health {
        Health {
            state: unsafe { fortuna_health_new() },
        }
    }

    /// Tests samples, which may be cut into calls anywhere, with the cutoffs of the repetition count test and of the
    /// adaptive proportion test, 2 to 512. The first that fails ends the call, and the tests begin anew after it. Only
    /// after `Ok` may the samples become events: a failure is an error here, so that `?` can't pass over it.
    pub fn test(
        &mut self,
        samples: &[u32],
        repetition: u32,
        proportion: u32,
    ) -> Result<(), NotPassed> {
        let (at, length) = (samples.as_ptr(), samples.len());
        let answer =
            unsafe { fortuna_health_test(&mut self.state, at, length, repetition, proportion) };
        match answer.number {
            0 if answer.repetition || answer.proportion => Err(NotPassed::Failed(Failure {
                place: answer.place,
                repetition: answer.repetition,
                proportion: answer.proportion,
            })),
            0 => Ok(()),
            number => Err(NotPassed::Refused(Refusal::from_number(number))),
        }
    }
}

/// CTR_DRBG (NIST SP 800-90A, 10.2.1) with AES-256 and no derivation function, for permanent stations whose network
/// requires it. It has nothing to do with a `Fortuna`, but may get its entropy input from one. It is not `Clone`: two
/// copies would give the same bytes.
///
/// Entropy input has 48 bytes (else `EntropyLength`) and must have full entropy, which no call can check. Bytes of
/// `Fortuna::request` on a seeded station, anew for each seeding, hold at most the 256 bits of its key: ask your network
/// whether it takes them. A personalization string or additional input has up to 48 bytes (else `InputTooLong`) and need
/// not be secret. `&[]` is none; zeros are an input.
pub struct CtrDrbg {
    state: CtrDrbgState,
}

impl CtrDrbg {
    /// Never seeded.
    #[allow(clippy::new_without_default)]
    pub fn new() -> CtrDrbg {
        CtrDrbg {
            state: unsafe { fortuna_ctr_drbg_new() },
        }
    }

    /// The first seeding, or one that starts anew, whatever was there before.
    pub fn instantiate(&mut self, entropy: &[u8], personalization: &[u8]) -> Result<(), Refusal> {
        let (at, length) = (entropy.as_ptr(), entropy.len());
        let (other, other_length) = (personalization.as_ptr(), personalization.len());
        noted(unsafe {
            fortuna_ctr_drbg_instantiate(&mut self.state, at, length, other, other_length)
        })
    }

    /// New entropy input to what is there. `SeedingNeeded`: it was never seeded.
    pub fn reseed(&mut self, entropy: &[u8], additional: &[u8]) -> Result<(), Refusal> {
        let (at, length) = (entropy.as_ptr(), entropy.len());
        let (other, other_length) = (additional.as_ptr(), additional.len());
        noted(unsafe { fortuna_ctr_drbg_reseed(&mut self.state, at, length, other, other_length) })
    }

    /// Fills `out`, which has up to 65,536 bytes (else `RequestTooLong`). `SeedingNeeded`: it was never seeded, or 2^48
    /// requests were made since the last seeding, those for 0 bytes included.
    pub fn generate(&mut self, out: &mut [u8], additional: &[u8]) -> Result<(), Refusal> {
        let (at, length) = (out.as_mut_ptr(), out.len());
        let (other, other_length) = (additional.as_ptr(), additional.len());
        noted(unsafe {
            fortuna_ctr_drbg_generate(&mut self.state, at, length, other, other_length)
        })
    }

    /// How many requests were made since the last seeding; `None` where there was no seeding.
    pub fn requests(&self) -> Option<u64> {
        self.state.reseed_counter.checked_sub(1)
    }
}

/// D, the SHA_d-256 of the Fortuna book's 2010 edition: SHA-256 of the SHA-256 of 64 zero bytes and then the data.
pub fn sha_d256(data: &[u8]) -> Result<[u8; 32], Refusal> {
    let mut digest = [0; 32];
    match unsafe { fortuna_sha_d256(data.as_ptr(), data.len(), &mut digest) } {
        0 => Ok(digest),
        number => Err(Refusal::from_number(number)),
    }
}

/// AES-256 encryption by tables, under a key of the caller's own. The header's 'Traces' says when to take
/// `Aes256Bytewise`.
#[repr(C)]
#[derive(Clone, Copy)]
pub struct Aes256 {
    words: [u32; 60],
}

impl Aes256 {
    pub fn new(key: &[u8; 32]) -> Aes256 {
        unsafe { fortuna_aes256_expand(key) }
    }

    pub fn encrypt(&self, mut block: [u8; 16]) -> [u8; 16] {
        unsafe { fortuna_aes256_block(*self, &mut block) };
        block
    }
}

/// The same byte by byte: slower, and it reads a smaller table.
#[repr(C)]
#[derive(Clone, Copy)]
pub struct Aes256Bytewise {
    words: [u8; 240],
}

impl Aes256Bytewise {
    pub fn new(key: &[u8; 32]) -> Aes256Bytewise {
        unsafe { fortuna_aes256_bytewise_expand(key) }
    }

    pub fn encrypt(&self, mut block: [u8; 16]) -> [u8; 16] {
        unsafe { fortuna_aes256_bytewise_block(*self, &mut block) };
        block
    }
}

fn noted(number: u32) -> Result<(), Refusal> {
    match number {
        0 => Ok(()),
        number => Err(Refusal::from_number(number)),
    }
}

fn result(answer: Answer) -> Result<u32, Refusal> {
    match answer.number {
        0 => Ok(answer.emptied),
        number => Err(Refusal::from_number(number)),
    }
}

fn drawn(number: u32, emptied: u32) -> Result<u32, NotDrawn> {
    match number {
        0 => Ok(emptied),
        number => Err(NotDrawn {
            refusal: Refusal::from_number(number),
            emptied,
        }),
    }
}

fn value(draw: Draw) -> Result<Drawn, NotDrawn> {
    let emptied = drawn(draw.number, draw.emptied)?;
    Ok(Drawn {
        value: draw.value,
        emptied,
    })
}

/// Runs a log of calls from a fresh station. `out` takes as many characters of the answers as it has room for; gives how many.
pub fn run_log(log: &[u8], out: &mut [u8]) -> usize {
    unsafe { fortuna_log(log.as_ptr(), log.len(), out.as_mut_ptr(), out.len()) }
}

/// The frame by which a log has its events: 01 in archives, with one byte for the source, 05 from new hubs, with two.
#[derive(Clone, Copy, Debug, PartialEq, Eq)]
pub enum EventFrame {
    F01,
    F05,
}

impl EventFrame {
    /// Room that is always enough to convert a log of this length to this frame: then no line is refused as `NoRoom`.
    pub fn room(self, length: usize) -> usize {
        match self {
            EventFrame::F01 => length,
            EventFrame::F05 => length + length.div_ceil(3),
        }
    }
}

/// Writes a log to `out` with all its events by the frame that is wanted, and nothing else changed. Gives how many
/// bytes that are. The first line that is refused ends it: `NoFrame`, `LargeSource` (above 255, where 01 is wanted) or
/// `NoRoom`, the first that applies. A log may be cut after any line feed and converted piece by piece, each with
/// `EventFrame::room`; in each piece lines count from 1.
pub fn convert(log: &[u8], wanted: EventFrame, out: &mut [u8]) -> Result<usize, NotConverted> {
    let wide = wanted == EventFrame::F05;
    let (at, room) = (out.as_mut_ptr(), out.len());
    let answer = unsafe { fortuna_convert(log.as_ptr(), log.len(), wide, at, room) };
    match answer.number {
        0 => Ok(answer.written),
        number => Err(NotConverted {
            refusal: Refusal::from_number(number),
            line: answer.line,
            written: answer.written,
        }),
    }
}

/// An event of a pool's byte string: its source, its data, and the place of the next event.
#[derive(Clone, Copy, Debug, PartialEq, Eq)]
pub struct Entry<'a> {
    pub source: u16,
    pub data: &'a [u8],
    pub next: usize,
}

/// The event at a place, from 0, of a pool's byte string; `None` at the string's end. `NoEvent`, with the place: no
/// whole event starts there, or it is past the end. Start at 0 and go on from `next`, as `events` does: between two
/// starts an event's bytes may look like another event.
pub fn entry_at(string: &[u8], place: usize) -> Result<Option<Entry<'_>>, NotRead> {
    let answer = unsafe { fortuna_entry_at(string.as_ptr(), string.len(), place) };
    match answer.number {
        0 if answer.found => Ok(Some(Entry {
            source: answer.source as u16, // two bytes of the string
            data: &string[answer.from..answer.next],
            next: answer.next,
        })),
        0 => Ok(None),
        number => Err(NotRead {
            refusal: Refusal::from_number(number),
            place: answer.place,
        }),
    }
}

/// The events of a pool's byte string, in their order, read from 0. No two lists of events give the same string. A
/// string that no list gives ends with a refusal, after the events before its place; all others end without one.
pub fn events(string: &[u8]) -> Events<'_> {
    Events {
        string,
        place: Some(0),
    }
}

/// What `events` gives.
#[derive(Clone, Debug)]
pub struct Events<'a> {
    string: &'a [u8],
    place: Option<usize>, // none after the end or a refusal
}

impl<'a> Iterator for Events<'a> {
    type Item = Result<Entry<'a>, NotRead>;

    fn next(&mut self) -> Option<Self::Item> {
        let answer = entry_at(self.string, self.place?);
        self.place = answer.ok().flatten().map(|entry| entry.next);
        answer.transpose()
    }
}

impl FusedIterator for Events<'_> {}
