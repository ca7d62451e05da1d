//! A digitiser from start to stop: the stored seed goes in and its successor is stored before any
//! key is drawn, noise is tested and goes in as events, link keys, a radio slot and the order of a
//! polling list come out. One source gets stuck: the health tests tell before its stuck readings
//! become an event. Another digitiser is fresh from the works: its page of flash memory was
//! never written, so it waits for noise before it has a seed. At a later power-up a tiltmeter
//! floods: a list of quotas turns back what is too much, and the seismometer goes on. At another
//! one the digitiser is a permanent station, whose network wants keys from CTR_DRBG. At the last two
//! its pools are chosen by key, since its noise comes in bursts that follow the round of pools. A log
//! of calls is run, logs are converted from frame 01 to 05 and back, and an analyst lists the events
//! behind a pool. Noise, clock, keys that are kept and flash pages are stand-ins, so that each run
//! prints the same.
//!
//! One call at a time on a state: `main` owns it, and each call borrows it alone. Noise from interrupts or other
//! threads would come through a queue.
use fortuna::{
    convert, events, run_log, sha_d256, Aes256, Aes256Bytewise, CtrDrbg, Drawn, EventFrame,
    Fortuna, Health, Keyed, NotDrawn, NotPassed, Quota, Refusal,
};

/// A source may be any number up to 65,535.
const SOURCES: [u32; 3] = [1, 2, 900];
const TURNS: u32 = 64;
const READINGS: usize = 32;
/// The cutoffs of the health tests for readings with 1 bit of entropy each, by estimate, and false alarms at a rate of
/// 2^-30: docs/HEALTH.md has these and others. A turn has more readings than the first, so that a source which is stuck
/// from a turn's start on is told in that turn.
const REPETITION: u32 = 31;
const PROPORTION: u32 = 325;
/// The events that pool 0 gets before the first seed of all: 288 readings, which by that estimate have more bits than
/// the key's 256. The library asks for 64 bytes and can't know what they are worth.
const FIRST_EVENTS: u32 = 9;
const POOLS: u32 = 32;
const SLOTS: u64 = 100;
const TRIES: u32 = 64;
const STATIONS: [u16; 8] = [1, 2, 3, 4, 5, 6, 7, 8];
/// What an instrument may bring from one pool reseed to the next: an event for each pool, 3 bytes of header each. As
/// each goes round the pools, it brings 35 of the 64 bytes that pool 0 needs for a reseed, and another must bring the
/// rest.
const ALLOWANCE: u32 = POOLS * (3 + READINGS as u32);
/// The same from one emptying to the next where pools are chosen by key: 16 events. The first emptying comes with the
/// 33rd event, and then one with every 32nd: so all three must be able to bring 33 together, and these may bring 48.
const KEYED_ALLOWANCE: u32 = 16 * (3 + READINGS as u32);
/// Stands in for the 32 bytes that were made in the works by a generator of its own, and are kept beside the seed.
const SCHEDULER_KEY: &[u8; 32] = b"scheduler key made in the works\0";
/// The events that the tiltmeter sends where others send one.
const FLOOD: u32 = 10;

/// Stands in for the page of flash memory that keeps the seed, as it is read.
fn stored_seed() -> [u8; 64] {
    let text = b"a seed from the workshop, other bytes for each digitiser";
    let mut seed = [0; 64];
    seed[..text.len()].copy_from_slice(text);
    seed
}

/// A noise source: its number, its health tests, which no other source shares, and whether it failed them.
struct Source {
    number: u32,
    health: Health,
    left_out: bool,
}

/// Stands in for a sensor, of whose readings the low 8 bits are used. Source 2 gets stuck: it repeats one reading from
/// turn 40 on.
fn readings(source: u32, turn: u32) -> [u32; READINGS] {
    if source == 2 && turn >= 40 {
        return [200; READINGS];
    }
    std::array::from_fn(|i| (89 * source + 31 * turn + 7 * i as u32) % 256)
}

fn hexadecimal(bytes: &[u8]) -> String {
    bytes.iter().map(|b| format!("{b:02x}")).collect()
}

/// D tells by which edition of the book the library goes: with that of 2003 this line would begin with 4f8b42c2.
fn show_edition() -> Result<(), Refusal> {
    println!("D of abc: {}", hexadecimal(&sha_d256(b"abc")?));
    Ok(())
}

/// The known answer of FIPS 197, C.3, from both ciphers, as firmware may ask for it at each start: by tables, which is
/// the faster and what the station itself uses, and byte by byte.
fn show_ciphers() {
    let key = std::array::from_fn(|i| i as u8);
    let text: [u8; 16] = std::array::from_fn(|i| 0x11 * i as u8);
    let by_tables = Aes256::new(&key).encrypt(text);
    let bytewise = Aes256Bytewise::new(&key).encrypt(text);
    println!("AES-256 by tables: {}", hexadecimal(&by_tables));
    println!("AES-256 byte by byte: {}", hexadecimal(&bytewise));
}

/// Whether readings may become an event. After a failing sample none of those that it came with is used, nor any later
/// ones: the source is left out until somebody has seen to it.
fn healthy(source: &mut Source, turn: u32, readings: &[u32]) -> Result<bool, Refusal> {
    if source.left_out {
        return Ok(false);
    }
    match source.health.test(readings, REPETITION, PROPORTION) {
        Ok(()) => Ok(true),
        Err(NotPassed::Failed(failure)) => {
            println!(
                "source {}, turn {turn}: {failure}, source left out",
                source.number
            );
            source.left_out = true;
            Ok(false)
        }
        Err(NotPassed::Refused(refusal)) => Err(refusal),
    }
}

/// At a power-up the tests begin anew.
fn start_sources() -> [Source; 3] {
    SOURCES.map(|number| Source {
        number,
        health: Health::new(),
        left_out: false,
    })
}

/// Each source gives readings for a pool, once. What goes in is what was tested: a byte for each reading. Gives how
/// many events came of it.
fn take_turn(
    f: &mut Fortuna,
    sources: &mut [Source],
    turn: u32,
    pool: u32,
) -> Result<u32, Refusal> {
    let mut count = 0;
    for source in sources {
        let readings = readings(source.number, turn);
        if healthy(source, turn, &readings)? {
            f.event(source.number, pool, &readings.map(|r| r as u8))?;
            count += 1;
        }
    }
    Ok(count)
}

/// Each source goes round the pools by itself.
fn gather_noise(f: &mut Fortuna, sources: &mut [Source]) -> Result<(), Refusal> {
    let mut count = 0;
    for turn in 0..TURNS {
        count += take_turn(f, sources, turn, turn % POOLS)?;
    }
    println!("{count} events taken");
    Ok(())
}

fn show_key(clock: u32, answer: Result<u32, Refusal>, key: &[u8]) {
    match answer {
        Ok(emptied) => println!(
            "key at {clock} ms, pools emptied {emptied}: {}",
            hexadecimal(key)
        ),
        Err(refusal) => println!("key at {clock} ms: {refusal}"),
    }
}

/// A key, or why there is none: a caller can wait for noise and ask again.
fn draw_key(f: &mut Fortuna, clock: u32) {
    let mut key = [0; 32];
    let answer = f.request(clock, &mut key);
    show_key(clock, answer, &key);
}

/// Stands in for storing the page in flash memory.
fn store(what: &str, page: &[u8; 64]) {
    println!("{what}: {}", hexadecimal(page));
}

/// A seed for the next start. Whatever the page holds is written over, and it may be blank.
fn write_seed(f: &mut Fortuna, clock: u32, page: &mut [u8; 64]) -> Result<(), Refusal> {
    f.write(clock, page)?;
    store("seed for the next start", page);
    Ok(())
}

/// Where the page is blank: keys and seed writes are refused until noise has come. The first pool reseed takes pool 0
/// alone, so the first noise goes there. With no source that passes its tests there is no seed, and so no key.
fn seed_from_noise(
    f: &mut Fortuna,
    sources: &mut [Source],
    clock: u32,
    page: &mut [u8; 64],
) -> Result<(), Refusal> {
    let (mut turn, mut count) = (0, 0);
    draw_key(f, clock); // to show that it is refused
    while count < FIRST_EVENTS {
        count += take_turn(f, sources, turn, 0)?;
        turn += 1;
    }
    println!("{count} events taken");
    write_seed(f, clock + 500, page)
}

/// A power-up, from the page as it was read. After it the station is seeded, and the page that the next one starts from
/// is stored: both before any key is drawn.
fn power_up(
    f: &mut Fortuna,
    sources: &mut [Source],
    clock: u32,
    page: &mut [u8; 64],
) -> Result<(), Refusal> {
    match f.update(clock, page) {
        // the page holds the successor of its seed
        Ok(_) => {
            store("seed updated", page);
            Ok(())
        }
        // the page was never written, and is as it was
        Err(blank @ Refusal::BlankSeed) => {
            println!("seed update: {blank}");
            seed_from_noise(f, sources, clock, page)
        }
        // a device would go into its fault state
        Err(refusal) => Err(refusal),
    }
}

/// A pool that there is not: the call says so, and the state stays as it was.
fn misplace_event(f: &mut Fortuna) {
    if let Err(refusal) = f.event(SOURCES[0], POOLS, &[0; READINGS]) {
        println!("event for pool {POOLS}: {refusal}");
    }
}

/// With a cutoff of 1 every sample would fail: the call says that there is none.
fn misjudge_cutoff() {
    if let Err(not_passed) = Health::new().test(&[0; READINGS], 1, PROPORTION) {
        println!("cutoff 1: {not_passed}");
    }
}

/// A radio slot, or why there is none: after `NoneDrawn` a caller can draw again, from the state that is left.
fn show_slot(clock: u32, answer: Result<Drawn, NotDrawn>) {
    match answer {
        Ok(Drawn { value, emptied }) => {
            println!("slot at {clock} ms, pools emptied {emptied}: {value}")
        }
        Err(not_drawn) => println!("slot at {clock} ms: {not_drawn}"),
    }
}

fn draw_slot(f: &mut Fortuna, clock: u32) {
    show_slot(clock, f.random_below(clock, SLOTS, TRIES));
}

fn show_order(list: &[u16]) {
    let order: Vec<String> = list.iter().map(u16::to_string).collect();
    println!("polling list: {}", order.join(" "));
}

/// The order in which a hub polls its stations.
fn order_stations(f: &mut Fortuna, clock: u32) -> Result<(), Refusal> {
    let mut list = STATIONS;
    f.shuffle(clock, &mut list)?;
    show_order(&list);
    Ok(())
}

/// How stale the key is, for whoever services the digitiser.
fn show_staleness(f: &Fortuna) {
    println!(
        "requests on the key since the last pool reseed: {}",
        f.key_requests()
    );
}

/// A stored log of calls, run in one call: an event of source 7, one of source 900, a request, and
/// a line that is no frame.
fn replay() {
    let mut answers = [0; 64];
    let log = b"010700A1B2\n050384003C\n02000000640010\nFF\n";
    let stored = run_log(log, &mut answers);
    print!(
        "a log's answers:\n{}",
        String::from_utf8_lossy(&answers[..stored])
    );
}

fn show_log(what: &str, log: &[u8]) {
    print!("{what}:\n{}", String::from_utf8_lossy(log));
}

/// A log from the archive, for a reader that knows frame 05 alone, and back: the same log.
fn convert_archive() -> Result<(), Refusal> {
    let log = b"010700A1B2\n02000000640010\n01FF1F3C\n";
    let mut wide = vec![0; EventFrame::F05.room(log.len())];
    let there = convert(log, EventFrame::F05, &mut wide)?;
    show_log("an archive's log, by frame 05", &wide[..there]);
    let mut narrow = vec![0; EventFrame::F01.room(there)];
    let back = convert(&wide[..there], EventFrame::F01, &mut narrow)?;
    show_log("and by frame 01 again", &narrow[..back]);
    Ok(())
}

/// A log from a hub, for a reader that knows frame 01 alone. Source 900 has no place there: the call says in which
/// line, and the lines before it are written.
fn convert_hub() {
    let log = b"05000700A1B2\n02000000640010\n050384003C\n04000000C8\n";
    let mut narrow = vec![0; EventFrame::F01.room(log.len())];
    if let Err(not_converted) = convert(log, EventFrame::F01, &mut narrow) {
        println!("a hub's log by frame 01, {not_converted}");
        show_log("the lines before it", &narrow[..not_converted.written]);
    }
}

/// A pool's byte string, event by event, up to its end or to the place where no event starts.
fn list_events(string: &[u8]) {
    println!("a pool's string: {}", hexadecimal(string));
    for event in events(string) {
        match event {
            Ok(entry) => println!("source {}, data {}", entry.source, hexadecimal(entry.data)),
            Err(not_read) => println!("{not_read}"),
        }
    }
}

/// For an analyst, who has a pool's string from `bin/logbook --strings`: an event of source 7 and one of source 900.
/// Then the string's last byte is lost, so that no list of events gives it.
fn question_key() {
    let string = [0x07, 0x00, 2, 0xa1, 0xb2, 0x84, 0x03, 1, 0x05];
    list_events(&string);
    list_events(&string[..string.len() - 1]);
}

/// Another digitiser, fresh from the works. Its second power-up finds the seed that the first one left in the page.
fn start_twice() -> Result<(), Refusal> {
    let mut page = [0xff; 64];
    for i in 1..=2 {
        println!("fresh from the works, power-up {i}");
        let mut f = Fortuna::new();
        power_up(&mut f, &mut start_sources(), 10, &mut page)?;
        draw_key(&mut f, 1000);
    }
    Ok(())
}

/// An instrument, and how many of its events were taken and refused. Health tests are left out here: a device has them
/// with a list as without.
struct Instrument {
    name: &'static str,
    number: u32,
    taken: u32,
    refused: u32,
}

const fn instrument(name: &'static str, number: u32) -> Instrument {
    Instrument {
        name,
        number,
        taken: 0,
        refused: 0,
    }
}

const fn instruments() -> [Instrument; 3] {
    [
        instrument("seismometer", 1),
        instrument("tiltmeter", 4),
        instrument("barometer", 900),
    ]
}

impl Instrument {
    fn next_turn(&self) -> u32 {
        self.taken + self.refused
    }

    fn data(&self) -> [u8; READINGS] {
        readings(self.number, self.next_turn()).map(|r| r as u8)
    }

    /// Too much is no fault of the device: the event is dropped, and after the next pool reseed others are taken.
    fn count<T>(&mut self, answer: Result<T, Refusal>) -> Result<(), Refusal> {
        match answer {
            Err(refusal @ Refusal::OverAllowance) => {
                if self.refused == 0 {
                    println!("{}, event {}: {refusal}", self.name, self.next_turn() + 1);
                }
                self.refused += 1;
            }
            answer => {
                answer?;
                self.taken += 1;
            }
        }
        Ok(())
    }
}

/// By rising sources, which makes the check of the list quicker.
fn list_quotas(allowance: u32) -> [Quota; 3] {
    instruments().map(|from| Quota::new(from.number, allowance))
}

fn show_spent(quotas: &[Quota; 3], instruments: &[Instrument; 3]) {
    for (from, quota) in instruments.iter().zip(quotas) {
        println!(
            "{}: {} events taken, {} refused, {} of {} bytes spent",
            from.name, from.taken, from.refused, quota.spent, quota.allowance
        );
    }
}

/// The station with its list of quotas. Every call gets the list, those that draw too: without it an event is charged
/// to nobody, and a pool reseed clears nothing.
struct Metered {
    f: Fortuna,
    quotas: [Quota; 3],
}

impl Metered {
    fn new() -> Metered {
        Metered {
            f: Fortuna::new(),
            quotas: list_quotas(ALLOWANCE),
        }
    }

    fn event(&mut self, from: &Instrument, pool: u32) -> Result<(), Refusal> {
        self.f
            .metered_event(&mut self.quotas, from.number, pool, &from.data())
    }

    /// An instrument's next event, for the pool after that of its last one taken.
    fn send_event(&mut self, from: &mut Instrument) -> Result<(), Refusal> {
        let answer = self.event(from, from.taken % POOLS);
        from.count(answer)
    }

    fn send_flood(&mut self, from: &mut Instrument) -> Result<(), Refusal> {
        (0..FLOOD).try_for_each(|_| self.send_event(from))
    }

    /// A round of the pools: in each turn the others send an event each, and the tiltmeter many.
    fn send_round(&mut self, instruments: &mut [Instrument; 3]) -> Result<(), Refusal> {
        let [seismometer, tiltmeter, barometer] = instruments;
        for _ in 0..POOLS {
            self.send_flood(tiltmeter)?;
            self.send_event(seismometer)?;
            self.send_event(barometer)?;
        }
        Ok(())
    }

    /// The calls that draw, each with the list. The first makes the pool reseed, after which nothing is spent.
    fn draw(&mut self, clock: u32) -> Result<(), Refusal> {
        let (mut key, mut list) = ([0; 32], STATIONS);
        let quotas = &mut self.quotas;
        let answer = self.f.metered_request(quotas, clock, &mut key);
        show_key(clock, answer, &key);
        show_slot(
            clock,
            self.f.metered_random_below(quotas, clock, SLOTS, TRIES),
        );
        self.f.metered_shuffle(quotas, clock, &mut list)?;
        show_order(&list);
        Ok(())
    }
}

/// A power-up from the seed that the last one left, with a list from the first call to the last.
fn flood(page: &mut [u8; 64]) -> Result<(), Refusal> {
    let (mut m, mut instruments) = (Metered::new(), instruments());
    println!("a tiltmeter floods");
    m.f.metered_update(&mut m.quotas, 10, page)?;
    store("seed updated", page);
    m.send_round(&mut instruments)?;
    // a source that nobody put on the list
    if let Err(refusal) = m.event(&instrument("stranger", 7), 0) {
        println!("event of source 7: {refusal}");
    }
    show_spent(&m.quotas, &instruments);
    m.draw(1000)?;
    m.send_flood(&mut instruments[1])?; // taken again, after the pool reseed
    show_spent(&m.quotas, &instruments);
    m.f.metered_write(&mut m.quotas, 2000, page)?;
    store("seed for the next start", page);
    Ok(())
}

/// Entropy input must have full entropy. Readings have not. Fortuna makes bytes of them that nobody can tell who does not
/// know its key; they hold at most its 256 bits. Each seeding gets new ones.
fn draw_entropy(f: &mut Fortuna, clock: u32) -> Result<[u8; 48], Refusal> {
    let mut entropy = [0; 48];
    f.request(clock, &mut entropy)?;
    Ok(entropy)
}

/// A byte is missing: the call says so, and the state stays as it was.
fn cut_entropy(d: &mut CtrDrbg, entropy: &[u8; 48]) {
    if let Err(refusal) = d.instantiate(&entropy[..47], &[]) {
        println!("instantiate with 47 bytes: {refusal}");
    }
}

/// With additional input, which need not be secret, or with none.
fn draw_network_key(d: &mut CtrDrbg, additional: &[u8]) -> Result<(), Refusal> {
    let mut key = [0; 32];
    d.generate(&mut key, additional)?;
    let request = d.requests().unwrap_or(0);
    println!(
        "key of CTR_DRBG, request {request} since its seeding: {}",
        hexadecimal(&key)
    );
    Ok(())
}

/// A power-up, and noise before any entropy input is drawn. The personalization string is the station's name, so that
/// no other starts as this one does.
fn run_permanent(page: &mut [u8; 64]) -> Result<(), Refusal> {
    let (mut f, mut sources, mut d) = (Fortuna::new(), start_sources(), CtrDrbg::new());
    println!("a permanent station");
    power_up(&mut f, &mut sources, 10, page)?;
    gather_noise(&mut f, &mut sources)?;
    let entropy = draw_entropy(&mut f, 1000)?;
    cut_entropy(&mut d, &entropy);
    d.instantiate(&entropy, b"permanent station 12")?;
    draw_network_key(&mut d, &[])?;
    draw_network_key(&mut d, b"link to the observatory")?;
    d.reseed(&draw_entropy(&mut f, 2000)?, &[])?;
    draw_network_key(&mut d, &[])
}

/// How many of a fresh start's first events are in the key: those of a pool, once a step empties it. Without a stored
/// seed a device would draw nothing before this is enough by the estimate of its sources.
fn events_entered(steps: u64) -> u32 {
    let (mut waiting, mut entered) = ([0; POOLS as usize], 0);
    for step in 0..steps {
        waiting[Keyed::input(SCHEDULER_KEY, step) as usize] += 1;
        if let Some(pool) = Keyed::output(step) {
            entered += std::mem::take(&mut waiting[pool as usize]);
        }
    }
    entered
}

/// Each instrument sends an event in each turn. Nobody names a pool. Health tests are left out here too: a device has
/// them.
fn gather_by_key(k: &mut Keyed) -> Result<(), Refusal> {
    let mut emptied = 0;
    for turn in 0..TURNS {
        for from in instruments() {
            let data = readings(from.number, turn).map(|r| r as u8);
            emptied += k.event(from.number, &data)?;
        }
    }
    println!(
        "{} events taken, pools emptied {emptied}, events in the key {}",
        k.step(),
        events_entered(k.step())
    );
    Ok(())
}

/// What the next event does, for whoever services the digitiser. bin/steps prints the same.
fn show_step(k: &Keyed) {
    let pool = Keyed::input(SCHEDULER_KEY, k.step());
    let empties = Keyed::output(k.step()).map(|out| format!(", empties pool {out}"));
    println!(
        "step {}: event to pool {pool}{}",
        k.step(),
        empties.unwrap_or_default()
    );
}

fn show_key_by_step(step: u64, answer: Result<(), Refusal>, key: &[u8]) {
    match answer {
        Ok(()) => println!("key after {step} events: {}", hexadecimal(key)),
        Err(refusal) => println!("key after {step} events: {refusal}"),
    }
}

fn draw_key_by_step(k: &mut Keyed) {
    let mut key = [0; 32];
    let answer = k.request(&mut key);
    show_key_by_step(k.step(), answer, &key);
}

/// A power-up with pools chosen by key. The seed goes in first: from the 33rd event on a key would be drawn without it
/// too, whatever the noise was worth.
fn run_keyed(page: &mut [u8; 64]) -> Result<(), Refusal> {
    let mut k = Keyed::new(SCHEDULER_KEY);
    println!("pools chosen by key");
    draw_key_by_step(&mut k);
    k.update(page)?;
    store("seed updated", page);
    gather_by_key(&mut k)?;
    show_step(&k);
    draw_key_by_step(&mut k);
    k.write(page)?;
    store("seed for the next start", page);
    Ok(())
}

/// A power-up with pools chosen by key and a list of quotas, which every call gets. In each turn the tiltmeter sends
/// many events, and the others one each.
fn flood_keyed(page: &mut [u8; 64]) -> Result<(), Refusal> {
    let (mut k, mut quotas) = (Keyed::new(SCHEDULER_KEY), list_quotas(KEYED_ALLOWANCE));
    let (mut instruments, mut key) = (instruments(), [0; 32]);
    println!("a tiltmeter floods, pools chosen by key");
    k.metered_update(&quotas, page)?;
    store("seed updated", page);
    for _ in 0..POOLS {
        for i in [1; FLOOD as usize].into_iter().chain([0, 2]) {
            let from = &mut instruments[i];
            let answer = k.metered_event(&mut quotas, from.number, &from.data());
            from.count(answer)?;
        }
    }
    show_spent(&quotas, &instruments);
    let answer = k.metered_request(&quotas, &mut key);
    show_key_by_step(k.step(), answer, &key);
    k.metered_write(&quotas, page)?;
    store("seed for the next start", page);
    Ok(())
}

fn main() -> Result<(), Refusal> {
    show_edition()?;
    show_ciphers();

    // Fresh at each start, with the seed to go on from.
    let mut f = Fortuna::new();
    let mut sources = start_sources();
    let mut flash = stored_seed();

    draw_key(&mut f, 0);
    power_up(&mut f, &mut sources, 10, &mut flash)?;
    gather_noise(&mut f, &mut sources)?;
    draw_key(&mut f, 1000);
    draw_key(&mut f, 1050);
    misplace_event(&mut f);
    misjudge_cutoff();
    draw_slot(&mut f, 1200);
    order_stations(&mut f, 1250)?;
    show_staleness(&f);

    write_seed(&mut f, 2000, &mut flash)?;
    replay();
    convert_archive()?;
    convert_hub();
    question_key();
    start_twice()?;
    flood(&mut flash)?;
    run_permanent(&mut flash)?;
    run_keyed(&mut flash)?;
    flood_keyed(&mut flash)
}
