// Settling an hour and a peak run, of up to 65,536 lines against as many entries: the proved library beside plain Rust with a hash
// index, in ns a line; plain Rust alone unless the library is linked (--cfg library).
#[allow(dead_code)]
mod rows;

use rows::{ROW, Row, draw, read, rows, take_in};
use std::collections::HashMap;
use std::hint::black_box;

const MOST: u64 = 3_000_000_000;
const MISSING: u32 = u32::MAX;
const MOST_LINES: usize = 65_536;

// A refusal's number with a minus, as the library's C calls answer it.
type Answer<T> = Result<T, i64>;

fn need(fine: bool, number: i64) -> Answer<()> {
    if fine { Ok(()) } else { Err(-number) }
}

// ---- roster -----------------------------------------------------------------------------------------------------

#[derive(Clone, Copy)]
struct Entry {
    account: u32,
    from_day: u32,
    supplier: u32,
}

// Each account's entries, in the order of the list.
struct Index {
    entries: HashMap<u32, Vec<(u32, u32)>>,
}

impl Index {
    fn new(entries: &[Entry]) -> Index {
        let mut index = HashMap::with_capacity(entries.len());
        for entry in entries {
            index.entry(entry.account).or_insert_with(|| Vec::with_capacity(1)).push((entry.from_day, entry.supplier));
        }
        Index { entries: index }
    }

    fn supplier_on(&self, account: u32, day: u32) -> Option<u8> {
        let entries = self.entries.get(&account)?;
        let (_, supplier) = entries.iter().rev().find(|(from_day, _)| *from_day <= day)?;
        (1..=32).contains(supplier).then_some(*supplier as u8)
    }
}

// For one day alone, made in the call: each account's supplier on it.
fn suppliers_on(entries: &[Entry], day: u32) -> HashMap<u32, u32> {
    let mut suppliers = HashMap::with_capacity(entries.len());
    for entry in entries.iter().filter(|entry| entry.from_day <= day) {
        suppliers.insert(entry.account, entry.supplier);
    }
    suppliers
}

// Where a line's supplier is looked up.
enum Roster<'a> {
    Kept(&'a Index),
    Made(&'a [Entry]),
}

enum Suppliers<'a> {
    Kept(&'a Index, u32),
    Made(HashMap<u32, u32>),
}

impl<'a> Roster<'a> {
    fn on(&self, day: u32) -> Suppliers<'a> {
        match self {
            Roster::Kept(index) => Suppliers::Kept(index, day),
            Roster::Made(entries) => Suppliers::Made(suppliers_on(entries, day)),
        }
    }
}

impl Suppliers<'_> {
    fn of(&self, account: u32) -> Option<u8> {
        match self {
            Suppliers::Kept(index, day) => index.supplier_on(account, *day),
            Suppliers::Made(suppliers) => suppliers.get(&account).filter(|s| (1..=32).contains(*s)).map(|s| *s as u8),
        }
    }
}

// ---- lines ------------------------------------------------------------------------------------------------------

fn is_account(account: u32) -> bool {
    (1..=999_999_999).contains(&account)
}

fn is_usage(figure: u32) -> bool {
    figure <= 100_000_000
}

fn is_reading(figure: u32) -> bool {
    is_usage(figure) || figure == MISSING
}

fn interval_load(reading: u32, loss: u32) -> u64 {
    if reading == MISSING { 0 } else { u64::from(reading) * u64::from(loss) / 10_000 }
}

fn profiled_load(profile: u32, billed: u32, usage: u32, loss: u32) -> u64 {
    u64::from(profile) * u64::from(billed) * u64::from(loss) / (u64::from(usage) * 10_000)
}

fn demand_load(demand: u32, factor: u32, loss: u32) -> u64 {
    u64::from(demand) * u64::from(factor) * u64::from(loss) / 100_000_000
}

// A line of a sheet: its weight in the first and in the second group.
trait Line: Copy {
    fn account(&self) -> u32;
    fn in_range(&self) -> bool;
    fn usage_fits(&self) -> bool;
    fn weights(&self) -> (u64, u64);
}

#[derive(Clone, Copy)]
enum HourLine {
    Interval { account: u32, loss: u32, reading: u32 },
    Profiled { account: u32, loss: u32, profile: u32, billed: u32, usage: u32 },
}

impl Line for HourLine {
    fn account(&self) -> u32 {
        match *self {
            HourLine::Interval { account, .. } | HourLine::Profiled { account, .. } => account,
        }
    }

    fn in_range(&self) -> bool {
        let (account, loss, figures) = match *self {
            HourLine::Interval { account, loss, reading } => (account, loss, is_reading(reading)),
            HourLine::Profiled { account, loss, profile, billed, usage } => {
                (account, loss, profile <= 1_000_000 && is_usage(billed) && (1..=2_000_000_000).contains(&usage))
            }
        };
        is_account(account) && (10_000..=20_000).contains(&loss) && figures
    }

    fn usage_fits(&self) -> bool {
        match *self {
            HourLine::Interval { .. } => true,
            HourLine::Profiled { billed, usage, .. } => u64::from(billed) <= 100 * u64::from(usage),
        }
    }

    fn weights(&self) -> (u64, u64) {
        match *self {
            HourLine::Interval { loss, reading, .. } => (interval_load(reading, loss), 0),
            HourLine::Profiled { loss, profile, billed, usage, .. } => (0, profiled_load(profile, billed, usage, loss)),
        }
    }
}

#[derive(Clone, Copy)]
struct PeakLine {
    kind: u32,
    account: u32,
    loss: u32,
    figures: [u32; 5],
    further: [u32; 2],
}

impl Line for PeakLine {
    fn account(&self) -> u32 {
        self.account
    }

    fn in_range(&self) -> bool {
        let [first, second] = self.further;
        let figures = match self.kind {
            1 => self.figures.iter().all(|f| is_reading(*f)) && first == 0 && second == 0,
            2 => self.figures.iter().all(|f| *f <= 1_000_000) && is_usage(first) && (1..=2_000_000_000).contains(&second),
            3 => self.figures.iter().all(|f| *f <= 10_000) && is_usage(first) && second == 0,
            _ => false,
        };
        is_account(self.account) && (10_000..=20_000).contains(&self.loss) && figures
    }

    fn usage_fits(&self) -> bool {
        self.kind != 2 || u64::from(self.further[0]) <= 100 * u64::from(self.further[1])
    }

    fn weights(&self) -> (u64, u64) {
        let [first, second] = self.further;
        let (mut sum, mut present) = (0, 0);
        for figure in self.figures {
            sum += match self.kind {
                1 => interval_load(figure, self.loss),
                2 => profiled_load(figure, first, second, self.loss),
                _ => demand_load(first, figure, self.loss),
            };
            present += u64::from(self.kind != 1 || figure != MISSING);
        }
        (if present == 0 { 0 } else { sum / present }, 0)
    }
}

// ---- archive ----------------------------------------------------------------------------------------------------

struct Archive<'a> {
    memory: &'a mut [u8],
    used: usize,
}

impl Archive<'_> {
    fn free(&self) -> usize {
        (self.memory.len() / ROW).min(65_536) - self.used / ROW
    }

    fn append(&mut self, row: Row) {
        let place = &mut self.memory[self.used..self.used + ROW];
        place[..2].copy_from_slice(if row.energy { b"EH" } else { b"PL" });
        place[2..4].copy_from_slice(&row.day.to_be_bytes());
        place[4..7].copy_from_slice(&[row.hour, row.stage, row.supplier]);
        place[7..].copy_from_slice(&row.amount.to_be_bytes());
        self.used += ROW;
    }

    fn sums(&self, slot: Row) -> [i64; 32] {
        let mut sums = [0; 32];
        for bytes in self.memory[..self.used].chunks_exact(ROW) {
            if let Ok(row) = read(bytes) {
                if row.energy == slot.energy && row.day == slot.day && row.hour == slot.hour {
                    sums[usize::from(row.supplier - 1)] += row.amount;
                }
            }
        }
        sums
    }

    // Appends what each supplier is owed less the sum of its rows; the slot has kind, day, hour and stage.
    fn adjust(&mut self, slot: Row, wanted: &[i64; 32]) -> Answer<usize> {
        let sums = self.sums(slot);
        let dues: [i64; 32] = std::array::from_fn(|i| wanted[i] - sums[i]);
        need(dues.iter().all(|due| due.unsigned_abs() <= MOST), 26)?;
        let count = dues.iter().filter(|due| **due != 0).count();
        need(count <= self.free(), 27)?;
        for (i, due) in dues.into_iter().enumerate().filter(|(_, due)| *due != 0) {
            self.append(Row { supplier: i as u8 + 1, amount: due, ..slot });
        }
        Ok(count)
    }
}

// ---- settling ---------------------------------------------------------------------------------------------------

#[derive(Clone, Copy)]
enum Arrangement {
    Percent(u32),
    ProRata,
}

impl Arrangement {
    fn interval_part(self, unaccounted: i64, interval: u64, profiled: u64) -> i64 {
        // Rust's division rounds toward zero.
        match self {
            Arrangement::Percent(p) => unaccounted * i64::from(p) / 100,
            Arrangement::ProRata if interval + profiled == 0 => 0,
            Arrangement::ProRata => unaccounted * interval as i64 / (interval + profiled) as i64,
        }
    }
}

struct Slip {
    day: u32,
    hours: u32,
    stage: u8,
    settled: u32,
}

// Looks at every line, and answers each one's supplier and the weights of the two groups.
fn check_sheet<L: Line>(sheet: &[L], places: usize, roster: &Roster, day: u32, suppliers: &mut Vec<u8>) -> Answer<(u64, u64)> {
    need(sheet.len() <= MOST_LINES, 10)?;
    need(places >= sheet.len(), 20)?;
    let on_day = roster.on(day);
    let mut before = 0;
    let (mut first, mut second) = (0, 0);
    suppliers.clear();
    for line in sheet {
        need(line.in_range(), 10)?;
        need(line.account() > before, 21)?;
        need(line.usage_fits(), 22)?;
        suppliers.push(on_day.of(line.account()).ok_or(-13)?);
        before = line.account();
        let weights = line.weights();
        first += weights.0;
        second += weights.1;
    }
    need(first + second <= MOST, 23)?;
    Ok((first, second))
}

// Shares the two totals by the weights of the two groups, adds up what each supplier owes, and fills the list if that is booked.
fn book<L: Line>(sheet: &[L], suppliers: &[u8], groups: [(u64, u64); 2], slot: Row, archive: &mut Archive, list: &mut [u64]) -> Answer<usize> {
    let mut wanted = [0i64; 32];
    let mut shares = Vec::with_capacity(sheet.len());
    let mut reached = [0u64; 2];
    let mut given = [0u64; 2];
    for (line, supplier) in sheet.iter().zip(suppliers) {
        let weights = line.weights();
        let mut share = 0;
        for (i, weight) in [weights.0, weights.1].into_iter().enumerate() {
            let (total, whole) = groups[i];
            if weight != 0 {
                reached[i] += weight;
                let up_to_here = total * reached[i] / whole;
                share += up_to_here - given[i];
                given[i] = up_to_here;
            }
        }
        wanted[usize::from(supplier - 1)] += share as i64;
        shares.push(share);
    }
    let count = archive.adjust(slot, &wanted)?;
    list[..shares.len()].copy_from_slice(&shares);
    Ok(count)
}

fn settle(
    slip: &mut Slip,
    hour: u32,
    zone_load: u32,
    sheet: &[HourLine],
    roster: &Roster,
    arrangement: Arrangement,
    archive: &mut Archive,
    list: &mut [u64],
) -> Answer<usize> {
    need((1..=slip.hours).contains(&hour) && u64::from(zone_load) <= MOST, 10)?;
    let mut suppliers = Vec::with_capacity(sheet.len());
    let (interval, profiled) = check_sheet(sheet, list.len(), roster, slip.day, &mut suppliers)?;
    let unaccounted = i64::from(zone_load) - (interval + profiled) as i64;
    let part = arrangement.interval_part(unaccounted, interval, profiled);
    let totals = [interval as i64 + part, profiled as i64 + (unaccounted - part)];
    need((interval != 0 || totals[0] == 0) && (profiled != 0 || totals[1] == 0), 24)?;
    need(totals[0] >= 0 && totals[1] >= 0, 25)?;
    let groups = [(totals[0] as u64, interval), (totals[1] as u64, profiled)];
    let slot = Row { energy: true, day: slip.day as u16, hour: hour as u8, stage: slip.stage, supplier: 0, amount: 0 };
    let count = book(sheet, &suppliers, groups, slot, archive, list)?;
    slip.settled |= 1 << (hour - 1);
    Ok(count)
}

fn peak(day: u32, allocation: u32, sheet: &[PeakLine], roster: &Roster, archive: &mut Archive, list: &mut [u64]) -> Answer<usize> {
    need((1..=60_000).contains(&day) && u64::from(allocation) <= MOST, 10)?;
    let mut suppliers = Vec::with_capacity(sheet.len());
    let (weight, _) = check_sheet(sheet, list.len(), roster, day, &mut suppliers)?;
    need(weight != 0 || allocation == 0, 24)?;
    let slot = Row { energy: false, day: day as u16, hour: 0, stage: 0, supplier: 0, amount: 0 };
    book(sheet, &suppliers, [(u64::from(allocation), weight), (0, 0)], slot, archive, list)
}

// ---- what is timed ----------------------------------------------------------------------------------------------

// A roster, a sheet of each kind, and the rows that are there before. Day 9003, hour 7.
struct Case {
    entries: Vec<Entry>,
    hour: Vec<HourLine>,
    peak: Vec<PeakLine>,
    rows: Vec<u8>,
}

const DAY: u32 = 9003;
const HOUR: u32 = 7;
const TOTAL: u32 = 2_000_000_000;

#[derive(Clone, Copy)]
enum Job {
    Settle(Arrangement),
    Peak,
}

#[derive(Clone, Copy, PartialEq)]
enum Kept {
    Index,
    Nothing,
}

// Sets roster and archive up, then settles that hour, or runs that peak, so many times with two totals in turn. Answers the rows
// that were added, or the first refusal.
fn plain(case: &Case, job: Job, kept: Kept, times: usize, memory: &mut [u8], list: &mut [u64]) -> i64 {
    let index = Index::new(if kept == Kept::Index { &case.entries } else { &[] });
    let roster = if kept == Kept::Index { Roster::Kept(&index) } else { Roster::Made(&case.entries) };
    let used = match take_in(&case.rows, memory) {
        Ok(used) => used,
        Err(refusal) => return refusal,
    };
    let mut archive = Archive { memory, used };
    let mut slip = Slip { day: DAY, hours: 24, stage: 1, settled: 0 };
    let mut added = 0;
    for time in 0..times {
        let total = TOTAL + 1_000_000 * (time % 2) as u32;
        let answer = match job {
            Job::Settle(arrangement) => settle(&mut slip, HOUR, total, &case.hour, &roster, arrangement, &mut archive, list),
            Job::Peak => peak(DAY, total, &case.peak, &roster, &mut archive, list),
        };
        match answer {
            Ok(count) => added += count as i64,
            Err(refusal) => return refusal,
        }
    }
    black_box(slip.settled);
    added
}

// The library's side. Words of a line: kind (1 interval, 2 profiled), account, loss factor and three figures; of a peak line: kind,
// account, loss factor, five figures, two further numbers; of an entry: account, from-day, supplier. A percentage above 100 asks for pro
// rata. Like `plain` it sets up, then settles `times` times with the totals TOTAL and TOTAL + 1000000 in turn, and answers the rows
// added, or a refusal's number with a minus.
#[cfg(library)]
mod library {
    use super::*;

    #[link(name = "settle_bench", kind = "static")]
    unsafe extern "C" {
        fn nookplover_bench_settle(
            times: u32,
            percent: u32,
            lines: *const u32,
            lines_len: usize,
            entries: *const u32,
            entries_len: usize,
            rows: *const u8,
            rows_len: usize,
            memory: *mut u8,
            memory_len: usize,
            list: *mut u64,
            list_len: usize,
        ) -> i64;
        fn nookplover_bench_peak(
            times: u32,
            lines: *const u32,
            lines_len: usize,
            entries: *const u32,
            entries_len: usize,
            rows: *const u8,
            rows_len: usize,
            memory: *mut u8,
            memory_len: usize,
            list: *mut u64,
            list_len: usize,
        ) -> i64;
    }

    pub fn run(case: &Case, job: Job, times: usize, memory: &mut [u8], list: &mut [u64]) -> i64 {
        let entries: Vec<u32> = case.entries.iter().flat_map(|e| [e.account, e.from_day, e.supplier]).collect();
        let lines: Vec<u32> = match job {
            Job::Settle(_) => case
                .hour
                .iter()
                .flat_map(|line| match *line {
                    HourLine::Interval { account, loss, reading } => [1, account, loss, reading, 0, 0],
                    HourLine::Profiled { account, loss, profile, billed, usage } => [2, account, loss, profile, billed, usage],
                })
                .collect(),
            Job::Peak => case
                .peak
                .iter()
                .flat_map(|l| {
                    let [a, b, c, d, e] = l.figures;
                    [l.kind, l.account, l.loss, a, b, c, d, e, l.further[0], l.further[1]]
                })
                .collect(),
        };
        let (rows, times) = (&case.rows, times as u32);
        // SAFETY: each pointer comes with the length of the slice that it is taken from, and no two overlap.
        unsafe {
            match job {
                Job::Settle(arrangement) => nookplover_bench_settle(
                    times,
                    if let Arrangement::Percent(p) = arrangement { p } else { u32::MAX },
                    lines.as_ptr(),
                    lines.len(),
                    entries.as_ptr(),
                    entries.len(),
                    rows.as_ptr(),
                    rows.len(),
                    memory.as_mut_ptr(),
                    memory.len(),
                    list.as_mut_ptr(),
                    list.len(),
                ),
                Job::Peak => nookplover_bench_peak(
                    times,
                    lines.as_ptr(),
                    lines.len(),
                    entries.as_ptr(),
                    entries.len(),
                    rows.as_ptr(),
                    rows.len(),
                    memory.as_mut_ptr(),
                    memory.len(),
                    list.as_mut_ptr(),
                    list.len(),
                ),
            }
        }
    }
}

// ---- cases ------------------------------------------------------------------------------------------------------

// Accounts rise by 1 to 9000. Every account has one entry; the roster has them in the order of the sheet, or in none.
fn case(lines: usize, shuffled: bool, row_count: usize) -> Case {
    let mut seed = 7;
    let mut draw = |below: u64| draw(&mut seed, below) as u32;
    let mut case = Case { entries: Vec::new(), hour: Vec::new(), peak: Vec::new(), rows: rows(row_count, 1_000_000) };
    let mut account = 0;
    for i in 0..lines {
        account += 1 + draw(9000);
        let loss = 10_000 + draw(2001);
        case.entries.push(Entry { account, from_day: 1 + draw(9003), supplier: 1 + draw(32) });
        let (reading, profile, billed, usage) = (draw(50_000), draw(50_000), draw(200_000), 50_000 + draw(100_000));
        case.hour.push(if i % 2 == 0 {
            HourLine::Interval { account, loss, reading: if draw(100) == 0 { MISSING } else { reading } }
        } else {
            HourLine::Profiled { account, loss, profile, billed, usage }
        });
        let (figures, further) = match 1 + i % 3 {
            1 => ([(); 5].map(|_| if draw(100) == 0 { MISSING } else { draw(50_000) }), [0, 0]),
            2 => ([(); 5].map(|_| draw(50_000)), [billed, usage]),
            _ => ([(); 5].map(|_| draw(10_001)), [reading, 0]),
        };
        case.peak.push(PeakLine { kind: 1 + (i % 3) as u32, account, loss, figures, further });
    }
    if shuffled {
        for i in (1..lines).rev() {
            case.entries.swap(i, draw(i as u64 + 1) as usize);
        }
    }
    case
}

// How many lines, how many settlings are timed, and how often. Each adds 32 rows at most, so that few keep an archive small.
const SIZES: [(usize, usize, usize); 3] = [(1_000, 16, 60), (8_192, 16, 15), (65_536, 64, 5)];

// The processor time of this thread, in ns: what others run on the machine counts little.
fn now() -> f64 {
    #[repr(C)]
    struct Time {
        seconds: i64,
        nanoseconds: i64,
    }
    unsafe extern "C" {
        fn clock_gettime(clock: i32, time: &mut Time) -> i32;
    }
    const THREAD: i32 = 3;
    let mut time = Time { seconds: 0, nanoseconds: 0 };
    // SAFETY: the clock is Linux's CLOCK_THREAD_CPUTIME_ID, and the time has the layout of its timespec.
    assert_eq!(unsafe { clock_gettime(THREAD, &mut time) }, 0, "no clock");
    time.seconds as f64 * 1e9 + time.nanoseconds as f64
}

// One settling more than are timed, less one settling, so that what comes before them falls out: the fastest of each, in ns a line.
fn time((lines, settlings, trials): (usize, usize, usize), mut work: impl FnMut(usize, &mut [u8], &mut [u64]) -> i64) -> f64 {
    let mut memory = vec![0u8; 983_040];
    let mut list = vec![0u64; lines];
    let mut once = |times: usize| {
        let start = now();
        assert!(black_box(work(times, &mut memory, &mut list)) > 0, "nothing was settled");
        now() - start
    };
    let (mut one, mut all) = (f64::INFINITY, f64::INFINITY);
    for _ in 0..trials {
        one = one.min(once(1));
        all = all.min(once(1 + settlings));
    }
    (all - one) / (settlings * lines) as f64
}

// The published worked example: the program below times what gives these figures.
fn worked() {
    let suppliers = [1, 2, 1, 1, 2, 2];
    let entries: Vec<Entry> =
        suppliers.iter().enumerate().map(|(i, s)| Entry { account: i as u32 + 1, from_day: 8000, supplier: *s }).collect();
    let index = Index::new(&entries);
    let profiled =
        |account, profile, billed| HourLine::Profiled { account, loss: 10_930, profile, billed, usage: 100_000 };
    let sheet = [
        HourLine::Interval { account: 1, loss: 10_930, reading: 3915 },
        HourLine::Interval { account: 2, loss: 10_850, reading: 69_255 },
        profiled(3, 153, 21_600),
        profiled(4, 1587, 183_500),
        profiled(5, 185, 68_500),
        profiled(6, 185, 85_600),
    ];
    let mut memory = vec![0u8; 10 * ROW];
    let mut archive = Archive { memory: &mut memory, used: 0 };
    let mut list = [0u64; 6];
    let mut slip = Slip { day: 9000, hours: 24, stage: 1, settled: 0 };
    let percent = Arrangement::Percent(5);
    assert_eq!(settle(&mut slip, 1, 83_000, &sheet, &Roster::Kept(&index), percent, &mut archive, &mut list), Ok(2));
    assert_eq!(list, [4279, 75_143, 36, 3226, 140, 176]);
    slip.stage = 2;
    assert_eq!(settle(&mut slip, 1, 83_100, &sheet, &Roster::Made(&entries), percent, &mut archive, &mut list), Ok(2));
    let amounts: Vec<i64> = archive.memory[..archive.used].chunks_exact(ROW).map(|row| read(row).unwrap().amount).collect();
    assert_eq!(amounts, [7541, 75_459, 87, 13]);
    assert_eq!(settle(&mut slip, 2, 83_000, &sheet, &Roster::Kept(&index), Arrangement::ProRata, &mut archive, &mut list), Ok(2));
    assert_eq!(list, [4281, 75_187, 36, 3184, 138, 174]);
    let none = Arrangement::Percent(0);
    assert_eq!(settle(&mut slip, 3, 79_419, &sheet, &Roster::Kept(&index), none, &mut archive, &mut list), Err(-25));
    let peaks = [
        PeakLine { kind: 1, account: 1, loss: 10_200, figures: [12_400, 13_100, 9000, 12_500, 12_600], further: [0, 0] },
        PeakLine { kind: 3, account: 2, loss: 10_000, figures: [9000, 8000, 8500, 9500, 10_000], further: [5000, 0] },
    ];
    assert_eq!(peak(9000, 17_000, &peaks, &Roster::Kept(&index), &mut archive, &mut list), Ok(2));
    assert_eq!(list[..2], [12_407, 4593]);
}

fn main() {
    worked();
    println!("ns a line, with as many entries as lines; plain Rust with its index kept, and made in each call; the ratio is to the faster of the two");
    println!(
        "{:>6} {:>6} {:<9} {:<10} {:>8} {:>11} {:>11} {:>6}",
        "lines", "rows", "roster", "work", "library", "index kept", "index made", "ratio"
    );
    // A number of lines as an argument runs that size alone.
    let only = std::env::args().nth(1);
    for size in SIZES.into_iter().filter(|size| only.as_ref().is_none_or(|only| *only == size.0.to_string())) {
        for row_count in [0, 60_000] {
            for shuffled in [false, true] {
                let case = case(size.0, shuffled, row_count);
                for (name, job) in
                    [("percent 5", Job::Settle(Arrangement::Percent(5))), ("pro rata", Job::Settle(Arrangement::ProRata)), ("peak", Job::Peak)]
                {
                    let kept = time(size, |times, memory, list| plain(&case, job, Kept::Index, times, memory, list));
                    let made = time(size, |times, memory, list| plain(&case, job, Kept::Nothing, times, memory, list));
                    #[cfg(library)]
                    let (ours, ratio) = {
                        let ours = library_time(size, &case, job);
                        (format!("{ours:.1}"), format!("{:.2}", ours / kept.min(made)))
                    };
                    #[cfg(not(library))]
                    let (ours, ratio) = ("-", "-");
                    let order = if shuffled { "shuffled" } else { "in order" };
                    println!("{:>6} {row_count:>6} {order:<9} {name:<10} {ours:>8} {kept:>11.1} {made:>11.1} {ratio:>6}", size.0);
                }
            }
        }
    }
}

// After a look at whether answer, rows and list are those of plain Rust.
#[cfg(library)]
fn library_time(size: (usize, usize, usize), case: &Case, job: Job) -> f64 {
    let (mut memory, mut list) = (vec![0u8; 983_040], vec![0u64; size.0]);
    let (mut other_memory, mut other_list) = (memory.clone(), list.clone());
    let answer = library::run(case, job, 3, &mut memory, &mut list);
    assert_eq!(answer, plain(case, job, Kept::Index, 3, &mut other_memory, &mut other_list), "the answers differ");
    assert!(memory == other_memory, "the rows differ");
    assert!(list == other_list, "the lists differ");
    time(size, |times, memory, list| library::run(case, job, times, memory, list))
}
