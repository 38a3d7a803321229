//! A plain Rust program that does the job of day_pool: a day file in, refusals and the listing out. Its records lie in a
//! directly indexed table. Like the statement it keeps every hour's line and the day's line true after each change.
use std::io::{self, Read, Write};

#[derive(Clone, Copy, Default)]
struct Record {
    seconds: i64,
    flags: u8,
    average: i64,
    rtd: i64,
    agc: i64,
    limit: i64,
    transactions: i64,
    spin: i64,
    prices: [i64; 3],
    reserve: [i64; 2],
}

#[derive(Clone, Copy, Default)]
struct Schedule {
    generation: i64,
    transactions: i64,
    spin: i64,
    prices: [i64; 3],
}

#[derive(Clone, Copy, Default)]
struct Line {
    settled: i64,
    intervals: i64,
    seconds: i64,
    ahead: [i64; 4],
    balance: i64,
    balancing: [i64; 4],
    spin: i64,
    total: i64,
}

#[derive(Clone, Copy, Default)]
struct Row {
    schedule: Option<Schedule>,
    reading: Option<i64>,
    line: Line,
}

struct Day {
    hours: u8,
    newer: bool,
    region: usize,
    records: [[Option<Record>; 24]; 25],
    rows: [Row; 25],
    day: Line,
}

fn nearest(n: i64, d: i64) -> i64 {
    let size = (n.unsigned_abs() + d as u64 / 2) / d as u64;
    if n < 0 { -(size as i64) } else { size as i64 }
}

fn amount(kw: i64, price: i64, seconds: i64) -> i64 {
    nearest(kw * price * seconds, 3_600_000)
}

fn within(x: i64, low: i64, high: i64) -> bool {
    x >= low && x <= high
}

fn is_power(x: i64) -> bool {
    within(x, 0, 2_000_000)
}

fn is_price(x: i64) -> bool {
    within(x, -1_000_000, 1_000_000)
}

fn bad_record(r: &Record) -> Option<u8> {
    if !within(r.seconds, 6, 3_600) {
        return Some(7);
    }
    if r.flags > 127 || (r.flags & 16 != 0 && r.flags & 8 == 0) {
        return Some(8);
    }
    let limits = [r.rtd, r.agc, r.limit];
    if !is_power(r.average) || !is_power(r.transactions) || !is_power(r.spin)
        || limits.iter().any(|&x| !within(x, -2_000_000, 2_000_000))
    {
        return Some(9);
    }
    if r.prices.iter().chain(&r.reserve).any(|&p| !is_price(p)) {
        return Some(10);
    }
    None
}

fn bad_schedule(s: &Schedule) -> Option<u8> {
    if !is_power(s.generation) || !is_power(s.transactions) || !is_power(s.spin) {
        return Some(9);
    }
    if s.prices.iter().any(|&p| !is_price(p)) {
        return Some(10);
    }
    None
}

impl Day {
    fn basis(&self, r: &Record, adjusted: i64) -> i64 {
        let kw = if r.flags & 7 != 0 || (r.flags & 8 != 0 && r.flags & 16 == 0) {
            adjusted
        } else if r.flags & 32 != 0 {
            adjusted.min(r.rtd)
        } else if r.flags & 64 != 0 {
            adjusted.min(r.agc)
        } else {
            adjusted.min(r.limit)
        };
        if self.newer { kw } else { kw.max(0) }
    }

    fn line(&self, hour: usize) -> Line {
        let row = &self.rows[hour];
        let mut line = Line::default();
        let mut volume = 0;
        for r in self.records[hour].iter().flatten() {
            line.intervals += 1;
            line.seconds += r.seconds;
            volume += r.average * r.seconds;
        }
        let Some(s) = row.schedule else {
            return line;
        };
        for (at, price) in s.prices.iter().enumerate() {
            line.ahead[at] = nearest((s.generation - s.transactions) * price, 1_000);
        }
        line.ahead[2] = -line.ahead[2];
        line.ahead[3] = line.ahead[0] + line.ahead[1] + line.ahead[2];
        if line.seconds == 3_600 {
            line.settled = 1;
            for r in self.records[hour].iter().flatten() {
                self.settle(row, &s, volume, r, &mut line);
            }
            let sign = if self.newer { -1 } else { 1 };
            line.balancing[3] = line.balancing[0] + line.balancing[1] - sign * line.balancing[2];
        }
        line.total = line.ahead[3] + line.balancing[3] + line.spin;
        line
    }

    fn settle(&self, row: &Row, s: &Schedule, volume: i64, r: &Record, line: &mut Line) {
        let adjusted = match row.reading {
            None => r.average,
            Some(kwh) if volume > 0 => nearest(3_600 * r.average * kwh, volume),
            Some(kwh) => kwh,
        };
        let balance = self.basis(r, adjusted) - s.generation - (r.transactions - s.transactions);
        line.balance += balance * r.seconds;
        for (at, price) in r.prices.iter().enumerate() {
            let cents = amount(balance, *price, r.seconds);
            line.balancing[at] += if at == 2 && self.newer { -cents } else { cents };
        }
        line.spin += amount(r.spin - s.spin, r.reserve[self.region], r.seconds);
    }

    fn rewrite(&mut self, hour: usize) {
        self.rows[hour].line = self.line(hour);
        let mut day = Line::default();
        for row in &self.rows {
            let line = &row.line;
            day.settled += line.settled;
            day.intervals += line.intervals;
            day.seconds += line.seconds;
            for at in 0..4 {
                day.ahead[at] += line.ahead[at];
                day.balancing[at] += line.balancing[at];
            }
            day.balance += line.balance;
            day.spin += line.spin;
            day.total += line.total;
        }
        self.day = day;
    }

    fn call(&mut self, key: &[u8], body: &[u8]) -> Result<(), u8> {
        let (kind, hour, slot) = (key[0], key[1] as usize, key[2] as usize);
        if hour >= self.hours as usize {
            return Err(5);
        }
        match kind {
            1 => {
                let w = |at: usize| word(body, 4 * at);
                let s = Schedule { generation: w(0), transactions: w(1), spin: w(2), prices: [w(3), w(4), w(5)] };
                bad_schedule(&s).map_or(Ok(()), Err)?;
                self.rows[hour].schedule = Some(s);
            }
            2 => self.post(hour, slot, &record(body))?,
            3 => {
                if slot > 23 {
                    return Err(6);
                }
                self.records[hour][slot].take().ok_or(13)?;
            }
            4 => {
                let kwh = word(body, 0);
                if !is_power(kwh) {
                    return Err(14);
                }
                self.rows[hour].reading = Some(kwh);
            }
            _ => {
                self.rows[hour].reading.take().ok_or(13)?;
            }
        }
        self.rewrite(hour);
        Ok(())
    }

    fn post(&mut self, hour: usize, slot: usize, r: &Record) -> Result<(), u8> {
        if slot > 23 {
            return Err(6);
        }
        bad_record(r).map_or(Ok(()), Err)?;
        let others: i64 = self.records[hour].iter().enumerate().filter(|(at, _)| *at != slot).filter_map(|(_, r)| r.as_ref()).map(|r| r.seconds).sum();
        if others + r.seconds > 3_600 {
            return Err(11);
        }
        self.records[hour][slot] = Some(*r);
        Ok(())
    }
}

fn word(body: &[u8], at: usize) -> i64 {
    i32::from_be_bytes([body[at], body[at + 1], body[at + 2], body[at + 3]]) as i64
}

fn record(body: &[u8]) -> Record {
    let w = |at: usize| word(body, 4 + 4 * at);
    Record {
        seconds: u16::from_be_bytes([body[0], body[1]]) as i64,
        flags: body[2],
        average: w(0),
        rtd: w(1),
        agc: w(2),
        limit: w(3),
        transactions: w(4),
        spin: w(5),
        prices: [w(6), w(7), w(8)],
        reserve: [w(9), w(10)],
    }
}

/// The number and the place of the first thing that is wrong with a file.
fn bad_file(data: &[u8]) -> Option<(u8, usize)> {
    if data.len() < 6 {
        return Some((16, data.len()));
    }
    let header = [(23..=25).contains(&data[0]), data[1] < 2, data[2] < 2, data[3] == 0];
    if let Some(at) = header.iter().position(|good| !good) {
        return Some((17, at));
    }
    let n = u16::from_be_bytes([data[4], data[5]]) as usize;
    if n > 1_000 {
        return Some((17, 4));
    }
    if data.len() != 6 + 52 * n {
        return Some((16, data.len()));
    }
    for at in 0..n {
        let (key, body) = (6 + 4 * at, 6 + 4 * n + 48 * at);
        let (key_zeros, body_zeros): (std::ops::Range<usize>, std::ops::Range<usize>) = match data[key] {
            1 => (2..4, 24..48),
            2 => (3..4, 3..4),
            3 => (3..4, 0..48),
            4 => (2..4, 4..48),
            5 => (2..4, 0..48),
            _ => return Some((18, key)),
        };
        let places = key_zeros.map(|z| key + z).chain(body_zeros.map(|z| body + z));
        for place in places {
            if data[place] != 0 {
                return Some((19, place));
            }
        }
    }
    None
}

fn main() -> io::Result<()> {
    let mut data = Vec::new();
    io::stdin().take(65_536).read_to_end(&mut data)?;
    let mut out = Vec::new();
    if let Some((number, place)) = bad_file(&data) {
        writeln!(out, "FILE,{number},{place}")?;
        io::stdout().write_all(&out)?;
        std::process::exit(1);
    }
    let n = u16::from_be_bytes([data[4], data[5]]) as usize;
    let mut day = Day {
        hours: data[0],
        newer: data[1] == 1,
        region: data[2] as usize,
        records: [[None; 24]; 25],
        rows: [Row::default(); 25],
        day: Line::default(),
    };
    for entry in 0..n {
        let key = &data[6 + 4 * entry..10 + 4 * entry];
        let body = 6 + 4 * n + 48 * entry;
        if let Err(number) = day.call(key, &data[body..body + 48]) {
            writeln!(out, "REFUSED,{entry},B,{number},{},{}", key[1], key[2])?;
        }
    }
    writeln!(out, "HOUR,STATE,DAY_AHEAD,ENERGY,LOSS,CONGESTION,SPIN,TOTAL")?;
    for (hour, row) in day.rows.iter().enumerate().filter(|(_, row)| row.schedule.is_some()) {
        let l = &row.line;
        let state = if l.settled == 1 { 'S' } else { 'U' };
        writeln!(out, "{hour},{state},{},{},{},{},{},{}", l.ahead[3], l.balancing[0], l.balancing[1], l.balancing[2], l.spin, l.total)?;
    }
    let l = &day.day;
    writeln!(out, "DAY,{},{},{},{},{},{},{}", l.settled, l.ahead[3], l.balancing[0], l.balancing[1], l.balancing[2], l.spin, l.total)?;
    io::stdout().write_all(&out)
}
