//! A node that hears a log: ports, sessions, the active bus of each source, and reassembly.

use crate::line::{form, Form};
use crate::plan::Plan;
use crate::program::Program;
use crate::report::{Report, FLUSH_AT};
use crate::tables::{at, crc_over, eight_digits, four_pairs, is_data_length, load_eight, load_sixteen, NOT_HEX};
use crate::{ended, Ended, NONE};

/// How long a log may last, in microseconds.
const LONGEST_LOG: u64 = 100_000_000_000;

/// A bus of the plan.
pub struct Bus {
    /// The name and a space, as a number and the bits of it that count.
    pub word: u128,
    pub mask: u128,
    /// The bytes of the name.
    pub len: usize,
    pub name: String,
}

/// A subject that is subscribed.
pub struct Port {
    /// The steps of its type; none where its payloads are told as bytes.
    pub program: Option<Program>,
    pub number: u16,
    pub extent: usize,
    /// How many more sources may get a session.
    pub room: u8,
}

/// The words ` BUS msg PORT SOURCE ` of a line, at most 31 bytes.
pub struct Label {
    pub text: [u8; 32],
    pub len: usize,
}

impl Label {
    pub fn of(bus: &Bus, port: u16, source: Option<u8>) -> Label {
        let source = source.map_or("-".into(), |s| s.to_string());
        let t = format!(" {} msg {port} {source} ", bus.name);
        let mut text = [0; 32];
        text[..t.len()].copy_from_slice(t.as_bytes());
        Label { text, len: t.len() }
    }
}

/// What is kept of a source on a port.
pub struct Session {
    /// The active bus; NONE before there is a session.
    pub bus: u8,
    /// The transfer-ID that was delivered last, or NONE.
    pub last: u8,
    /// The transfer-ID of the transfer that is put together, or NONE.
    pub part: u8,
    /// The toggle bit that the next frame is to have.
    pub toggle: u8,
    pub crc: u16,
    /// The moment of the frame that was heard last.
    pub heard: u64,
    /// Line and moment of the transfer's first frame.
    pub first: u64,
    pub moment: u64,
    /// The bytes of the transfer so far, those behind the extent too.
    pub taken: usize,
    /// The words of a line, with the active bus.
    pub label: Label,
    /// Room for the extent and 64 bytes more.
    pub buf: Box<[u8]>,
}

/// A line of the log that is a record.
pub struct Record {
    pub moment: u64,
    pub bus: usize,
    pub ident: u32,
    pub len: usize,
    pub data: [u8; 72],
}

/// A node, with what it has counted.
pub struct Node {
    pub node: u8,
    pub timeout: u64,
    pub buses: Vec<Bus>,
    /// The place of each subject in `ports`, or NONE.
    pub port_of: Box<[u8; 8192]>,
    pub ports: Vec<Port>,
    /// 128 a port, by the source's node-ID.
    pub sessions: Vec<Session>,
    /// The seconds of the record before and the point, as in the line, the bits of it that
    /// count, and their moment.
    pub second_text: u128,
    pub seconds_mask: u128,
    pub seconds_moment: u64,
    pub seconds_len: usize,
    pub out: Report,
    /// The moment of the record before, and the last that a record may have.
    pub last: u64,
    pub limit: u64,
    pub records: u64,
    pub delivered: u64,
    pub badcrc: u64,
    pub nosession: u64,
    pub held: u64,
}

impl Node {
    pub fn new(plan: Plan, out: Report) -> Node {
        let mut port_of = Box::new([NONE; 8192]);
        let mut ports = vec![];
        let mut sessions = vec![];
        for s in plan.subs {
            port_of[s.port as usize] = ports.len() as u8;
            ports.push(Port { program: s.program, number: s.port, extent: s.extent as usize, room: s.sources });
            sessions.extend((0..128).map(|_| Session {
                bus: NONE,
                last: NONE,
                part: NONE,
                toggle: 0,
                crc: 0,
                heard: 0,
                first: 0,
                moment: 0,
                taken: 0,
                label: Label { text: [0; 32], len: 0 },
                buf: Box::new([]),
            }));
        }
        let buses = plan.buses.iter().map(|b| {
            let mut w = [0u8; 16];
            w[..b.len()].copy_from_slice(b);
            w[b.len()] = b' ';
            Bus {
                word: u128::from_le_bytes(w),
                mask: if b.len() == 15 { !0 } else { (1u128 << (8 * (b.len() + 1))) - 1 },
                len: b.len(),
                name: String::from_utf8_lossy(b).into_owned(),
            }
        });
        Node {
            node: plan.node,
            timeout: plan.timeout,
            buses: buses.collect(),
            port_of,
            ports,
            sessions,
            second_text: 0,
            seconds_mask: !0,
            seconds_moment: 0,
            seconds_len: 0,
            out,
            last: 0,
            limit: 0,
            records: 0,
            delivered: 0,
            badcrc: 0,
            nosession: 0,
            held: 0,
        }
    }

    /// Takes 1 to 12 digits and a point at `p`.
    #[cold]
    #[inline(never)]
    pub fn seconds(&mut self, b: &[u8], p: usize) -> bool {
        let n = b[p..p + 13].iter().take_while(|c| c.is_ascii_digit()).count();
        if n == 0 || n > 12 || b[p + n] != b'.' {
            return false;
        }
        self.seconds_len = n;
        self.seconds_mask = (1 << (8 * (n + 1))) - 1;
        self.second_text = load_sixteen(&b[p..]) & self.seconds_mask;
        self.seconds_moment = b[p..p + n].iter().fold(0, |v, c| v * 10 + (c - b'0') as u64) * 1_000_000;
        true
    }

    /// The one common form of a record, from the place `p` on. The place behind its newline,
    /// or 0 where the line is anything else or isn't whole; `buf` has zeros behind its bytes.
    #[inline(always)]
    pub fn quick(&mut self, b: &[u8], p: usize, rec: &mut Record) -> usize {
        let t = at::<17>(b, p);
        if t[0] != b'(' {
            return 0;
        }
        if (load_sixteen(&t[1..]) ^ self.second_text) & self.seconds_mask != 0 && !self.seconds(b, p + 1) {
            return 0;
        }
        // Behind the point: six digits, `) `, the bus and a space.
        let mut q = p + 2 + self.seconds_len;
        let t = at::<24>(b, q);
        let w = load_eight(t);
        let m = w & 0xFFFF_FFFF_FFFF;
        if w >> 48 != 0x2029
            || (m & 0xF0F0_F0F0_F0F0) | (m + 0x0606_0606_0606 & 0xF0F0_F0F0_F0F0) >> 4 != 0x3333_3333_3333
        {
            return 0;
        }
        rec.moment = self.seconds_moment + eight_digits(w << 16 | 0x3030);
        let w = load_sixteen(&t[8..]);
        let Some(bus) = self.buses.iter().position(|x| (w ^ x.word) & x.mask == 0) else {
            return 0;
        };
        rec.bus = bus;
        q += self.buses[bus].len + 9;
        // Eight digits, `#` or `##F`, the data.
        let t = at::<11>(b, q);
        let [w, x, y, z] = four_pairs(t.first_chunk().unwrap());
        if w | x | y | z >= NOT_HEX || t[8] != b'#' {
            return 0;
        }
        rec.ident = (w as u32) << 24 | (x as u32) << 16 | (y as u32) << 8 | z as u32;
        q += 9;
        let fd = t[9] == b'#';
        if fd {
            if !t[10].is_ascii_hexdigit() {
                return 0;
            }
            q += 2;
        }
        let mut len = 0;
        let t = at::<128>(b, q);
        for (d, s) in rec.data.chunks_exact_mut(4).zip(t.chunks_exact(8)) {
            let [w, x, y, z] = four_pairs(s.first_chunk().unwrap());
            [d[0], d[1], d[2], d[3]] = [w as u8, x as u8, y as u8, z as u8];
            if w | x | y | z >= NOT_HEX {
                // At most three pairs, and then no digit.
                len += if w >= NOT_HEX {
                    0
                } else if x >= NOT_HEX {
                    1
                } else if y >= NOT_HEX {
                    2
                } else {
                    3
                };
                break;
            }
            len += 4;
        }
        q += 2 * len;
        rec.len = len;
        if !is_data_length(fd, len) || rec.ident > 0x1FFF_FFFF {
            return 0;
        }
        if b[q] != b'\n' {
            if b[q] == b' ' && (b[q + 1] == b'R' || b[q + 1] == b'T') {
                q += 2;
            }
            if b[q] == b'\r' {
                q += 1;
            }
            if b[q] != b'\n' {
                return 0;
            }
        }
        q + 1
    }

    /// One line of any form, without its newline.
    #[cold]
    #[inline(never)]
    pub fn line(&mut self, line: &[u8], n: u64, rec: &mut Record) -> Result<(), Ended> {
        match form(line, rec) {
            Form::Bad => ended(4, format!("log line {n}: BadLine")),
            Form::Skipped => Ok(()),
            Form::Record(name) => {
                let name = [name, b" "].concat();
                let bus = |x: &Bus| x.word.to_le_bytes()[..=x.len] == name[..];
                match self.buses.iter().position(bus) {
                    None => ended(4, format!("log line {n}: UnknownBus")),
                    Some(bus) => {
                        rec.bus = bus;
                        self.record(rec, n)
                    }
                }
            }
        }
    }

    #[cold]
    #[inline(never)]
    pub fn refused(&self, rec: &Record, n: u64) -> Result<(), Ended> {
        let why = if rec.moment < self.last { "TimeBack" } else { "TooFar" };
        ended(4, format!("log line {n}: {why}"))
    }

    #[inline(always)]
    pub fn record(&mut self, rec: &Record, n: u64) -> Result<(), Ended> {
        if self.records == 0 {
            self.limit = rec.moment + LONGEST_LOG;
        }
        if rec.moment < self.last || rec.moment > self.limit {
            return self.refused(rec, n);
        }
        self.last = rec.moment;
        self.records += 1;
        // No service is subscribed; a message has bits 23 and 7 clear.
        if rec.ident & (1 << 25 | 1 << 23 | 1 << 7) != 0 || rec.len == 0 {
            return Ok(());
        }
        let port = self.port_of[(rec.ident >> 8 & 0x1FFF) as usize];
        if port == NONE {
            return Ok(());
        }
        self.frame(rec, n, port as usize);
        if self.out.t.pos >= FLUSH_AT {
            self.out.flush()
        } else {
            Ok(())
        }
    }

    /// A message frame with data on a subscribed port.
    #[inline(always)]
    pub fn frame(&mut self, rec: &Record, n: u64, port: usize) {
        let size = rec.len - 1;
        let body = &rec.data[..size];
        let tail = rec.data[size];
        let (start, end, tid) = (tail & 0x80 != 0, tail & 0x40 != 0, tail & 31);
        let single = start && end;
        if (start && tail & 0x20 == 0) || (!end && size < 7) || (!single && size == 0) {
            return;
        }
        let extent = self.ports[port].extent;
        let source = (rec.ident & 127) as u8;
        if rec.ident >> 24 & 1 == 1 {
            if single {
                self.delivered += 1;
                let label = Label::of(&self.buses[rec.bus], self.ports[port].number, None);
                self.out.rx(
                    &label,
                    rec.ident,
                    tid,
                    rec.moment,
                    n,
                    n,
                    &rec.data,
                    size.min(extent),
                    self.ports[port].program.as_ref(),
                );
            }
            return;
        }
        if source == self.node {
            return;
        }
        let s = &mut self.sessions[port * 128 + source as usize];
        let bus = rec.bus as u8;
        let mut late = false;
        if s.bus == bus {
            late = rec.moment - s.heard > self.timeout;
        } else if !start {
            return;
        } else if s.bus == NONE {
            let p = &mut self.ports[port];
            if p.room == 0 {
                self.nosession += 1;
                let label = Label::of(&self.buses[rec.bus], p.number, Some(source));
                self.out.nosession(&label, rec.moment, n);
                return;
            }
            p.room -= 1;
            self.held += extent as u64;
            s.buf = vec![0; extent + 64].into_boxed_slice();
            s.bus = bus;
            s.label = Label::of(&self.buses[rec.bus], p.number, Some(source));
        } else {
            late = rec.moment - s.heard > self.timeout;
            if !late {
                return;
            }
            s.bus = bus;
            s.label = Label::of(&self.buses[rec.bus], self.ports[port].number, Some(source));
        }
        s.heard = rec.moment;
        if start {
            if tid == s.last && !late {
                return;
            }
            if end {
                s.part = NONE;
                s.last = tid;
                self.delivered += 1;
                self.out.rx(
                    &s.label,
                    rec.ident,
                    tid,
                    rec.moment,
                    n,
                    n,
                    &rec.data,
                    size.min(extent),
                    self.ports[port].program.as_ref(),
                );
                return;
            }
            s.part = tid;
            s.toggle = 0;
            s.first = n;
            s.moment = rec.moment;
            keep(&mut s.buf, 0, &rec.data, size);
            s.taken = size;
            s.crc = crc_over(0xFFFF, body);
            return;
        }
        if s.part != tid || tail & 0x20 != s.toggle {
            return;
        }
        s.toggle ^= 0x20;
        if s.taken < extent {
            keep(&mut s.buf, s.taken, &rec.data, size);
        }
        s.taken += size;
        s.crc = crc_over(s.crc, body);
        if end {
            s.part = NONE;
            if s.crc != 0 {
                self.badcrc += 1;
                return;
            }
            s.last = tid;
            self.delivered += 1;
            let size = (s.taken - 2).min(extent);
            self.out.rx(
                &s.label,
                rec.ident,
                tid,
                s.moment,
                s.first,
                n,
                &s.buf,
                size,
                self.ports[port].program.as_ref(),
            );
        }
    }
}

/// Copies a whole block where the buffer, by its 64 bytes more, has room for it; what stands
/// behind the `size` bytes is overwritten by the next frame or lies behind the extent.
#[inline(always)]
pub fn keep(buf: &mut [u8], at: usize, data: &[u8; 72], size: usize) {
    if size <= 8 {
        buf[at..at + 8].copy_from_slice(&data[..8]);
    } else {
        buf[at..at + 64].copy_from_slice(&data[..64]);
    }
}
