//! The transaction of examples/flowlet.domino written by hand, as a yardstick for the time and the memory of
//! `mp5 one`: one thread, the whole capture in memory, the same lines through a large buffer. It trusts its
//! capture, which has to be one of Ethernet frames without tags, with numbers least significant byte first and
//! moments in microseconds. `tools/bench` compiles and runs it.
//!
//!     yardstick CAPTURE

use std::io::{self, BufWriter, Write};

const FLOWLETS: i32 = 8000;
const THRESHOLD: i32 = 500;
const HOPS: i32 = 10;
const NEVER: i32 = -1_000_000;
const BUFFER: usize = 1 << 20;

/// FNV-1a of 32 bits over a byte of salt and the words, least significant byte first, without its top bit.
fn hash<const N: usize>(salt: u8, words: [i32; N]) -> i32 {
    let step = |state: u32, byte: u8| (state ^ u32::from(byte)).wrapping_mul(16_777_619);
    let start = step(2_166_136_261, salt);
    let state = words.iter().flat_map(|word| word.to_le_bytes()).fold(start, step);
    (state & 0x7fff_ffff) as i32
}

/// The number in the file header or a record header at this byte.
fn number(capture: &[u8], at: usize) -> u32 {
    u32::from_le_bytes([capture[at], capture[at + 1], capture[at + 2], capture[at + 3]])
}

/// The source port and the destination port of a frame.
fn ports(frame: &[u8]) -> (i32, i32) {
    let at = 14 + usize::from(frame[14] & 15) * 4;
    let port = |at: usize| i32::from(u16::from_be_bytes([frame[at], frame[at + 1]]));
    (port(at), port(at + 2))
}

/// The moment of a record, in microseconds.
fn moment(record: &[u8]) -> i64 {
    i64::from(number(record, 0)) * 1_000_000 + i64::from(number(record, 4))
}

/// What outlives the packets.
struct Registers {
    last_time: Vec<i32>,
    saved_hop: Vec<i32>,
}

/// One packet's fields, in order of declaration.
struct Packet {
    arrival: i32,
    sport: i32,
    dport: i32,
    id: i32,
    new_hop: i32,
    next_hop: i32,
}

impl Packet {
    fn new(arrival: i32, (sport, dport): (i32, i32), registers: &mut Registers) -> Packet {
        let new_hop = hash(0x33, [sport, dport, arrival]) % HOPS;
        let id = hash(0x32, [sport, dport]) % FLOWLETS;
        let cell = id as usize;
        if arrival.wrapping_sub(registers.last_time[cell]) > THRESHOLD {
            registers.saved_hop[cell] = new_hop;
        }
        registers.last_time[cell] = arrival;
        Packet { arrival, sport, dport, id, new_hop, next_hop: registers.saved_hop[cell] }
    }
}

fn register_lines(out: &mut impl Write, name: &str, cells: &[i32], start: i32) -> io::Result<()> {
    for (index, value) in cells.iter().enumerate().filter(|(_, value)| **value != start) {
        writeln!(out, "reg {name}[{index}]={value}")?;
    }
    Ok(())
}

fn main() -> io::Result<()> {
    let name = std::env::args_os().nth(1).ok_or_else(|| io::Error::other("yardstick CAPTURE"))?;
    let capture = std::fs::read(name)?;
    let mut registers = Registers {
        last_time: vec![NEVER; FLOWLETS as usize],
        saved_hop: vec![0; FLOWLETS as usize],
    };
    let mut out = BufWriter::with_capacity(BUFFER, io::stdout().lock());
    let (mut at, mut count, mut first) = (24, 0, None);
    while at < capture.len() {
        let record = &capture[at..];
        let now = moment(record);
        let arrival = (now - *first.get_or_insert(now)).rem_euclid(1 << 31) as i32;
        let size = number(record, 8) as usize;
        let p = Packet::new(arrival, ports(&record[16..16 + size]), &mut registers);
        write!(out, "pkt {count} arrival={} sport={} dport={}", p.arrival, p.sport, p.dport)?;
        writeln!(out, " id={} new_hop={} next_hop={}", p.id, p.new_hop, p.next_hop)?;
        at += 16 + size;
        count += 1;
    }
    register_lines(&mut out, "last_time", &registers.last_time, NEVER)?;
    register_lines(&mut out, "saved_hop", &registers.saved_hop, 0)?;
    writeln!(out, "done {count}")?;
    out.flush()
}
