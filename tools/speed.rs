//! Times the checksum, and the reading and writing of frames with FECF, of this library and of the Rust module it carries over: both in one
//! process, in turn, on the same octets, after a check that they agree. A benchmark and no test. `tools/speed` builds and runs it.
//!
//! With no argument: times and ratios. With SIDE WORK OCTETS CALLS, as `ours read 1024 1000`: that many calls, for a counter of instructions;
//! the side `none` makes the calls' loop alone.
use std::hint::black_box;
use std::time::Instant;

use arbitrary_int::{u3, u4, u6};
use spacepackets::crc::{CRC_CCITT_FALSE, CRC_CCITT_FALSE_BIG_TABLE};
use spacepackets::uslp::{
    ConstructionRule, PrimaryHeader, SourceOrDestField, TransferFrameCreator, TransferFrameDataFieldHeader, TransferFrameReader, UslpProtocolId,
};

// crates/uslp_timing_c: a slice is its address and its length
unsafe extern "C" {
    fn uslp_timing_checksum(message: *const u8, len: usize) -> u16;
    fn uslp_timing_read(octets: *const u8, len: usize, found: *mut [u64; 16]) -> u8;
    #[rustfmt::skip]
    fn uslp_timing_write(spacecraft: u16, channel: u8, map: u8, width: u8, count: u64, data: *const u8, data_len: usize, buf: *mut u8, buf_len: usize) -> usize;
}

const SIZES: [usize; 6] = [16, 30, 64, 256, 1024, 65000];
const WORKS: [&str; 3] = ["checksum", "read", "write"];
// a frame's octets beside its data: primary header with a count of four octets, data field header, FECF
const AROUND: usize = 7 + 4 + 1 + 2;

// What a frame is written from; both sides get it as numbers that the compiler cannot know.
const FIELDS: (u16, u8, u8, u8, u64) = (0x1234, 5, 3, 4, 7);

fn our_checksum(message: &[u8]) -> u16 {
    unsafe { uslp_timing_checksum(message.as_ptr(), message.len()) }
}

fn our_read(frame: &[u8]) -> [u64; 16] {
    let mut found = [0; 16];
    assert_eq!(unsafe { uslp_timing_read(frame.as_ptr(), frame.len(), &mut found) }, 0);
    found
}

fn our_write(fields: (u16, u8, u8, u8, u64), data: &[u8], buf: &mut [u8]) -> usize {
    let (spacecraft, channel, map, width, count) = fields;
    unsafe { uslp_timing_write(spacecraft, channel, map, width, count, data.as_ptr(), data.len(), buf.as_mut_ptr(), buf.len()) }
}

// The Rust behind a call too, as src/uslp/mod.rs sums.
#[inline(never)]
fn rust_checksum(message: &[u8]) -> u16 {
    let mut digest = CRC_CCITT_FALSE.digest();
    digest.update(message);
    digest.finalize()
}

#[inline(never)]
fn rust16_checksum(message: &[u8]) -> u16 {
    CRC_CCITT_FALSE_BIG_TABLE.checksum(message)
}

#[inline(never)]
fn rust_read(frame: &[u8]) -> TransferFrameReader<'_> {
    TransferFrameReader::from_bytes(frame, true).unwrap()
}

#[inline(never)]
fn rust_write(fields: (u16, u8, u8, u8, u64), data: &[u8], buf: &mut [u8]) -> usize {
    let (spacecraft, channel, map, width, count) = fields;
    let mut header = PrimaryHeader::new(spacecraft, SourceOrDestField::Dest, u6::new(channel), u4::new(map), 0);
    header.set_vc_frame_count(u3::new(width), count).unwrap();
    let field = TransferFrameDataFieldHeader::new(ConstructionRule::NoSegmentation, UslpProtocolId::UserDefinedOctetStream, None).unwrap();
    TransferFrameCreator::new(header, field, data, None, true).write_to_slice(buf).unwrap()
}

fn octets(n: usize) -> Vec<u8> {
    (0..n).map(|i| (i * 167 + (i >> 8) * 31 + 13) as u8).collect()
}

// One call of a side's work on octets of this size; frames have this size as a whole.
fn work(side: &str, name: &str, size: usize) -> Box<dyn FnMut(usize)> {
    let message = octets(size);
    let data = octets(size.saturating_sub(AROUND));
    let mut buf = vec![0u8; data.len() + AROUND];
    let mut frame = buf.clone();
    rust_write(FIELDS, &data, &mut frame);
    macro_rules! calls {
        ($call:expr) => {
            Box::new(move |n| (0..n).for_each(|_| { black_box($call); }))
        };
    }
    match (side, name) {
        ("none", _) => calls!(black_box(&message).len()),
        ("ours", "checksum") => calls!(our_checksum(black_box(&message))),
        ("rust", "checksum") => calls!(rust_checksum(black_box(&message))),
        ("rust16", "checksum") => calls!(rust16_checksum(black_box(&message))),
        ("ours", "read") => calls!(our_read(black_box(&frame))),
        ("rust", "read") => calls!(rust_read(black_box(&frame))),
        ("ours", "write") => calls!(our_write(black_box(FIELDS), black_box(&data), black_box(&mut buf))),
        ("rust", "write") => calls!(rust_write(black_box(FIELDS), black_box(&data), black_box(&mut buf))),
        _ => panic!("SIDE is ours, rust, none or rust16 (checksum only); WORK is checksum, read or write"),
    }
}

// Both sides agree, at every length to 300 octets and at the sizes that are timed.
fn agree() {
    for n in (0..300).chain(SIZES) {
        let message = octets(n);
        assert_eq!(our_checksum(&message), rust_checksum(&message));
        assert_eq!(our_checksum(&message), rust16_checksum(&message));
        let (mut one, mut other) = (vec![0; n + AROUND], vec![0; n + AROUND]);
        assert_eq!(our_write(FIELDS, &message, &mut one), n + AROUND);
        assert_eq!(rust_write(FIELDS, &message, &mut other), n + AROUND);
        assert_eq!(one, other);
        let found = our_read(&one);
        let reader = rust_read(&one);
        let header = reader.primary_header();
        assert_eq!(found[0], header.spacecraft_id as u64);
        assert_eq!(found[2..5], [header.vc_id.value() as u64, header.map_id.value() as u64, header.len_frame() as u64 - 1]);
        assert_eq!(found[8..10], [header.vc_frame_count_len().value() as u64, header.vc_frame_count()]);
        assert_eq!(&one[found[14] as usize..][..found[15] as usize], reader.data());
    }
}

// The best time of one call of each side, in nanoseconds: the sides take turns, and other programs only ever add to a time.
fn times(sides: [&str; 2], name: &str, size: usize, rounds: usize) -> [f64; 2] {
    let mut works = sides.map(|side| work(side, name, size));
    let calls = 1_000_000 / (size + 100) + 1;
    let mut best = [f64::MAX; 2];
    for _ in 0..rounds {
        for (work, best) in works.iter_mut().zip(&mut best) {
            let start = Instant::now();
            work(calls);
            *best = best.min(start.elapsed().as_nanos() as f64 / calls as f64);
        }
    }
    best
}

fn main() {
    let words: Vec<String> = std::env::args().skip(1).collect();
    if let [side, name, size, calls] = &words[..] {
        return work(side, name, size.parse().unwrap())(calls.parse().unwrap());
    }
    agree();
    println!("Time of the Rust over ours; in brackets both, in nanoseconds.\n");
    println!("| octets | checksum | reading | writing | checksum, the Rust with 16 tables |\n|---|---|---|---|---|");
    for size in SIZES {
        let mut line = format!("| {size} |");
        for name in WORKS {
            let [ours, rust] = times(["ours", "rust"], name, size, 40);
            line += &format!(" {:.1} ({rust:.1} / {ours:.1}) |", rust / ours);
        }
        let [ours, rust] = times(["ours", "rust16"], "checksum", size, 40);
        println!("{line} {:.1} |", rust / ours);
    }
    for name in WORKS {
        let first = if name == "checksum" { 0 } else { AROUND };
        let ratio = |size| {
            let [ours, rust] = times(["ours", "rust"], name, size, 10);
            (rust / ours, size)
        };
        let (least, size) = (first..=300).map(ratio).min_by(|a, b| a.0.total_cmp(&b.0)).unwrap();
        println!("\nleast ratio of {name}, over all sizes to 300: {least:.2}, at {size} octets");
    }
}
