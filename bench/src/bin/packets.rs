//! Times the reading of a packet: ours, libzvbi's, and the ordinary desk's. `packets` prints nanoseconds, a line for each kind of
//! packet; `packets KIND READER COUNT` only reads, for a counter of instructions.
use bench::turns;
use independent::{paper, random};
use std::os::raw::{c_int, c_uint, c_void};

extern "C" {
    fn probe_read(bytes: *const u8, length: usize, out: *mut u8, room: usize) -> u8;
    fn vbi_decode_teletext_8302_pdc(pid: *mut ProgramId, buffer: *const u8) -> c_int;
}

#[repr(C)]
struct ProgramId {
    numbers: [c_uint; 10],
    reserved2: [*mut c_void; 2],
    reserved3: [c_int; 4],
}

type Packet = [u8; 42];

const KINDS: [&str; 3] = ["clean", "mended", "mixed"];
const READERS: [&str; 3] = ["ours", "libzvbi", "rust"];
const PACKETS: usize = 1024;

/// Every reader takes or refuses the same of these: libzvbi does not look at address and designation, so they are good.
fn packet(r: &mut random::Random, kind: &str) -> Packet {
    let label = paper::Label { luf: 0, ..r.label() };
    let mut p = [0; 42];
    p.copy_from_slice(&r.bytes(42));
    assert_eq!(paper::write(&label, &mut p), 0);
    match kind {
        "clean" => {}
        "mended" => paper::HAMMING.iter().for_each(|&at| p[at] ^= 1 << r.below(8)),
        _ => match r.below(6) {
            0 | 1 | 2 => {}
            3 | 4 => r.wrong_bits(&mut p),
            _ => {
                r.wrong_bits(&mut p);
                p[9 + r.below(13) as usize] = paper::good(r.below(16) as u8) ^ 0b11 << r.below(7);
            }
        },
    }
    p
}

struct Bench {
    /// The label's thirteen bytes, and the count of mended ones.
    out: [u8; 14],
    pid: ProgramId,
}

impl Bench {
    fn new() -> Bench {
        Bench { out: [0; 14], pid: unsafe { std::mem::zeroed() } }
    }

    fn ours(&mut self, p: &Packet) -> bool {
        unsafe { probe_read(p.as_ptr(), p.len(), self.out.as_mut_ptr(), self.out.len()) == 0 }
    }

    fn libzvbi(&mut self, p: &Packet) -> bool {
        unsafe { vbi_decode_teletext_8302_pdc(&mut self.pid, p.as_ptr()) != 0 }
    }

    // a call, as the two others are
    #[inline(never)]
    fn rust(&mut self, p: &Packet) -> bool {
        match bench::packet::read(p) {
            Ok(label) => {
                unsafe { std::ptr::write_volatile(&mut self.pid.numbers[0], label.pil ^ label.cni as u32) };
                true
            }
            Err(_) => false,
        }
    }

    /// How many of them are taken.
    fn read(&mut self, reader: &str, packets: &[Packet], count: usize) -> usize {
        let those = packets.iter().cycle().take(count);
        match reader {
            "ours" => those.filter(|p| self.ours(p)).count(),
            "libzvbi" => those.filter(|p| self.libzvbi(p)).count(),
            _ => those.filter(|p| self.rust(p)).count(),
        }
    }
}

fn main() {
    let words: Vec<String> = std::env::args().skip(1).collect();
    let mut bench = Bench::new();
    if let [kind, reader, count] = &words[..] {
        let mut r = random::Random::new(8);
        let packets: Vec<Packet> = (0..64).map(|_| packet(&mut r, kind)).collect();
        let count = count.parse().expect("a count");
        bench.read(reader, &packets, count);
        return;
    }
    for kind in KINDS {
        let mut r = random::Random::new(8);
        let packets: Vec<Packet> = (0..PACKETS).map(|_| packet(&mut r, kind)).collect();
        for p in &packets {
            let taken = [bench.ours(p), bench.libzvbi(p), bench.rust(p)];
            assert!(taken.iter().all(|&t| t == paper::read(p).is_ok()), "{taken:?} of {p:02X?}");
        }
        let times = turns::medians(READERS.len(), PACKETS, |reader, count| {
            bench.read(READERS[reader], &packets, count);
        });
        println!("{kind}{}", times.iter().map(|time| format!(" {time:.1}")).collect::<String>());
    }
}
