//! Packets, clean and damaged, read and written: beside the paper and beside libzvbi.
use against_the_world::{ours, zvbi};
use independent::paper::{self, good, Label, HAMMING};
use independent::random::Random;

/// So many are made and asked about together.
const ROUND: usize = 100_000;
const ROUNDS: usize = 12;
const PACKETS: u32 = (ROUND * ROUNDS) as u32;

fn many<T>(count: usize, make: impl FnMut(usize) -> T) -> Vec<T> {
    (0..count).map(make).collect()
}

#[test]
fn packet_a() {
    let hex = "15EA49151515151515 1515D08C2FEAA1FDB6388C1515".replace(' ', "");
    let mut p: Vec<u8> = (0..hex.len() / 2).map(|i| u8::from_str_radix(&hex[2 * i..2 * i + 2], 16).unwrap()).collect();
    p.resize(42, 0x20);
    let label = Label { designation: 2, cni: 0x1D65, pil: 0x7BCDE, ..Label::default() };
    assert_eq!(ours::read(&[p.clone()]), [Ok((label, 0))]);
    assert_eq!(ours::write(&[(label, p.clone())]), [(0, p)]);
}

#[test]
fn a_million_packets_as_the_paper_says() {
    let mut random = Random::new(830);
    let (mut refused, mut read) = ([0u32; 7], [0u32; 17]);
    for _ in 0..ROUNDS {
        let packets = many(ROUND, |_| random.packet());
        for (p, own) in packets.iter().zip(ours::read(&packets)) {
            let expected = paper::read(p);
            assert_eq!(own, expected, "{p:02X?}");
            match expected {
                Ok((_, mended)) => read[mended as usize] += 1,
                Err(number) => refused[number as usize] += 1,
            }
        }
    }
    assert_eq!(refused.iter().chain(&read).sum::<u32>(), PACKETS);
    // no refusal and no count of mended bytes is so rare that nothing was tried
    assert!(refused[1..].iter().chain(&read).all(|&seen| seen > PACKETS / 200), "{refused:?} {read:?}");
}

/// What libzvbi should give of a label. Expected difference: it has neither the spare bit nor the designation, nor does it tell how
/// many bytes were mended.
fn of_reading((l, _): (Label, u8)) -> zvbi::Pid {
    zvbi::Pid {
        lci: l.lci,
        luf: l.luf,
        prf: l.prf,
        pcs: l.pcs,
        mi: l.mi,
        cni: l.cni,
        pil: l.pil,
        pty: l.pty,
    }
}

#[test]
fn the_same_packets_as_libzvbi_says() {
    let mut random = Random::new(706);
    let (mut read, mut refused) = (0u32, 0u32);
    for _ in 0..ROUNDS {
        let packets = many(ROUND, |n| {
            let mut p = random.packet();
            // expected difference: libzvbi takes 42 bytes for granted and looks at bytes 9 to 21 only, so that refusals 1 to 5 are
            // ours alone
            p.resize(42, 0x15);
            p[0] = good(0);
            p[1] = good(15);
            p[2] = good(2 + (n % 2) as u8);
            p
        });
        for (p, own) in packets.iter().zip(ours::read(&packets)) {
            assert_eq!(own.map(of_reading).ok(), zvbi::read(p[..].try_into().unwrap()), "{p:02X?}");
            match own {
                Ok(_) => read += 1,
                Err(6) => refused += 1,
                Err(n) => panic!("{n}: {p:02X?}"),
            }
        }
    }
    assert_eq!(read + refused, PACKETS);
    assert!(read > PACKETS / 10 && refused > PACKETS / 10, "{read}");
}

#[test]
fn a_million_labels_written() {
    let mut random = Random::new(231);
    let mut answers = [0u32; 17];
    for _ in 0..ROUNDS {
        let labels = many(ROUND, |_| {
            let label = random.any_label();
            let length = if random.once_in(16) { random.below(64) as usize } else { 42 };
            (label, random.bytes(length))
        });
        let (mut accepted, mut packets) = (Vec::new(), Vec::new());
        for ((label, before), (answer, own)) in labels.iter().zip(ours::write(&labels)) {
            let mut expected = before.clone();
            assert_eq!(answer, paper::write(label, &mut expected), "{label:?}");
            assert_eq!(own, expected, "{label:?}");
            answers[answer as usize] += 1;
            if answer == 0 {
                accepted.push(Ok((*label, 0)));
                packets.push(own);
            } else {
                assert_eq!(own, *before);
            }
        }
        assert_eq!(ours::read(&packets), accepted);
    }
    assert_eq!(answers.iter().sum::<u32>(), PACKETS);
    assert!([0, 1, 16].iter().all(|&a| answers[a] > PACKETS / 50), "{answers:?}");
}

/// With one wrong bit in each of some of the sixteen bytes, whichever they are, the label is the same, and so many are mended.
#[test]
fn one_wrong_bit_in_each_of_some_bytes() {
    let mut random = Random::new(84);
    let clean = many(17 * 2_000, |_| random.clean_packet());
    let mut wrong = clean.clone();
    wrong.iter_mut().enumerate().for_each(|(n, p)| random.wrong_bits_in(p, n % 17));
    let mut read = [0; 17];
    for (n, (own, clean)) in ours::read(&wrong).into_iter().zip(ours::read(&clean)).enumerate() {
        assert_eq!(own, clean.map(|(label, mended)| (label, mended + (n % 17) as u8)), "{:02X?}", wrong[n]);
        if let Ok((_, mended)) = clean {
            assert_eq!(mended, 0);
            read[n % 17] += 1;
        }
    }
    assert!(read.iter().all(|&seen| seen > 1_500), "{read:?}");
}

#[test]
fn two_wrong_bits_in_one_byte_refuse_with_its_number() {
    let mut random = Random::new(248);
    let labels = many(2_000, |_| (random.label(), random.bytes(42)));
    let (mut packets, mut numbers) = (Vec::new(), Vec::new());
    for (answer, clean) in ours::write(&labels) {
        assert_eq!(answer, 0);
        for &i in &HAMMING {
            let mut p = clean.clone();
            random.wrong_bits(&mut p);
            let first = random.below(8);
            p[i] = clean[i] ^ 1 << first ^ 1 << (first + 1 + random.below(7)) % 8;
            packets.push(p);
            numbers.push(match i {
                0 | 1 => 2,
                2 => 4,
                _ => 6,
            });
        }
    }
    for ((p, number), own) in packets.iter().zip(numbers).zip(ours::read(&packets)) {
        assert_eq!(own, Err(number), "{p:02X?}");
    }
}

#[test]
fn no_byte_but_the_sixteen_is_read_or_counted() {
    let mut random = Random::new(42);
    let packets = many(20_000, |n| {
        let mut p = random.clean_packet();
        random.wrong_bits_in(&mut p, n % 17);
        p
    });
    let others = many(20_000, |n| {
        let mut other = random.bytes(42);
        for &i in &HAMMING {
            other[i] = packets[n][i];
        }
        other
    });
    assert_eq!(ours::read(&packets), ours::read(&others));
}

#[test]
fn a_lent_buffer_of_another_length_is_left_alone() {
    let mut random = Random::new(13);
    let p = random.clean_packet();
    let outs: Vec<_> = (0..40).filter(|&room| room != 14).map(|room| random.bytes(room)).collect();
    for (before, own) in outs.iter().zip(ours::read_into(&p, &outs)) {
        assert_eq!(own, (ours::WRONG_ROOM, before.clone()));
    }
    // also where the packet itself would be refused
    for (before, own) in outs.iter().zip(ours::read_into(&p[..41], &outs)) {
        assert_eq!(own, (ours::WRONG_ROOM, before.clone()));
    }
}

#[test]
fn fields_of_another_length_are_not_written() {
    let mut random = Random::new(14);
    let fields: Vec<_> = (0..40).filter(|&count| count != 13).map(|count| random.bytes(count)).collect();
    for length in [41, 42] {
        let before = random.bytes(length);
        for own in ours::write_from(&fields, &before) {
            assert_eq!(own, (ours::WRONG_ROOM, before.clone()));
        }
    }
}

#[test]
fn every_pil_names_its_service() {
    let pils: Vec<u32> = (0..1 << 20).chain([1 << 20 | 0x7FFF, 0x1F_FFFF, u32::MAX]).collect();
    for (&pil, own) in pils.iter().zip(ours::service(&pils)) {
        let expected = if pil < 1 << 20 { paper::service(pil) } else { 0 };
        assert_eq!(own, expected, "PIL {pil:05X}");
    }
}
