//! Each call, with answers that are known.

use aes3::{
    Account, Block, Channel, Check, Error, Event, Form, Gap, Levels, Lock, Report, Reports, Status, Sum, Sums,
    Validity, Watch, Why, BLOCK_CELLS, BLOCK_WORDS,
};
use aes3::{Recovery, SampleForm, SubframeForm, BLOCK_OCTETS};
use aes3::{Wav, WavBits, WavFault, WavRead};
use core::num::NonZeroU64;
use std::io::{self, ErrorKind, Read};

/// A word of a block with its parity.
fn word(sample: u32, status: bool) -> u32 {
    let word = sample << 4 | u32::from(status) << 30;
    word | (word.count_ones() & 1) << 31
}

/// A professional status of 48 kHz with its check byte, in channel 1 alone, over samples that differ.
fn block() -> (Block, Status) {
    let mut status = Status { bytes: [0; 24] };
    status.bytes[..3].copy_from_slice(&[0x85, 0x02, 0x2c]);
    status.bytes[23] = status.check_byte();
    let mut block = Block::silence();
    for (i, it) in block.words.iter_mut().enumerate() {
        let frame = i / 2;
        *it = word(0x123456 + i as u32, i % 2 == 0 && status.bytes[frame / 8] >> (frame % 8) & 1 == 1);
    }
    (block, status)
}

#[test]
fn a_block_comes_back_from_its_cells() {
    let (block, _) = block();
    for before in [false, true] {
        let cells = block.encode(before).unwrap();
        let mut lock = Lock::new();
        let mut told = Vec::new();
        lock.push(if before { 1 } else { 0 }, 1, |report| told.push(report)).unwrap();
        for cells in cells.chunks(100) {
            lock.take(cells, |report| told.push(report)).unwrap();
        }
        assert_eq!(told, []);
        assert_eq!(lock.seen(), 1 + BLOCK_CELLS as u64);
        assert_eq!(lock.clone().finish(), Some(Report::Whole { at: 1, before, block }));
    }
}

#[test]
fn a_turned_cell_is_a_fault_and_the_block_behind_it_is_whole() {
    let (block, _) = block();
    let mut cells = Vec::new();
    for _ in 0..3 {
        cells.extend(block.encode(false).unwrap());
    }
    cells[BLOCK_WORDS + 10] ^= 1 << 20;
    let mut told = Vec::new();
    let mut lock = Lock::default();
    lock.take(&cells, |report| told.push(report)).unwrap();
    told.extend(lock.finish());
    let size = BLOCK_CELLS as u64;
    let fault = Report::Fault { at: size, cell: size + 660, why: Why::Biphase };
    assert_eq!(told.len(), 3);
    assert_eq!(told[1], fault);
    assert_eq!(fault.to_string(), "fault at 24576 cell 25236 biphase");
    assert_eq!(told[2], Report::Whole { at: 2 * size, before: false, block });
}

#[test]
fn octets_tell_what_their_words_tell() {
    let (block, _) = block();
    let mut cells = Vec::new();
    for _ in 0..3 {
        cells.extend(block.encode(true).unwrap());
    }
    cells[BLOCK_WORDS + 10] ^= 1 << 20;
    let octets: Vec<u8> = cells.iter().flat_map(|word| aes3::octets_of_word(*word)).collect();
    let (mut told, mut wanted) = (Vec::new(), Vec::new());
    let mut lock = Lock::new();
    lock.take(&cells, |report| wanted.push(report)).unwrap();
    for size in [1, 13, 3000, octets.len()] {
        told.clear();
        let mut other = Lock::new();
        for octets in octets.chunks(size) {
            other.take_octets(octets, |report| told.push(report)).unwrap();
        }
        assert_eq!((other.seen(), other.finish()), (lock.seen(), lock.finish()));
        assert_eq!(told, wanted);
    }
}

#[test]
fn the_end_of_the_cells_cuts_a_block() {
    let cells = block().0.encode(false).unwrap();
    let mut lock = Lock::new();
    lock.take(&cells[..10], |report| panic!("{report}")).unwrap();
    assert_eq!(lock.finish(), Some(Report::Unfinished { at: 0, cells: 640 }));
    assert_eq!(Lock::new().finish(), None);
}

#[test]
fn a_word_of_wrong_parity_is_not_valid_and_its_cells_are_marked() {
    let (mut block, _) = block();
    let mut cells = block.encode(false).unwrap();
    block.words[7] ^= 1 << 31;
    assert_eq!(block.encode(false), Err(Error::BadWord { word: 7 }));
    assert_eq!(block.status(Channel::One), Err(Error::BadWord { word: 7 }));
    // The last slot of subframe 7, and all levels behind it the other way.
    let last = BLOCK_WORDS - 1;
    cells[last] ^= 1 << 63;
    let mut lock = Lock::new();
    lock.take(&cells, |report| panic!("{report}")).unwrap();
    assert!(matches!(lock.finish(), Some(Report::Marked { at: 0, before: false, wrong: 1 })));
}

#[test]
fn status_and_samples() {
    let (block, status) = block();
    assert_eq!(block.status(Channel::One), Ok(status));
    assert_eq!(block.status(Channel::Two), Ok(Status { bytes: [0; 24] }));
    let professional = status.professional().unwrap();
    assert_eq!((professional.rate, professional.aux, professional.word), (2, 4, 5));
    assert_eq!((status.consumer(), status.check()), (None, Check::Good));
    assert_eq!(Status::of_professional(&professional), Some(status));
    let other = Status { bytes: [4; 24] };
    assert_eq!(Status::of_consumer(&other.consumer().unwrap()), Some(other));
    assert_eq!(Status::of_professional(&aes3::Professional { rate: 4, ..professional }), None);
    assert!(other.professional().is_none());
    assert_eq!(other.consumer().unwrap().copyright, 1);
    let mut bytes = status.bytes;
    bytes[23] = 0;
    assert_eq!(Status { bytes }.check(), Check::Absent);
    bytes[23] = status.bytes[23] ^ 1;
    assert_eq!(Status { bytes }.check(), Check::Bad);
    assert_eq!(block.sample(0, Channel::One), 0x12345600);
    let samples = block.samples().unwrap();
    assert_eq!((samples[0], samples[383]), (0x12345600, block.sample(191, Channel::Two)));
    assert_eq!(aes3::Block::of_samples(&samples).samples(), Ok(samples));
    assert_eq!(block.sample(191, Channel::Two), 0x1234_5600 + 383 * 256);
    let mut low = Block::silence();
    low.words[0] = word(0x800000, false);
    assert_eq!(low.sample(0, Channel::One), i32::MIN);
}

#[test]
fn fields_by_their_names() {
    let mut status = Status { bytes: [0; 24] };
    for (text, result) in [
        ("use=professional", Ok(())),
        ("emphasis=50/15", Ok(())),
        ("rate=192000", Ok(())),
        ("word=24", Err(Error::OtherStatus)),
        ("aux=audio", Ok(())),
        ("word=24", Ok(())),
        ("origin=BBC", Ok(())),
        ("time=4294967295", Ok(())),
        ("time=4294967296", Err(Error::UnknownSetting)),
        ("copyright=asserted", Err(Error::OtherStatus)),
        ("", Err(Error::UnknownSetting)),
        ("origin", Err(Error::UnknownSetting)),
        ("\u{fc}=1", Err(Error::UnknownSetting)),
    ] {
        let before = status;
        assert_eq!(status.set(text), result, "{text}");
        assert!(result.is_ok() || status == before);
        assert!(status.check() == Check::Good);
    }
    let professional = status.professional().unwrap();
    assert_eq!((professional.emphasis, professional.aux, professional.word), (3, 4, 5));
    assert_eq!((professional.origin, professional.time, status.rate()), (*b"BBC ", u32::MAX, Some(192_000)));
    let mut status = Status { bytes: [0; 24] };
    status.set("rate=48000").unwrap();
    assert_eq!(status.bytes, Status::of_consumer(&aes3::Consumer { rate: 2, ..Default::default() }).unwrap().bytes);
}

#[test]
fn bits_beside_the_audio() {
    let (block, status) = block();
    let mut other = block;
    other.set_user(Channel::Two, &status.bytes).unwrap();
    other.set_validity(Channel::One, &[1; 24]).unwrap();
    assert_eq!(other.user(Channel::Two), Ok(status.bytes));
    assert_eq!(other.validity(Channel::One), Ok([1; 24]));
    assert_eq!((other.user(Channel::One), other.validity(Channel::Two)), (Ok([0; 24]), Ok([0; 24])));
    assert_eq!(other.status(Channel::One), Ok(status));
    assert_eq!(other.words[0], block.words[0] ^ 1 << 28 ^ 1 << 31);
    other.set_user(Channel::Two, &[0; 24]).unwrap();
    other.set_validity(Channel::One, &[0; 24]).unwrap();
    assert_eq!(other, block);
    other.set_status(Channel::Two, &status).unwrap();
    assert_eq!(other.status(Channel::Two), Ok(status));
    other.words[9] ^= 1;
    assert_eq!(other.set_user(Channel::One, &[0; 24]), Err(Error::BadWord { word: 9 }));
}

#[test]
fn gaps() {
    let block_cells = BLOCK_CELLS as u64;
    let mut account = Account::new();
    let mut told = Vec::new();
    account.passed(2 * block_cells, |gap| told.push(gap));
    assert_eq!(told, [Gap { at: 0, cells: block_cells, counts: true }]);
    account.before(&Report::Fault { at: 2 * block_cells - 1, cell: 2 * block_cells, why: Why::Biphase }, |gap| {
        told.push(gap)
    });
    assert_eq!(told.len(), 1);
    let whole = |at| Report::Whole { at, before: false, block: Block::silence() };
    account.before(&whole(block_cells + 7), |gap| told.push(gap));
    account.before(&whole(2 * block_cells + 9), |gap| told.push(gap));
    account.clone().end(3 * block_cells + 9, |gap| panic!("{gap}"));
    account.end(3 * block_cells + 10, |gap| told.push(gap));
    assert_eq!(
        told[1..],
        [
            Gap { at: block_cells, cells: 7, counts: false },
            Gap { at: 2 * block_cells + 7, cells: 2, counts: true },
            Gap { at: 3 * block_cells + 9, cells: 1, counts: false },
        ]
    );
    assert_eq!(told[1].to_string(), "gap at 24576 cells 7");
}

#[test]
fn events() {
    let block_cells = BLOCK_CELLS as u64;
    let mut watch = Watch::new();
    let mut told = Vec::new();
    let mut block = Block::silence();
    watch.passed(2 * block_cells - 1, |event| panic!("{event}"));
    watch.report(&Report::Whole { at: 100, before: true, block }, |event| told.push(event));
    assert_eq!(told, [Event::Locked { at: 100, before: true }]);
    block.set_status(Channel::Two, &Status { bytes: [4; 24] }).unwrap();
    block.set_validity(Channel::One, &[255; 24]).unwrap();
    let at = 107 + block_cells;
    watch.report(&Report::Whole { at, before: true, block }, |event| told.push(event));
    assert_eq!(
        told[1..],
        [
            Event::Slipped { at, cells: 7 },
            Event::Status { at, channel: Channel::Two, status: Status { bytes: [4; 24] } },
            Event::Validity { at, channel: Channel::One, validity: Validity::Set },
        ]
    );
    let clone = watch.clone();
    watch.passed(at + 3 * block_cells, |event| told.push(event));
    assert_eq!(told[4..], [Event::Lost { at: at + block_cells }]);
    watch.report(&Report::Whole { at: at + 3 * block_cells, before: true, block }, |event| told.push(event));
    watch.end(at + 4 * block_cells, |event| told.push(event));
    clone.end(at + block_cells, |event| told.push(event));
    let lines: Vec<String> = told[5..].iter().map(|event| event.to_string()).collect();
    assert_eq!(lines, ["back at 98411 lost 49152", "end at 122987 locked", "end at 49259 locked"]);
    assert_eq!(told[2].to_string(), format!("status at {at} channel 2 {}", "04".repeat(24)));
    assert_eq!(told[3].to_string(), format!("validity at {at} channel 1 set"));
    assert_eq!(told[0].to_string(), "locked at 100 before 1");
}

#[test]
fn levels() {
    let mut levels = Levels::new();
    assert_eq!((levels.blocks(), levels.peak(Channel::One), levels.rms(Channel::Two)), (0, None, None));
    let mut samples = [0; BLOCK_WORDS];
    samples.iter_mut().step_by(2).for_each(|sample| *sample = -1 << 30);
    let loud = Block::of_samples(&samples);
    levels.add(&loud);
    assert_eq!(
        (levels.peak(Channel::One), levels.rms(Channel::One), levels.greatest(Channel::One)),
        (Some(60), Some(60), 1 << 22)
    );
    assert_eq!((levels.blocks(), levels.peak(Channel::Two), levels.rms(Channel::Two)), (1, None, None));
    let mut clone = levels.clone();
    clone.add(&Block::silence());
    assert_eq!((clone.peak(Channel::One), clone.rms(Channel::One), clone.blocks()), (Some(60), Some(90), 2));
    assert_eq!(levels.blocks(), 1);
}

#[test]
fn sums() {
    let block_cells = BLOCK_CELLS as u64;
    assert!(Sums::new(0).is_none() && Sums::new((1 << 40) + 1).is_none() && Sums::new(1 << 40).is_some());
    let mut sums = Sums::new(block_cells).unwrap();
    let mut told = Vec::new();
    let mut block = Block::silence();
    sums.passed(2 * block_cells - 1, |sum| panic!("{sum}"));
    sums.report(&Report::Whole { at: 100, before: true, block }, |sum| panic!("{sum}"));
    sums.report(&Report::Fault { at: 200, cell: 300, why: Why::Biphase }, |sum| panic!("{sum}"));
    block.set_validity(Channel::One, &[255; 24]).unwrap();
    let at = 3 * block_cells;
    sums.report(&Report::Whole { at, before: true, block }, |sum| told.push(sum));
    let first = Sum { from: 0, to: block_cells, whole: 1, fault: 1, biphase: 1, ..Sum::default() };
    let second = Sum { from: block_cells, to: 2 * block_cells, ..Sum::default() };
    let third = Sum { from: 2 * block_cells, to: at, lost: block_cells, ..Sum::default() };
    assert_eq!(told, [first, second, third]);
    let mut clone = sums.clone();
    sums.passed(6 * block_cells, |sum| told.push(sum));
    let fourth = Sum { lost: block_cells - 100, whole: 1, invalid: [192, 0], changes: 1, ..period_of(at, block_cells) };
    assert_eq!(told[3..], [fourth, Sum { lost: block_cells, ..period_of(at + block_cells, block_cells) }]);
    clone.end(at + 5, |sum| told.push(sum));
    let line = "sum from 73728 to 73733 whole 1 marked 0 fault 0 preamble 0 biphase 0 unclosed 0 lost 24476 invalid1 192 invalid2 0";
    assert_eq!(told[5].to_string(), format!("{line} changes 1"));
    assert_eq!(told.len(), 6);
}

/// A period of so many cells, in which nothing is counted.
fn period_of(from: u64, cells: u64) -> Sum {
    Sum { from, to: from + cells, ..Sum::default() }
}

#[test]
fn words_as_text_and_octets() {
    let word = 0x0123_4567_89ab_cdef;
    let line = aes3::line_of_word(word);
    assert_eq!(line[64], b'\n');
    assert_eq!(&line[..4], b"1111");
    assert_eq!(aes3::word_of_text(line[..64].try_into().unwrap()), Some(word));
    assert_eq!(aes3::word_of_text(&[b'x'; 64]), None);
    assert_eq!(aes3::word_of_octets(&aes3::octets_of_word(word)), word);
    assert_eq!(aes3::octets_of_word(1), [0x80, 0, 0, 0, 0, 0, 0, 0]);
}

#[test]
fn captures() {
    let (block, _) = block();
    let words = block.encode(false).unwrap();
    let level = |i: usize| (words[i / 64 % 384] >> (i % 64) & 1) as u8;
    let samples: Vec<u8> = (0..8 * aes3::BLOCK_CELLS).flat_map(|i| [0x55, level(i / 4) << 3]).collect();
    let mut cells = vec![0; aes3::room_for(samples.len())];
    let found = aes3::cells_of_samples(&samples, aes3::Unit::Pairs(11), None, &mut cells).unwrap();
    // No edge tells where the first run began, so its cells are counted by the period of those behind it.
    assert_eq!((found.cells, found.octets), (2 * 24576, 2 * 3072 + 1));
    let found_level = |i: usize| cells[i / 8] >> (7 - i % 8) & 1;
    assert!((0..2 * 24576).all(|i| found_level(i) == level(i)));
    assert_eq!(aes3::cells_of_samples(&samples, aes3::Unit::Pairs(11), None, &mut cells[..9]), Err(Error::NoRoom));
    assert_eq!(aes3::cells_of_samples(&samples, aes3::Unit::Octets(5), None, &mut cells).unwrap().measured, 0);
}

/// The cells of samples that come in pieces of this size, and what was found.
fn in_pieces(samples: &[u8], size: usize, unit: aes3::Unit, period: Option<NonZeroU64>) -> (Vec<u8>, aes3::Capture) {
    let mut cells = Vec::new();
    let mut recovery = Recovery::new(unit, period);
    for piece in samples.chunks(size) {
        recovery.take(piece, |octets| cells.extend_from_slice(octets)).unwrap();
        recovery.take(&[], |_| panic!("no samples have no cells")).unwrap();
    }
    assert_eq!(recovery.figures().octets, cells.len() as u64);
    let found = recovery.clone().finish(|octets| cells.extend_from_slice(octets)).unwrap();
    assert!(format!("{recovery:?}").starts_with("Recovery { unit: "));
    (cells, found)
}

#[test]
fn captures_in_pieces() {
    let (block, _) = block();
    let words = block.encode(false).unwrap();
    let level = |i: usize| (words[i / 64 % 384] >> (i % 64) & 1) as u8;
    let octets: Vec<u8> = (0..6 * BLOCK_CELLS).map(|i| level(i / 5) << 3 | 0x51).collect();
    let pairs: Vec<u8> = (0..6 * BLOCK_CELLS).flat_map(|i| [0x55, level(i / 5) << 3]).chain([8]).collect();
    // A long time without a line, whose cells come at once where one is found.
    let late: Vec<u8> = core::iter::repeat(0x51).take(3_000_000).chain(octets.iter().copied()).collect();
    for (samples, unit, period) in [
        (&octets[..], aes3::Unit::Octets(3), None),
        (&octets, aes3::Unit::Octets(3), NonZeroU64::new(5 << 16)),
        (&octets, aes3::Unit::Octets(1), None),
        (&pairs, aes3::Unit::Pairs(11), None),
        (&late, aes3::Unit::Octets(3), None),
        (&pairs[..1], aes3::Unit::Pairs(11), None),
        (&[], aes3::Unit::Pairs(11), None),
    ] {
        for size in [1, 2, 3, 4032, 65536, usize::MAX] {
            let samples = if size < 4032 { &samples[..samples.len().min(20_001)] } else { samples };
            let mut cells = vec![0; aes3::room_for(samples.len())];
            let found = aes3::cells_of_samples(samples, unit, period, &mut cells).unwrap();
            cells.truncate(found.octets as usize);
            assert_eq!(in_pieces(samples, size, unit, period), (cells, found), "{unit:?} in pieces of {size}");
        }
    }
}

#[test]
fn many_blocks() {
    let (block, _) = block();
    let mut blocks = [block, Block::silence(), block];
    let cells: Vec<u64> = blocks.iter().flat_map(|it| it.encode(true).unwrap()).collect();
    let octets: Vec<u8> = cells.iter().flat_map(|word| aes3::octets_of_word(*word)).collect();
    let mut found = vec![0x5a; 3 * BLOCK_OCTETS + 1];
    assert_eq!(aes3::encode_blocks(&blocks, true, &mut found), Ok(3));
    assert_eq!((&found[..3 * BLOCK_OCTETS], found[3 * BLOCK_OCTETS]), (&octets[..], 0x5a));
    assert_eq!(aes3::encode_blocks(&blocks, false, &mut found[..3 * BLOCK_OCTETS - 1]), Ok(2));
    assert_eq!(
        (aes3::encode_blocks(&[], false, &mut found), aes3::encode_blocks(&blocks, false, &mut [])),
        (Ok(0), Ok(0))
    );

    let mut read = [Block::silence(); 3];
    for form in [SubframeForm::Own, SubframeForm::Alsa, SubframeForm::Am824] {
        let mut octets = [0; 3 * 1536];
        assert_eq!(aes3::subframes_of_blocks(&blocks, form, &mut octets), Ok(3));
        assert_eq!(aes3::blocks_of_subframes(&octets, form, &mut read), Ok(3));
        assert_eq!(read, blocks);
        assert_eq!(aes3::subframes_of_blocks(&blocks, form, &mut octets[..1535]), Ok(0));
        assert_eq!(aes3::blocks_of_subframes(&octets[..2 * 1536 + 5], form, &mut read), Ok(2));
        assert_eq!(aes3::blocks_of_subframes(&octets, form, &mut read[..1]), Ok(1));
    }
    let mut own = [0; 1536];
    aes3::subframes_of_blocks(&[block], SubframeForm::Own, &mut own).unwrap();
    assert!(own.chunks(4).zip(block.words).all(|(octets, word)| octets == word.to_le_bytes()));

    let samples: Vec<i32> = blocks.iter().flat_map(|it| it.samples().unwrap()).collect();
    for form in [SampleForm::S32, SampleForm::S24, SampleForm::S24In32, SampleForm::S16] {
        let mut octets = vec![0; 3 * 384 * form.octets()];
        assert_eq!(aes3::samples_of_blocks(&blocks, form, &mut octets), Ok(3));
        for (octets, sample) in octets.chunks(form.octets()).zip(&samples) {
            let wide = sample.to_le_bytes();
            match form {
                SampleForm::S32 => assert_eq!(octets, wide),
                SampleForm::S24 => assert_eq!(octets, &wide[1..]),
                SampleForm::S24In32 => assert_eq!(octets, (sample >> 8).to_le_bytes()),
                SampleForm::S16 => assert_eq!(octets, &wide[2..]),
            }
        }
        assert_eq!(aes3::blocks_of_samples(&octets, form, &mut read), 3);
        let kept = if form == SampleForm::S16 { !0xffff } else { !0 };
        assert!(read.iter().flat_map(|it| it.samples().unwrap()).eq(samples.iter().map(|it| it & kept)));
        assert_eq!(read[0].status(Channel::One), Ok(Status { bytes: [0; 24] }));
        assert_eq!(aes3::blocks_of_samples(&octets[1..], form, &mut read), 2);
        assert_eq!(aes3::samples_of_blocks(&blocks[..2], form, &mut octets), Ok(2));
    }

    // A word that is not valid: what is before its block is put.
    blocks[1].words[6] = 1;
    found.fill(0x5a);
    let wrong = Error::BadWord { word: 390 };
    assert_eq!(aes3::encode_blocks(&blocks, true, &mut found), Err(wrong));
    assert_eq!((&found[..BLOCK_OCTETS], found[BLOCK_OCTETS]), (&octets[..BLOCK_OCTETS], 0x5a));
    assert_eq!(aes3::samples_of_blocks(&blocks, SampleForm::S16, &mut found), Err(wrong));
    assert_eq!(aes3::subframes_of_blocks(&blocks, SubframeForm::Own, &mut found), Err(wrong));
    assert_eq!(aes3::encode_blocks(&blocks[..1], true, &mut found), Ok(1));
    assert_eq!(wrong.to_string(), "word 390 is not valid");
    let mut alsa = [0; 2 * 1536];
    aes3::subframes_of_blocks(&[block, block], SubframeForm::Alsa, &mut alsa).unwrap();
    alsa[1536] ^= 8 | 2; // The code of another preamble.
    assert_eq!(aes3::blocks_of_subframes(&alsa, SubframeForm::Alsa, &mut read), Err(Error::BadWord { word: 384 }));
}

/// Reads pieces of this size, each after an interruption, and then ends or fails.
struct Pieces<'a> {
    left: &'a [u8],
    size: usize,
    is_interrupted: bool,
    fault: Option<ErrorKind>,
}

impl Read for Pieces<'_> {
    fn read(&mut self, to: &mut [u8]) -> io::Result<usize> {
        self.is_interrupted = !self.is_interrupted;
        if self.is_interrupted {
            return Err(ErrorKind::Interrupted.into());
        }
        let count = self.size.min(self.left.len()).min(to.len());
        if let (0, Some(kind)) = (count, self.fault) {
            return Err(kind.into());
        }
        to[..count].copy_from_slice(&self.left[..count]);
        self.left = &self.left[count..];
        Ok(count)
    }
}

/// What the lock reports of these cells, and the end.
fn told_of(cells: &[u64], rest: (u64, u32)) -> (Vec<Report>, Option<Report>) {
    let mut lock = Lock::new();
    let mut told = Vec::new();
    lock.take(cells, |report| told.push(report)).unwrap();
    lock.push(rest.0, rest.1, |report| told.push(report)).unwrap();
    (told, lock.finish())
}

#[test]
fn reports_of_what_is_read_in_each_form_and_in_pieces() {
    let (block, _) = block();
    let mut cells = Vec::new();
    for _ in 0..3 {
        cells.extend(block.encode(true).unwrap());
    }
    cells[BLOCK_WORDS + 10] ^= 1 << 20;
    let octets: Vec<u8> = cells.iter().flat_map(|word| aes3::octets_of_word(*word)).collect();
    let text: Vec<u8> = cells.iter().flat_map(|word| aes3::line_of_word(*word)).collect();
    // The rest after the blocks: cells 1 1 0, which begin another one.
    let (told, end) = told_of(&cells, (3, 3));
    assert_eq!(told.len(), 3);
    let packed = [&octets[..], &[0xc0, 5]].concat();
    let lines = [&text[..], b"1 1\r\n0"].concat();
    let wanted: Vec<Report> = told.iter().cloned().chain(end).collect();
    let (mut whole, end) = told_of(&cells, (0, 0));
    whole.extend(end);
    let counted = [&octets[..], &[0]].concat();
    for size in [1, 2, 3, 1000, 65536, usize::MAX] {
        for (form, line, wanted) in [
            (Form::Packed, &packed, &wanted),
            (Form::Text, &lines, &wanted),
            (Form::Raw, &octets, &whole),
            (Form::Packed, &counted, &whole),
            (Form::Text, &text, &whole),
        ] {
            let from = Pieces { left: line, size, is_interrupted: false, fault: None };
            let mut reports = Reports::new(from, form);
            let found: Vec<Report> = reports.by_ref().map(Result::unwrap).collect();
            assert_eq!(&found, wanted, "{form:?} in pieces of {size}");
            assert_eq!(reports.seen(), 3 * BLOCK_CELLS as u64 + if wanted == &whole { 0 } else { 3 });
            assert!(reports.next().is_none());
            // An input that fails: what was decided before, without what its end would decide.
            let from = Pieces { left: line, size, is_interrupted: false, fault: Some(ErrorKind::BrokenPipe) };
            let mut reports = Reports::new(from, form);
            let (found, errors): (Vec<_>, Vec<_>) = reports.by_ref().partition(Result::is_ok);
            let found: Vec<Report> = found.into_iter().map(Result::unwrap).collect();
            let decided = if form == Form::Packed || wanted == &whole { &whole[..2] } else { &told[..] };
            assert_eq!(found, decided, "{form:?} in pieces of {size}");
            assert_eq!(errors.len(), 1);
            assert_eq!(errors[0].as_ref().unwrap_err().kind(), ErrorKind::BrokenPipe);
            assert!(reports.next().is_none());
        }
    }
}

#[test]
fn input_that_is_rejected() {
    let why = |line: &[u8], form| {
        let mut reports = Reports::new(line, form);
        let error = reports.by_ref().find_map(Result::err).unwrap();
        assert!(reports.next().is_none());
        assert_eq!(error.kind(), ErrorKind::InvalidData);
        *error.get_ref().unwrap().downcast_ref::<Error>().unwrap()
    };
    assert_eq!(why(b"01\n2", Form::Text), Error::NotACell { at: 3 });
    assert_eq!(why(&[b'1'; 70_000].map(|byte| byte + 1), Form::Text), Error::NotACell { at: 0 });
    let mut late = vec![b'0'; 70_000];
    late[69_999] = 0;
    assert_eq!(why(&late, Form::Text), Error::NotACell { at: 69_999 });
    for octets in [&[][..], &[1], &[8], &[0, 8], &[1, 1], &[0xff, 0xff, 3], &[0, 0, 255]] {
        assert_eq!(why(octets, Form::Packed), Error::NotPacked { len: octets.len() as u64 });
    }
    for (octets, form) in [(&[0][..], Form::Packed), (&[], Form::Raw), (&[], Form::Text), (b" \r\n", Form::Text)] {
        assert!(Reports::new(octets, form).next().is_none());
    }
    assert!(Error::Full.to_string().contains("2^43"));
    assert_eq!(io::Error::from(Error::Wav { at: 0, fault: WavFault::Ended }).kind(), ErrorKind::UnexpectedEof);
}

#[test]
fn texts() {
    let (block, status) = block();
    assert!(status.to_string().starts_with("professional payload=pcm emphasis=none "));
    assert!(status.to_string().ends_with(&format!("check={}", status.check())));
    assert_eq!(block.status(Channel::Two).unwrap().to_string().split(' ').next(), Some("consumer"));
    for byte in 0..=255 {
        assert!(Status { bytes: [byte; 24] }.to_string().is_ascii());
    }
    assert_eq!(format!("{} {} {}", Channel::One, Channel::Two, Check::Absent), "1 2 absent");
    // The words that aes3.h has.
    assert_eq!(format!("{} {} {}", Why::Preamble, Why::Biphase, Why::Unclosed), "preamble biphase unclosed");
    assert_eq!(format!("{} {} {}", Check::Good, Check::Absent, Check::Bad), "good absent bad");
    assert_eq!(aes3::library_version(), (0, 1, 0));
    let report = Report::Unfinished { at: 5, cells: 7 };
    assert_eq!((report.at(), report.is_fault(), report.to_string()), (5, false, "unfinished at 5 cells 7".into()));
    let rate = |bytes: &[u8]| {
        let mut status = Status { bytes: [0; 24] };
        status.bytes[..bytes.len()].copy_from_slice(bytes);
        status.rate()
    };
    assert_eq!((rate(&[0]), rate(&[0, 0, 0, 0x19]), rate(&[0, 0, 0, 1])), (Some(44_100), Some(768_000), None));
    assert_eq!((rate(&[0xc1, 0, 0, 0, 8]), rate(&[1, 0, 0, 0, 0x10]), rate(&[1])), (Some(32_000), Some(96_000), None));
}

#[test]
fn wav_headers_and_samples() {
    for (bits, len) in [(WavBits::B16, 80), (WavBits::B24, 104), (WavBits::B32, 104)] {
        let header = Wav::write(bits, 44_100, Some(3));
        assert_eq!((header.len(), &header[..4], header.as_ref().len()), (len, &b"RIFF"[..], len));
        for count in 0..len {
            match Wav::read(&header[..count]) {
                Ok(WavRead::More { needed }) => assert!(count < needed as usize && needed as usize <= len),
                other => panic!("{other:?}"),
            }
            let error = Wav::read_from(&header[..count]).unwrap_err();
            let wanted = Error::Wav { at: count as u64, fault: WavFault::Ended };
            assert_eq!(error.get_ref().unwrap().downcast_ref(), Some(&wanted));
        }
        let wav = Wav::read_from(&header[..]).unwrap();
        assert_eq!(Wav::read(&header), Ok(WavRead::Header(wav)));
        assert_eq!((wav.start, wav.len), (len as u64, Some(6 * bits.octets() as u64)));
        assert_eq!(
            (wav.rate, wav.channels, wav.bits as usize, wav.frame()),
            (44_100, 2, bits as usize, 2 * bits.octets())
        );
        let sound = [0x1234_5678, -1, i32::MIN, 0, 7 << 16, -7 << 16];
        let octets: Vec<u8> = sound.iter().flat_map(|sample| bits.octets_of(*sample)).collect();
        let mut samples = [5; 8];
        let kept = |sample: i32| sample >> (32 - bits as u32) << (32 - bits as u32);
        assert_eq!(wav.samples((1, 2), &octets, &mut samples), Ok(3));
        assert_eq!(samples[..6], sound.map(kept));
        assert_eq!(samples[6..], [5, 5]);
        assert_eq!(wav.samples((2, 0), &octets, &mut samples[..3]), Ok(1));
        assert_eq!(samples[..3], [kept(-1), 0, kept(i32::MIN)]);
        for (channels, channel) in [((0, 1), 0), ((3, 1), 3), ((1, 3), 3)] {
            assert_eq!(wav.samples(channels, &octets, &mut samples), Err(Error::NoChannel { channel }));
        }
    }
    assert_eq!(Wav::read_from(&Wav::write(WavBits::B24, 48_000, None)[..]).unwrap().len, None);
    assert_eq!(Wav::write(WavBits::B24, 48_000, Some(1 << 40))[..4], *b"RF64");
    assert_eq!(Wav::read(b"RIFX\0\0\0\0WAVE"), Err(Error::Wav { at: 0, fault: WavFault::NotRiff }));
    assert_eq!(Wav::read(b"RIFF\0\0\0\0AVI "), Err(Error::Wav { at: 8, fault: WavFault::NotWave }));
    let mut header = Wav::write(WavBits::B16, 44_100, Some(0)).to_vec();
    let format = header.windows(4).position(|it| it == b"fmt ").unwrap() + 8;
    header[format] = 3;
    match Wav::read(&header) {
        Err(Error::Wav { fault, .. }) => {
            assert_eq!((fault, fault.to_string()), (WavFault::NotPcm, "the samples are not PCM".into()))
        }
        other => panic!("{other:?}"),
    }
    // A chunk of 4 GiB that is not there takes no memory.
    let mut long = b"RIFF\xff\xff\xff\xffWAVEJUNK\xff\xff\xff\xff".to_vec();
    long.extend([0; 100]);
    assert_eq!(Wav::read_from(&long[..]).unwrap_err().kind(), ErrorKind::UnexpectedEof);
}
