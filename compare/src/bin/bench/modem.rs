//! Receiver, sender, builder and finder. The slots and bursts must be equal, and the sent samples bit for bit.

use crate::print;
use compare::generate::random::Random;
use compare::generate::signal::{downlink_burst, Carrier, Channel};
use compare::phy::components::demodulator::{demodulator_private, Demodulator, Mode};
use compare::phy::components::dsp_types::ComplexSample;
use compare::phy::components::modulator::{self, Modulator};
use compare::phy::components::slotter;
use compare::phy::traits::rxtx_dev::TxSlotBits;
use compare::TdmaTime;
use std::hint::black_box;
use std::time::{Duration, Instant};

const SLOTS: usize = 1000;
pub const SLOT: usize = 1020;
const SAMPLES: usize = SLOTS * SLOT;
/// Single calls of the receiver copy its state, and liquid-dsp takes its time: fewer samples will do.
pub const FEW: usize = 20 * SLOT;
const CARRIERS: usize = 8;
const RUNS: usize = 5;

/// This library's functions (include/tetra_modem.h, crates/bench_signal). A slice passes as a pointer and then its length.
mod library {
    /// All of a receiver but its past.
    #[derive(Clone, Copy)]
    #[repr(C, align(8))]
    pub struct State {
        head: [u32; 9],
        pub slot_waits: bool,
        rest: [u8; 1923],
    }

    #[derive(Clone, Copy)]
    #[repr(C)]
    pub struct Sender {
        pub filter: [f32; 64],
        pub phase: u8,
    }

    #[repr(C)]
    pub struct Answered {
        pub refusal: u32,
        pub state: State,
    }

    #[repr(C)]
    pub struct Fed {
        pub taken: usize,
        pub slot: bool,
        pub refusal: u32,
        pub state: State,
    }

    #[derive(Clone, Copy)]
    #[repr(C)]
    pub struct Burst {
        pub train_type: u8,
        pub train_errs: usize,
        pub burst_pos: usize,
        pub burst_len: usize,
    }

    #[derive(Clone, Copy)]
    #[repr(C)]
    pub struct Handed {
        pub time: u32,
        pub closing_counter: i64,
        pub bursts: [Burst; 3],
    }

    #[repr(C)]
    pub struct Taken {
        pub refusal: u32,
        pub slot: Handed,
        pub state: State,
    }

    #[repr(C)]
    pub struct Sent {
        pub count: usize,
        pub refusal: u32,
        pub sender: Sender,
    }

    #[repr(C)]
    pub struct SentSample {
        pub refusal: u32,
        pub re: f32,
        pub im: f32,
        pub sender: Sender,
    }

    #[rustfmt::skip]
    extern "C" {
        pub fn tetra_state_new(mode: u32) -> State;
        pub fn tetra_state_sample(state: State, past_re: *mut f32, past_im: *mut f32, past_abs: *mut f32, re: f32, im: f32, counter: i64) -> Answered;
        pub fn tetra_state_feed(state: State, past_re: *mut f32, past_im: *mut f32, past_abs: *mut f32, samples: *const f32, _: usize, first: i64) -> Fed;
        pub fn tetra_state_take(state: State, slot: *mut u8, _: usize, half1: *mut u8, _: usize, half2: *mut u8, _: usize) -> Taken;
        pub fn bench_receive(samples: *const f32, _: usize, numbers: *mut u32, _: usize) -> usize;
        pub fn tetra_sender_new() -> Sender;
        pub fn tetra_send_sample(sender: Sender, counter: i64, slot: u32, has_bits: u32, bits: *const u8, _: usize) -> SentSample;
        pub fn tetra_send(sender: Sender, first: i64, slot: u32, has_bits: u32, bits: *const u8, _: usize, out: *mut f32, _: usize) -> Sent;
        pub fn bench_send_single(bits: *const u8, _: usize, out: *mut f32, _: usize) -> usize;
        pub fn tetra_build_normal(train: u32, blk1: *const u8, _: usize, bbk: *const u8, _: usize, blk2: *const u8, _: usize, bits: *mut u8, _: usize) -> u32;
        pub fn tetra_judge(kind: u32, bits: *const u8, _: usize, answer: *mut u8, _: usize) -> u32;
    }
}

use library::{Sender, State};

/// A receiver in this program's memory, as a C program has it.
#[derive(Clone)]
struct Receiver {
    state: State,
    past: [[f32; 2048]; 3],
}

impl Receiver {
    fn new() -> Receiver {
        Receiver { state: unsafe { library::tetra_state_new(1) }, past: [[0.0; 2048]; 3] }
    }

    /// Pointers to the past, 2,048 elements each.
    fn past(&mut self) -> [*mut f32; 3] {
        self.past.each_mut().map(|ring| ring.as_mut_ptr())
    }
}

/// What is logged of a slot: its number, its type, and the bits of its burst.
#[derive(PartialEq)]
pub struct Slot(pub u32, pub u8, pub Vec<u8>);

/// The best times of N competitors, which run in turn. Each gives what must be equal.
pub fn best<const N: usize, T: PartialEq>(mut run: impl FnMut(usize) -> T) -> [Duration; N] {
    let mut times = [Duration::MAX; N];
    for _ in 0..RUNS {
        let mut first = None;
        for (i, time) in times.iter_mut().enumerate() {
            let before = Instant::now();
            let answer = run(i);
            *time = before.elapsed().min(*time);
            match &first {
                None => first = Some(answer),
                Some(first) => assert!(answer == *first, "competitor {i} answers otherwise"),
            }
        }
    }
    times
}

/// Samples, re and im in turn: a carrier with noise, and noise alone.
pub fn downlink() -> Vec<f32> {
    let mut random = Random::new(7);
    let mut channel = Channel::new(Carrier::new(&mut random, downlink_burst), 1.0);
    channel.noise = 0.1;
    (0..SAMPLES)
        .flat_map(|_| {
            let sample = channel.next(&mut random);
            [sample.re, sample.im]
        })
        .collect()
}

fn noise() -> Vec<f32> {
    let mut random = Random::new(8);
    (0..2 * SAMPLES).map(|_| 0.3 * random.unit()).collect()
}

fn original_takes(receiver: &mut Demodulator, slots: &mut Vec<Slot>) {
    if let Some(slot) = receiver.take_demodulated_slot() {
        slots.push(Slot(slot.time.to_int() as u32, slot.slot.train_type as u8, slot.slot.bits.to_vec()));
    }
}

fn original_hears(receiver: &mut Demodulator, block: &[f32], first: usize, slots: &mut Vec<Slot>) {
    for (i, sample) in block.chunks_exact(2).enumerate() {
        let sample = ComplexSample { re: sample[0], im: sample[1] };
        receiver.sample(black_box(sample), (first + i) as i64);
        original_takes(receiver, slots);
    }
}

fn take(state: &mut State, slots: &mut Vec<Slot>) {
    let (mut slot, mut half1, mut half2) = ([0; 510], [0; 254], [0; 254]);
    let lent = (slot.as_mut_ptr(), half1.as_mut_ptr(), half2.as_mut_ptr());
    // Each pointer goes with its array's length, here and below.
    let taken = unsafe { library::tetra_state_take(*state, lent.0, 510, lent.1, 254, lent.2, 254) };
    let burst = taken.slot.bursts[0];
    slots.push(Slot(taken.slot.time, burst.train_type, slot[..burst.burst_len].to_vec()));
    *state = taken.state;
}

fn hears(receiver: &mut Receiver, mut block: &[f32], mut first: usize, slots: &mut Vec<Slot>) {
    while !block.is_empty() {
        let [re, im, abs] = receiver.past();
        let fed = unsafe { library::tetra_state_feed(receiver.state, re, im, abs, block.as_ptr(), block.len(), first as i64) };
        receiver.state = fed.state;
        block = &block[2 * fed.taken..];
        first += fed.taken;
        if fed.slot {
            take(&mut receiver.state, slots);
        }
    }
}

fn original_receives(air: &[f32], carriers: usize) -> Vec<Slot> {
    let mut slots = Vec::new();
    let mut receivers: Vec<_> = (0..carriers).map(|_| Demodulator::new(Mode::DlUnsynchronized)).collect();
    for (n, block) in air.chunks(2 * SLOT).enumerate() {
        for receiver in &mut receivers {
            original_hears(receiver, block, n * SLOT, &mut slots);
        }
    }
    slots
}

pub fn receives_from_c(air: &[f32], carriers: usize) -> Vec<Slot> {
    let mut slots = Vec::new();
    let mut receivers = vec![Receiver::new(); carriers];
    for (n, block) in air.chunks(2 * SLOT).enumerate() {
        for receiver in &mut receivers {
            hears(receiver, block, n * SLOT, &mut slots);
        }
    }
    slots
}

/// In the language: only the slots' numbers come back.
fn receives(air: &[f32]) -> Vec<u32> {
    let mut numbers = vec![0; SLOTS];
    let count = unsafe { library::bench_receive(air.as_ptr(), air.len(), numbers.as_mut_ptr(), numbers.len()) };
    numbers.truncate(count);
    numbers
}

fn numbers(slots: Vec<Slot>) -> Vec<u32> {
    slots.iter().map(|slot| slot.0).collect()
}

fn bench_receiver(names: [&str; 3], air: &[f32]) {
    assert!(original_receives(air, 1) == receives_from_c(air, 1), "the slots differ");
    let times = best(|i| match i {
        0 => numbers(original_receives(air, 1)),
        1 => receives(air),
        _ => numbers(receives_from_c(air, 1)),
    });
    print(names, times, air.len() / 2);
}

fn bench_receivers(air: &[f32]) {
    let names = ["receivers, 8 locked: the original's `sample`", "receivers, 8 locked: this library, 1020 a call from C"];
    let times = best(|i| [original_receives, receives_from_c][i](air, CARRIERS));
    print(names, times, CARRIERS * air.len() / 2);
}

fn bench_single_samples(air: &[f32]) {
    let names = ["receiver, locked, a few slots: the original", "receiver, locked, one sample a call"];
    let times = best(|i| {
        let mut slots = Vec::new();
        if i == 0 {
            original_hears(&mut Demodulator::new(Mode::DlUnsynchronized), air, 0, &mut slots);
            return slots;
        }
        let mut receiver = Receiver::new();
        for (n, sample) in air.chunks_exact(2).enumerate() {
            let [re, im, abs] = receiver.past();
            let next = unsafe { library::tetra_state_sample(receiver.state, re, im, abs, sample[0], sample[1], n as i64) };
            receiver.state = next.state;
            if receiver.state.slot_waits {
                take(&mut receiver.state, &mut slots);
            }
        }
        slots
    });
    print(names, times, air.len() / 2);
}

/// The same waiting slot, taken again and again.
fn bench_takes(air: &[f32]) {
    let mut receiver = Receiver::new();
    let mut first = 0;
    while !receiver.state.slot_waits {
        let [re, im, abs] = receiver.past();
        let block = &air[2 * first..];
        let fed = unsafe { library::tetra_state_feed(receiver.state, re, im, abs, block.as_ptr(), block.len(), first as i64) };
        receiver.state = fed.state;
        first += fed.taken;
    }
    let times = best(|_| {
        let mut slots = Vec::with_capacity(SLOTS);
        for _ in 0..SLOTS {
            let mut waiting = black_box(receiver.state);
            take(&mut waiting, &mut slots);
        }
        slots
    });
    print(["receiver, a waiting slot taken"], times, SLOTS);
}

fn bits_of_slots() -> Vec<[u8; 510]> {
    let mut random = Random::new(11);
    (0..SLOTS).map(|_| downlink_burst(&mut random)).collect()
}

/// Slot 0 of a new sender, for each of the slots' bits. It has 16 samples less than the others, the filter's delay.
const SENT: usize = SLOTS * (SLOT - 16);

fn original_sends(slots: &[[u8; 510]]) -> Vec<u32> {
    let mut out = Vec::with_capacity(2 * SENT);
    for bits in slots {
        let mut sender = Modulator::new(modulator::Mode::Dl);
        let slot = TxSlotBits { time: TdmaTime::from_int(0), slot: Some(bits) };
        let mut counter = 0;
        while let Ok(sample) = sender.sample(counter, &slot) {
            out.extend([sample.re.to_bits(), sample.im.to_bits()]);
            counter += 1;
        }
    }
    out
}

/// The sent parts of each slot, where `send` fills a row from the slot's bits and tells how many samples there are.
fn sent_by(slots: &[[u8; 510]], send: impl Fn(&[u8; 510], &mut [f32; 2 * SLOT]) -> usize) -> Vec<u32> {
    let mut out = Vec::with_capacity(2 * SENT);
    let mut row = [0.0f32; 2 * SLOT];
    for bits in slots {
        let count = send(bits, &mut row);
        out.extend(row[..2 * count].iter().map(|part| part.to_bits()));
    }
    out
}

fn sends(slots: &[[u8; 510]]) -> Vec<u32> {
    sent_by(slots, |bits, row| unsafe {
        library::tetra_send(library::tetra_sender_new(), 0, 0, 1, bits.as_ptr(), 510, row.as_mut_ptr(), row.len()).count
    })
}

fn sends_single(slots: &[[u8; 510]]) -> Vec<u32> {
    sent_by(slots, |bits, row| unsafe { library::bench_send_single(bits.as_ptr(), 510, row.as_mut_ptr(), row.len()) })
}

fn sends_single_from_c(slots: &[[u8; 510]]) -> Vec<u32> {
    sent_by(slots, |bits, row| {
        let mut sender: Sender = unsafe { library::tetra_sender_new() };
        let mut count = 0;
        loop {
            let sent = unsafe { library::tetra_send_sample(sender, count as i64, 0, 1, bits.as_ptr(), 510) };
            if sent.refusal != 0 {
                return count;
            }
            sender = sent.sender;
            row[2 * count] = sent.re;
            row[2 * count + 1] = sent.im;
            count += 1;
        }
    })
}

fn bench_senders() {
    let names = [
        "sender: the original's `sample`",
        "sender: this library, one sample a call",
        "sender: this library, one sample a call from C",
        "sender: this library, a slot a call",
    ];
    let slots = bits_of_slots();
    let times = best(|i| [original_sends, sends_single, sends_single_from_c, sends][i](black_box(&slots)));
    print(names, times, SENT);
}

fn bench_builders() {
    let names = ["builder, a normal burst: the original", "builder, a normal burst: this library"];
    let mut random = Random::new(13);
    let blocks: Vec<_> = (0..SLOTS).map(|_| (random.bits(216), random.bits(30), random.bits(216))).collect();
    let times = best(|i| {
        let mut ones = 0;
        for (blk1, bbk, blk2) in black_box(&blocks) {
            // The four adjustment bits differ on purpose, so they are left out of what must be equal.
            let mut burst = [0u8; 510];
            if i == 0 {
                let blocks = (blk1[..].try_into().unwrap(), bbk[..].try_into().unwrap(), blk2[..].try_into().unwrap());
                burst = slotter::build_ndb(compare::TrainingSequence::NormalTrainSeq1, blocks.0, blocks.1, blocks.2);
            } else {
                let lent = burst.as_mut_ptr();
                unsafe { library::tetra_build_normal(1, blk1.as_ptr(), 216, bbk.as_ptr(), 30, blk2.as_ptr(), 216, lent, 510) };
            }
            ones += burst[14..498].iter().map(|&bit| bit as usize).sum::<usize>();
        }
        ones
    });
    print(names, times, SLOTS);
}

fn bench_finders() {
    let names = ["finder, an uplink window: the original", "finder, an uplink window: this library"];
    let windows = bits_of_slots();
    let times = best(|i| {
        let mut types = Vec::new();
        for window in black_box(&windows) {
            if i == 0 {
                types.push(demodulator_private::judge(1, window).train_type as u8);
            } else {
                let mut answer = [0; 6];
                unsafe { library::tetra_judge(1, window.as_ptr(), 510, answer.as_mut_ptr(), 6) };
                types.push(answer[0]);
            }
        }
        types
    });
    print(names, times, SLOTS);
}

pub fn bench() {
    let air = downlink();
    let noise = noise();
    let few = &air[..2 * FEW];
    bench_receiver(
        [
            "receiver, searching: the original's `sample`",
            "receiver, searching: this library, 1020 a call",
            "receiver, searching: this library, 1020 a call from C",
        ],
        &noise,
    );
    bench_receiver(
        [
            "receiver, locked: the original's `sample`",
            "receiver, locked: this library, 1020 a call",
            "receiver, locked: this library, 1020 a call from C",
        ],
        &air,
    );
    bench_receivers(&air[..SAMPLES / 4]);
    bench_single_samples(few);
    bench_takes(few);
    bench_senders();
    bench_builders();
    bench_finders();
}
