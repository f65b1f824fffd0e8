//! The structs and exported functions of include/tetra_modem.h. A slice passes as a pointer and then its length in elements,
//! and must be valid for it; a call asks for nothing else.

#[derive(Clone, Copy)]
#[repr(C)]
pub struct Burst {
    pub train_type: u8,
    pub train_errs: usize,
    pub burst_pos: usize,
    pub burst_len: usize,
}

#[derive(Clone, Copy)]
#[repr(C)]
pub struct Slot {
    pub time: u32,
    pub closing_counter: i64,
    pub full: Burst,
    pub subslot1: Burst,
    pub subslot2: Burst,
}

#[derive(Clone, Copy)]
#[repr(C)]
pub struct Filter {
    re: [f32; 32],
    im: [f32; 32],
}

/// All of a receiver but its past.
#[derive(Clone, Copy)]
#[repr(C)]
pub struct State {
    pub mode: u8,
    reference_time: i64,
    slot_ready_time: i64,
    current_slot: u32,
    averaged_timing_error: f32,
    slots_since_last_valid_burst: u32,
    pub demodulated_slot_available: bool,
    demodulated_slot: Slot,
    pub full_bits: [u8; 510],
    pub subslot1_bits: [u8; 510],
    pub subslot2_bits: [u8; 510],
    next_input_sample_count: i64,
    matched_filter: Filter,
    past_index: usize,
}

#[derive(Clone, Copy)]
#[repr(C)]
pub struct Sender {
    filter: Filter,
    phase: u8,
}

// As the header says.
const _: () = assert!(size_of::<State>() == 1960 && size_of::<Sender>() == 260);

#[repr(C)]
pub struct Answered {
    pub refusal: u32,
    pub state: State,
}

#[repr(C)]
pub struct Fed {
    pub taken: usize,
    pub slot: bool,
    pub refusal: u32,
    pub state: State,
}

#[repr(C)]
pub struct Taken {
    pub refusal: u32,
    pub slot: Slot,
    pub state: State,
}

#[repr(C)]
pub struct Sent {
    pub count: usize,
    pub refusal: u32,
    pub sender: Sender,
}

#[repr(C)]
pub struct SentSample {
    pub refusal: u32,
    pub re: f32,
    pub im: f32,
    pub sender: Sender,
}

#[rustfmt::skip]
extern "C" {
    pub fn tetra_state_new(mode: u32) -> State;
    pub fn tetra_state_sample(state: State, past_re: *mut f32, past_im: *mut f32, past_abs: *mut f32, re: f32, im: f32, counter: i64) -> Answered;
    pub fn tetra_state_feed(state: State, past_re: *mut f32, past_im: *mut f32, past_abs: *mut f32, samples: *const f32, samples_len: usize, first: i64) -> Fed;
    pub fn tetra_state_take(state: State, slot: *mut u8, slot_len: usize, subslot1: *mut u8, subslot1_len: usize, subslot2: *mut u8, subslot2_len: usize) -> Taken;
    pub fn tetra_state_follow(state: State, other: State) -> Answered;

    pub fn tetra_sender_new() -> Sender;
    pub fn tetra_send_sample(sender: Sender, counter: i64, slot: u32, has_bits: u32, bits: *const u8, bits_len: usize) -> SentSample;
    pub fn tetra_send(sender: Sender, first: i64, slot: u32, has_bits: u32, bits: *const u8, bits_len: usize, out: *mut f32, out_len: usize) -> Sent;

    pub fn tetra_build_sync(blk1: *const u8, blk1_len: usize, bbk: *const u8, bbk_len: usize, blk2: *const u8, blk2_len: usize, bits: *mut u8, bits_len: usize) -> u32;
    pub fn tetra_build_normal(train: u32, blk1: *const u8, blk1_len: usize, bbk: *const u8, bbk_len: usize, blk2: *const u8, blk2_len: usize, bits: *mut u8, bits_len: usize) -> u32;
    pub fn tetra_build_normal_uplink(train: u32, blk1: *const u8, blk1_len: usize, blk2: *const u8, blk2_len: usize, bits: *mut u8, bits_len: usize) -> u32;
    pub fn tetra_build_control_uplink(blk1: *const u8, blk1_len: usize, blk2: *const u8, blk2_len: usize, bits: *mut u8, bits_len: usize) -> u32;

    pub fn tetra_judge(kind: u32, bits: *const u8, bits_len: usize, answer: *mut u8, answer_len: usize) -> u32;
}
