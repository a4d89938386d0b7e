//! The exported functions of crates/filter_exports_c. Where a reference of Rattle is lent, the pointer is not null, is aligned, and is
//! lent to nothing else that is written; a slice is a pointer and a length. The functions keep no pointer.

extern "C" {
    pub fn one_pole_tan(f: f32, approximation: u32, value: *mut f32) -> u8;

    pub fn dc_blocker_new(state: *mut [f32; 3]);
    pub fn dc_blocker_init(state: *mut [f32; 3], pole: f32);
    pub fn dc_blocker_process(state: *mut [f32; 3], in_out: *mut f32, in_out_len: usize);

    pub fn one_pole_new(state: *mut [f32; 3]);
    pub fn one_pole_init(state: *mut [f32; 3]);
    pub fn one_pole_reset(state: *mut [f32; 3]);
    pub fn one_pole_set_f(state: *mut [f32; 3], f: f32, approximation: u32) -> u8;
    pub fn one_pole_process(state: *mut [f32; 3], in_: f32, mode: u32, out: *mut f32) -> u8;

    pub fn svf_new(state: *mut [f32; 5]);
    pub fn svf_init(state: *mut [f32; 5]);
    pub fn svf_reset(state: *mut [f32; 5]);
    pub fn svf_set(state: *mut [f32; 5], other: *const [f32; 5]);
    pub fn svf_set_g_r_h(state: *mut [f32; 5], g: f32, r: f32, h: f32);
    pub fn svf_set_g_r(state: *mut [f32; 5], g: f32, r: f32);
    pub fn svf_set_g_q(state: *mut [f32; 5], g: f32, resonance: f32);
    pub fn svf_set_f_q(state: *mut [f32; 5], f: f32, resonance: f32, approximation: u32) -> u8;
    pub fn svf_process(state: *mut [f32; 5], in_: f32, mode: u32, out: *mut f32) -> u8;
    pub fn svf_process_dual(
        state: *mut [f32; 5],
        in_: f32,
        out_1: *mut f32,
        out_2: *mut f32,
        mode_1: u32,
        mode_2: u32,
    ) -> u8;
    pub fn svf_process_buffer(
        state: *mut [f32; 5],
        in_: *const f32,
        in_len: usize,
        out: *mut f32,
        out_len: usize,
        mode: u32,
    ) -> u8;
    pub fn svf_process_add_buffer(
        state: *mut [f32; 5],
        in_: *const f32,
        in_len: usize,
        out: *mut f32,
        out_len: usize,
        gain: f32,
        mode: u32,
    ) -> u8;
    pub fn svf_process_stride_buffer(
        state: *mut [f32; 5],
        in_: *const f32,
        in_len: usize,
        out: *mut f32,
        out_len: usize,
        stride: usize,
        mode: u32,
    ) -> u8;
    pub fn svf_process_multimode_buffer(
        state: *mut [f32; 5],
        in_: *const f32,
        in_len: usize,
        out: *mut f32,
        out_len: usize,
        mode: f32,
    );
    pub fn svf_process_add_dual_buffer(
        state: *mut [f32; 5],
        in_: *const f32,
        in_len: usize,
        out_1: *mut f32,
        out_1_len: usize,
        out_2: *mut f32,
        out_2_len: usize,
        gain_1: f32,
        gain_2: f32,
        mode: u32,
    ) -> u8;
    pub fn svf_g(state: *const [f32; 5]) -> f32;
    pub fn svf_r(state: *const [f32; 5]) -> f32;
    pub fn svf_h(state: *const [f32; 5]) -> f32;

    pub fn naive_svf_new(state: *mut [f32; 4]);
    pub fn naive_svf_init(state: *mut [f32; 4]);
    pub fn naive_svf_reset(state: *mut [f32; 4]);
    pub fn naive_svf_set_f_q(
        state: *mut [f32; 4],
        f: f32,
        resonance: f32,
        approximation: u32,
    ) -> u8;
    pub fn naive_svf_process(state: *mut [f32; 4], in_: f32, mode: u32, out: *mut f32) -> u8;
    pub fn naive_svf_process_buffer(
        state: *mut [f32; 4],
        in_: *const f32,
        in_len: usize,
        out: *mut f32,
        out_len: usize,
        mode: u32,
    ) -> u8;
    pub fn naive_svf_split(
        state: *mut [f32; 4],
        in_: *const f32,
        in_len: usize,
        low: *mut f32,
        low_len: usize,
        high: *mut f32,
        high_len: usize,
    );
    pub fn naive_svf_process_decimate(
        state: *mut [f32; 4],
        in_: *const f32,
        in_len: usize,
        out: *mut f32,
        out_len: usize,
        decimate: usize,
        mode: u32,
    ) -> u8;
    pub fn naive_svf_lp(state: *const [f32; 4]) -> f32;
    pub fn naive_svf_bp(state: *const [f32; 4]) -> f32;

    pub fn modified_svf_new(state: *mut [f32; 5]);
    pub fn modified_svf_init(state: *mut [f32; 5]);
    pub fn modified_svf_reset(state: *mut [f32; 5]);
    pub fn modified_svf_set_f_fq(state: *mut [f32; 5], f: f32, fq: f32);
    pub fn modified_svf_process(
        state: *mut [f32; 5],
        in_: *const f32,
        in_len: usize,
        out: *mut f32,
        out_len: usize,
        mode: u32,
    ) -> u8;

    pub fn crossover_svf_new(state: *mut [f32; 8]);
    pub fn crossover_svf_init(state: *mut [f32; 8]);
    pub fn crossover_svf_reset(state: *mut [f32; 8]);
    pub fn crossover_svf_set_f_fq(state: *mut [f32; 8], f: f32, fq: f32);
    pub fn crossover_svf_process(
        state: *mut [f32; 8],
        in_: *const f32,
        in_len: usize,
        out: *mut f32,
        out_len: usize,
        mode: u32,
    ) -> u8;

    pub fn samples_to_planes(
        samples: *const u8,
        samples_len: usize,
        output: *mut u8,
        output_len: usize,
    ) -> u8;
    pub fn planes_to_samples(
        planes: *const u8,
        planes_len: usize,
        output: *mut u8,
        output_len: usize,
    ) -> u8;
}
