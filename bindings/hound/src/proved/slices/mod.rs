// Made from crates/hound_slices by scripts/erase.py: change that, and not this.
//! WAV files in slices of memory, as the calls for C need them: what each call does to the caller's slices, the structs
//! that C has, and the numbers that it gets.
//!
//! There is no state, no allocation and no call back. `hound_c` exports these calls to C.
mod error;
mod reading;
mod scaling;
mod searching;
mod writing;
pub use error::{CallError, code_of, code_of_error, error_of};
pub use reading::{decode_block, read_block};
pub use scaling::{encode_floats, encode_with_noise, narrow_floats, widen_floats};
pub use searching::{file_kind, guess_data, whole_frames};
pub use writing::{append_block, encode_block, file_size, write_file, write_filler, write_header, write_sizes};
