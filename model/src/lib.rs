//! A plain model of seven M95 serial memories as seen from their pins.
//!
//! It is written from document 01, requests W-201 to W-206 of document 02 and the settled readings alone, so that it can
//! stand beside another implementation and be compared with it by running. Names are those of document 01; comments
//! point to it by heading.

mod bench;
mod calls;
pub mod compare;
mod contents;
mod count;
mod device;
mod fault;
mod files;
pub mod generate;
mod mistakes;
mod number;
mod rules;
mod state;
mod stored;
mod trace;

pub use bench::{bench, BENCH_CELLS, BENCH_DEVICES, BENCH_INPUT};
pub use calls::{count_pages, event, first_blank, load, prepare, run, stored, view, Ran, Region};
pub use contents::{play, play_wrongly, Contents, Played};
pub use device::{device, Device, BP, DEVICES, SRWD};
pub use fault::Fault;
pub use files::{play_files, Told};
pub use mistakes::{
    bench_wrongly, event_wrongly, first_blank_wrongly, is_sound_wrongly, load_wrongly,
    prepare_wrongly, view_wrongly,
};
pub use number::Number;
pub use state::{is_sound, status_byte, Cycle, Instruction, Output, State, MOST_WHOLE_BYTES};
pub use stored::Vector;
pub use trace::{append_record, Event};
