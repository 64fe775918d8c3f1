//! What the tests share: the station that they try, frames for it, and the calls of a controller.

mod calls;
mod stations;

pub use calls::{
    BLOCKS, CONNECT, CONTROL, END, PRM_END, READ, RELEASE, WRITE, call, mend, response, set, shortened,
};
pub use stations::{
    DONE, IDENTIFY, PUMP_1, SET, Station, UNNAMED, addressed, frame, is_filled, is_padded,
    no_modules, octets, plugged, restart, set_address, set_pump, start, station, step, write_last,
};
