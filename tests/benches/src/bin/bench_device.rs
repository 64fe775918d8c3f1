//! `bench_device` prints the sizes in memory of a device over the flash of the scripts, of that flash, of the plan of a station and of its controller
//! (`bench/figures/measure.py`, `bench/figures/controller.py`).
use controller_core::Controller;
use device_core::Device;
use flash_model::MemoryFlash;
use plans::Plan;

/// Octets of a sector of the scripts' device.
const SECTOR: usize = 4096;

fn main() {
    println!(
        "in memory: a device {} octets, its flash {}, a plan {}, a controller {}",
        size_of::<Device<MemoryFlash<SECTOR>, SECTOR>>(),
        size_of::<MemoryFlash<SECTOR>>(),
        size_of::<Plan>(),
        size_of::<Controller>()
    );
}
