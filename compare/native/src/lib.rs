//! The original's calls under C names, for the benchmark to load. Built with
//! `-C target-cpu=native` into a folder of its own.
use original::{noise, plain};

#[no_mangle]
pub extern "C" fn nat_hash2(x: i32, y: i32) -> f32 {
    noise::hash2(x, y)
}

#[no_mangle]
pub extern "C" fn nat_hash3(x: i32, y: i32, z: i32) -> f32 {
    noise::hash3(x, y, z)
}

#[no_mangle]
pub extern "C" fn nat_noise2d(x: f32, y: f32) -> f32 {
    noise::noise2d(x, y)
}

#[no_mangle]
pub extern "C" fn nat_noise3d(x: f32, y: f32, z: f32) -> f32 {
    noise::noise3d(x, y, z)
}

#[no_mangle]
pub extern "C" fn nat_fbm2d(x: f32, y: f32, octaves: u32) -> f32 {
    noise::fbm2d(x, y, octaves)
}

#[no_mangle]
pub extern "C" fn nat_fbm3d(x: f32, y: f32, z: f32, octaves: u32) -> f32 {
    noise::fbm3d(x, y, z, octaves)
}

#[no_mangle]
pub extern "C" fn nat_generate(
    seed: u32,
    sea_level: i32,
    world_height_blocks: i32,
    chunk_size: usize,
    cx: i32,
    cy: i32,
    cz: i32,
) -> u32 {
    plain::generate(seed, sea_level, world_height_blocks, chunk_size, cx, cy, cz)
}
