//! The Rust original, unchanged: build.rs says where its files lie.
include!(concat!(env!("OUT_DIR"), "/root.rs"));

/// The original behind plain calls that are not inlined, so that a measurement pays the same
/// for a call of either side.
pub mod plain {
    use crate::noise;
    use crate::terrain::{TerrainConfig, TerrainGenerator};

    #[inline(never)]
    pub extern "C" fn hash2(x: i32, y: i32) -> f32 {
        noise::hash2(x, y)
    }

    #[inline(never)]
    pub extern "C" fn hash3(x: i32, y: i32, z: i32) -> f32 {
        noise::hash3(x, y, z)
    }

    #[inline(never)]
    pub extern "C" fn noise2d(x: f32, y: f32) -> f32 {
        noise::noise2d(x, y)
    }

    #[inline(never)]
    pub extern "C" fn noise3d(x: f32, y: f32, z: f32) -> f32 {
        noise::noise3d(x, y, z)
    }

    #[inline(never)]
    pub extern "C" fn fbm2d(x: f32, y: f32, octaves: u32) -> f32 {
        noise::fbm2d(x, y, octaves)
    }

    #[inline(never)]
    pub extern "C" fn fbm3d(x: f32, y: f32, z: f32, octaves: u32) -> f32 {
        noise::fbm3d(x, y, z, octaves)
    }

    /// The number of cells that are not air. The chunk itself is dropped.
    #[inline(never)]
    #[allow(clippy::too_many_arguments)]
    pub extern "C" fn generate(
        seed: u32,
        sea_level: i32,
        world_height_blocks: i32,
        chunk_size: usize,
        cx: i32,
        cy: i32,
        cz: i32,
    ) -> u32 {
        let config = TerrainConfig {
            seed,
            sea_level,
            world_height_blocks,
            chunk_size,
        };
        let mut generator = TerrainGenerator::new(config).expect("the size is within its limit");
        let chunk = generator
            .generate(cx, cy, cz)
            .expect("the size is within its limit");
        std::hint::black_box(&chunk);
        chunk.non_air_blocks()
    }
}
