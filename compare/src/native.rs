//! The original built for the processor at hand, loaded from a shared library (native/src/lib.rs).
use crate::system::Library;
use std::ffi::c_void;

pub type Two = extern "C" fn(i32, i32) -> f32;
pub type Three = extern "C" fn(i32, i32, i32) -> f32;
pub type Plane = extern "C" fn(f32, f32) -> f32;
pub type Space = extern "C" fn(f32, f32, f32) -> f32;
pub type PlaneSum = extern "C" fn(f32, f32, u32) -> f32;
pub type SpaceSum = extern "C" fn(f32, f32, f32, u32) -> f32;
pub type Ground = extern "C" fn(u32, i32, i32, usize, i32, i32, i32) -> u32;

pub struct Native {
    pub hash2: Two,
    pub hash3: Three,
    pub noise2d: Plane,
    pub noise3d: Space,
    pub fbm2d: PlaneSum,
    pub fbm3d: SpaceSum,
    pub generate: Ground,
}

/// The functions of the library at this path, or none where it is not there.
pub fn load(path: &str) -> Option<Native> {
    let library = Library::load(path)?;
    let find = |name| library.find(name);
    // Each name has the type that native/src/lib.rs gives it.
    unsafe {
        Some(Native {
            hash2: std::mem::transmute::<*mut c_void, Two>(find("nat_hash2")?),
            hash3: std::mem::transmute::<*mut c_void, Three>(find("nat_hash3")?),
            noise2d: std::mem::transmute::<*mut c_void, Plane>(find("nat_noise2d")?),
            noise3d: std::mem::transmute::<*mut c_void, Space>(find("nat_noise3d")?),
            fbm2d: std::mem::transmute::<*mut c_void, PlaneSum>(find("nat_fbm2d")?),
            fbm3d: std::mem::transmute::<*mut c_void, SpaceSum>(find("nat_fbm3d")?),
            generate: std::mem::transmute::<*mut c_void, Ground>(find("nat_generate")?),
        })
    }
}
